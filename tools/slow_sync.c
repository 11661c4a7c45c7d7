// Makes each sync of a file take SLOW_SYNC microseconds longer, as on a slower disk. It is loaded before the C library; see
// tools/commit_rates.
#define _GNU_SOURCE
#include <stdlib.h>
#include <sys/syscall.h>
#include <time.h>
#include <unistd.h>

static long delay;

__attribute__((constructor)) static void begin(void) {
    const char *text = getenv("SLOW_SYNC");
    delay = text ? atol(text) : 0;
}

static void wait(void) {
    struct timespec rest = {delay / 1000000, delay % 1000000 * 1000};
    while (nanosleep(&rest, &rest) != 0) {
    }
}

int fsync(int file) {
    wait();
    return syscall(SYS_fsync, file);
}

int fdatasync(int file) {
    wait();
    return syscall(SYS_fdatasync, file);
}
