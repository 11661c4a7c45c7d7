// Lets one allocation of a program fail: the one whose number is in FAIL_ALLOC, counted from 1 over all threads. At the end their
// number is written to the file that FAIL_ALLOC_COUNT names. It is loaded before the C library; see tools/fail_allocations.
#define _GNU_SOURCE
#include <errno.h>
#include <fcntl.h>
#include <stdatomic.h>
#include <stdio.h>
#include <stdlib.h>
#include <sys/syscall.h>
#include <unistd.h>

extern void *__libc_malloc(size_t);
extern void *__libc_realloc(void *, size_t);
extern void *__libc_memalign(size_t, size_t);

static atomic_long number;
static long failing;

__attribute__((constructor)) static void begin(void) {
    const char *text = getenv("FAIL_ALLOC");
    failing = text ? atol(text) : 0;
    atomic_store(&number, 0);
}

static void report(void) {
    const char *name = getenv("FAIL_ALLOC_COUNT");
    int file = name ? open(name, O_WRONLY | O_CREAT | O_TRUNC, 0644) : -1;
    if (file >= 0) {
        char text[32];
        int len = snprintf(text, sizeof text, "%ld\n", atomic_load(&number));
        (void)!write(file, text, len);
        close(file);
    }
}

// The program ends by this call.
void _exit(int status) {
    report();
    syscall(SYS_exit_group, status);
    __builtin_unreachable();
}

static int fails(void) {
    if (atomic_fetch_add(&number, 1) + 1 != failing)
        return 0;
    errno = ENOMEM;
    return 1;
}

void *malloc(size_t size) { return fails() ? NULL : __libc_malloc(size); }

void *realloc(void *kept, size_t size) { return fails() ? NULL : __libc_realloc(kept, size); }

int posix_memalign(void **found, size_t align, size_t size) {
    if (fails())
        return ENOMEM;
    *found = __libc_memalign(align, size);
    return *found ? 0 : ENOMEM;
}

void *aligned_alloc(size_t align, size_t size) { return fails() ? NULL : __libc_memalign(align, size); }
