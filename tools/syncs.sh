#!/bin/bash
# Compares what the program asks of the system, as strace sees it, with the lists of crates/pac_tests/src/store_files.rt: what
# `init`, a run with a commit and a save, and one with two of each open, lock, write and sync, in order. Then it tries what only
# processes show: that a second run ends with 8 while a first one is there, and goes on when that is killed; that no reply goes to
# a file of the store; that only plain files are opened; and that no command but `init` makes one. It ends with 1 at the first
# that goes otherwise.
#
#     tools/syncs.sh      the program is $PACMAN or crates/pacman/out/pacman
set -eu
top=$(cd "$(dirname "$0")/.." && pwd)
program=$(realpath "${PACMAN:-$top/crates/pacman/out/pacman}")
lists=$top/crates/pac_tests/src/store_files.rt

folder=$(mktemp -d)
trap 'rm -rf "$folder"' EXIT
cd "$folder"
mkdir store
cd store

wrong() {
    echo "wrong: $1"
    exit 1
}

# The calls of a command on the store's files and on its folder, in the words of the lists.
traced() {
    strace -f -y -o ../trace -e trace=openat,flock,pwrite64,fdatasync,fsync "$program" "$@" > ../output
    sed -n -E \
        -e 's/^[0-9]+ +openat\([^"]*"(pacman\.[a-z0-9]+|\.)", O_RDWR\|O_CREAT\|O_EXCL[^)]*\) += [0-9].*/open \1 Make/p;t' \
        -e 's/^[0-9]+ +openat\([^"]*"(pacman\.[a-z0-9]+|\.)", O_RDWR\|O_(NOCTTY|CLOEXEC)[^)]*\) += [0-9].*/open \1 Write/p;t' \
        -e 's/^[0-9]+ +openat\([^"]*"(pacman\.[a-z0-9]+|\.)", O_RDONLY[^)]*\) += [0-9].*/open \1 Read/p;t' \
        -e 's/^[0-9]+ +flock\([0-9]+<.*\/(pacman\.[a-z0-9]+)>, LOCK_EX\|LOCK_NB\) += 0$/flock \1/p;t' \
        -e 's/^[0-9]+ +pwrite64\([0-9]+<.*\/(pacman\.[a-z0-9]+)>, .*, ([0-9]+), ([0-9]+)\) += \2$/pwrite \1 \3 \2/p;t' \
        -e 's/^[0-9]+ +fdatasync\([0-9]+<.*\/(pacman\.[a-z0-9]+)>\) += 0$/fdatasync \1/p;t' \
        -e 's/^[0-9]+ +fsync\([0-9]+<.*\/store>\) += 0$/fsync ./p;t' \
        -e '/pacman\.|fsync|fdatasync|pwrite/s/^/another call: /p' ../trace > ../calls
}

# The lines of one of the lists.
list() { awk -v name="$1" '$0 ~ "^const " name ": " { on = 1; sub(/^[^"]*"/, "") } on && /^";/ { exit } on' "$lists"; }

# A command, whose calls are to be those of a list.
calls() {
    name=$1
    shift
    list "$name" > ../wanted
    traced "$@"
    diff ../wanted ../calls || wrong "the calls of pacman $*, beside the list $name"
    echo "$name: $(wc -l < ../calls) calls, as they should be"
}

# A command is to end with this status, and not to be waited for.
ends() {
    wanted=$1
    shift
    status=0
    timeout 10 "$program" "$@" > ../output 2> ../errors || status=$?
    [ "$status" = "$wanted" ] || wrong "pacman $* ended with $status, and not with $wanted: $(cat ../errors)"
}

echo 'table T(key int, v int);' | tr -d '\n' > ../catalogue
printf 'adhoc put T[1] = (2)\nsave\n' > ../lines
cat ../lines ../lines > ../more_lines

# Where there is no store none is made, by reading or by a run.
for command in run recover; do ends 3 "$command" < /dev/null; done
[ -z "$(ls)" ] || wrong "a file was made where there is no store"

calls INIT init < ../catalogue
calls RUN run < ../lines
calls SAVES run < ../more_lines
traced recover < /dev/null
printf 'open pacman.a Read\nopen pacman.b Read\nopen pacman.log2 Read\n' | diff - ../calls || wrong "the calls of pacman recover"
echo "recover: it only reads"

# Two runs at once. The first is held by its input.
mkfifo ../input
"$program" run --batch 1 < ../input > ../replies &
run=$!
exec 9> ../input
echo 'adhoc put T[3] = (4)' >&9
for _ in $(seq 100); do if [ -s ../replies ]; then break; fi; sleep 0.1; done
grep -q '^committed 4$' ../replies || wrong "the first run didn't commit"
cp pacman.log pacman.log2 pacman.a pacman.b ..
ends 8 run < ../lines
for file in pacman.log pacman.log2 pacman.a pacman.b; do cmp "$file" "../$file" || wrong "a second run wrote $file"; done
ends 0 recover < /dev/null
echo 'adhoc put T[5] = (6)' >&9
for _ in $(seq 100); do if grep -q '^committed 5$' ../replies; then break; fi; sleep 0.1; done
kill -9 "$run"
wait "$run" 2> ../errors || true
exec 9>&-
ends 0 run < /dev/null
ends 0 recover < /dev/null
printf 'table T 3\n1 (2)\n3 (4)\n5 (6)\n' | cmp - ../output || wrong "what was committed isn't there"
echo "a second run: it ends with 8, and writes nothing; the first loses nothing, and its end frees the store"

# A file of the store doesn't get the number of a stream that is closed, or a reply would stand in it.
status=0
"$program" run --batch 1 < ../lines >&- 2> ../errors || status=$?
[ "$status" = 7 ] || wrong "a run with its output closed ended with $status"
ends 0 recover < /dev/null
printf 'table T 3\n1 (2)\n3 (4)\n5 (6)\n' | cmp - ../output || wrong "a run with its output closed changed what is stored"
echo "a run with its output closed: it ends with 7, and leaves the files right"

# What isn't a plain file is refused at once, whatever the device. `recover` doesn't look at the segment that isn't active.
for kind in folder pipe link device; do
    for name in pacman.log pacman.log2 pacman.a pacman.b; do
        mv "$name" ..
        case $kind in
        folder) mkdir "$name" ;;
        pipe) mkfifo "$name" ;;
        link) ln -s "../$name" "$name" ;;
        device) mknod "$name" c 1 5 2> ../errors || { mv "../$name" .; echo "a device as $name isn't tried: $(cat ../errors)"; continue; } ;;
        esac
        ends 8 run < /dev/null
        if [ "$name" != pacman.log ]; then ends 8 recover < /dev/null; fi
        rm -rf "$name"
        mv "../$name" .
    done
done
echo "only plain files are opened"
