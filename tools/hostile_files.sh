#!/bin/bash
# Runs the program where files, folders and streams fail, and compares its status with what docs/COMMANDS.md says. After each failed
# run the store has to be whole: `recover` prints what was acknowledged.
#
#     tools/hostile_files.sh PROGRAM
#
# A full disk is a small file system, which takes user namespaces (`unshare`); a folder without rights takes a user who isn't root.
# Where the machine has none of them, that is said, and the rest is tried.
set -u

program=${1:?the program is wanted: tools/hostile_files.sh PROGRAM}
program=$(realpath "$program")
folder=$(mktemp -d)
trap 'chmod -R u+w "$folder"; rm -rf "$folder"' EXIT
cd "$folder" || exit 1
wrong=0

catalogue='table T(key int, v int, w text); proc Put(k int) { put T[k] = (k, "0123456789012345678901234567890123456789"); }'

# What was tried, the wanted status and line, and the status and the file of the line.
compared() {
    local found="$4 $(head -1 "$5")"
    if [ "$found" = "$2 $3" ]; then echo "$1: $found"; else
        echo "$1: wanted $2 $3, found $found"
        wrong=1
    fi
}

made() {
    rm -rf store && mkdir store && cd store || exit 1
    echo "$catalogue" | "$program" init
}

# Lines: $1 calls, with a save after each $2 of them if that is given.
calls() {
    awk -v lines="$1" -v saves="${2:-0}" 'BEGIN { for (i = 1; i <= lines; i++) {
        print "call Put(" i ")"
        if (saves && i % saves == 0) print "save"
    } }'
}

# Sees that the acknowledged transactions of `replies` are recovered.
whole() {
    local told rows status=0
    told=$(head -n "$(wc -l < replies)" replies | awk '$1 == "committed" { told = $2 } END { print told + 0 }')
    "$program" recover > dump 2> line || status=$?
    rows=$(awk '/^table T/ { print $3 }' dump)
    if [ "$status" = 0 ] && [ "${rows:-0}" -ge "$told" ]; then echo "  $told acknowledged, ${rows:-0} recovered"; else
        echo "  $told acknowledged, ${rows:-none} recovered, which is wrong: $(head -1 line)"
        wrong=1
    fi
}

# A limit on the size of files: writes past it fail, and the signal that says so is ignored. With saves it is a checkpoint that fails.
for saves in "" 100; do
    made
    (
        trap '' XFSZ
        ulimit -f 100
        calls 20000 $saves | "$program" run --batch 8 2> line
    ) | cat > replies
    compared "files of 100 blocks at most${saves:+, with saves}" 8 "disk fault" "${PIPESTATUS[0]}" line
    whole
    cd ..
done

# A full disk.
if unshare -rm true 2> /dev/null; then
    mkdir full
    for saves in "" 100; do
        unshare -rm bash -c '
            mount -t tmpfs -o size=256k none full && cd full || exit 99
            echo "$2" | "$1" init && "$1" run --batch 8 < /dev/stdin > ../replies 2> ../line
            echo $? > ../status
            "$1" recover > ../dump 2> ../recovered
            echo $? > ../recover_status' bash "$program" "$catalogue" < <(calls 20000 $saves)
        compared "a disk of 256 KiB${saves:+, with saves}" 8 "disk fault" "$(cat status)" line
        told=$(head -n "$(wc -l < replies)" replies | awk '$1 == "committed" { told = $2 } END { print told + 0 }')
        rows=$(awk '/^table T/ { print $3 }' dump)
        if [ "$(cat recover_status)" = 0 ] && [ "${rows:-0}" -ge "$told" ]; then echo "  $told acknowledged, $rows recovered"; else
            echo "  $told acknowledged, ${rows:-none} recovered, which is wrong: $(head -1 recovered)"
            wrong=1
        fi
    done
else
    echo "a full disk: no user namespaces here"
fi

# A folder without rights.
as=
if [ "$(id -u)" = 0 ]; then as=$(command -v setpriv || true); fi
if [ "$(id -u)" != 0 ] || [ -n "$as" ]; then
    mkdir bare && chmod 555 bare && chmod 755 "$folder" && cd bare || exit 1
    echo "$catalogue" | ${as:+$as --reuid=65534 --clear-groups} "$program" init 2> ../line
    compared "a folder without rights, init" 8 "disk fault" $? ../line
    cd ..
else
    echo "a folder without rights: root has them all"
fi

# Standard output that is closed, or whose reader has gone. A process that ignores the signal ends with 7.
made
echo 'call Put(1)' | "$program" run --batch 1 > replies
"$program" recover >&- 2> line
compared "recover, standard output closed" 7 "output fault" $? line
(
    trap '' PIPE
    (sleep 0.3; "$program" recover 2> line; echo $? > status) | true
)
compared "recover, no reader of its output" 7 "output fault" "$(cat status)" line
calls 100 | "$program" run --batch 1 >&- 2> line
compared "run, standard output closed" 7 "output fault" $? line
whole
"$program" run <&- > output 2> line
status=$?
case $status in 0 | 6) echo "run, standard input closed: $status $(head -1 line)" ;; *) compared "run, standard input closed" 6 "input fault" $status line ;; esac
whole
cd ..

# A kill at a random moment of `init` and `recover`.
echo "$catalogue" > text
for round in $(seq 20); do
    rm -rf store && mkdir store && cd store || exit 1
    "$program" init < ../text 2> line &
    sleep "0.00$((RANDOM % 10))"
    kill -9 $! 2> /dev/null
    wait $! 2> /dev/null
    : > replies
    "$program" recover > dump 2> line
    status=$?
    case "$status $(head -1 line)" in '0 ' | '3 no store') ;; *)
        echo "init, killed: then recover gives $status $(head -1 line)"
        wrong=1
        ;;
    esac
    cd ..
done
echo "init, killed 20 times: a store, or none"
made
calls 20000 | "$program" run > replies
cp pacman.log before
for round in $(seq 20); do
    "$program" recover > /dev/null &
    sleep "0.0$((RANDOM % 10))"
    kill -9 $! 2> /dev/null
    wait $! 2> /dev/null
done
if cmp -s pacman.log before; then echo "recover, killed 20 times: the store is as it was"; else
    echo "recover, killed: the log was changed"
    wrong=1
fi
whole
exit $wrong
