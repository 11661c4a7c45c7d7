#!/bin/bash
# Times the program and parts of it, for docs/COSTS.md.
#
#     tools/times.sh replay|input|parts|log|slots|held|runs|committed|rows|pieces|hand|shares|serial|workers|restarts|stream|opens|saves|images
#
# `replay`, `input`, `held`, `runs`, `workers`, `stream`, `opens`, `saves` and `images` time the program, which is $PACMAN or
# crates/pacman/out/pacman, and `committed`, `shares`, `restarts` and `images` count its instructions. The others time pac_bench, and
# `pieces` and `serial` count its instructions; it is $PAC_BENCH or crates/pac_bench/out/pac_bench, as
# `(cd crates/pac_bench && rt run -- copy 1)` makes it. All files are made in a new folder of the current directory, which is removed: its
# disk is what `log`, `slots` and `runs` time.
set -eu -o pipefail
top=$(cd "$(dirname "$0")/.." && pwd)
pacman=$(realpath -m "${PACMAN:-$top/crates/pacman/out/pacman}")
bench=$(realpath -m "${PAC_BENCH:-$top/crates/pac_bench/out/pac_bench}")
add="$top/crates/pac_examples/data/add.script"
TIMEFORMAT='  %R s'

section=${1:-}
folder=$(mktemp -d ./times.XXXXXX)
trap 'rm -rf "$folder"' EXIT
folder=$(realpath "$folder")
cd "$folder"

# Prints $1, runs the command after it, and prints the time.
timed() {
    echo "$1"
    shift
    time "$@"
}

# A command's instructions, as valgrind counts them, go to the file `count`, and what it prints to `printed`.
instructions() {
    valgrind --tool=callgrind --callgrind-out-file=/dev/null "$@" > printed 2> counted || { cat counted >&2; exit 1; }
    sed -n 's/.*Collected : *//p' counted > count
}

# Prints $1, runs the command after it, and prints its output and its instructions.
counted() {
    echo "$1"
    shift
    instructions "$@"
    cat printed
    echo "  instructions: $(cat count)"
}

# Lines `call Add(K, 1)`: $1 of them, with $2 keys.
calls() {
    awk -v lines="$1" -v keys="$2" 'BEGIN { for (i = 0; i < lines; i++) print "call Add(" i % keys ", 1)" }'
}

script() {
    head -2 "$add"
    echo ---
    calls "$1" "$2"
}

# Transactions of the stress test over the bank: the first $1.
bank_lines() {
    awk -v lines="$1" 'BEGIN { for (i = 1; i <= lines; i++) {
        m = (i * 2654435761) % 4294967296; q = int(m / 97); src = 1 + m % 97; kind = i % 8
        if (kind == 0) printf "adhoc put Family[%d] = (%d)\n", src, 1 + q % 97
        else if (kind <= 3) printf "call Transfer(%d, %d)\n", src, 1 + q % 1000
        else printf "call Deposit(%d, %d, %d)\n", src, 1 + q % 1000, int(q / 1000) % 7
    } }'
}

# A catalogue whose procedure has $1 lets that build on one another.
long_catalogue() {
    awk -v lets="$1" 'BEGIN {
        print "table T(key int, v int);"; print "proc Long(k int) {"; print "  read a = T[k].v default 0;"; print "  let v0 = a + k;"
        for (i = 1; i < lets; i++) printf "  let v%d = v%d + %d;\n", i, i - 1, i
        printf "  put T[k] = (v%d);\n}\n", lets - 1
    }'
}

# Logs in folders of their own, each as a script and as a store with groups of 64: the stress test, calls that meet on one key, calls
# of a key each, and calls of a piece of 30, 100 and 200 lets that build on one another.
logs() {
    mkdir bank hot many long30 long100 long200
    cp "$top/crates/pac_examples/data/bank.catalogue" bank/catalogue
    bank_lines 100000 > bank/lines
    head -2 "$add" | tee hot/catalogue > many/catalogue
    calls 100000 1 > hot/lines
    calls 100000 100000 > many/lines
    for lets in 30 100 200; do
        long_catalogue $lets > long$lets/catalogue
        awk -v lines=$((4000000 / lets)) 'BEGIN { for (i = 0; i < lines; i++) print "call Long(" i ")" }' > long$lets/lines
    done
    for name in bank hot many long30 long100 long200; do
        (
            cd $name
            (cat catalogue; echo ---; awk '{ print } NR % 64 == 0 { print "flush" }' lines) > script
            "$pacman" init < catalogue
            "$pacman" run --batch 64 < lines > replies
        )
    done
}

# Synced writes of $2 times $1 bytes.
synced() {
    dd if=/dev/zero of=synced bs="$1" count="$2" oflag=dsync 2>&1 | tail -1
}

# A command by N workers, with an input, whose output isn't looked at.
run_with() { "$pacman" "$2" --workers "$1" < "$3" > /dev/null; }

# The instructions of a command, which may refuse its input.
count_of() {
    valgrind --tool=callgrind --callgrind-out-file=/dev/null "$pacman" "$@" > printed 2> counted || true
    sed -n 's/.*Collected : *//p' counted
}

# A command by one worker that refuses its input at the end.
run_refused() { "$pacman" "$1" --workers 1 < "$2" > /dev/null 2>&1 || true; }

run_images() { "$pacman" replay --images < "$1" > /dev/null; }

run_replay() { "$pacman" replay < "$1" > /dev/null; }

# The time and the most memory of a command, whose input is the file $1. A child of this shell would count its memory too, so
# GNU time has it.
memory() {
    local input=$1
    shift
    command time -f '  %e s, %M kB' -o used "$@" < "$input" > /dev/null
    cat used
}

case $section in
replay)
    # A catalogue of 65,536 bytes; 1,024 calls of one key; 1,024 calls of as many keys.
    awk 'BEGIN {
        for (p = 0; p < 10; p++) {
            printf "proc P%d(k int) {\n", p
            for (i = 10000; i < 10232; i++) printf "  let v%d = k + (1 * 2);\n", i
            printf "}\n"
        }
        printf "%386s", ""
    }' > long
    script 1024 1 > one
    script 1024 1024 > many
    for name in /dev/null long one many; do timed "replay of $name" run_replay "$name"; done
    ;;
input)
    script 1000000 1000 > million
    (printf -- ---; head -c 67108861 /dev/zero | tr '\0' '\n') > longest
    for name in million longest; do echo "replay of $name"; memory "$name" "$pacman" replay; done
    head -2 "$add" > catalogue
    "$pacman" init < catalogue
    head -c 67108864 /dev/zero | tr '\0' x > line
    echo "a run whose input is one line of 67,108,864 bytes"
    memory line "$pacman" run
    ;;
parts)
    for part in write read; do timed "20,000 bodies of 1,024 calls: $part" "$bench" "$part" 20000; done
    timed "200,000 bodies: copy" "$bench" copy 200000
    for part in table tables chain; do timed "100 catalogues of 4,096 operations: $part" "$bench" "$part" 100; done
    ;;
pieces)
    for part in txns sets accesses pairs; do counted "100,000 transactions of the stress test: $part" "$bench" "$part" 100; done
    for part in queue long_queue; do for rounds in 0 100; do counted "$rounds rounds: $part" "$bench" "$part" "$rounds"; done; done
    ;;
hand)
    # 1,024 pieces that wait for none, handed out over atomic words to one thread and to four; and as many that put a row each, which one
    # worker and four take under the lock of a core.
    for part in hand_one hand_four; do timed "10,000 times 1,024 pieces: $part" "$bench" "$part" 10000; done
    for part in locked_one locked_four; do timed "3,000 times 1,024 pieces: $part" "$bench" "$part" 3000; done
    ;;
shares)
    # What is made of the pieces of a stress test by one worker and by two, function by function, each with all that it calls. What
    # the compiler put into its callers has no line of its own: opening pieces, with their accesses and pairs, is a part of
    # `next_ready`, and finding the sets of a batch a part of `load`.
    for workers in 1 2; do
        valgrind --tool=callgrind --callgrind-out-file=profile "$pacman" stress 10000 --workers "$workers" > printed 2> counted || { cat counted >&2; exit 1; }
        pieces=$(sed -n 's/^pieces //p' printed)
        echo "instructions a piece, of $pieces pieces, by $workers"
        callgrind_annotate --inclusive=yes --threshold=100 profile | tr -d , | awk -v pieces="$pieces" '
            match($0, /:pac_(workers|core|sched|sets|piece|keys|interface|batch|tables|undo)::[^[]*/) && $1 >= pieces { printf "  %7d %s\n", $1 / pieces, substr($0, RSTART + 1, RLENGTH - 1) }'
    done
    ;;
log)
    for part in commit commits; do
        rm -f pac_bench.log
        timed "20,000 batches: $part" "$bench" "$part" 20000
    done
    for size in 33 1545; do echo "20,000 synced writes of $size bytes"; synced "$size" 20000; done
    rm -f pac_bench.log
    "$bench" fill 146
    echo "a log of 211 MB: scan"
    memory /dev/null "$bench" scan 146
    rm -f pac_bench.log
    if "$bench" fill 186; then
        echo "the log should be full" >&2
        exit 1
    fi
    ;;
slots)
    if "$bench" save 499880; then
        echo "the checkpoint should be too large" >&2
        exit 1
    fi
    echo "a checkpoint of 499,879 rows: save"
    memory /dev/null "$bench" save 499879
    ;;
held)
    # What a run holds of a million rows, and what a save and a recovery of them take.
    echo save > save
    for columns in 1 8; do
        rm -f pacman.*
        names=$(seq -f ', c%.0f int' "$columns" | tr -d '\n')
        echo "table T(key int$names);" | "$pacman" init
        seq 1000000 | awk -v row="$(seq -s ', ' "$columns")" '{ print "adhoc put T[" $1 "] = (" row ")" }' > lines
        "$pacman" run --batch 1024 < lines > replies
        echo "a million rows with $columns columns, of the log: run"
        memory /dev/null "$pacman" run
        echo " with a save"
        memory save "$pacman" run
        echo " of a slot of $(wc -c < pacman.a) bytes: run"
        memory /dev/null "$pacman" run
        echo " recover by 1"
        memory /dev/null "$pacman" recover --workers 1
    done
    ;;
runs)
    head -2 "$add" > catalogue
    calls 1000000 1000 > lines
    while read -r group count size writes; do
        rm -f pacman.*
        "$pacman" init < catalogue
        head -n "$count" lines > some
        echo "$count transactions in groups of $group, beside $writes synced writes of $size bytes"
        time "$pacman" run --batch "$group" < some > replies
        synced "$size" "$writes"
    done <<'END'
1 3000 31 3000
64 100000 1417 1562
1024 1000000 22537 976
END
    echo "recover of a million transactions"
    memory /dev/null "$pacman" recover
    echo "a run that restarts over them"
    memory /dev/null "$pacman" run
    ;;
committed)
    head -2 "$add" > catalogue
    calls 6464 1000 > lines
    for count in 64 6464; do
        rm -f pacman.*
        "$pacman" init < catalogue
        head -n "$count" lines > some
        instructions "$pacman" run --batch 64 < some
        [ "$(tail -1 printed)" = "committed $count" ]
        mv count "count.$count"
    done
    echo "a committed call in groups of 64: $((($(cat count.6464) - $(cat count.64)) / 6400)) instructions"
    ;;
serial)
    # A call that is read from a script and executed serially, with its part of the dump.
    script 0 1 > none
    instructions "$bench" replay 1 < none
    mv count start
    for keys in 1 3000; do
        script 3000 "$keys" > some
        instructions "$bench" replay 1 < some
        echo "a call, over $keys keys: $((($(cat count) - $(cat start)) / 3000)) instructions"
    done
    ;;
workers)
    # How long workers take over logs, as scripts and as stores, and what a restart by serial execution takes.
    logs
    for name in bank hot many long30 long100 long200; do
        (
            cd $name
            for workers in 1 2 4; do timed "$name: replay by $workers" run_with "$workers" replay script; done
            for workers in 1 2 4; do timed "$name: recover by $workers" run_with "$workers" recover /dev/null; done
            timed "$name: run restarts, serially" "$pacman" run < /dev/null
        )
    done
    ;;
restarts)
    # The instructions of a recovery by one worker, in place, beside those of a restart by serial execution.
    logs
    for name in bank hot many long200; do
        (
            cd $name
            counted "$name: run restarts, serially" "$pacman" run < /dev/null
            instructions "$pacman" recover --workers 1 < /dev/null
            echo "$name: recover by one worker, in place"
            echo "  instructions: $(cat count)"
        )
    done
    ;;
stream)
    # A log of half the greatest length and one of nearly all, of calls of two ints. Each run but the first restarts.
    head -2 "$add" > catalogue
    calls 2850000 1000 > lines
    for runs in 2 4; do
        rm -f pacman.*
        "$pacman" init < catalogue
        for _ in $(seq "$runs"); do "$pacman" run --batch 1024 < lines > replies; done
        echo "$((runs * 2850000)) calls, a log of $(wc -c < pacman.log) bytes"
        for workers in 1 4; do echo " recover by $workers"; memory /dev/null "$pacman" recover --workers "$workers"; done
    done
    ;;
opens)
    # A restart over a million calls of two ints that were committed in groups of 1 and of 64, without a save.
    head -2 "$add" > catalogue
    calls 1000000 1000 > lines
    for group in 1 64; do
        rm -f pacman.*
        "$pacman" init < catalogue
        "$pacman" run --batch "$group" < lines > replies
        echo "a million calls in groups of $group, a log of $(wc -c < pacman.log) bytes"
        for _ in 1 2 3 4 5; do
            echo " run restarts"
            memory /dev/null "$pacman" run
            echo " recover by 1"
            memory /dev/null "$pacman" recover --workers 1
        done
    done
    ;;
saves)
    # Ten million calls of two ints with a save after each 100,000, in four runs, the last 100,000 without one: what the files hold, and how
    # long a restart and a recovery take; and the same of ten million without a save. Groups of 1 fill the log before that.
    head -2 "$add" > catalogue
    calls 2500000 1000 > lines
    awk '(NR - 1) % 100000 == 0 { print "save" } { print }' lines > saving
    seq 0 999 | awk 'BEGIN { print "table T 1000" } { print $1 " (10000)" }' > wanted
    header=$((21 + $(wc -c < catalogue)))
    while read -r group input longest; do
        rm -f pacman.*
        "$pacman" init < catalogue
        for _ in 1 2 3 4; do "$pacman" run --batch "$group" < "$input" > replies; done
        echo "ten million calls in groups of $group, $input"
        "$pacman" recover --workers 1 | cmp - wanted
        for name in pacman.*; do
            size=$(wc -c < "$name")
            echo "  $name: $size bytes"
            if [ "$size" -gt $((header + longest)) ]; then echo "that is too long" >&2; exit 1; fi
        done
        for _ in 1 2 3; do
            echo " run restarts"
            memory /dev/null "$pacman" run
            echo " recover by 1"
            memory /dev/null "$pacman" recover --workers 1
        done
    done <<'END'
1 saving 3100000
64 saving 2214067
64 lines 221406268
END
    ;;
rows)
    for part in few few_limited many many_limited; do timed "5,000 times 1,000 transactions: $part" "$bench" "$part" 5000; done
    ;;
images)
    # A million after-images of the bank: deposits to 100,000 names, two images each. What is read and then refused at its last
    # byte or line shows what the reading takes.
    cp "$top/crates/pac_examples/data/bank.catalogue" catalogue
    awk 'BEGIN { for (i = 0; i < 500000; i++) printf "call Deposit(%d, 1, %d)\n", 1 + (i * 7919) % 100000, i % 7 }' > lines
    (cat catalogue; echo ---; cat lines) > script
    "$pacman" replay --images --workers 1 < script > images
    "$pacman" init < catalogue
    "$pacman" run --batch 64 < lines > replies
    (cat images; printf '\377') > refused.images
    (cat script; echo delete) > refused.script
    ls -l script images pacman.log | awk '{ print $9 ": " $5 " bytes" }'
    for command in "lay refused.images" "lay images" "replay refused.script" "replay script"; do
        set -- $command
        echo "$1 of $2: $(count_of "$1" --workers 1 < "$2") instructions"
    done
    echo "replay --images of script: $(count_of replay --images < script) instructions"
    for round in 1 2 3; do
        timed "reads the images" run_refused lay refused.images
        for workers in 1 2 4; do timed "lays them by $workers" run_with $workers lay images; done
        timed "reads the script" run_refused replay refused.script
        timed "replays it by 1" run_with 1 replay script
        timed "makes the images" run_images script
    done
    ;;
*)
    sed -n '2,10s/^# \{0,1\}//p' "$top/tools/times.sh"
    exit 1
    ;;
esac
