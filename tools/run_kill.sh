#!/bin/sh
# Runs the bank's store, kills the run by SIGKILL at a random moment, and sees that each transaction whose reply was written
# is recovered, with all before it and none left out. It says so of each round, and ends with 1 at the first that fails.
#
#     tools/run_kill.sh PROGRAM [ROUNDS [LINES [SECONDS]]]
#
# A round has LINES deposits with a save after each 100, and is killed within SECONDS.
set -eu

program=$(realpath "${1:?usage: tools/run_kill.sh PROGRAM [ROUNDS [LINES [SECONDS]]]}")
rounds=${2:-50}
lines=${3:-300000}
seconds=${4:-2}
catalogue=$(realpath "$(dirname "$0")/../crates/pac_examples/data/bank.catalogue")

folder=$(mktemp -d)
trap 'rm -rf "$folder"' EXIT
cd "$folder"

# The i-th deposit is to account i, so what is recovered tells which deposits were executed. Each save begins a segment of the log.
awk -v lines="$lines" 'BEGIN {
    for (i = 1; i <= lines; i++) {
        print "call Deposit(" i ", 1, 7)"
        if (i % 100 == 0) print "save"
    }
}' > lines

for round in $(seq "$rounds"); do
    rm -f pacman.log pacman.log2 pacman.a pacman.b
    "$program" init < "$catalogue"
    "$program" run --batch 16 < lines > replies 2> errors &
    run=$!
    sleep "$(awk -v seed="$$$round" -v most="$seconds" 'BEGIN { srand(seed); print rand() * most }')"
    kill -9 "$run" 2> /dev/null || true
    status=0
    wait "$run" 2> /dev/null || status=$?
    if [ "$status" = 137 ]; then end=killed; else end="ended before the kill"; fi

    # A reply is a whole line. The last one may be cut.
    told=$(head -n "$(wc -l < replies)" replies | awk '{ told = $2 } END { print told + 0 }')
    saves=$(head -n "$(wc -l < replies)" replies | grep -c saved) || true
    "$program" recover > dump
    awk -v round="$round" -v told="$told" -v saves="$saves" -v end="$end" '
        /^table / { table = $2; next }
        table == "Current" { found++; if ($1 != found || $2 != "(1)") wrong = 1 }
        table == "Stats" { counted = $2 }
        END {
            right = !wrong && found + 0 >= told && (found == 0 || counted == "(" found ")")
            print "round " round ", " end ": " told " acknowledged, " saves " saves, " found + 0 " recovered" (right ? "" : ", which is wrong")
            exit !right
        }' dump
done
