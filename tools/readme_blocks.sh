#!/bin/bash
# Runs the commands of README.md from its top: all of its sh blocks in order, in one shell. A text block after one has
# lines that have to come in its output, in this order. Ends with 1 at the first block that fails.
#
#     tools/readme_blocks.sh [--skip-build] [--skip-tests]
#
# --skip-build leaves out the proved build; the blocks after it take the program $PACMAN, if that is set, or else one that
# is built already. --skip-tests leaves out the tests.
set -eu
cd "$(dirname "$0")/.."

skip_build= skip_tests=
for word in "$@"; do
    case $word in
    --skip-build) skip_build=yes ;;
    --skip-tests) skip_tests=yes ;;
    *) sed -n '2,8s/^# \{0,1\}//p' tools/readme_blocks.sh; exit 1 ;;
    esac
done

folder=$(mktemp -d)
exec 3>&1
i=0
# A command that fails ends the script where it stands, also within a block.
ended() {
    status=$?
    if [ "$status" != 0 ]; then { cat "$folder/$i.out"; echo "block $i failed"; } >&3 2> /dev/null; fi
    rm -rf "$folder"
    exit "$status"
}
trap ended EXIT

# Block N is N.sh, and what has to come in its output N.text.
awk -v folder="$folder" '
    /^```/ && inside { inside = ""; next }
    /^```sh$/ { inside = folder "/" ++count ".sh"; next }
    /^```text$/ { inside = folder "/" count ".text"; next }
    inside { print > inside }
' README.md

for ((i = 1; ; i++)); do
    block=$folder/$i.sh
    [ -e "$block" ] || break
    echo "== block $i"
    sed 's/^/    /' "$block"
    if [ -n "$skip_build" ] && grep -q 'rt run' "$block"; then echo "left out"; continue; fi
    if [ -n "$skip_tests" ] && grep -q 'try_tests' "$block"; then echo "left out"; continue; fi
    . "$block" > "$folder/$i.out" 2>&1
    cat "$folder/$i.out"
    if [ -e "$folder/$i.text" ]; then
        awk -v block="$i" '
            NR == FNR { wanted[++count] = $0; next }
            found < count && $0 == wanted[found + 1] { found++ }
            END { if (found < count) { print "block " block " has not printed: " wanted[found + 1]; exit 1 } }
        ' "$folder/$i.text" "$folder/$i.out"
    fi
done
echo "all blocks ran"
