#!/bin/sh
# Builds and runs the cases and the tests without any proof, and ends with 1 where one fails.
#
#     tools/try_tests.sh [FILE..]      all of them, or the cases of these files of crates/pac_cases/data
#
# The longest inputs are left out: a build that isn't proved tests each index, and is too slow for them.
set -eu
cd "$(dirname "$0")/.."

try_cases() (
    cd crates/pac_cases
    for file; do
        set -- "$@" "data/$file"
        shift
    done
    rt try --seconds 1800 -- "$@"
)

if [ $# -gt 0 ]; then
    try_cases "$@"
    exit
fi

failed=
echo "pac_cases"
try_cases $(grep -v '^longest\.' crates/pac_cases/args) || failed=" pac_cases"
for crate in $(sed -n 's/^\(pac_[a-z_]*\).*/\1/p' crates.txt); do
    if grep -rqs '^ *#\[test\]' "crates/$crate/src"; then
        echo "$crate"
        (cd "crates/$crate" && rt try --test --seconds 1800) || failed="$failed $crate"
    fi
done
if [ -n "$failed" ]; then
    echo "failed:$failed"
    exit 1
fi
echo "all tests passed"
