#!/bin/sh
# Builds pac_examples without any proof, and runs it: a replay, a graph, and a store of the bank from `init` to `recover`.
#
#     tools/try_session.sh
set -eu
cd "$(dirname "$0")/../crates/pac_examples"

set --
for file in data/*; do
    set -- "$@" --data "$(basename "$file")=$file"
done
rt try "$@"
