#!/usr/bin/env bash
# fuzz.sh [CASES] [SEED]: compares the two implementations with all that the proved library is lent against pages it must not touch, once
# with the last octet of each area before such a page, once with the first octet after one; what is lent for reading cannot be written.
# Outside the gate. Without a seed, each run has cases of its own.
set -eu
cd "$(dirname "$0")/.."
. .ci/native.sh
library >&2
cases=${1:-1000000}
seed=${2:-$(date +%s)}
echo "compare --guard $cases $seed" >&2
cd rust
# shellcheck disable=SC2086 # TARGET is words, or nothing
cargo_x86 run $TARGET --locked --release -q -p compare -- --guard "$cases" "$seed"
