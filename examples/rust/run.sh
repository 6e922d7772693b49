#!/usr/bin/env bash
# Builds the Rust example against the proved library, and runs it.
set -eu
cd "$(dirname "$0")/../.."
. .ci/native.sh

library >&2
cd rust
# shellcheck disable=SC2086 # TARGET is words, or nothing
cargo_x86 run $TARGET --locked --release -q -p example
