#!/usr/bin/env bash
# Builds the C example against include/ and the proved library, and runs it.
set -eu
cd "$(dirname "$0")/../.."
. .ci/native.sh

library >&2
mkdir -p target/examples
# shellcheck disable=SC2086 # STATIC and RUN are words, or nothing
$CC -std=c99 -pedantic -Wall -Wextra -Werror -O2 $STATIC -Iinclude examples/c/read.c -Ltarget/staticlib -ldustferrule -o target/examples/read
# shellcheck disable=SC2086
$RUN target/examples/read
