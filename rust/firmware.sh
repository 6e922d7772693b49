#!/usr/bin/env bash
# firmware.sh [check|page|print|compare|library]: what a firmware's maintainer asks of the library, measured: sizes, symbols and stack, of the
# archive and of its module compiled for Arm.
#   check                     docs/FIRMWARE.md has the tables that are measured
#   page, print               writes them there, or prints them
#   compare [CASES [SEED]]    of the Arm build, every call of the header from C: on Arm, or emulated where Debian's gcc-aarch64-linux-gnu and
#                             qemu-user are installed; on Arm also the comparison with the independent implementation
#   library MACHINE FOLDER    libdustferrule.a for a processor (x86_64, aarch64 ..) into a folder
# The compiler is the kit's, which compiles for either processor.
set -euo pipefail
cd "$(dirname "$0")/.."
room=$PWD/target/firmware
machines=(x86_64 aarch64)

# Each processor's archive, its instructions, the frame of each function (framed.su), and what the optimizer leaves of the module, for the
# calls between functions. The archive for x86-64 is the product's own, octet for octet.
measured() {
    local machine to
    library >&2
    for machine in "${machines[@]}"; do
        to=$room/$machine
        (as_in_c "$machine") <"$kept/module.ll" | archive "$machine" dustferrule "$to"
        compile "$machine" "$to/dustferrule.ll" "$to/framed.o" -fstack-usage
        cmp "$to/framed.o" "$to/dustferrule.o" >&2
        compile "$machine" "$to/dustferrule.ll" "$to/dustferrule.s" -S -Wno-unused-command-line-argument
        compile "$machine" "$to/dustferrule.ll" "$to/optimized.ll" -S -emit-llvm -Wno-unused-command-line-argument
    done
    cmp "$room/x86_64/libdustferrule.a" target/staticlib/libdustferrule.a >&2
    python3 rust/firmware.py "$@" "$room" "${machines[@]}"
}

compared() {
    local log=$room/compare.log
    if [ "$(uname -m)" != aarch64 ]; then
        if command -v aarch64-linux-gnu-gcc qemu-aarch64 >"$room/found" && [ "$(wc -l <"$room/found")" = 2 ]; then
            library_for aarch64 "$room/aarch64"
            aarch64-linux-gnu-gcc -static -std=c99 -O2 -Iinclude examples/c/every.c -L"$room/aarch64" -ldustferrule -o "$room/every"
            echo "C, Arm build, emulated: $(qemu-aarch64 "$room/every")"
        else
            echo "C, Arm build: not run, this machine is $(uname -m) and has no emulator and compiler for it"
        fi
        echo "compare, Arm build: not run, this machine is $(uname -m)"
        return
    fi
    library_for aarch64 "$room/aarch64"
    cc -std=c99 -O2 -Iinclude examples/c/every.c -L"$room/aarch64" -ldustferrule -o "$room/every"
    echo "C, Arm build: $("$room/every")"
    (cd rust && DUSTFERRULE_LIB=$room/aarch64 CARGO_TARGET_DIR=$room/cargo cargo_here run --locked --release -q -p compare -- "$@") >"$log" 2>&1 ||
        { cat "$log"; exit 1; }
    echo "compare, Arm build: $(tail -n 1 "$log")"
}

case ${1:-check} in
check | page | print)
    . .ci/need.sh && . rust/module.sh
    need python3 python3
    need readelf binutils
    measured "--${1:-check}"
    ;;
compare)
    . .ci/native.sh
    mkdir -p "$room"
    shift
    compared "${@:-200000}"
    ;;
library)
    [ $# -eq 3 ] || { echo "usage: firmware.sh library MACHINE FOLDER" >&2; exit 2; }
    . rust/module.sh
    library_for "$2" "$3"
    ;;
*) echo "usage: firmware.sh [check|page|print|compare [CASES [SEED]]|library MACHINE FOLDER]" >&2; exit 2 ;;
esac
