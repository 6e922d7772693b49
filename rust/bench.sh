#!/usr/bin/env bash
# bench.sh [times|counts|page|check|worst [page] [SECONDS [SEED]]|lookup [page]]: the proved library beside the independent implementation, as
# tables in Markdown. Outside the gate.
#   times    medians and fastest samples, all in one process; then how they grow, at four sizes of the list
#   counts   instructions executed: of x86-64 code, and of this machine's where it is another (some minutes: x86-64 is emulated)
#   page     both, into docs/BENCHMARK.md: in the columns of this machine's processor, and the other's stay; then check
#   check    each ratio above 1.05 on that page whose call has no reason there; fails if there is one
#   worst    the slowest input of the greatest size that a search finds for each call, in so many seconds each (20), from this seed (1); it leaves
#            their lists and stores in target/bench/worst. With page: into docs/BENCHMARK.md
#   lookup   known codes by halving beside the linear scan that stood before, and today's reads, all in one process. The libraries of both
#            commits of this clone's history are written for the kit rattle-kit-5b and proved by it alone: BENCH_LIB_HISTORY names a folder that
#            holds libNAME.a and libNAME_known.a of each, NAME being linear and halving, as this script of commit 9aad29a made them with that kit
# On x86-64 the product's own archive is linked. On another machine emulated times would mean nothing: there the module that the archive
# is made of is compiled for the machine, by the kit's compiler with the kit's flags.
set -euo pipefail
cd "$(dirname "$0")/.."
. .ci/native.sh
machine=$(uname -m)
room=$PWD/target/bench

# libraries MACHINE: the library, and its field functions, which it does not export, from the same module
libraries() {
    library >&2
    if [ "$1" = x86_64 ]; then
        mkdir -p "$room/$1" && cp target/staticlib/libdustferrule.a "$room/$1/"
    else
        archive "$1" dustferrule "$room/$1" <"$kept/module.ll"
    fi
    { sed 's/^define \(.*@df_\)/define internal \1/' "$kept/module.ll" && cat rust/bench/fields.ll; } | archive "$1" fields "$room/$1"
}

# built CARGO [WORDS..]: the bench
built() {
    local cargo=$1
    shift
    (cd rust && "$cargo" build "$@" --locked -q --profile measured -p bench)
}

# of_history NAME: the library of a commit of before, its calls as NAME_df_.., and its lookup, which it does not export, as NAME_known. By halving is
# 5c0cb04471b87f973d5f55e27b08a37a2cd00002, linear the commit before it: they differ in that alone.
of_history() {
    local file
    for file in "lib$1.a" "lib${1}_known.a"; do
        [ -e "${BENCH_LIB_HISTORY:-}/$file" ] || {
            echo "bench.sh: no $file in the folder BENCH_LIB_HISTORY: those commits are proved by the kit rattle-kit-5b, not by $(rt version)" >&2
            exit 1
        }
        mkdir -p "$room/$machine" && cp "$BENCH_LIB_HISTORY/$file" "$room/$machine/"
    done
}

looked_up() {
    of_history linear
    of_history halving
    libraries "$machine"
    BENCH_LIB=$room/$machine built cargo_here --features lookup
    rust/target/measured/bench lookup >"$room/lookup.md"
    if [ "${1:-}" = page ]; then python3 rust/bench/page.py lookup <"$room/lookup.md"; else cat "$room/lookup.md"; fi
}

# busy: for how many hundredths of a second processors worked so far, for all but this shell's children that have ended
busy() {
    local own
    own=$(awk '{ print $16 + $17 }' "/proc/$$/stat")
    awk -v own="$own" '$1 == "cpu" { printf "%.0f\n", $2 + $3 + $4 + $7 + $8 + $9 - own }' /proc/stat
}

# alone COMMAND..: runs it, and says in `others` whether the machine was idle but for it
alone() {
    local before since share
    before=$(busy) since=$SECONDS
    "$@"
    share=$((($(busy) - before) / (SECONDS - since + 1)))
    others="idle but for it"
    [ "$share" -lt 5 ] || others="not idle: other programs had $share % of a processor"
}

timed() {
    libraries "$machine"
    BENCH_LIB=$room/$machine built cargo_here
    alone rust/target/measured/bench
}

# said_of_machine: by what both sides were compiled, and where they ran
said_of_machine() {
    local rustc=rustc clang of='the archive itself' model
    [ ! -x /usr/bin/rustc ] || rustc=/usr/bin/rustc
    [ "$machine" = x86_64 ] || of="the module of the archive, compiled for it"
    rustc=$("$rustc" -vV | awk '/^release/ { release = $2 } /^LLVM/ { print release " (LLVM " $3 ")" }')
    clang=$("$(compiler)/bin/clang" --version | sed -n '1s/.*version \([0-9.]*\).*/\1/p')
    model=$(lscpu | awk -F': *' '/^Model name/ { name = $2 } /^CPU family/ { of = $2 } /^Model:/ { if (of) of = " (family " of ", model " $2 ")" } END { print name of }')
    echo "$of, by the kit's clang $clang; the Rust side by rustc $rustc; processor $model; the machine was $others."
}

# worst [page] [SECONDS [SEED]]
searched() {
    local to=cat
    [ "${1:-}" != page ] || { to='python3 rust/bench/page.py worst'; shift; }
    libraries "$machine"
    BENCH_LIB=$room/$machine built cargo_here
    mkdir -p "$room/worst"
    alone rust/target/measured/bench worst "${1:-20}" "${2:-1}" "$room/worst" >"$room/worst.table"
    { echo "On ${machine/_/-}, ${1:-20} s a call, seed ${2:-1}; the machine was $others." && echo && cat "$room/worst.table"; } >"$room/worst.md"
    $to <"$room/worst.md"
}

# Valgrind writes a file at each mark.
counted_here() {
    need valgrind valgrind
    libraries "$machine"
    BENCH_LIB=$room/$machine built cargo_here
    rm -f "$room"/callgrind*
    valgrind -q --tool=callgrind --callgrind-out-file="$room/callgrind" --dump-before=bench_mark rust/target/measured/bench count "$RUNS"
    local number=1
    while [ -e "$room/callgrind.$number" ]; do
        sed -n 's/^summary: //p' "$room/callgrind.$number"
        number=$((number + 1))
    done >"$room/counts.$machine"
}

# The emulator names the place of every instruction that it executes.
counted_emulated() {
    local program=rust/target/x86_64-unknown-linux-gnu/measured/bench mark step=-one-insn-per-tb
    case $("$RUN" -h) in *"$step"*) ;; *) step=-singlestep ;; esac
    libraries x86_64
    BENCH_LIB=$room/x86_64 built cargo_x86 --target x86_64-unknown-linux-gnu
    mark=$(nm "$program" | sed -n 's/ T bench_mark$//p')
    "$RUN" "$step" -d exec,nochain -D /dev/stdout "$program" count "$RUNS" |
        awk -v mark="/$mark/" 'index($0, mark) { print n; n = 0 } { n++ }' >"$room/counts.x86_64"
}

# How often a counted call is made.
RUNS=2

counted() {
    local files=("$RUNS" "$room/counts.x86_64")
    counted_here
    if [ "$machine" != x86_64 ]; then
        counted_emulated
        files+=("$RUNS" "$room/counts.$machine")
    fi
    rust/target/measured/bench counted "${files[@]}"
}

page() {
    local counted_of=(x86_64)
    [ "$machine" = x86_64 ] || counted_of+=("$machine")
    need python3 python3
    mkdir -p "$room"
    timed >"$room/times.md"
    counted >"$room/counts.md"
    python3 rust/bench/page.py times "$machine" <"$room/times.md"
    python3 rust/bench/page.py counts "${counted_of[@]}" <"$room/counts.md"
    python3 rust/bench/page.py machine "$machine" "$(said_of_machine)"
    python3 rust/bench/page.py check
}

case ${1:-times} in
times) timed ;;
counts) counted ;;
page) page ;;
check) python3 rust/bench/page.py check ;;
worst) searched "${@:2}" ;;
lookup) looked_up "${2:-}" ;;
*) echo "usage: bench.sh [times|counts|page|check|worst [page] [SECONDS [SEED]]|lookup [page]]" >&2; exit 2 ;;
esac
