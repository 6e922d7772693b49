# Rust: the proved library passes the independent implementation's tests, and the two agree on 200,000 cases.
. .ci/native.sh
log=$(mktemp) || exit 1
trap 'rm -f "$log"' EXIT

# quietly WORDS..: says something only if the command fails
quietly() {
    "$@" >"$log" 2>&1 || { cat "$log"; echo "failed: $*"; exit 1; }
}

quietly library
cd rust || exit 1
# shellcheck disable=SC2086 # TARGET is words, or nothing
{
    quietly cargo_x86 test $TARGET --locked --profile eased --tests -p dustferrule -p compare
    echo "Rust: the proved library passes the tests of the independent implementation"
    quietly cargo_x86 run $TARGET --locked --release -q -p compare -- 200000
}
echo "compare: $(tail -n 1 "$log")"
