# The independent implementation passes its tests. What the gate installs comes first: the scripts behind rt ci find it there.
. .ci/native.sh
log=$(mktemp) || exit 1
trap 'rm -f "$log"' EXIT
cd rust || exit 1
cargo test --locked --release --tests -p reference >"$log" 2>&1 || { cat "$log"; exit 1; }
echo "Rust: the independent implementation passes its tests"
