# C: every call of the header, once, against the proved library; telegrams in either order; and the example, built by what pkg-config says of an installed library.
. .ci/native.sh
need pkg-config pkgconf
library >/dev/null 2>&1 || { echo "no library"; exit 1; }
mkdir -p target/examples
strict=(-std=c99 -pedantic -Wall -Wextra -Werror -O2)

# shellcheck disable=SC2086 # STATIC and RUN are words, or nothing
$CC "${strict[@]}" $STATIC -Iinclude examples/c/every.c -Ltarget/staticlib -ldustferrule -o target/examples/every &&
    $RUN target/examples/every || exit 1
# shellcheck disable=SC2086
$CC "${strict[@]}" $STATIC -Iinclude examples/c/order.c -Ltarget/staticlib -ldustferrule -o target/examples/order &&
    $RUN target/examples/order || exit 1

# Installed, then moved: the pkg-config file finds the rest from where it stands.
there=$(mktemp -d) || exit 1
trap 'rm -rf "$there"' EXIT
./run install-library "$there/first" >"$there/said" && mv "$there/first" "$there/second" || { cat "$there/said"; exit 1; }
flags=$(PKG_CONFIG_PATH=$there/second/lib/pkgconfig pkg-config --cflags --libs dustferrule) || exit 1
# shellcheck disable=SC2086
$CC "${strict[@]}" $STATIC examples/c/read.c $flags -o "$there/read" && $RUN "$there/read" >"$there/said"
[ "$(tail -n 1 "$there/said")" = "refused 1 at 36: list ends inside a count or a section" ] || { cat "$there/said"; exit 1; }
echo "the library, installed and found by pkg-config, links into the example"
