# Sourced at the repository's root: how this machine builds and runs C and Rust programs that link the proved library, which is for x86-64.
#   CC, STATIC          the C compiler for x86-64, and what it links with
#   RUN                 what runs an x86-64 program: an emulator, or nothing
#   cargo_x86, TARGET   cargo, set up to build for x86-64 and to run what it built; TARGET goes behind its first word
#   cargo_here          cargo, to build for this machine
#   library             proves and writes the library where it is not there or not of today (rust/module.sh)
# Installs what is missing, from Debian's packages.
. .ci/need.sh
. rust/module.sh

# need_file FILE PACKAGE: as need, for a package that brings no command, or not the one that comes first in PATH
need_file() {
    [ -e "$1" ] && return 0
    install_package "$2"
    [ -e "$1" ] || { echo "cannot install $2 for $1"; exit 1; }
}

if [ "$(uname -m)" = x86_64 ]; then
    need cc gcc
    need_file /usr/include/stdint.h libc6-dev
    need rustc rustc-web
    need cargo cargo-web
    CC=cc STATIC='' RUN='' TARGET=''
    cargo_x86() { cargo "$@"; }
else
    dpkg --print-foreign-architectures | grep -qx amd64 || dpkg --add-architecture amd64
    # For this machine: cargo's build scripts run here.
    need cc gcc
    need_file "/usr/lib/$(uname -m)-linux-gnu/libc.so" libc6-dev
    # For x86-64. The emulator runs static programs only.
    need x86_64-linux-gnu-gcc gcc-x86-64-linux-gnu
    need_file /usr/lib/x86_64-linux-gnu/libc.a libc6-dev:amd64
    need qemu-x86_64 qemu-user
    # Debian's own rustc, also where another comes first in PATH: that one need not have the standard library for x86-64.
    need_file /usr/bin/rustc rustc-web
    need_file /usr/bin/cargo cargo-web
    need_file /usr/lib/rustlib/x86_64-unknown-linux-gnu/lib libstd-rust-web-dev:amd64
    CC=x86_64-linux-gnu-gcc STATIC=-static RUN=qemu-x86_64 TARGET='--target x86_64-unknown-linux-gnu'
    cargo_x86() {
        RUSTC=/usr/bin/rustc \
            CARGO_TARGET_X86_64_UNKNOWN_LINUX_GNU_LINKER=$CC \
            CARGO_TARGET_X86_64_UNKNOWN_LINUX_GNU_RUNNER=$RUN \
            CARGO_TARGET_X86_64_UNKNOWN_LINUX_GNU_RUSTFLAGS='-C target-feature=+crt-static -C relocation-model=static' \
            /usr/bin/cargo "$@"
    }
fi

# Debian's rustc where native.sh installs it, since it has the LLVM that the kit's compiler has.
cargo_here() {
    if [ -x /usr/bin/rustc ]; then RUSTC=/usr/bin/rustc /usr/bin/cargo "$@"; else cargo "$@"; fi
}
