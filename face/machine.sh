# What face/archive, face/test, oracle/prepare and compare/run need of the machine; they read it with `.`. The archive is for x86-64 Linux:
# on a machine of another kind a cross compiler links what calls it, and an emulator runs that. UYAVSKER_EMULATE=1 does so on x86-64 too.
#
#   compiler   the C compiler for x86-64, with what it is always told
#   emulator   the command that runs a program for x86-64; empty where there's no need of one

if [ "$(uname -m)" = x86_64 ] && [ -z "${UYAVSKER_EMULATE:-}" ]; then
    compiler=cc emulator= c_library=libc6-dev
else
    compiler="x86_64-linux-gnu-gcc -static" emulator=qemu-x86_64 c_library=libc6-dev-amd64-cross
    export CARGO_BUILD_TARGET=x86_64-unknown-linux-gnu
    export CARGO_TARGET_X86_64_UNKNOWN_LINUX_GNU_LINKER=x86_64-linux-gnu-gcc
    export CARGO_TARGET_X86_64_UNKNOWN_LINUX_GNU_RUSTFLAGS="-C target-feature=+crt-static"
    export CARGO_TARGET_X86_64_UNKNOWN_LINUX_GNU_RUNNER=$emulator
fi

# need WHAT PACKAGE COMMAND: ends the script with status 2 where the command fails.
need() {
    missing=$1 package=$2
    shift 2
    "$@" > /dev/null 2>&1 || {
        echo "$0: $missing is missing: install $package" >&2
        exit 2
    }
}

links() {
    echo 'int main(void) { return 0; }' | $compiler -x c - -o /dev/null
}

is_new() {
    [ "$(${RUSTC:-rustc} --version | cut -d . -f 2)" -ge 77 ]
}

has_library() {
    ls "$(${RUSTC:-rustc} --print target-libdir --target x86_64-unknown-linux-gnu)"/libstd-*.rlib
}

need_rattle() {
    need rt "the Rattle toolchain" command -v rt
}

# cargo links with cc what it runs itself.
need_cargo() {
    need cc "Debian's package gcc" command -v cc
    need cargo "Debian's package cargo-web" command -v cargo
    need "rustc 1.77 or later" "Debian's package rustc-web" is_new
}

# What builds and runs a program in C or in Rust that calls the archive.
need_both() {
    need_cargo
    need "${compiler%% *}" "Debian's package gcc-x86-64-linux-gnu" command -v "${compiler%% *}"
    need "the C library for x86-64" "Debian's package $c_library" links
    need "Rust's library for x86-64" "Debian's package libstd-rust-web-dev:amd64, after dpkg --add-architecture amd64" has_library
    [ -z "$emulator" ] || need "$emulator" "Debian's package qemu-user" command -v "$emulator"
}

# The Rust of the scope takes these from where Debian's packages put them.
need_crates() {
    for name in num-traits libm autocfg; do
        need "Rust's $name" "Debian's package librust-$name-dev" ls -d /usr/share/cargo/registry/"$name"-[0-9]*
    done
}
