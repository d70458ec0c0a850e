# shellcheck shell=sh disable=SC2154  # `here`, `out`, `install_tools` and machine.sh's variables are set by run.sh
# The tools that the tests need, for tests/run.sh to read by `.`: find_tools finds them or, if $install_tools is yes and this
# is Debian and the user root, installs them.
#
# The command needs cargo, rustfmt, clippy and, from Debian's packages, the sources of the libraries that it uses.
# On x86-64: make, gcc, g++, rustc, python3, shellcheck and man. On another processor cross compilers for x86-64 and an emulator in place of
# gcc and g++ (tools/machine.sh), and Rust with its standard library for x86-64.

# On x86-64 also AFL++, where it can be had: the test that needs it says if it is left out.

# Prints the packages that are missing, by Debian's names.
missing_tools() {
    for tool in make python3 shellcheck; do
        command -v "$tool" > /dev/null || printf ' %s' "$tool"
    done
    command -v man > /dev/null || printf ' man-db'
    command -v cargo > /dev/null || printf ' cargo'
    command -v cargo-fmt > /dev/null || printf ' rustfmt'
    command -v cargo-clippy > /dev/null || printf ' rust-clippy'
    for crate in clap clap_complete memmap2 nix serde_json sha2; do
        [ -n "$(find /usr/share/cargo/registry -maxdepth 1 -name "$crate-[0-9]*" 2> /dev/null)" ] || printf ' librust-%s-dev' "$(printf '%s' "$crate" | tr _ -)"
    done
    if [ "$emulated" = no ]; then
        for tool in gcc g++ rustc; do
            command -v "$tool" > /dev/null || printf ' %s' "$tool"
        done
        return
    fi
    command -v "$cc" > /dev/null || printf ' gcc-x86-64-linux-gnu'
    command -v "$cxx" > /dev/null || printf ' g++-x86-64-linux-gnu'
    [ -e "$cross/lib/libc.so" ] || printf ' libc6-dev-amd64-cross'
    command -v "$emulator" > /dev/null || printf ' qemu-user'
    find_rust || [ -x "$debian_rust" ] || printf ' rustc'
}

# The fuzzer, and the sanitizers of its compiler.
find_fuzzer() {
    [ "$emulated" = no ] && [ "$install_tools" = yes ] && [ "$(id -u)" = 0 ] && command -v apt-get > /dev/null || return 0
    ! command -v afl-fuzz > /dev/null || return 0
    { apt-get update && apt-get install -y --no-install-recommends afl++ libclang-rt-14-dev; } > "$out/apt.log" 2>&1 || printf 'tests/run.sh: apt-get could not install afl++\n'
}

find_tools() {
    find_fuzzer
    missing=$(missing_tools)
    if [ -n "$missing" ] && [ "$install_tools" = yes ] && [ "$(id -u)" = 0 ] && command -v apt-get > /dev/null; then
        [ "$emulated" = yes ] || missing="$missing libc6-dev"
        # shellcheck disable=SC2086  # packages are words
        { apt-get update && apt-get install -y --no-install-recommends $missing; } > "$out/apt.log" 2>&1 ||
            { tail -n 5 "$out/apt.log" >&2; fail "apt-get could not install:$missing"; }
        missing=$(missing_tools)
    fi
    [ -z "$missing" ] || fail "not found:$missing (on Debian, as root: apt-get install$missing, or give --install-tools)"
    find_rust || fetch_rust
}

# ---- Rust for x86-64 on another processor ----

rust_target=x86_64-unknown-linux-gnu
debian_rust=/usr/bin/rustc

# rust_root_has_library ROOT
rust_root_has_library() {
    [ -n "$(find "$1/lib/rustlib/$rust_target/lib" -name 'libstd-*.rlib' 2> /dev/null)" ]
}

# Sets rustc to a compiler that has the standard library for x86-64, and rust_root if that stands where fetch_rust put it.
find_rust() {
    rustc=rustc rust_root=
    [ "$emulated" = yes ] || return 0
    for rustc in rustc "$debian_rust"; do
        root=$("$rustc" --print sysroot 2> /dev/null) && rust_root_has_library "$root" && return
    done
    rust_root=$here/target/rust-$(debian_rust_version)/usr
    rust_root_has_library "$rust_root"
}

debian_rust_version() {
    # shellcheck disable=SC2016  # dpkg-query's own name
    dpkg-query -W -f '${Version}' libstd-rust-dev 2> /dev/null
}

# Debian's compiler brings the standard library of its own processor alone. The same package for x86-64 is unpacked below
# target/, by lists of apt's in the temporary folder: the machine's own list of architectures stays as it is.
fetch_rust() {
    [ "$install_tools" = yes ] || fail "not found: Rust's standard library for x86-64 (rustup target add $rust_target; \
or, on Debian, --install-tools unpacks libstd-rust-dev of amd64 below target/)"
    unpacked=${rust_root%/usr}
    mkdir -p "$out/apt/lists/partial" "$out/apt/archives/partial"
    set -- apt-get -o APT::Architecture=amd64 -o APT::Architectures::=amd64 -o APT::Sandbox::User=root \
        -o Dir::State::Lists="$out/apt/lists" -o Dir::State::Status=/dev/null -o Dir::Cache="$out/apt"
    (cd "$out/apt" && "$@" update && "$@" download "libstd-rust-dev=$(debian_rust_version)" && rm -rf "$unpacked" "$unpacked.part" &&
        mkdir -p "$unpacked.part" && dpkg-deb -x ./libstd-rust-dev_*.deb "$unpacked.part" && mv "$unpacked.part" "$unpacked") \
        > "$out/apt.log" 2>&1 || tail -n 5 "$out/apt.log" >&2
    find_rust || fail "Rust's standard library for x86-64 (Debian's libstd-rust-dev of amd64) could not be fetched"
}
