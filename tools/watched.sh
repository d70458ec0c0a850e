#!/bin/sh
# Compiles modules of the Rattle compiler once more, so that they are watched while they run: for tests alone, on x86-64. What is installed is another build of the same modules.
#
#   tools/watched.sh KIND OUT [MODULE...]
#
#   address    every address that is read or written is looked at (address sanitizer), and all that the module lets the back end assume is checked (tools/assumed.py)
#   thread     two threads that touch one place are seen (thread sanitizer)
#   coverage   as `address`, and every edge that is gone and every comparison are told to a fuzzer: for AFL++'s afl-compiler-rt.o
#
# OUT: an archive. MODULE: .bc files, by default those of the library, which `tools/build.sh library violstream modules`
# leaves in target/staticlib/modules; `tools/native.sh CRATE OUT.bc` makes that of a program. The program that is linked to OUT brings the sanitizer's own library:
# gcc or clang, with -fsanitize=address,undefined or -fsanitize=thread.
#
# WATCHED_AS="SED WORDS" in the environment is done on each module's text before it is compiled: tests/fuzz uses it to call a program's main and its input by other names.
set -eu
unset -v CDPATH attribute clang flags here kind module name out work
here=$(cd "$(dirname "$0")/.." && pwd)
. "$here/tools/machine.sh"

fail() {
    printf 'watched.sh: %s\n' "$1" >&2
    exit 1
}

[ $# -ge 2 ] || fail "usage: tools/watched.sh address|thread|coverage OUT [MODULE...]"
kind=$1 out=$2
shift 2
[ $# -gt 0 ] || set -- "$here"/target/staticlib/modules/*.bc
[ -f "$1" ] || fail "no module $1; 'tools/build.sh library violstream modules' makes those of the library"
[ "$emulated" = no ] || fail "only on x86-64"
clang=$(kit)/toolchain/bin/clang
[ -x "$clang" ] || fail "no Rattle kit beside rt"
case $kind in
    address) attribute=sanitize_address flags='-O1 -fsanitize=address' ;;
    thread) attribute=sanitize_thread flags='-O1 -fsanitize=thread' ;;
    coverage) attribute=sanitize_address flags='-O2 -fsanitize=address -fsanitize-coverage=trace-pc-guard' ;;
    *) fail "no kind $kind" ;;
esac

work=$(mktemp -d)
trap 'rm -rf "$work"' EXIT
for module in "$@"; do
    name=$(basename "$module" .bc)
    "$clang" --target=x86_64-unknown-linux-gnu -Xclang -disable-llvm-passes -S -emit-llvm -x ir "$module" -o "$work/$name.ll"
    sed -e "${WATCHED_AS:-}" "$work/$name.ll" > "$work/named.ll"
    python3 "$here/tools/assumed.py" "$work/named.ll" "$attribute" > "$work/$name.ll"
    # shellcheck disable=SC2086  # flags are words
    "$clang" $flags -ffunction-sections -fPIC -c -x ir "$work/$name.ll" -o "$work/$name.o"
    # Debian's library of the thread sanitizer knows these by the C library's names, which it watches too.
    [ "$kind" != thread ] || objcopy --redefine-sym __tsan_memcpy=memcpy --redefine-sym __tsan_memmove=memmove --redefine-sym __tsan_memset=memset "$work/$name.o"
    nm "$work/$name.o" | grep -q "__$(printf '%s' "$attribute" | sed 's/sanitize_address/asan_report/; s/sanitize_thread/tsan_read/')" || fail "$module was not watched by what it should be"
done
rm -f "$out"
ar rcs "$out" "$work"/*.o
printf 'watched.sh: %s, watched for %s\n' "$out" "$kind"
