#!/bin/sh
# Compiles a proved crate for this machine's own processor, to measure it where that is not x86-64: the module that the
# Rattle compiler hands to its back end is kept, its target named anew, and compiled at -O3 as the kit does. What is
# installed, and what the gate runs, is the x86-64 build.
#
#   tools/native.sh CRATE OUT [ABOVE]     OUT: a program; for a library crate an archive; a name that ends in .bc: the module itself
#
# ABOVE: a folder of a crate above CRATE, in no repository, with nothing but src/: that one is compiled, and may name CRATE and what CRATE names. CRATE
# may be several names in one word then.
#
# The crates below CRATE must be proved already, and CRATE too where something stands above it (rt check in its folder).
set -eu
unset -v CDPATH above clang crate here layout out source triple word work
here=$(cd "$(dirname "$0")/.." && pwd)
. "$here/tools/machine.sh"
. "$here/tools/keep.sh"
# shellcheck source=tools/rattle.sh
. "$here/tools/rattle.sh"

fail() {
    printf 'native.sh: %s\n' "$1" >&2
    exit 1
}

[ $# -eq 2 ] || [ $# -eq 3 ] || fail "usage: tools/native.sh CRATE OUT [ABOVE]"
crate=$1 out=$2 above=${3:-}
source=${above:-$here/crates/$crate}/src
clang=$(kit)/toolchain/bin/clang
[ -x "$clang" ] || fail "no Rattle kit beside rt"

work=$(mktemp -d)
trap 'rm -rf "$work"' EXIT
keeping_tools "$work" || fail "no kit that keeps its modules could be made"

# The words for the compiler, as rt gives them.
# shellcheck disable=SC2086  # names of crates
if [ -z "$above" ]; then words_for "$crate"; else words_above "$source" $crate; fi > "$work/words"
set --
while IFS= read -r word; do set -- "$@" "$word"; done < "$work/words"
[ -f "$source/main.rt" ] || set -- "$@" --crate-type staticlib
(cd "${source%/src}" && exec "$(kit)/bin/rattle" build "$@" --toolchain "$work/toolchain" -o "$work/made") > "$work/log" 2>&1 || { tail -n 5 "$work/log" >&2; fail "$crate was not built"; }

case $out in
    *.bc)
        cp "$work/module.bc" "$out"
        printf 'native.sh: %s, the module of %s\n' "$out" "${above:-$crate}"
        exit
        ;;
esac

# The same module for this processor: its triple and data layout are the compiler's own.
"$clang" --target=x86_64-unknown-linux-gnu -Xclang -disable-llvm-passes -S -emit-llvm -x ir "$work/module.bc" -o "$work/module.ll"
printf '' | "$clang" -x c - -S -emit-llvm -o "$work/empty.ll"
layout=$(sed -n '/^target datalayout/p' "$work/empty.ll")
triple=$(sed -n '/^target triple/p' "$work/empty.ll")
sed -e "s/^target datalayout.*/$layout/" -e "s/^target triple.*/$triple/" -e 's/"target-cpu"="x86-64[^"]*"//' "$work/module.ll" > "$work/here.ll"
"$clang" -O3 -ffunction-sections -fdata-sections -fPIC -c -x ir "$work/here.ll" -o "$work/here.o"
if [ -f "$source/main.rt" ]; then
    # What std calls of C the kit has for x86-64 alone.
    if [ "$emulated" = no ]; then set -- "$(kit)/c/libos_c.a" "$(kit)/c/liblibc_c.a"; else set --; fi
    gcc "$work/here.o" "$@" -o "$out"
else
    rm -f "$out"
    ar rcs "$out" "$work/here.o"
fi
printf 'native.sh: %s, compiled for %s\n' "$out" "$machine"
