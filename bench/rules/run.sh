#!/bin/sh
# Plans runs by the papers' rules of thumb and by ARCHIVE (default target/staticlib/libviolstream.a), and prints a table.
#
#   bench/rules/run.sh [--native] [--svg FILE] [--lines FILE] [ARCHIVE]
#
# --native: ARCHIVE was made by tools/native.sh, for this machine's own processor.
# --svg FILE: draws the performance profiles, too. docs/rules.svg is made so.
# --lines FILE: keeps the line of each run and rule.
# CC and CFLAGS as for bench/run.sh. A minute or two; emulated, some ten times as long, and the times say nothing.
set -eu

here=$(cd "$(dirname "$0")/../.." && pwd)
. "$here/tools/machine.sh"
archive=$here/target/staticlib/libviolstream.a

fail() {
    printf 'bench/rules/run.sh: %s\n' "$1" >&2
    exit "${2:-1}"
}

out=$(mktemp -d)
trap 'rm -rf "$out"' EXIT
svg='' lines=$out/lines
while [ $# -gt 0 ]; do
    case $1 in
        --native) emulated=no cc=gcc emulator='' ;;
        --svg | --lines) [ $# -gt 1 ] || fail "$1 needs a file's name" 2; [ "$1" = --svg ] && svg=$2 || lines=$2; shift ;;
        -*) fail "unknown option $1; usage: bench/rules/run.sh [--native] [--svg FILE] [--lines FILE] [ARCHIVE]" 2 ;;
        *) archive=$1 ;;
    esac
    shift
done

cc=${CC:-$cc}
for tool in make python3 "$cc" $emulator; do
    command -v "$tool" > /dev/null || fail "no $tool"
done
[ -f "$archive" ] || fail "no archive at $archive; 'tools/build.sh library violstream' makes it"

cp "$archive" "$out/libviolstream.a"
make -s -C "$here/tests/c" CC="$cc" CFLAGS="${CFLAGS:--O3}" ARCHIVE="$out/libviolstream.a" OUT="$out" rules_bench
[ "$emulated" = no ] || printf 'EMULATED: this machine is %s, the library is for x86-64; the times below say nothing about it.\n' "$machine"
${emulator:+"$emulator" -L "$cross"} "$out/rules_bench" > "$lines"
python3 "$here/bench/rules/table.py" "$lines" ${svg:+--svg "$svg"}
