#!/bin/sh
# Builds and runs the benchmark against ARCHIVE (default target/staticlib/libviolstream.a) and prints its table.
#
#   bench/run.sh [--quick | --slow SECONDS] [--native] [ARCHIVE]
#
# --quick: each size once, to see that all agree.
# --slow: no table, but a search of so many seconds for runs that take the planner long.
# --native: ARCHIVE was made by tools/native.sh, for this machine's own processor.
# CC (default gcc, or a cross compiler: see tools/machine.sh) and CFLAGS (default -O3) may be set in the environment; the
# table names them.
set -eu

here=$(cd "$(dirname "$0")/.." && pwd)
. "$here/tools/machine.sh"
archive=$here/target/staticlib/libviolstream.a
usage='usage: bench/run.sh [--quick | --slow SECONDS] [--native] [ARCHIVE]'
quick='' seconds=''
while [ $# -gt 0 ]; do
    word=$1
    shift
    case $word in
        --quick) quick=yes ;;
        --slow)
            case ${1:-} in '' | *[!0-9]*) printf 'bench/run.sh: --slow takes a number of seconds; %s\n' "$usage" >&2; exit 2 ;; esac
            seconds=$1
            shift
            ;;
        --native) emulated=no cc=gcc emulator='' ;;
        -*) printf 'bench/run.sh: unknown option %s; %s\n' "$word" "$usage" >&2; exit 2 ;;
        *) archive=$word ;;
    esac
done

cc=${CC:-$cc}
flags=${CFLAGS:--O3}
packages='make gcc'
[ "$emulated" = no ] || packages='make gcc-x86-64-linux-gnu libc6-dev-amd64-cross qemu-user'
for tool in make "$cc" $emulator; do
    command -v "$tool" > /dev/null || { printf 'bench/run.sh: no %s (Debian: apt-get install %s)\n' "$tool" "$packages" >&2; exit 1; }
done
[ -f "$archive" ] || { printf "bench/run.sh: no archive at %s; 'tools/build.sh library violstream' makes it\n" "$archive" >&2; exit 1; }

out=$(mktemp -d)
trap 'rm -rf "$out"' EXIT
cp "$archive" "$out/libviolstream.a"
make -s -C "$here/tests/c" CC="$cc" CFLAGS="$flags" ARCHIVE="$out/libviolstream.a" OUT="$out" bench
[ "$emulated" = no ] || printf 'EMULATED: this machine is %s, the library is for x86-64; the times below say nothing about it.\n' "$machine"
${emulator:+"$emulator" -L "$cross"} "$out/bench" ${quick:+--quick} ${seconds:+--slow "$seconds"}
