#!/bin/sh
# Draws sheets, calls, days, months, lists and tapes for so many minutes and compares each answer with models that share nothing with the crates.
#
#   tests/soak.sh [--cores N] [--seed S] [--keep FOLDER] MINUTES
#   tests/soak.sh [--keep FOLDER] --short       every kind a little, and that a wrong answer of each kind is seen: half a minute
#
# Prints how many answers were compared, by kind, and how many differ; the status is 0 where none does. --cores: by default all. --seed: by default the
# clock's; it is printed, and with it the same is drawn again. --keep: what is built stays there, for a difference's batch alone (tests/python/soak.py).
#
# The library is target/staticlib/libviolstream.a, the programs are those in target/bin: `./violstream build` makes both. For x86-64.
set -u
unset -v CDPATH
here=$(cd "$(dirname "$0")/.." && pwd)
. "$here/tools/machine.sh"
archive=$here/target/staticlib/libviolstream.a
usage='usage: tests/soak.sh [--cores N] [--seed S] [--keep FOLDER] MINUTES | --short'

fail() {
    printf 'tests/soak.sh: %s\n' "$1" >&2
    exit "${2:-1}"
}

kept='' minutes='' words=''
while [ $# -gt 0 ]; do
    case $1 in
        --cores | --seed)
            case ${2:-} in '' | *[!0-9]*) fail "$1 takes a number; $usage" 2 ;; esac
            words="$words $1 $2"
            shift
            ;;
        --keep) [ -n "${2:-}" ] || fail "--keep takes a folder; $usage" 2; kept=$2; shift ;;
        --short) minutes=short ;;
        '' | *[!0-9]*) fail "$usage" 2 ;;
        *) minutes=$1 ;;
    esac
    shift
done
[ -n "$minutes" ] || fail "$usage" 2
[ "$emulated" = no ] || fail "this machine is $machine, and the library is for x86-64"
[ -f "$archive" ] || fail "no archive at $archive; 'tools/build.sh library violstream' makes it"
[ -e "$here/target/bin/cmd_ltfs" ] || fail "no programs in $here/target/bin; './violstream build' makes them"

made=${kept:-$(mktemp -d)} || fail "no temporary folder"
mkdir -p "$made/bin" && made=$(cd "$made" && pwd) || exit 1
[ -n "$kept" ] || trap 'rm -rf "$made"' EXIT
cp "$archive" "$made/libviolstream.a" || exit 1
make -s -C "$here/tests/c" ARCHIVE="$made/libviolstream.a" OUT="$made" compare caller || fail "the callers in C were not built"
mv "$made/compare" "$made/compare_c"
for name in compare any_head movements; do
    rustc -O --edition 2021 "$here/tests/rust/$name/$name.rs" -L native="$made" -l static=violstream -o "$made/$name" || fail "rust/$name was not built"
done
mv "$made/compare" "$made/compare_rust"
cp "$here"/target/bin/cmd_* "$made/bin/" || exit 1 # as they are now, whatever is built meanwhile
if [ "$minutes" = short ]; then
    python3 "$here/tests/python/soak.py" --short "$made"
else
    # shellcheck disable=SC2086  # options are words
    python3 "$here/tests/python/soak.py" "$minutes" "$made" $words
fi
