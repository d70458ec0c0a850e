#!/usr/bin/env bash
# Has rt make something:
#
#   tools/build.sh check CRATE                   proves a program and all that it stands on, links it, and runs it on what its crate records (`rt run`)
#   tools/build.sh programs                      takes the programs as `rt ci` has just proved, linked and run them
#   tools/build.sh library violstream [modules]  the library for C; with `modules` also the modules that it is compiled from (tools/watched.sh)
#
# Programs go to target/bin, and a file of the same name in target/stamp says that one is proved and has run as recorded; the library goes to
# target/staticlib, its modules to target/staticlib/modules. Nothing is decided here: rt and rattle prove, and only what is proved is built.
#
# Printed is what they print, behind a line `rooms=` with the folder of this script's temporary files. It goes when this ends, also by a signal.
# For each crate that is proved there is a line `rt: CRATE proved (SECONDS s)`; as long as it is not, target/log/CRATE.out is empty.
set -u
unset -v CDPATH apart began begun crate folder given here job jobs line order proved recorded rooms status teller words
here=$(cd "$(dirname "$0")/.." && pwd)
rooms=

# A second signal does not cut this short.
end_all() {
    trap '' HUP INT TERM
    for job in $(jobs -p); do
        kill "$job" 2> /dev/null
    done
    rm -rf "${rooms:-}"
}

trap end_all EXIT
trap 'trap "" HUP INT TERM; exit 129' HUP
trap 'trap "" HUP INT TERM; exit 130' INT
trap 'trap "" HUP INT TERM; exit 143' TERM
# shellcheck source=tools/memory.sh
. "$here/tools/memory.sh"
# shellcheck source=tools/machine.sh
. "$here/tools/machine.sh"
# shellcheck source=tools/rattle.sh
. "$here/tools/rattle.sh"
folder=$(room_folder)
rooms=$(mktemp -d "$folder/violstream.XXXXXX" 2> /dev/null) || { printf 'error: cannot make a temporary folder in %s\n' "$folder"; exit 1; }
printf 'rooms=%s\n' "$rooms"

fail() {
    printf 'error: %s\n' "$1"
    exit 1
}

# tell CRATE: passes on what is said, and says of each crate when it is proved. rt begins one with `rt: chose --jobs`; CRATE is begun already.
tell() {
    proved=$1 began=$SECONDS
    [ -z "$proved" ] || : > "$here/target/log/$proved.out"
    while IFS= read -r line; do
        case $line in
            'rt: chose --jobs '*)
                [ -z "$proved" ] || echo 'left' > "$here/target/log/$proved.out"
                proved=${line##* } began=$SECONDS && : > "$here/target/log/$proved.out"
                ;;
            'rt: running '* | 'rt: nothing has changed '* | 'rt: '*': begins with what a check kept '*) ;;
            logic=proved*)
                printf '%s\n' "$line"
                [ -z "$proved" ] || printf 'rt: %s proved (%s s)\n' "$proved" "$((SECONDS - began))" | tee "$here/target/log/$proved.out"
                proved=
                ;;
            *) printf '%s\n' "$line" ;;
        esac
    done
    [ -z "$proved" ] || echo 'not proved' > "$here/target/log/$proved.out"
}

# told CRATE COMMAND...: in the crate's folder, on the file `given`; where $apart names a file, what comes on standard output goes there. The status is the command's.
told() {
    mkfifo "$rooms/said" || return
    tell "${begun:-}" < "$rooms/said" 8>&- &
    teller=$!
    (cd "$here/crates/$1" && shift && export TMPDIR="$rooms" && exec "$@") < "${given:-/dev/null}" 2> "$rooms/said" > "${apart:-$rooms/said}" 8>&- &
    wait "$!"
    status=$?
    wait "$teller"
    rm -f "$rooms/said"
    return "$status"
}

# take PROGRAM FROM: it goes to its place at once, and whole; then the stamp.
take() {
    cp "$2" "$here/target/bin/.$1.part" && chmod 755 "$here/target/bin/.$1.part" && mv -f "$here/target/bin/.$1.part" "$here/target/bin/$1" && echo > "$here/target/stamp/$1"
}

# rt links a program, and runs it in its crate's folder. What it writes must be what the crate records.
program() {
    crate=$here/crates/$1
    [ -f "$crate/src/main.rt" ] || fail "no program $1"
    rm -f "$here/target/stamp/$1"
    given=/dev/null recorded=/dev/null apart=$rooms/written
    [ ! -f "$crate/stdin" ] || given=$crate/stdin
    [ ! -f "$crate/stdout" ] || recorded=$crate/stdout
    told "$1" rt run || fail "rt run in crates/$1 ended with status $status"
    cmp -s "$recorded" "$apart" || fail "what $1 writes is not what crates/$1/stdout has"
    take "$1" "$crate/out/$1"
}

programs() {
    for crate in "$here"/crates/*/src/main.rt; do
        crate=${crate%/src/main.rt}
        [ -x "$crate/out/${crate##*/}" ] || fail "no program in $crate/out; 'rt ci' makes it"
        take "${crate##*/}" "$crate/out/${crate##*/}" || return
    done
}

# The archive of a crate that has functions marked for C. To rt it is a library, which others stand on; what is built here is the same text, proved once more, with all that it calls.
archive() {
    are_below "$1" || told "$1" rt lib || return
    mapfile -t words < <(words_for "$1")
    words=("$(kit)/bin/rattle" build "${words[@]}" --jobs "$jobs" --crate-type staticlib --cpu x86-64 --toolchain "$rooms/toolchain" -o "$rooms/lib$1.a")
    begun=$1 told "$1" "${words[@]}" && return
    # What `rt ci` made of a library fits only what it made of those below, and some may be of `rt check`.
    are_of_one "$1" && return 1
    told "$1" rt lib && begun=$1 told "$1" "${words[@]}"
}

# The library for C: an archive of each such crate, and their objects in one archive.
library() {
    order=(boundary boundary_desk boundary_texts boundary_pick)
    jobs=$(nproc 2> /dev/null || echo 1)
    [ "$jobs" -le 4 ] || jobs=4
    rm -rf "$here/target/staticlib/modules" # of an older library
    # shellcheck source=tools/keep.sh
    . "$here/tools/keep.sh"
    keeping_tools "$rooms" || fail 'no Rattle kit beside rt'
    [ "${2:-}" != modules ] || mkdir -p "$here/target/staticlib/modules" || return
    for crate in "${order[@]}"; do
        archive "$crate" || fail "the archive of $crate was not built"
        [ "${2:-}" != modules ] || mv -f "$rooms/module.bc" "$here/target/staticlib/modules/$crate.bc" || return
    done
    { echo "create $rooms/all.a"; printf "addlib $rooms/lib%s.a\n" "${order[@]}"; echo save; echo end; } | "$(kit)/toolchain/bin/llvm-ar" -M || return
    # From another disk it is copied, and a copy that was cut off would be newer than every source: aside first, and then at once.
    cp "$rooms/all.a" "$here/target/staticlib/lib$1.part" && mv -f "$here/target/staticlib/lib$1.part" "$here/target/staticlib/lib$1.a"
}

mkdir -p "$here/target"/{bin,log,stamp,staticlib} || exit
case $1 in
    check) program "$2" ;;
    programs) programs ;;
    library) library "$2" "${3:-}" ;;
    *) fail "no such word: $1" ;;
esac
