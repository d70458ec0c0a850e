#!/bin/sh
# Times the readers of LTFS indexes beside libexpat, on an index and a list that make.py writes, and prints a line for each.
#
#   bench/index/run.sh [--rounds N] [--files N,N..] [WORDS of make.py: --lines N, --wanted N, --indent N]
#
# --files: of so many files (default 100000); of several indexes all are timed in one run, in turn.
# A crate of three functions that hand their texts on is made here, in a temporary folder, and compiled for this machine over the proved crates by
# tools/native.sh, and so is the call violstream_pick: `rt lib` in the folders of these crates comes first. CC and CFLAGS as for bench/run.sh.
set -eu
unset -v CDPATH

here=$(cd "$(dirname "$0")/../.." && pwd)
out=$(mktemp -d)
trap 'rm -rf "$out"' EXIT

fail() {
    printf 'bench/index/run.sh: %s\n' "$1" >&2
    exit "${2:-1}"
}

rounds=5 files=100000
while :; do
    case ${1:-} in
        --rounds) case ${2:-} in '' | *[!0-9]*) fail "--rounds takes a number" 2 ;; esac; rounds=$2 ;;
        --files) case ${2:-} in '' | *[!0-9,]*) fail "--files takes numbers" 2 ;; esac; files=$2 ;;
        *) break ;;
    esac
    shift 2
done
for tool in python3 "${CC:-gcc}"; do
    command -v "$tool" > /dev/null || fail "no $tool"
done
for crate in answer_ltfs tape_picks boundary_pick; do
    [ -e "$here/crates/$crate/out/rlib/$crate.rlib/format" ] || fail "$crate is not proved; 'rt lib' in its folder proves it"
done

mkdir -p "$out/above/src"
cat > "$out/above/src/lib.rt" << 'END'
// The readers of an index, for index.c.
#![tactic(auto)]

#[unsafe(no_mangle)]
pub extern "C" fn bench_balanced(index: &[u8]) -> u64 {
    if tape_markup::is_balanced(index) {
        return 1;
    }
    0
}

#[unsafe(no_mangle)]
pub extern "C" fn bench_ltfs(label: &[u8], index: &[u8]) -> u64 {
    let mut out = [0u8; 64];
    let report = answer_ltfs::table_sheet(b"VX0041", label, index, &mut out);
    let refusal = report.refusal;
    refusals::number(refusal)
}

#[unsafe(no_mangle)]
pub extern "C" fn bench_picks(index: &[u8], list: &[u8], states: &mut [u64], starts: &mut [u64], ends: &mut [u64]) -> u64 {
    if tape_picks::find_files(index, list, 0, 524288, 98, states, starts, ends) {
        return 1;
    }
    0
}
END
"$here/tools/native.sh" 'answer_ltfs tape_picks' "$out/readers.a" "$out/above" > "$out/log" || { cat "$out/log" >&2; fail "the readers were not compiled"; }
"$here/tools/native.sh" boundary_pick "$out/pick.a" > "$out/log" || { cat "$out/log" >&2; fail "the call was not compiled"; }
# shellcheck disable=SC2086  # flags are words
"${CC:-gcc}" -std=c11 -D_POSIX_C_SOURCE=200809L ${CFLAGS:--O3} -Wall -Wextra -I "$here/include" "$here"/bench/index/*.c "$out/readers.a" "$out/pick.a" -lexpat -o "$out/index" \
    || fail "no bench: libexpat's header is in Debian's libexpat1-dev"
for number in $(printf '%s' "$files" | tr ',' ' '); do
    python3 "$here/bench/index/make.py" "$out/$number.xml" "$out/$number.list" --files "$number" "$@"
done
# shellcheck disable=SC2046  # names without blanks
"$out/index" "$rounds" $(for number in $(printf '%s' "$files" | tr ',' ' '); do printf '%s\n' "$out/$number.xml" "$out/$number.list"; done)
