#!/usr/bin/env bash
# How long the first `./violstream plan` takes on a fresh clone of this checkout, by the clock: cargo compiles the command, rt proves and builds cmd_plan.
#
#   bench/first_call.sh [FOLDER]     (a new folder below FOLDER, by default below TMPDIR or /tmp; it is removed at the end)
#
# Nothing else should run meanwhile. Printed are the seconds, the CPU seconds of all that was started, and what the command says as it goes.
set -u
here=$(cd "$(dirname "$0")/.." && pwd)
folder=$(mktemp -d "${1:-${TMPDIR:-/tmp}}/violstream-first.XXXXXX") || exit 1
trap 'rm -rf "$folder"' EXIT
git clone -q "$here" "$folder/checkout" && cd "$folder/checkout" || exit 1
uptime
TIMEFORMAT='first plan: %R s by the clock, %U s of CPU for programs and %S s for the system'
time ./violstream plan examples/VX0041.run > "$folder/answer" || exit 1
cmp "$folder/answer" examples/VX0041.plan || exit 1
TIMEFORMAT='second plan: %R s'
time ./violstream plan examples/VX0041.run > "$folder/answer"
