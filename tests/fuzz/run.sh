#!/bin/sh
# Fuzzers with coverage over the calls that take texts (AFL++): README.md beside this file says what an input is, and what is looked at.
#
#   tests/fuzz/run.sh CALL SECONDS   answer, check, mend, event, pick or ltfs: begins with the corpus and with what earlier runs have kept, in target/fuzz/CALL.
#                                    Prints what was done. What was found stands in target/fuzz/CALL/default/crashes; the status is 1 then
#   tests/fuzz/run.sh --corpus       the corpora alone, and by the models: no fuzzer is needed
#   tests/fuzz/run.sh --planted      the harness on a library with faults (planted.c): each must be found
#   tests/fuzz/run.sh --gate         --planted, ten seconds of each, which begin with the corpora, and these by the models
#   tests/fuzz/run.sh --shrink CALL  of the inputs that target/fuzz/CALL has kept the shortest that go every edge, in place of the corpus
#
# Needed: what `tools/build.sh library violstream modules` leaves; for ltfs that cmd_ltfs is proved; AFL++ and its clang (Debian: afl++).
set -eu
unset -v CDPATH call calls dict fault file flags found from here kept log made number out
here=$(cd "$(dirname "$0")/../.." && pwd)
calls='answer check mend event pick ltfs'
made=$here/target/fuzz/made
log=$made/log
export AFL_NO_UI=1 AFL_SKIP_CPUFREQ=1 AFL_I_DONT_CARE_ABOUT_MISSING_CRASHES=1 AFL_NO_AFFINITY=1 AFL_NO_WARN_INSTABILITY=1 AFL_QUIET=1

fail() {
    printf 'tests/fuzz/run.sh: %s\n' "$1" >&2
    exit 1
}

# newer FILE THAN...: whether FILE is there and none of these is newer.
newer() {
    file=$1
    shift
    [ -e "$file" ] || return 1
    [ -z "$(find "$@" -newer "$file")" ]
}

# What all fuzzers share is made by one at a time.
alone() { # WORD...
    mkdir -p "$made"
    exec 9> "$made/lock"
    flock 9
    "$@" 9>&- || exit 1
    exec 9>&-
}

# The library and the program behind `violstream ltfs`, each with what watches them. The program's main, and its reading and writing, are called otherwise.
watched() { # KIND
    newer "$made/$1.a" "$here"/target/staticlib/modules/*.bc "$here/tools/watched.sh" "$here/tools/assumed.py" ||
        "$here/tools/watched.sh" "$1" "$made/$1.a" > "$log" 2>&1 || { cat "$log" >&2; fail "the library was not compiled to be watched"; }
    [ "$call" = ltfs ] || return 0
    newer "$made/cmd_ltfs.bc" "$here/target/stamp/cmd_ltfs" || "$here/tools/native.sh" cmd_ltfs "$made/cmd_ltfs.bc" > "$log" 2>&1 || { cat "$log" >&2; fail "no module of cmd_ltfs"; }
    newer "$made/$1-ltfs.a" "$made/cmd_ltfs.bc" "$here/tools/watched.sh" "$here/tools/assumed.py" ||
        WATCHED_AS='s/@\(main\|read\|write\)(/@ltfs_\1(/' "$here/tools/watched.sh" "$1" "$made/$1-ltfs.a" "$made/cmd_ltfs.bc" > "$log" 2>&1 || { cat "$log" >&2; fail "cmd_ltfs was not compiled to be watched"; }
}

# The harness of a call: for AFL++, or to go through files that are named.
harness() { # address|coverage
    alone watched "$1"
    set -- "$1" "$here/tests/fuzz/fuzz.c" "$here/tests/fuzz/calls/$call.c" -I "$here/include"
    [ "$call" != ltfs ] || set -- "$@" "$made/$1-ltfs.a"
    flags='-std=gnu11 -O1 -g -Wall -Wextra'
    out=$made/$1-$call
    if [ "$1" = coverage ]; then
        shift
        # Not optimised: AFL++ 4.04 counts a guard too few where a value is chosen without a branch, and reads past the last of them.
        # shellcheck disable=SC2086  # flags are words
        AFL_USE_ASAN=1 afl-clang-fast $flags -O0 "$@" "$made/coverage.a" -o "$out"
    else
        shift
        # shellcheck disable=SC2086
        gcc $flags -fsanitize=address,undefined -fno-sanitize-recover=all "$@" "$made/address.a" -o "$out"
    fi
}

# What is asked of the model, and of what: a caller of the library, both watched; or the program as it was built.
by_model() { # FILE...
    if [ "$call" = ltfs ]; then
        python3 "$here/tests/fuzz/replay.py" ltfs "$here/target/bin/cmd_ltfs" "$@"
        return
    fi
    alone watched address
    alone make -s -C "$here/tests/c" CC=gcc ARCHIVE="$made/address.a" OUT="$made" CFLAGS='-O1 -g -fsanitize=address,undefined -fno-sanitize-recover=all' caller
    python3 "$here/tests/fuzz/replay.py" "$call" "$made/caller" "$@"
}

corpus() {
    for call in $calls; do
        harness address
        "$made/address-$call" "$here/tests/fuzz/corpus/$call"/* > "$log" 2>&1 || { tail -n 30 "$log" >&2; fail "$call: an input of the corpus is not answered as it must be"; }
        by_model "$here/tests/fuzz/corpus/$call"/* || fail "$call: an input of the corpus is answered otherwise than by the model"
    done
}

words_of() {
    case $call in
        answer | check | mend) printf 'sheet' ;;
        event) printf 'event' ;;
        pick | ltfs) printf 'tape' ;;
        *) fail "no call $call; there are: $calls" ;;
    esac
}

stat() { # NAME
    sed -n "s/^$1 *: //p" "$kept/default/fuzzer_stats"
}

# fuzz SECONDS FOLDER: the folder keeps what is found, and is gone on from.
fuzz() {
    kept=$2 dict=$here/tests/fuzz/words/$(words_of).dict
    harness coverage
    mkdir -p "$kept"
    if [ -d "$kept/default/queue" ]; then from=-; else from=$here/tests/fuzz/corpus/$call; fi
    afl-fuzz -m none -t 5000 -G 16384 -V "$1" -i "$from" -o "$kept" -x "$dict" -- "$made/coverage-$call" > "$log" 2>&1 || { tail -n 20 "$log" >&2; fail "afl-fuzz ended otherwise"; }
    # An input that it begins with and that crashes is left out by afl-fuzz, with words alone.
    ! grep -q 'results in a crash\|crashed with one of the test cases\|results in a timeout' "$log" || { grep -A 2 'Attempting dry run' "$log" | tail -n 20 >&2; fail "$call: an input that it begins with is not answered as it must be"; }
    found=$(find "$kept/default/crashes" "$kept/default/hangs" -name 'id:*' | wc -l)
    printf '%s: %s s, %s executions, %s inputs kept, %s of %s edges, %s crashes, %s hangs\n' "$call" "$(stat run_time)" "$(stat execs_done)" "$(stat corpus_count)" "$(stat edges_found)" \
        "$(stat total_edges)" "$(stat saved_crashes)" "$(stat saved_hangs)"
    [ "$found" = 0 ] || fail "$call: $found inputs were not answered as they must be; they are in $kept/default"
}

shrink() {
    kept=$here/target/fuzz/$call
    harness coverage
    rm -rf "$kept/few" "$here/tests/fuzz/corpus/$call"
    mkdir -p "$here/tests/fuzz/corpus/$call"
    afl-cmin -e -m none -i "$kept/default/queue" -o "$kept/few" -- "$made/coverage-$call" > "$log" 2>&1 || { tail -n 20 "$log" >&2; fail "afl-cmin ended otherwise"; }
    number=0
    for file in "$kept/few"/*; do
        number=$((number + 1))
        cp "$file" "$here/tests/fuzz/corpus/$call/$(printf '%03d' "$number")"
    done
    printf '%s: %s inputs, %s bytes\n' "$call" "$number" "$(cat "$here/tests/fuzz/corpus/$call"/* | wc -c)"
}

planted() {
    mkdir -p "$made/planted"
    gcc -std=gnu11 -O1 -g -fsanitize=address,undefined -fno-sanitize-recover=all -I "$here/include" "$here/tests/fuzz/fuzz.c" "$here/tests/fuzz/calls/answer.c" "$here/tests/fuzz/planted.c" -o "$made/planted/answer"
    printf 'tape' > "$made/planted/1"
    printf 'x' > "$made/planted/2"
    "$made/planted/answer" "$made/planted/1" "$made/planted/2" > "$log" 2>&1 || { cat "$log" >&2; fail "the harness stops where there is no fault"; }
    for fault in 1 2 3 4 5 6 7 8 9 10 11; do
        ! FAULT=$fault "$made/planted/answer" "$made/planted/1" "$made/planted/2" > "$log" 2>&1 || fail "the harness does not see fault $fault of planted.c"
    done
    printf 'fuzz: the harness finds eleven faults of eleven\n'
}

# Whether AFL++ is here, with a compiler that has the address sanitizer.
can_fuzz() {
    command -v afl-fuzz > /dev/null || return 1
    mkdir -p "$made"
    echo 'int main(void) { return 0; }' | AFL_USE_ASAN=1 afl-clang-fast -x c - -o "$made/trial" > /dev/null 2>&1
}

gate() {
    planted
    if ! can_fuzz; then
        corpus
        printf 'fuzz: left out but for the corpora, AFL++ or the address sanitizer of its compiler is not here\n'
        return
    fi
    for call in $calls; do
        rm -rf "$made/gate"
        fuzz 10 "$made/gate"
        by_model "$here/tests/fuzz/corpus/$call"/*
    done
}

case $#,${1:-} in
    1,--gate) gate ;;
    1,--corpus) corpus ;;
    1,--planted) planted ;;
    2,--shrink) call=$2 && words_of > /dev/null && shrink ;;
    2,[a-z]*)
        call=$1 log=$made/log-$1
        words_of > /dev/null
        case $2 in '' | *[!0-9]*) fail "$2 is no number of seconds" ;; esac
        fuzz "$2" "$here/target/fuzz/$call"
        by_model "$kept/default/queue"/id:*
        ;;
    *) fail "usage: tests/fuzz/run.sh CALL SECONDS, --shrink CALL, --corpus, --planted or --gate" ;;
esac
