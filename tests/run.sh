#!/bin/sh
# Runs every test of what the prover does not cover: C declarations, the compiler's back end, standard input and output.
# Each compares what was built with programs of its own kind; README.md beside this file says what they are.
#
#   tests/run.sh [--install-tools] [--calls N] [--only TEST] [ARCHIVE]
#
# ARCHIVE: the library (default target/staticlib/libviolstream.a, which `tools/build.sh library violstream` makes). The programs that
# the comparisons in Python run are those in target/bin, which `tools/build.sh` makes.
# --install-tools: as root on Debian, what is missing is fetched by apt-get; tools.sh beside this file says what is needed.
# --calls N: random calls of each comparison in C and Rust (by default what takes about 20 seconds each; emulated, 100,000).
# --only TEST: that one alone, by its name at the end of this file.
set -u

here=$(cd "$(dirname "$0")/.." && pwd)
. "$here/tools/machine.sh"
. "$here/tests/tools.sh"
archive=$here/target/staticlib/libviolstream.a
calls=
only=
install_tools=no
time_limit=1200

fail() {
    printf 'tests/run.sh: %s\n' "$1" >&2
    exit 1
}

while [ $# -gt 0 ]; do
    case $1 in
        --install-tools) install_tools=yes ;;
        --calls) [ $# -gt 1 ] || fail "--calls needs a number"; calls=$2; shift ;;
        --only) [ $# -gt 1 ] || fail "--only needs a test's name"; only=$2; shift ;;
        -*) fail "unknown option $1; usage: tests/run.sh [--install-tools] [--calls N] [--only TEST] [ARCHIVE]" ;;
        *) archive=$1 ;;
    esac
    shift
done
[ "$emulated" = no ] || calls=${calls:-100000}

# ---- Steps ----

# step WHAT COMMAND...: the command's own words stand above the message if it fails.
step() {
    what=$1
    shift
    timeout "$time_limit" "$@"
    status=$?
    [ $status -ne 124 ] || fail "$what: still running after $time_limit seconds"
    [ $status -eq 0 ] || fail "$what: failed with status $status"
}

# step_built WHAT PROGRAM WORD...: a program that was built here.
step_built() {
    what=$1
    shift
    step "$what" ${emulator:+"$emulator" -L "$cross"} "$@"
}

# same WHAT MUST_BE IS
same() {
    cmp -s "$2" "$3" || { diff "$2" "$3" >&2; fail "$1: the output is not as it must be (< must be, > is)"; }
    printf '%s: as it must be\n' "$1"
}

# make_c NAME...: programs of tests/c/Makefile, in $out/c.
make_c() {
    step "building $*" make -s -C "$here/tests/c" CC="$cc" CXX="$cxx" ARCHIVE="$library" OUT="$out/c" "$@"
}

# make_rust NAME [WORD...]: the program tests/rust/NAME.rs or tests/rust/NAME/NAME.rs, in $out/rust, linked by these words or,
# without any, to the archive.
make_rust() {
    source=$here/tests/rust/$1.rs
    program=$out/rust/$1
    [ -f "$source" ] || source=$here/tests/rust/$1/$1.rs
    mkdir -p "$out/rust"
    shift
    [ $# -gt 0 ] || set -- -L native="$out" -l static=violstream
    set -- -O --edition 2021 "$source" "$@" -o "$program"
    [ "$emulated" = no ] || set -- "$@" --target "$rust_target" -C linker="$cc"
    step "building $source" "$rustc" ${rust_root:+--sysroot "$rust_root"} "$@"
}

# ---- Tests that are more than one program ----

header_example() {
    for name in example anywhere sheet paths tickets; do
        make_c "${name}_c" "${name}_c++"
        if command -v clang > /dev/null; then
            strictly="-fsyntax-only -Wall -Wextra -Wpedantic -Wconversion -Werror -I $here/include"
            # shellcheck disable=SC2086  # words for the compiler
            step "header $name (clang)" clang -std=c99 $strictly -x c "$out/c/$name.c"
            # shellcheck disable=SC2086
            step "header $name (clang, C++)" clang -std=c++11 $strictly -Wold-style-cast -x c++ "$out/c/$name.c"
        else
            printf 'header %s (clang): left out, clang is not here\n' "$name"
        fi
        for language in c c++; do
            step_built "header $name ($language)" "$out/c/${name}_$language" > "$out/example.is"
            same "header $name ($language)" "$out/c/$name.must" "$out/example.is"
        done
        if can_watch; then
            make_c "${name}_checked"
            step "header $name (sanitizers)" "$out/c/${name}_checked" > "$out/example.is"
            same "header $name (sanitizers)" "$out/c/$name.must" "$out/example.is"
        fi
    done
    can_watch || printf 'header (sanitizers): left out, the compiler has none here\n'
}

# Whether programs can be run here with what the compiler's sanitizers watch.
can_watch() {
    [ "$emulated" = no ] || return 1
    if [ ! -e "$out/watched.c" ]; then
        echo 'int main(void) { return 0; }' > "$out/watched.c"
        "$cc" -fsanitize=address,undefined "$out/watched.c" -o "$out/watched" 2> /dev/null
    fi
    [ -x "$out/watched" ] && "$out/watched"
}

# stopped WHAT WORDS PROGRAM: a program in which a sanitizer must find something, with these words in what it says.
stopped() {
    ! timeout 60 "$3" > "$out/stopped.said" 2>&1 || fail "$1: not found"
    grep -q "$2" "$out/stopped.said" || { head -n 30 "$out/stopped.said" >&2; fail "$1: not found as it must be"; }
    printf '%s: found, in the library\n' "$1"
}

# compare_calls FOLDER TICKETS SHEETS TAPES: the calls that the caller in a folder makes, against the models; so many of them, or with --calls 100000 so many of each call.
compare_calls() {
    if [ "${calls:-0}" -ge 100000 ]; then long=--long; else long=; fi
    step "the calls for tickets ($1)" python3 "$here/tests/python/desk_calls.py" "$out/$1/caller" ${long:---calls "$2"}
    step "the calls for sheets ($1)" python3 "$here/tests/python/answer_calls.py" "$out/$1/caller" ${long:---calls "$3"}
    step "the call for files by path ($1)" python3 "$here/tests/python/pick_calls.py" "$out/$1/caller" ${long:---cases "$4"}
}

# The calls for tickets, sheets and files by path, made in C, against the models in Python.
calls() {
    if [ "$emulated" = yes ]; then
        printf 'calls: left out, the library is not for this processor\n'
        return
    fi
    make_c caller caller_planted
    step "faults in the calls" python3 "$here/tests/python/planted_calls.py" "$out/c/caller_planted"
    compare_calls c 30000 6000 600
}

# watched_by SANITIZER KIND NAME...: the library, watched (tools/watched.sh), and callers of it in C, in $out/KIND.
watched_by() {
    sanitizer=$1 kind=$2
    shift 2
    mkdir -p "$out/$kind"
    step "building the library, watched ($kind)" "$here/tools/watched.sh" "$kind" "$out/$kind/library.a"
    step "building callers, watched ($kind)" make -s -C "$here/tests/c" CC="$cc" ARCHIVE="$out/$kind/library.a" OUT="$out/$kind" CFLAGS="-O1 -g -fsanitize=$sanitizer -fno-sanitize-recover=all" "$@"
}

# The library compiled once more from the same modules: every address that it reads or writes is looked at, and all that it assumes. The comparisons run on it; with --calls 100000, so many
# calls of each. A row that is too short must be found, in its own code.
watched() {
    can_watch || { printf 'watched: left out, the compiler has no sanitizers here\n'; return; }
    [ -d "$here/target/staticlib/modules" ] || fail "no modules beside the archive; 'tools/build.sh library violstream modules' makes them"
    many=${calls:-0}
    step "what the library assumes is checked" python3 "$here/tests/python/assumptions.py"
    watched_by address,undefined address short_row compare daemon caller caller_planted
    stopped "a row one word short" 'SUMMARY: AddressSanitizer: heap-buffer-overflow .* in [a-z_]*::' "$out/address/short_row"
    a_day "daemon (library watched)" "$out/address/daemon"
    step "c/compare (library watched)" "$out/address/compare" --apart --calls "$((many > 0 ? 5 * many : 20000))"
    step "faults in the calls (caller watched)" env ASAN_OPTIONS=symbolize=0 python3 "$here/tests/python/planted_calls.py" "$out/address/caller_planted" --watched
    compare_calls address 4000 3000 200
    watched_threads
}

# Two threads that touch one place are seen: those that share a row must be, those with rows of their own must not.
watched_threads() {
    if ! "$cc" -fsanitize=thread "$out/watched.c" -o "$out/trial" 2> /dev/null || ! "$out/trial"; then
        printf 'watched (threads): left out, the compiler has no such sanitizer here\n'
        return
    fi
    watched_by thread thread shared_row threads threads_calls
    stopped "a row of two threads" 'SUMMARY: ThreadSanitizer: data race .* in [a-z_]*::' "$out/thread/shared_row"
    step "c/threads (library watched)" "$out/thread/threads" "$((many > 0 ? 1000 : 200))"
    step "c/threads_calls (library watched)" "$out/thread/threads_calls" "$((many > 0 ? 300 : 40))"
}

# Ten seconds of each fuzzer, and its corpus.
fuzzers() {
    can_watch || { printf 'fuzzers: left out, the compiler has no sanitizers here\n'; return; }
    step "fuzzers" "$here/tests/fuzz/run.sh" --gate
}

# What the command reads by itself, damaged.
readers() {
    step "the command's own readers" python3 "$here/tests/fuzz/command.py"
}

# answer_requests WHAT PROGRAM: examples/planning.c
answer_requests() {
    step_built "$1" "$2" < "$here/examples/planning.requests" > "$out/answers.is"
    same "$1" "$here/examples/planning.answers" "$out/answers.is"
}

# a_day WHAT PROGRAM: examples/daemon.c
a_day() {
    rm -f "$out/day.state" "$out/answers.is"
    step_built "$1" "$2" "$out/day.state" "$here/examples/day.run" "$here/examples/daemon.requests" "$out/answers.is"
    same "$1" "$here/examples/daemon.answers" "$out/answers.is"
}

# The two examples in C; the daemon also ended at each of its steps, and watched by sanitizers.
daemon() {
    make_c planning daemon
    answer_requests "planning against the archive" "$out/c/planning"
    a_day "daemon against the archive" "$out/c/daemon"
    step "the daemon ended at every step" python3 "$here/tests/python/daemon.py" ${emulator:+"$emulator" -L "$cross"} "$out/c/daemon"
    if can_watch; then
        make_c daemon_checked
        a_day "daemon (sanitizers)" "$out/c/daemon_checked"
    fi
}

# daemon_by HOW PROGRAM WORD...: both built as a C programmer builds them, by the compiler alone.
daemon_by() {
    how=$1 program=$2
    shift 2
    step "building planning.c $how" "$cc" -std=c11 -O2 "$here/examples/planning.c" "$@" -o "$program"
    answer_requests "planning $how" "$program"
    step "building daemon.c $how" "$cc" -std=c11 -O2 "$here/examples/daemon.c" "$@" -o "$program"
    a_day "daemon $how" "$program"
}

# The command as it was installed, where there is neither a checkout nor rt.
command_installed() {
    path=$(printf '%s' "$PATH" | tr ':' '\n' | while IFS= read -r folder; do [ -x "$folder/rt" ] || printf '%s:' "$folder"; done)
    step "the installed command" env -u RATTLE_HOME PATH="${path%:}" "$prefix/bin/violstream" plan - < "$here/examples/VX0041.run" > "$out/plan.is"
    same "the installed command" "$here/examples/VX0041.plan" "$out/plan.is"
    step "the installed command's plan for a head anywhere" env -u RATTLE_HOME PATH="${path%:}" "$prefix/bin/violstream" plan --any - < "$here/examples/mounted.run" > "$out/plan.is"
    same "the installed command's plan for a head anywhere" "$here/examples/mounted.plan" "$out/plan.is"
    step "the installed command's plain engine" env -u RATTLE_HOME PATH="${path%:}" "$prefix/bin/violstream" field - < "$here/examples/VX0041.run" > "$out/field.is"
    same "the installed command's plain engine" "$here/examples/VX0041.plan" "$out/field.is"
    step "the installed command's figures" env -u RATTLE_HOME PATH="${path%:}" "$prefix/bin/violstream" buys "$here/examples/VX0041.run" > "$out/buys.is"
    same "the installed command's figures" "$here/crates/cmd_buys/stdout" "$out/buys.is"
    step "the installed command's figures for a head anywhere" env -u RATTLE_HOME PATH="${path%:}" "$prefix/bin/violstream" buys --any "$here/examples/mounted-3.run" > "$out/buys.is"
    same "the installed command's figures for a head anywhere" "$here/crates/cmd_buys_any/stdout" "$out/buys.is"
    step "the installed command's price" env -u RATTLE_HOME PATH="${path%:}" "$prefix/bin/violstream" price "$here/examples/VX0041.run" "$here/examples/VX0041.list" > "$out/price.is"
    same "the installed command's price" "$here/crates/cmd_price/stdout" "$out/price.is"
    printf 'formed=yes\nwalk=yes\nleast=yes\n' > "$out/check.must"
    step "the installed command's check" env -u RATTLE_HOME PATH="${path%:}" "$prefix/bin/violstream" check "$here/examples/VX0041.run" "$here/examples/VX0041.plan" > "$out/check.is"
    same "the installed command's check" "$out/check.must" "$out/check.is"
    step "the installed command's explanation" env -u RATTLE_HOME PATH="${path%:}" "$prefix/bin/violstream" explain --svg "$out/picture.svg" "$here/examples/VX0041.run" > "$out/explained.is"
    grep -q 'detour 2,2 buys 40' "$out/explained.is" || fail "the installed command does not explain a plan"
    grep -q '</svg>' "$out/picture.svg" || fail "the installed command draws no picture"
    step "the installed command's desk" env -u RATTLE_HOME PATH="${path%:}" "$prefix/bin/violstream" desk "$here/examples/day.run" "$here/examples/day.events" > "$out/day.is" 2> "$out/day.said"
    same "the installed command's desk" "$here/examples/day.answers" "$out/day.is"
    sed 's/^turn=$/turn=0/' "$here/examples/no-wants.run" > "$out/sheet.must"
    step "the installed command's rewriting" env -u RATTLE_HOME PATH="${path%:}" "$prefix/bin/violstream" rewrite "$here/examples/no-wants.run" > "$out/sheet.is"
    same "the installed command's rewriting" "$out/sheet.must" "$out/sheet.is"
    "$prefix/bin/violstream" version > "$out/version.is" || fail "the installed command does not say its version"
    "$here/violstream" version > "$out/version.must"
    same "the installed command's version" "$out/version.must" "$out/version.is"
}

# The server as it was installed, without rt: a filing, and the next number when it starts again.
server_installed() {
    mkdir "$out/windows" || fail "no folder for windows"
    for must in 'filed=1,1' 'filed=1,2'; do
        : > "$out/serve.said" # what the one before has said is not taken for this one's
        env -u RATTLE_HOME PATH="${path%:}" "$prefix/bin/violstream" serve --journal "$out/journal" --windows "$out/windows" "$here/examples/day.run" 2> "$out/serve.said" &
        server=$!
        tries=0
        while ! grep -q 'serving at' "$out/serve.said" && [ "$tries" -lt 600 ]; do
            tries=$((tries + 1))
            sleep 0.1
        done
        said=$("$prefix/bin/violstream" ask "$out/windows/office1" file=1,1)
        kill "$server"
        wait "$server"
        status=$?
        [ "$said,$status" = "$must,0" ] || { cat "$out/serve.said" >&2; fail "the installed server answers '$said' and ends with $status, and not $must and 0"; }
    done
    printf 'the installed server: as it must be\n'
}

# C, C++, Rust and Python against the shared library, by the name that it goes by.
shared_installed() {
    readelf -d "$prefix/lib/libviolstream.so" | grep -q 'SONAME.*\[libviolstream\.so\.[0-9]*\]' || fail "libviolstream.so has no soname"
    # Nothing is allocated, and nothing else is asked of the system: the C library copies and fills.
    needed=$(nm -D --undefined-only "$prefix/lib/libviolstream.so" | sed -n 's/^ *U //p' | sed 's/@.*//' | grep -vx -e memcpy -e memset)
    [ -z "$needed" ] || fail "libviolstream.so needs $needed"
    nm -D --defined-only "$prefix/lib/libviolstream.so" | sed -n 's/.* T //p' | sort > "$out/calls.is"
    sed -n 's/^uint64_t \(violstream_[a-z_]*\)(.*/\1/p' "$here/include/violstream.h" | sort > "$out/calls.must"
    same "the calls of the shared library" "$out/calls.must" "$out/calls.is"
    there="-Wl,-rpath,$prefix/lib"
    daemon_by "against the shared library" "$out/daemon_shared" -I "$prefix/include" -L "$prefix/lib" "$there" -lviolstream
    readelf -d "$out/daemon_shared" | grep -q 'NEEDED.*libviolstream' || fail "the daemon was not linked to the shared library"
    make_c example_c++
    step "building the example in C++" "$cxx" -x c++ "$out/c/example.c" -x none -I "$prefix/include" -L "$prefix/lib" "$there" -lviolstream -o "$out/example_shared"
    step_built "the example in C++ against the shared library" "$out/example_shared" > "$out/example.is"
    same "the example in C++ against the shared library" "$out/c/example.must" "$out/example.is"
    make_rust compare -L native="$prefix/lib" -l dylib=violstream -C link-arg="$there"
    step_built "rust/compare against the shared library" "$out/rust/compare" --calls 2000 > "$out/rust.is"
    readelf -d "$out/rust/compare" | grep -q 'NEEDED.*libviolstream' || fail "rust/compare was not linked to the shared library"
    printf 'rust/compare against the shared library: as it must be\n'
    if [ "$emulated" = yes ]; then
        printf 'the shared library from Python: left out, the library is not for this processor\n'
    else
        step "the shared library from Python" python3 "$here/tests/python/library.py" "$prefix/lib/libviolstream.so"
        step "the module for Python, where it was installed" python3 "$here/tests/python/module.py" "$prefix/lib/libviolstream.so" "$prefix/lib/python3/dist-packages"
    fi
}

uninstalled() {
    step "uninstall" env -u DESTDIR "$prefix/bin/violstream" uninstall > "$out/install.log"
    left=$(find "$prefix" -mindepth 1)
    [ -z "$left" ] || fail "uninstall has left: $left"
    step "uninstall with DESTDIR" env DESTDIR="$out/stage" "$here/violstream" uninstall /usr > "$out/install.log"
    left=$(find "$out/stage" -type f)
    [ -z "$left" ] || fail "uninstall with DESTDIR has left: $left"
    printf 'uninstall: nothing is left\n'
}

installed() {
    prefix=$out/prefix
    step "install" env -u DESTDIR "$here/violstream" install "$prefix" > "$out/install.log"
    step "install, again" env -u DESTDIR "$here/violstream" install "$prefix" > "$out/install.log"
    daemon_by "against the installed archive" "$out/daemon_installed" -I "$prefix/include" -L "$prefix/lib" -l:libviolstream.a
    step "install with DESTDIR" env DESTDIR="$out/stage" "$here/violstream" install /usr > "$out/install.log"
    grep -qx 'prefix=/usr' "$out/stage/usr/lib/pkgconfig/violstream.pc" || fail "violstream.pc does not name PREFIX, or not without DESTDIR"
    if command -v pkg-config > /dev/null; then
        words=$(PKG_CONFIG_PATH=$prefix/lib/pkgconfig pkg-config --cflags --libs violstream) || fail "pkg-config does not find violstream"
        # shellcheck disable=SC2086  # words for the compiler
        daemon_by "by pkg-config" "$out/daemon_pkg" $words
    else
        printf 'daemon by pkg-config: left out, pkg-config is not here\n'
    fi
    command_installed
    if [ "$emulated" = no ]; then
        server_installed
    else
        printf 'the installed server: left out, the library that it needs is not for this processor\n'
    fi
    shared_installed
    uninstalled
}

bench() {
    step "bench" env CC="$cc" "$here/bench/run.sh" --quick "$archive" > "$out/bench.log"
    printf 'bench: planner, table.c and paper.c give the same sums\n'
}

# The command, by cargo: its layout, what clippy finds, and the tests beside its sources. The script at the top of the checkout builds it first.
command_sources() {
    step "building the command" "$here/violstream" version
    made=$here/target/command/made
    found=$(grep -rlw -e unsafe -e 'allow(unsafe_code)' "$here/command/src")
    [ "$found" = "$here/command/src/violstream.rs" ] || fail "unsafe may stand in command/src/violstream.rs alone, and stands in: $found"
    grep -qx '#!\[deny(unsafe_code)\]' "$here/command/src/main.rs" || fail "command/src/main.rs does not refuse unsafe in other files"
    step "the layout of the command's sources" cargo fmt --check --manifest-path "$here/command/Cargo.toml"
    (cd "$made/crate" && step "clippy" cargo clippy -q --release --target-dir "$made/target" -- -D warnings) || exit 1
    (cd "$made/crate" && step "clippy, with the library" cargo clippy -q --release --features library --target-dir "$made/target" -- -D warnings) || exit 1
    (cd "$made/crate" && step "the command's own tests" cargo test -q --release --target-dir "$made/target" > "$out/cargo.log") || exit 1
    # Where target is a link to a folder elsewhere, and a name has a quotation mark in it, cargo finds the sources too.
    linked=$out/'a "checkout"' && mkdir -p "$linked" "$out/elsewhere" && cp -r "$here/command" "$here/tools" "$linked" && ln -sfn "$out/elsewhere" "$linked/target" || exit 1
    # shellcheck disable=SC2016  # words of the other shell
    step "the sources where target is a link" sh -c 'here=$1 made=$1/target/command/made registry=/usr/share/cargo/registry; . "$1/tools/compile.sh"; lay_out && cd "$made/crate" && cargo read-manifest' \
        sh "$linked" > "$out/manifest" || exit 1
    step "where target is a link cargo takes the command's sources from elsewhere" python3 -c 'import json, os, sys; sys.exit(not os.path.samefile(json.load(sys.stdin)["targets"][0]["src_path"], sys.argv[1]))' \
        "$linked/command/src/main.rs" < "$out/manifest" || exit 1
    printf 'command_sources: one file with unsafe, in the layout of rustfmt, nothing found by clippy, its own tests passed\n'
}

# A little of what tests/soak.sh draws without end, and that it would see a wrong answer.
soak() {
    if [ "$emulated" = yes ]; then
        printf 'soak: left out, the library is not for this processor\n'
    else
        step "the soak" "$here/tests/soak.sh" --short
    fi
}

# Every shell script, those that others read among them.
scripts() {
    for script in "$here"/violstream "$here"/.ci/run "$here"/bench/*.sh "$here"/bench/*/*.sh "$here"/tests/*.sh "$here"/tests/*/*.sh "$here"/tools/*.sh; do
        step "shellcheck of $script" shellcheck -x -P "$here" "$script"
    done
    ! git -C "$here" grep -qw awk -- ':!docs' ':!tests' 2> /dev/null || fail "a script calls awk"
    [ "$(wc -l < "$here/violstream")" -lt 100 ] || fail "violstream has 100 lines or more"
    printf 'scripts: shellcheck finds nothing\n'
}

manual() {
    step "the manual page" env LC_ALL=C.UTF-8 MANWIDTH=100 man --warnings -E UTF-8 -l - \
        < "$here/docs/violstream.1" > "$out/manual.text" 2> "$out/manual.said"
    [ ! -s "$out/manual.said" ] || { cat "$out/manual.said" >&2; fail "man does not render docs/violstream.1 without a warning"; }
    grep -q 'EXIT STATUS' "$out/manual.text" || fail "man renders docs/violstream.1 without its sections"
    printf 'manual: rendered without a warning\n'
}

# ---- All tests ----

# run TEST WORD...: a program of this folder by the name of its file, with its words; or a function above. Says how long it took.
run() {
    name=$1
    shift
    case $only in
        '' | "$name") tests_run=$((tests_run + 1)) ;;
        *) return ;;
    esac
    ran=$name began=$(date +%s)
    case $name in
        c/*) make_c "${name#c/}" && step_built "$name" "$out/$name" "$@" ;;
        rust/*) make_rust "${name#rust/}" && step_built "$name" "$out/$name" "$@" ;;
        python/*) step "$name" python3 "$here/tests/$name.py" "$@" ;;
        *) "$name" "$@" ;;
    esac
    printf '(%s took %d s)\n' "$ran" "$(($(date +%s) - began))"
}

# A new test is a file in c/, rust/ or python/ and a line in one of these two lists.
# First what is proved: the library by its callers, the programs, the pages and the proofs as texts.
of_the_crates() {
    run c/threads
    run c/threads_calls
    run watched
    run fuzzers
    run c/stack
    run c/stack_desk
    run bench
    run c/rules
    run c/compare ${calls:+--calls "$calls"} --sheets "$out/c.sheets"
    run rust/compare ${calls:+--calls "$calls"} --sheets "$out/rust.sheets"
    run rust/any_head ${calls:+--calls "$calls"}
    run rust/movements
    run rust/calls
    run python/plan
    run python/plan --any
    run python/field
    [ -n "$only" ] || run python/field --sheets "$out/c.sheets" --sheets "$out/rust.sheets"
    run python/buys
    run python/buys --any
    run python/check
    run python/rewrite
    run python/mend
    run python/month
    run python/day
    run python/ltfs --cases 2000
    run python/prices
    run python/figures
    run python/desk
    run python/desk_rows
    run python/pricer_rows --library "$archive"
    run python/reading
    run python/edits
    run python/pages
    run python/paths
    run python/rows
    run soak
}

# Then what a person or a program meets: scripts, the command, the examples, what is installed.
of_the_command() {
    run scripts
    run command_sources
    run manual
    run header_example
    run daemon
    run calls
    run installed
    run python/command
    run python/pictures
    run readers
    run python/faults
    run python/limits
    run python/recall
    run python/record
    run python/serve
    run python/unit
}

# The first list in a folder of its own; its count for the other.
beside() {
    out=$out/beside
    { mkdir "$out" && cp "$library" "$out/"; } || fail "no folder for the tests beside"
    library=$out/libviolstream.a
    of_the_crates
    printf '%d\n' "$tests_run" > "$out/tests"
}

# A test takes one processor, so the two lists run side by side where there are two; what the first says stands behind the second.
both() {
    beside > "$out/beside.said" 2>&1 &
    lane=$!
    of_the_command
    wait "$lane"
    status=$?
    lane=
    cat "$out/beside.said"
    [ "$status" -eq 0 ] || fail "a test beside did not get what it must; which, stands above"
    tests_run=$((tests_run + $(cat "$out/beside/tests")))
}

lane=
out=$(mktemp -d) || fail "no temporary folder"
trap '[ -z "$lane" ] || kill "$lane" 2> /dev/null; rm -rf "$out"' EXIT
[ -f "$archive" ] || fail "no archive at $archive; 'tools/build.sh library violstream' makes it"
library=$out/libviolstream.a
cp "$archive" "$library" || fail "cannot copy $archive"
find_tools
tests_run=0
if [ -z "$only" ] && [ "$(nproc 2> /dev/null || echo 1)" -gt 1 ]; then
    both
else
    of_the_crates
    of_the_command
fi

[ "$tests_run" -gt 0 ] || fail "no test is called $only"
printf 'tests/run.sh: all as it must be; tests run: %d\n' "$tests_run"
