# shellcheck shell=sh disable=SC2154  # `here` and `say` are those of the script that reads this file
# For the script `violstream`, which reads this file by `.` where the command is to be compiled: what the call needs is proved at the same time, so that
# neither waits for the other. Whoever starts something here ends it: with the script, and with the command that it becomes, cargo and rt are asked to
# end (setpriv --pdeathsig; the process stays the same). The lock is the one that the command takes before it builds, so it waits, and finds what was
# built; what has failed here it tries again, and tells.
unset -v ending needed word
ending=
if setpriv --pdeathsig TERM true 2> /dev/null; then
    ending='setpriv --pdeathsig TERM'
fi

# needed_by WORD...: sets needed to the program that a call runs first; fails where it runs none.
needed_by() {
    case ${1:-} in
        plan | field | buys | price | check | rewrite | mend | month | ltfs | desk) needed=cmd_$1 ;;
        build | install | deb) needed=cmd_plan ;;
        explain | record) needed=cmd_plan_any ;;
        audit) needed=cmd_check ;;
        *) return 1 ;;
    esac
    for word in "$@"; do
        case $needed:$word in
            cmd_plan:--any | cmd_buys:--any) needed=${needed}_any ;;
            *:--help | *:-h | *:--version) return 1 ;;
        esac
    done
}

# take_lock: the file that only this user can open, by descriptor 8, with the number of this process in it; fails where somebody builds.
take_lock() {
    { [ -d "$here/target/lock" ] || mkdir -m 700 "$here/target/lock"; } 2> /dev/null || return 1
    # shellcheck disable=SC3067  # dash and bash have it
    [ -O "$here/target/lock" ] && [ ! -L "$here/target/lock" ] && [ ! -L "$here/target/lock/build" ] || return 1
    { true 8>> "$here/target/lock/build"; } 2> /dev/null || return 1
    exec 8>> "$here/target/lock/build"
    flock -n 8 && chmod 600 "$here/target/lock/build" && printf '%s\n' "$$" > "$here/target/lock/build" && return
    exec 8>&-
    return 1
}

# prove_beside WORD...: begins to prove and build the program of a call, where it is not there and nobody builds it.
prove_beside() {
    [ -n "$ending" ] && command -v rt > /dev/null && command -v flock > /dev/null && needed_by "$@" || return 0
    [ ! -e "$here/target/bin/$needed" ] || [ ! -e "$here/target/stamp/$needed" ] || return 0
    take_lock || return 0
    say "and proving and building $needed beside it, which takes some two and a half to six minutes on two idle cores"
    [ -e "$here/target/bin/$needed" ] || rm -f "$here/target/stamp/$needed"
    # shellcheck disable=SC2086  # words
    $ending "$here/tools/build.sh" check "$needed" < /dev/null 2>&1 | sed -u -n 's/^rt: /violstream: /p' >&2 8>&- &
    exec 8>&-
}

prove_beside "$@"
