# shellcheck shell=sh disable=SC2154  # `here` is that of the script that reads this file
# How rattle, the compiler and prover behind rt, is called for one crate, for the scripts that read this file by `.` after machine.sh. rt itself makes a static library only of
# a crate on which no other stands, and says of an edit that is refused no more than a line.
#
#   named CRATE...      what the lines of these crates in crates.txt name
#   below CRATE...      the crates of this repository under these
#   are_below CRATE     whether the libraries under a crate are there, and newer than their sources; else `rt lib` in the crate's folder makes them
#   words_for CRATE     the words for `rattle build` and `rattle check` in the crate's folder, one to a line, as rt gives them
#   words_above SOURCE CRATE...   the same for a crate in no repository, with its src/ at SOURCE, which names these and what they name
unset -v below_found below_next below_one below_todo kit_folder

named() {
    for below_one in "$@"; do
        sed -n "s/^$below_one *://p" "$here/crates.txt" | sed 's/#.*//' | tr ' ' '\n' | sed '/^$/d'
    done | sort -u
}

below() {
    below_found='' below_todo=$*
    while [ -n "$below_todo" ]; do
        below_next=
        # shellcheck disable=SC2086  # names of crates
        for below_one in $(named $below_todo); do
            [ -d "$here/crates/$below_one" ] || continue
            case " $below_found " in
                *" $below_one "*) ;;
                *) below_found="$below_found $below_one" below_next="$below_next $below_one" ;;
            esac
        done
        below_todo=$below_next
    done
    # shellcheck disable=SC2086
    printf '%s\n' $below_found
}

# Whether they are there, and newer than their sources. What `rt ci` has made counts: it is what was just proved.
are_below() {
    for below_one in $(below "$1"); do
        [ -f "$here/crates/$below_one/out/rlib/$below_one.rlib/format" ] || return 1
        for below_next in src specs proofs; do
            [ ! -d "$here/crates/$below_one/$below_next" ] ||
                [ -z "$(find "$here/crates/$below_one/$below_next" -newer "$here/crates/$below_one/out/rlib/$below_one.rlib" -print -quit)" ] || return 1
        done
    done
}

# Whether rt built them all for one another, and not for `rt ci` alone.
are_of_one() {
    for below_one in $(below "$1"); do [ -f "$here/crates/$below_one/out/rlib/stamp" ] || return 1; done
}

words_for() {
    printf '%s\n' --crate-name "$1"
    if [ -f "$here/crates/$1/src/main.rt" ]; then echo src/main.rt; else echo src/lib.rt; fi
    # shellcheck disable=SC2046  # names of crates
    words_over $(named "$1")
    printf '%s\n' --links "$1="
}

words_above() {
    printf '%s\n' --crate-name above
    if [ -f "$1/main.rt" ]; then echo src/main.rt; else echo src/lib.rt; fi
    shift
    # shellcheck disable=SC2046
    words_over $( (printf '%s\n' "$@"; named "$@") | sort -u)
}

# words_over LIBRARY...: the words for a crate that names these.
words_over() {
    kit_folder=$(kit) || return
    for below_one in std "$@"; do
        if [ -d "$here/crates/$below_one" ]; then
            printf '%s\n' --extern "$below_one=$here/crates/$below_one/out/rlib/$below_one.rlib" -L "dependency=$here/crates/$below_one/out/rlib"
        else
            printf '%s\n' --extern "$below_one=$kit_folder/rlibs/$below_one.rlib"
        fi
    done
    printf '%s\n' -L "dependency=$kit_folder/rlibs"
    for below_one in $(below "$@"); do printf '%s\n' -L "dependency=$here/crates/$below_one/out/rlib"; done
    printf '%s\n' --antt-project "$kit_folder/rattle/logic/antt-project.json" --logic-built "$kit_folder/logic_built"
}
