# shellcheck shell=sh disable=SC2034  # the variables are for the scripts that read this file
# What kind of machine this is, for the scripts that read this file by `.`: the library and the programs are for x86-64
# Linux. On such a machine they are linked and run as they are. On another one (Debian on arm64 is the one tried) cross
# compilers link callers of the library, and an emulator runs them.
#
#   machine, emulated   the processor's name; yes if it is not x86-64, else no
#   cc, cxx             the compilers of C and C++
#   emulator, cross     what runs the programs that these or rustc have linked, and where it finds their libraries
unset -v cc cross cxx emulated emulator loader machine rt runner
machine=$(uname -m)
cross=/usr/x86_64-linux-gnu
case $machine in
    x86_64) emulated=no cc=gcc cxx=g++ emulator='' ;;
    *) emulated=yes cc=x86_64-linux-gnu-gcc cxx=x86_64-linux-gnu-g++ emulator=qemu-x86_64 ;;
esac

# ---- Programs that rt has linked ----

# The folder of the Rattle kit, as rt itself finds it; RATTLE_HOME names another.
kit() {
    [ -z "${RATTLE_HOME:-}" ] || { printf '%s\n' "$RATTLE_HOME"; return; }
    rt=$(command -v rt) && rt=$(readlink -f "$rt") && dirname "$(dirname "$rt")"
}

# Prints the words that stand before such a program, one to a line: none on x86-64. Elsewhere Debian's emulator, with the loader and the C library of its
# cross compilers.
starter() {
    [ "$emulated" = yes ] || return 0
    runner=$(command -v "$emulator") loader=$cross/lib/ld-linux-x86-64.so.2
    if [ -z "$runner" ] || [ ! -r "$loader" ]; then
        printf 'the program is for x86-64, this machine is %s, and there is nothing to run it by: ' "$machine" >&2
        printf '%s is not on PATH, or there is no C library for it ' "$emulator" >&2
        printf '(on Debian, as root: apt-get install qemu-user libc6-amd64-cross)\n' >&2
        return 1
    fi
    printf '%s\n' "$runner" "$loader" --library-path "$cross/lib"
}
