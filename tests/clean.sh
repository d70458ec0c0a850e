#!/bin/sh
# The README's commands and the Debian package on a machine that has nothing of ours: fresh Debian roots, made by debootstrap and entered by chroot.
#
#   tests/clean.sh [--sh busybox] [--arch arm64] [--proved CHECKOUT] [--package FILE] [--before FILE] FOLDER STEP...
#
#   first        a fresh clone, an ordinary user, the packages that the README names: `./violstream plan < examples/VX0041.run` prints its plan. Three minutes
#                on two idle cores
#   test=NAME    in that root, with the packages that the tests need: tests/run.sh --only NAME, as that user; what it needs has been built by `first`, or is
#                built by `./violstream build` before the first such step. test=all: ./violstream test, half an hour
#   package      a root of its own without a compiler and without rt: the package is installed over the version before, used by an ordinary user,
#                upgraded, removed and purged; then every file, folder and link is as before
#
# FOLDER keeps the roots: base as debootstrap made it, and for each --sh one with the clone and one for the package, the last made anew each time. --sh: busybox in place of dash
# as sh. --arch arm64: roots of that processor, whose programs an emulator runs that the kernel knows (Debian: qemu-user-static, binfmt-support); where the kit has nothing for it, --proved
# must say where rt has proved. --proved: another clone, of which what rt has proved and built is taken, so that first and test= need not prove it again. --package: by default what `./violstream deb` has made in target/command/deb. --before: the package of the version before; by default the same one
# with another number, another library and a file that the new one has no more.
#
# It needs root, debootstrap and a mirror of Debian, and 1.5 GB in FOLDER. Mounts are of namespaces of their own, and end with what runs there.
set -u
unset -v CDPATH
here=$(cd "$(dirname "$0")/.." && pwd)
. "$here/tools/machine.sh"
suite=bookworm
mirror=http://deb.debian.org/debian
usage='usage: tests/clean.sh [--sh busybox] [--arch arm64] [--proved CHECKOUT] [--package FILE] [--before FILE] FOLDER first|test=NAME|package...'
shell=dash arch=amd64 base=base proved='' package='' before='' user=reader

fail() {
    printf 'tests/clean.sh: %s\n' "$1" >&2
    exit "${2:-1}"
}

say() {
    printf 'clean.sh: %s\n' "$1"
}

while [ $# -gt 0 ]; do
    case $1 in
        --sh) [ "${2:-}" = busybox ] || [ "${2:-}" = dash ] || fail "--sh takes dash or busybox" 2; shell=$2 ;;
        --arch) [ "${2:-}" = arm64 ] || [ "${2:-}" = amd64 ] || fail "--arch takes amd64 or arm64" 2; arch=$2 ;;
        --proved) proved=$(readlink -f "${2:-}") || fail "--proved takes a checkout" 2 ;;
        --package) package=$(readlink -f "${2:-}") || fail "--package takes a file" 2 ;;
        --before) before=$(readlink -f "${2:-}") || fail "--before takes a file" 2 ;;
        -*) fail "$usage" 2 ;;
        *) break ;;
    esac
    shift 2
done
[ $# -ge 2 ] || fail "$usage" 2
[ "$(id -u)" = 0 ] || fail "only root can make and enter a root of its own (debootstrap, chroot, mount)"
command -v debootstrap > /dev/null || fail "no debootstrap (on Debian: apt-get install debootstrap)"
mkdir -p "$1" && folder=$(cd "$1" && pwd) || exit 1
shift
[ "$arch" = amd64 ] || base=base-$arch

# inside ROOT USER SCRIPT WORD...: a script of sh in a root, with the words as $1 and so on; of the machine it has /proc, /dev and, where ROOT has a folder
# for it, the kit, which cannot be written there.
inside() {
    root=$1 who=$2 script=$3
    shift 3
    # shellcheck disable=SC2016  # of the inner shell
    unshare --mount --pid --fork sh -c '
        root=$1 kit=$2 who=$3 script=$4
        shift 4
        mount --make-rprivate / && mount -t proc proc "$root/proc" && mount --rbind /dev "$root/dev" && mount -t tmpfs -o mode=1777 tmpfs "$root/dev/shm" || exit 1
        [ ! -d "$root$kit" ] || { mount --bind "$kit" "$root$kit" && mount -o remount,bind,ro "$root$kit"; } || exit 1
        home=/root
        [ "$who" = root ] || home=/home/$who
        exec chroot --userspec="$who:$who" "$root" env -i HOME="$home" USER="$who" LANG=C.UTF-8 PATH="$kit/bin:/usr/local/bin:/usr/bin:/bin:/usr/sbin:/sbin" DEBIAN_FRONTEND=noninteractive \
            sh -c "cd && $script" sh "$@"
    ' sh "$root" "$(kit)" "$who" "$script" "$@"
}

# ---- Roots

base() {
    [ ! -e "$folder/$base/.made" ] || return 0
    debootstrap --arch="$arch" --variant=minbase "$suite" "$folder/$base" "$mirror" > "$folder/debootstrap.log" 2>&1 || { tail -n 5 "$folder/debootstrap.log" >&2; fail "debootstrap failed"; }
    inside "$folder/$base" root "useradd -m $user && apt-get -q clean" || fail "no user $user"
    touch "$folder/$base/.made"
    say "base: Debian $(cat "$folder/$base/etc/debian_version"), $arch, $(find "$folder/$base/var/lib/dpkg/info" -name '*.list' | wc -l) packages"
}

# apt ROOT PACKAGE...: as root, there.
apt() {
    root=$1
    shift
    cp -L /etc/resolv.conf "$root/etc/resolv.conf" 2> /dev/null
    # shellcheck disable=SC2016  # of the inner shell
    inside "$root" root 'apt-get -q update && apt-get -q install -y --no-install-recommends "$@"' "$@" > "$folder/apt.log" 2>&1 || { tail -n 5 "$folder/apt.log" >&2; fail "apt-get could not install $*"; }
}

# fresh_root NAME: a copy of the base, with the shell that was asked for.
fresh_root() {
    made=$folder/$1-$shell${base#base}
    rm -rf "${made:?}"
    cp -a "$folder/$base" "$made" && rm "$made/.made" || exit 1
    if [ "$shell" = busybox ]; then
        apt "$made" busybox
        ln -sfn busybox "$made/bin/sh"
    fi
}

# The packages that the README names for building, as it names them.
readme_packages() {
    # shellcheck disable=SC2016  # the README's own marks
    sed -n 's/.*on Debian `cargo` with `\(librust[^`]*\)`.*/cargo \1/p' "$here/README.md"
    [ "$arch" = amd64 ] || sed -n "s/.*on $arch an emulator runs them, .*Debian's (\(.*\) and \(.*\))\..*/\1 \2/p" "$here/README.md"
}

# ---- A fresh clone

# What rt has made, as if it had been made here just now; the clone is the user's.
take_proved() {
    clone=$made/home/$user/violstream
    if [ -n "$proved" ]; then
        mkdir -p "$clone/target" || exit 1
        for name in bin stamp staticlib; do
            rm -rf "${clone:?}/target/$name"
            cp -r "$proved/target/$name" "$clone/target/$name" || exit 1
        done
        for name in "$proved"/crates/*/out/rlib; do
            name=${name#"$proved/"}
            mkdir -p "$clone/${name%/rlib}" && cp -r "$proved/$name" "$clone/$name" || exit 1
        done
        # Newer than every source.
        touch "$clone"/target/bin/* "$clone"/target/staticlib/*.a "$clone"/crates/*/out/rlib/*.rlib || exit 1
    fi
    chown -R "$(stat -c %u:%g "$made/home/$user")" "$clone"
}

first() {
    made=$folder/checkout-$shell${base#base}
    if [ ! -e "$made/.made" ]; then
        fresh_root checkout
        [ -n "$(readme_packages)" ] || fail "the README names no packages"
        # shellcheck disable=SC2046  # packages are words
        apt "$made" python3 $(readme_packages)
        mkdir -p "$made$(kit)"
        touch "$made/.made"
    fi
    rm -rf "$made/home/$user/violstream"
    git clone -q --no-hardlinks "$here" "$made/home/$user/violstream" || fail "the checkout cannot be cloned"
    take_proved
    began=$(date +%s)
    # shellcheck disable=SC2016  # of the inner shell
    inside "$made" "$user" 'cd violstream && ./violstream plan < examples/VX0041.run > ../plan && cmp ../plan examples/VX0041.plan && ./violstream plan examples/VX0041.run | cmp - examples/VX0041.plan' \
        > "$folder/first.log" 2>&1 || { tail -n 20 "$folder/first.log" >&2; fail "the first call does not print the plan"; }
    say "first, $arch, sh is $shell${proved:+, proved elsewhere}: ./violstream plan < examples/VX0041.run prints examples/VX0041.plan, after $(($(date +%s) - began)) s"
}

# ---- Tests

run_test() {
    made=$folder/checkout-$shell${base#base}
    [ -e "$made/home/$user/violstream/target/bin/cmd_plan" ] || fail "test=$1 goes by the clone that the step first made"
    if [ ! -e "$made/.tools" ]; then
        apt "$made" make gcc g++ libc6-dev python3 shellcheck man-db rustfmt rust-clippy binutils git
        touch "$made/.tools"
    fi
    [ -e "$made/home/$user/violstream/target/staticlib/libviolstream.a" ] || take_proved
    began=$(date +%s)
    if [ "$1" = all ]; then
        words='./violstream test'
    else
        words="tests/run.sh --only $1"
        [ -e "$made/home/$user/violstream/target/staticlib/libviolstream.a" ] || words="./violstream build && $words"
    fi
    inside "$made" "$user" "cd violstream && $words" > "$folder/test.log" 2>&1 || { tail -n 20 "$folder/test.log" >&2; fail "$1 failed in the clean root"; }
    say "test=$1, $arch, sh is $shell${proved:+, proved elsewhere}: $(tail -n 1 "$folder/test.log"), after $(($(date +%s) - began)) s"
}

# ---- The package

# What stands in a root: names, kinds, owners, modes, and what files hold; without dpkg's own book, its log and the times in ldconfig's memory.
everything_in() {
    (cd "$1" && find . -xdev \( -path ./var/lib/dpkg -o -path ./var/log/dpkg.log -o -path ./var/cache/ldconfig -o -path ./proc -o -path ./dev \) -prune -o -printf '%p %y %u:%g %m %l\n' -type f -exec cksum {} + | LC_ALL=C sort)
}

# The version before: the same files, but for a library of another number, an older page and a file that is no more.
make_before() {
    before=$folder/before.deb
    rm -rf "$folder/before"
    dpkg-deb -R "$package" "$folder/before" || fail "the package cannot be unpacked"
    sed -i 's/^Version: .*/Version: 3.9.9-1/' "$folder/before/DEBIAN/control"
    libraries=$folder/before/usr/lib/x86_64-linux-gnu
    find "$libraries" -name 'libviolstream.so.*.*' -exec mv {} "$libraries/libviolstream.so.3.9.9" \;
    find "$libraries" -name 'libviolstream.so*' -type l -delete
    ln -s libviolstream.so.3.9.9 "$libraries/libviolstream.so.3"
    ln -s libviolstream.so.3 "$libraries/libviolstream.so"
    sed -i 's/^libviolstream .*/libviolstream 3 violstream/' "$folder/before/DEBIAN/shlibs"
    printf 'a page that is no more\n' > "$folder/before/usr/share/doc/violstream/former"
    printf 'the command of before\n' > "$folder/before/usr/share/doc/violstream/copyright"
    rm -f "$folder/before/DEBIAN/md5sums"
    dpkg-deb --root-owner-group --build "$folder/before" "$before" > /dev/null || fail "the package of before was not made"
}

# The commands as an ordinary user calls them, in an empty folder of that user's.
# shellcheck disable=SC2016  # of the inner shell
use_package='
set -e
work=$(mktemp -d)
cd "$work"
cp -r /examples .
must() { [ "$2" = "$3" ] || { echo "$1: $2, and not $3" >&2; exit 1; }; }
violstream plan examples/VX0041.run | cmp - examples/VX0041.plan
violstream plan --any examples/mounted.run | cmp - examples/mounted.plan
must check "$(violstream check examples/VX0041.run examples/VX0041.plan)" "$(printf "formed=yes\nwalk=yes\nleast=yes")"
violstream explain --svg picture examples/VX0041.run > explained
grep -q "</svg>" picture
violstream record --by reader book examples/VX0041.run > recorded
cmp recorded examples/VX0041.plan
violstream audit book > audited
violstream desk examples/day.run examples/day.events 2> said | cmp - examples/day.answers
violstream ltfs VX0041 examples/ltfs/VX0041.label.xml examples/ltfs/VX0041.index.xml > sheet 2> report
cmp sheet examples/ltfs/VX0041.run
printf "rushes/clip0001.mxf\nrushes/clip0002.mxf\n" > list
violstream pick --names names VX0041 examples/ltfs/VX0041.label.xml examples/ltfs/VX0041.index.xml list > picked
violstream plan --any picked > planned
violstream recall --speed 300000000 --begin 2026-11-16T08:00:00 VX0041 examples/ltfs/VX0041.label.xml examples/ltfs/VX0041.index.xml list > recalled
grep -q "08:00:.*rushes/clip0002.mxf" recalled
for number in 1 2; do
    mkdir -p windows
    violstream serve --journal journal --windows windows examples/day.run 2> "served$number" &
    server=$!
    tries=0
    while ! grep -qs "serving at" "served$number" && [ "$tries" -lt 100 ]; do tries=$((tries + 1)); sleep 0.1; done
    must "ask, the server started $number times" "$(violstream ask windows/office1 file=1,1)" "filed=1,$number"
    kill "$server"
    wait "$server"
done
violstream desk --replay journal > replayed 2> said
cd /
rm -rf "$work"
'

# life WHAT SCRIPT: of dpkg, as root; then all commands, as the user, unless there are to be none.
life() {
    inside "$made" root "$2" > "$folder/package.log" 2>&1 || { tail -n 10 "$folder/package.log" >&2; fail "package: $1 failed"; }
    [ "${3:-}" != gone ] || return 0
    inside "$made" "$user" "$use_package" > "$folder/package.log" 2>&1 || { tail -n 10 "$folder/package.log" >&2; fail "package: $1, and then a command failed"; }
    say "package, sh is $shell: $1; every command tried answers; $(inside "$made" root "dpkg-query -W violstream" | tr '\t' ' '); $(cd "$made/usr/lib/x86_64-linux-gnu" && printf '%s ' libviolstream.*)"
}

as_before() {
    everything_in "$made" > "$folder/everything.after"
    diff "$folder/everything.before" "$folder/everything.after" > "$folder/left" || { head -n 20 "$folder/left" >&2; fail "package: not as before (< before, > after)"; }
}

package_life() {
    [ "$arch" = amd64 ] || fail "the package is for amd64"
    [ -n "$package" ] || package=$(find "$here/target/command/deb" -name 'violstream_*_amd64.deb' 2> /dev/null | sort | tail -n 1)
    [ -f "$package" ] || fail "no package; './violstream deb' makes it"
    [ -n "$before" ] || make_before
    fresh_root package
    rm -rf "$made/examples"
    cp -r "$here/examples" "$made/examples"
    cp "$package" "$made/new.deb" && cp "$before" "$made/old.deb" && chmod -R a+rX "$made/examples" "$made/new.deb" "$made/old.deb"
    everything_in "$made" > "$folder/everything.before"
    life 'the version before is installed' 'dpkg -i /old.deb'
    life 'upgraded' 'dpkg -i /new.deb'
    [ ! -e "$made/usr/share/doc/violstream/former" ] || fail "package: a file of the version before stays after the upgrade"
    life 'installed again' 'dpkg -i /new.deb'
    life 'removed' 'dpkg -r violstream' gone
    life 'purged' 'dpkg -P violstream' gone
    as_before
    life 'installed on the clean root' 'dpkg -i /new.deb'
    life 'purged at once' 'dpkg -P violstream' gone
    as_before
    ! grep -q '^Package: violstream$' "$made/var/lib/dpkg/status" || fail "package: dpkg still knows it"
    say "package, sh is $shell: removed and purged, nothing is left: $(wc -l < "$folder/everything.before") files, folders, links and sums as before"
}

base
for step in "$@"; do
    case $step in
        first) first ;;
        test=?*) run_test "${step#test=}" ;;
        package) package_life ;;
        *) fail "no step $step; $usage" 2 ;;
    esac
done
