#!/usr/bin/env python3
"""Has the installed unit run under a systemd of its own: process 1 of new namespaces, on a copy of this root that is in memory alone.

usage: tests/python/unit.py

The windows, their owners and modes; who may ask there; what the server may not do; that it starts again after a kill and gives no number twice; two tapes at
once; that it stops with 0; that one which refuses its journal stays down and says why. It needs root, systemd and a kernel that allows all that; where
something is missing it says what, and tries nothing.
"""
import os
import re
import shutil
import signal
import subprocess
import sys
import tempfile
import time

import programs

LIMIT = 60
DAY = os.path.join(programs.ROOT, "examples/day.run")
UNIT, OTHER = "violstream-desk@VX0041.service", "violstream-desk@VX0042.service"
WINDOWS = "/run/violstream-VX0041"
JOURNAL = "/var/lib/violstream/VX0041.journal"
PEOPLE = {"anna": "violstream-office1", "ben": "violstream-office2", "olga": "violstream-operator"}

# $1: a folder for the new root; $2: what install has put in place. Behind pivot_root nothing of the old root can be written to.
BOOT = r"""
mount -t tmpfs none "$1"
mkdir "$1/above" "$1/work" "$1/root"
mount -t overlay overlay -o "lowerdir=/,upperdir=$1/above,workdir=$1/work" "$1/root"
cp -a "$2/." "$1/root/"
cd "$1/root"
mount -t proc proc proc
mount -t sysfs -o ro sysfs sys
mount -t cgroup2 cgroup2 sys/fs/cgroup
for folder in run tmp dev; do mount -t tmpfs -o mode=755 tmpfs "$folder"; done
chmod 1777 tmp
for name in null zero full random urandom tty; do : > "dev/$name"; mount --bind "/dev/$name" "dev/$name"; done
mkdir dev/pts dev/shm old
mount -t devpts -o newinstance,ptmxmode=0666 devpts dev/pts
ln -s pts/ptmx dev/ptmx
: > etc/machine-id
rm -rf etc/systemd/system/*.wants
for unit in getty.target systemd-logind.service systemd-timesyncd.service systemd-udevd.service; do ln -sfn /dev/null "etc/systemd/system/$unit"; done
pivot_root . old
umount -l /old
exec env -i container=unit PATH=/usr/sbin:/usr/bin:/sbin:/bin "$3" --unit=multi-user.target --log-target=journal --show-status=0
"""


class Wrong(Exception):
    pass


def must(true, otherwise):
    if not true:
        raise Wrong(otherwise)


class Machine:
    """A systemd that runs as process 1."""

    def __init__(self, folder, installed, group):
        os.mkdir(group)
        self.group = group

        def join():
            with open(os.path.join(group, "cgroup.procs"), "w") as handle:
                handle.write("0")

        systemd = next(path for path in ("/lib/systemd/systemd", "/usr/lib/systemd/systemd") if os.path.exists(path))
        words = ["unshare", "--mount", "--cgroup", "--uts", "--ipc", "--net", "--pid", "--fork", "--kill-child", "--propagation", "private", "sh", "-euc", BOOT, "sh", folder, installed, systemd]
        self.call = subprocess.Popen(words, stdin=subprocess.DEVNULL, stdout=subprocess.DEVNULL, stderr=subprocess.PIPE, preexec_fn=join)

    def first(self):
        """The number of its process 1, outside."""
        with open(f"/proc/{self.call.pid}/task/{self.call.pid}/children") as handle:
            return handle.read().split()[0]

    def run(self, *words):
        within = ["nsenter", "--target", self.first(), "--mount", "--cgroup", "--uts", "--ipc", "--net", "--pid", "env", "-i", "PATH=/usr/sbin:/usr/bin:/sbin:/bin"]
        done = subprocess.run([*within, *words], stdin=subprocess.DEVNULL, capture_output=True, timeout=LIMIT)
        return done.returncode, done.stdout.decode(), done.stderr.decode()

    def done(self, *words):
        status, out, said = self.run(*words)
        must(status == 0, f"{' '.join(words)} ends with {status}: {out}{said}")
        return out

    def ask(self, who, window, *events):
        return self.run("setpriv", "--reuid", who, "--regid", who, "--init-groups", "violstream", "ask", f"{WINDOWS}/{window}", *events)

    def shown(self, name, unit=UNIT):
        return self.done("systemctl", "show", "--property", name, "--value", unit).strip()

    def end(self):
        self.call.kill()
        self.call.wait()
        self.call.stderr.close()
        for _ in range(100):
            try:
                for folder, _, _ in os.walk(self.group, topdown=False):
                    os.rmdir(folder)
                return
            except OSError:
                time.sleep(0.05)


def until(true, otherwise):
    ends = time.monotonic() + LIMIT
    while not true():
        if time.monotonic() > ends:
            raise Wrong(otherwise())
        time.sleep(0.1)


def serving(machine, unit=UNIT):
    """Started, and ready when it says so."""
    before = machine.run("journalctl", "--unit", unit)[1].count("serving at")
    machine.done("systemctl", "start", unit)
    until(lambda: machine.run("journalctl", "--unit", unit)[1].count("serving at") > before, lambda: f"{unit} does not serve: {machine.run('journalctl', '--unit', unit)[1]}")


def windows(machine):
    serving(machine)
    found = machine.done("stat", "--format", "%F %a %U %G %n", *(f"{WINDOWS}/{window}" for window in ("office1", "office2", "operator")))
    must(found == "".join(f"socket 660 violstream-desk violstream-{window} {WINDOWS}/{window}\n" for window in ("office1", "office2", "operator")), f"the windows are {found}")
    found = machine.done("stat", "--format", "%a %U", "--dereference", os.path.dirname(JOURNAL), JOURNAL, WINDOWS)
    must(found == "700 violstream-desk\n600 violstream-desk\n755 violstream-desk\n", f"the journal and the folders are {found}")
    about = machine.done("cat", f"/proc/{machine.shown('MainPID')}/status")
    for name, value in (("Uid", r"(?!0\t)\d+\t.*"), ("CapEff", "0+"), ("CapBnd", "0+"), ("NoNewPrivs", "1"), ("Seccomp", "2")):
        must(re.search(rf"^{name}:\t{value}$", about, re.MULTILINE), f"the server may more than it needs: {about}")


def asking(machine):
    must(machine.ask("anna", "office1", "file=3,2") == (0, "filed=1,1\n", "") and machine.ask("ben", "office2", "file=5,1") == (0, "filed=2,1\n", ""), "an office is not answered at its window")
    for who, window in (("anna", "office2"), ("anna", "operator"), ("ben", "office1"), ("ben", "operator"), ("olga", "office1"), ("olga", "office2")):
        status, out, said = machine.ask(who, window, "waiting")
        must(status == 1 and out == "" and "Permission denied" in said, f"{who} is answered at {window}: {out}{said}")
    must(machine.ask("olga", "operator", "waiting")[1] == "waits=1,1,3,2,0,1\nwaits=2,1,5,1,0,1\nwaiting=1,1\n", "others wait")


def killed(machine):
    """Started again by systemd, with the numbers going on."""
    before = machine.shown("MainPID")
    machine.done("kill", "-KILL", before)
    until(lambda: machine.shown("MainPID") not in ("0", before) and machine.ask("anna", "office1", "waiting")[0] == 0, lambda: "after a kill nobody is answered")
    must(machine.ask("anna", "office1", "file=4,1") == (0, "filed=1,2\n", ""), "after a kill another number is given")


def two_tapes(machine):
    machine.done("cp", "/etc/violstream/VX0041.run", "/etc/violstream/VX0042.run")
    serving(machine, OTHER)
    must(machine.ask("anna", "office1", "waiting")[1].endswith("waiting=2,1\n"), "beside another tape the first is answered otherwise")
    must(machine.run("violstream", "ask", "/run/violstream-VX0042/office1", "file=1,1")[1] == "filed=1,1\n", "the second tape has no table of its own")
    machine.done("systemctl", "stop", OTHER)


def stopped(machine):
    machine.done("systemctl", "stop", UNIT)
    must((machine.shown("Result"), machine.shown("ExecMainStatus")) == ("success", "0") and machine.run("test", "-e", WINDOWS)[0] == 1, "stopped, it has failed or leaves its windows")
    serving(machine)
    said = machine.ask("olga", "operator", "board=60,3")[1]
    must(said.startswith("boarded=2,1\nsum=269\n"), f"after a stop the boarding is {said}")
    replayed = machine.done("violstream", "desk", "--replay", JOURNAL)
    must(replayed == "filed=1,1\nfiled=2,1\nfiled=1,2\n" + said + "waiting=0,0\n", f"replayed, the journal gives {replayed}")
    machine.done("systemctl", "stop", UNIT)


def refused(machine):
    """A journal with damage in the middle: not started again and again, and the reason is told."""
    machine.done("sed", "-i", "s/^file=2,5,1$/file=2,9,1/", JOURNAL)
    machine.run("systemctl", "start", UNIT)
    until(lambda: machine.shown("ActiveState") == "failed", lambda: "a damaged journal is served")
    told = machine.done("journalctl", "--unit", UNIT)
    must("such an event is not accepted there" in told and machine.shown("NRestarts") == "0", f"of a damaged journal it is said: {told}")


def missing(group):
    """Why it cannot be tried here; nothing where it can."""
    if os.getuid() != 0 or os.uname().machine != "x86_64":
        return "it needs root, on x86-64"
    lacks = [name for name in ("unshare", "nsenter", "pivot_root", "setpriv", "systemctl", "useradd") if not shutil.which(name)]
    if lacks or not any(os.path.exists(f"{folder}/systemd/systemd") for folder in ("/lib", "/usr/lib")):
        return f"not there: {', '.join(lacks) or 'systemd'}"
    if group is None:
        return "there is no cgroup2 to write to"
    with open("/proc/filesystems") as handle:
        return None if "\toverlay\n" in handle.read() else "the kernel has no overlay"


def main():
    group = next((folder for folder in ("/sys/fs/cgroup", "/sys/fs/cgroup/unified") if os.access(os.path.join(folder, "cgroup.procs"), os.W_OK) and os.path.exists(os.path.join(folder, "cgroup.controllers"))), None)
    lacks = missing(group)
    if lacks:
        print(f"unit.py: left out, {lacks}")
        return
    with tempfile.TemporaryDirectory() as folder:
        installed, root = os.path.join(folder, "installed"), os.path.join(folder, "root")
        os.makedirs(root)
        subprocess.run([os.path.join(programs.ROOT, "violstream"), "install", "/usr"], env=dict(os.environ, DESTDIR=installed), check=True, stdout=subprocess.DEVNULL)
        os.makedirs(os.path.join(installed, "etc/violstream"))
        shutil.copy(DAY, os.path.join(installed, "etc/violstream/VX0041.run"))
        machine = Machine(root, installed, os.path.join(group, f"violstream-{os.getpid()}"))
        try:
            tried(machine)
        except Wrong as wrong:
            sys.exit(f"unit.py: {wrong}\n{machine.run('journalctl', '--no-pager', '--lines', '20')[1]}")
        finally:
            machine.end()


def tried(machine):
    ends = time.monotonic() + LIMIT
    while machine.call.poll() is None and time.monotonic() < ends and not is_up(machine):
        time.sleep(0.2)
    if not is_up(machine):
        machine.call.send_signal(signal.SIGKILL)
        print(f"unit.py: left out, no systemd can be started here: {machine.call.stderr.read().decode()[:300]}")
        return
    for group in PEOPLE.values():
        machine.done("groupadd", group)
    for who, group in PEOPLE.items():
        machine.done("useradd", "--no-create-home", "--groups", group, who)
    machine.done("systemd-analyze", "verify", "--man=no", UNIT)
    for step in (windows, asking, killed, two_tapes, stopped, refused):
        step(machine)
    print(f"unit.py: the unit does what it must, under {machine.done('systemctl', '--version').splitlines()[0]}")


def is_up(machine):
    try:
        return machine.run("systemctl", "is-system-running")[1].strip() in ("running", "degraded")
    except (OSError, IndexError):
        return False


if __name__ == "__main__":
    main()
