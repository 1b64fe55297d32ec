"""A machine of its own, which runs systemd."""
import contextlib
import glob
import os
import shutil
import signal
import subprocess
import time

from checks.parts.places import KEY, at_top
from checks.parts.waiting import wait_for
from checks.parts.wrong import LeftOut, Wrong, expect_true

SYSTEMD = "/lib/systemd/systemd"
SECONDS = 60
# An installation runs the triggers of other packages too (those of man-db read every page), on a machine that has just
# started.
INSTALL_SECONDS = 300
# What becomes of this machine's files for the other one: changes go into memory.
BOOT = r"""
set -e
room=$1
mount --make-rprivate /
mkdir "$room/changes" "$room/root"
mount -t tmpfs -o mode=755 tmpfs "$room/changes"
mkdir "$room/changes/upper" "$room/changes/work"
mount -t overlay -o "lowerdir=/,upperdir=$room/changes/upper,workdir=$room/changes/work" overlay "$room/root"
cd "$room/root"
mount -t proc proc proc
mount -t sysfs sysfs sys
mount --rbind /dev dev
mount -t tmpfs -o mode=755 tmpfs run
mount -t tmpfs -o mode=1777 tmpfs tmp
if [ -e /sys/fs/cgroup/cgroup.procs ]; then
    mount -t cgroup2 cgroup2 sys/fs/cgroup
else
    mount -t tmpfs -o mode=755 tmpfs sys/fs/cgroup
    for there in /sys/fs/cgroup/*/; do
        name=$(basename "$there")
        mkdir "sys/fs/cgroup/$name"
        case $name in
        unified) mount -t cgroup2 cgroup2 "sys/fs/cgroup/$name" ;;
        systemd) mount -t cgroup -o none,name=systemd cgroup "sys/fs/cgroup/$name" ;;
        *) mount -t cgroup -o "$name" cgroup "sys/fs/cgroup/$name" || rmdir "sys/fs/cgroup/$name" ;;
        esac
    done
fi
mkdir kit
cp -R "$room/kit/." kit
pivot_root . mnt
umount -l /mnt
exec env -i container=check PATH=/usr/sbin:/usr/bin:/sbin:/bin /lib/systemd/systemd --log-target=null --unit=basic.target
"""


class Machine:
    """Another machine, which runs systemd."""

    def __init__(self, room, executable):
        self.room, self.executable, self.process, self.first, self.groups = room, executable, None, None, []

    def begin(self):
        """Boots it, and installs the program there."""
        if os.geteuid() != 0 or not os.path.exists(SYSTEMD) or shutil.which("unshare") is None:
            raise LeftOut("it needs root, systemd and unshare")
        self.pack(self.executable)
        self.enter_groups()
        words = ["unshare", "--pid", "--fork", "--kill-child", "--mount", "--uts", "--ipc", "--cgroup", "--net", "sh",
                 "-c",
                 BOOT, "boot", self.room]
        log = open(os.path.join(self.room, "log"), "wb")
        self.process = subprocess.Popen(words, stdin=subprocess.DEVNULL, stdout=log, stderr=log, start_new_session=True)
        self.leave_groups()
        self.first = self.find_first()
        wait_for(lambda: self.out("systemctl", "is-system-running") in (b"running\n", b"degraded\n"),
                 "the machine's start", SECONDS)
        self.install()

    def pack(self, executable):
        """What is installed there: the package, or the executable and what installs it."""
        kit = os.path.join(self.room, "kit")
        os.mkdir(kit)
        if shutil.which("dpkg") and shutil.which("dpkg-deb"):
            subprocess.run([at_top("bin", "package"), kit, executable], check=True, stdout=subprocess.DEVNULL)
        else:
            subprocess.run([at_top("bin", "install"), "--program", executable, "/usr"], check=True,
                           stderr=subprocess.DEVNULL,
                           env=dict(os.environ, DESTDIR=os.path.join(kit, "tree")))
        shutil.copy(KEY, kit)

    # The machine has control groups of its own, below this process's, from where they are made until it is started.
    def enter_groups(self):
        for line in open("/proc/self/cgroup"):
            number, names, path = line.rstrip("\n").split(":", 2)
            unified = "unified" if os.path.isdir("/sys/fs/cgroup/unified") else ""
            below = names.replace("name=", "") or unified
            old = os.path.join("/sys/fs/cgroup", below) + path
            if below == "cpuset" or not os.path.exists(os.path.join(old, "cgroup.procs")):
                continue
            new = os.path.join(old, "check-units-%d" % os.getpid())
            with contextlib.suppress(OSError):
                os.mkdir(new)
                self.groups.append((old, new))
                self.move(new)

    @staticmethod
    def move(group):
        with open(os.path.join(group, "cgroup.procs"), "w") as file:
            file.write(str(os.getpid()))

    def leave_groups(self):
        time.sleep(0.5)
        for old, _ in self.groups:
            self.move(old)

    def find_first(self):
        """The number of its first process, once that is systemd."""
        found = []

        def is_there():
            expect_true(self.process.poll() is None,
                        "the machine doesn't start: " + open(os.path.join(self.room, "log")).read())
            for children in glob.glob("/proc/%d/task/*/children" % self.process.pid):
                for child in open(children).read().split():
                    if os.path.realpath("/proc/%s/exe" % child).endswith("/systemd"):
                        found.append(int(child))
            return found
        try:
            wait_for(is_there, "systemd", 10)
        except Wrong as wrong:
            raise LeftOut(str(wrong)) from None
        return found[0]

    def install(self):
        if glob.glob(self.room + "/kit/*.deb"):
            self.good("sh", "-c", "dpkg --install /kit/*.deb >/tmp/said 2>&1 || { cat /tmp/said >&2; exit 1; }",
                      seconds=INSTALL_SECONDS)
        else:
            self.good("sh", "-c", "cp -R /kit/tree/. / && systemd-sysusers audit.conf && install -d -o audit -g audit "
                                  "-m 700 "
                      "/var/lib/audit && systemctl daemon-reload")

    def run(self, *words, data=b"", seconds=SECONDS):
        return subprocess.run(["nsenter", "-t", str(self.first), "-a", *words], input=data, capture_output=True,
                              timeout=seconds)

    def begun(self, *words, data=b""):
        """A process that runs there, with all of its input."""
        began = subprocess.Popen(["nsenter", "-t", str(self.first), "-a", *words], stdin=subprocess.PIPE,
                                 stdout=subprocess.DEVNULL, stderr=subprocess.PIPE)
        began.stdin.write(data)
        began.stdin.close()
        return began

    def out(self, *words):
        return self.run(*words).stdout

    def good(self, *words, data=b"", seconds=SECONDS):
        done = self.run(*words, data=data, seconds=seconds)
        expect_true(done.returncode == 0,
                    "%s: status %d, %r" % (" ".join(words), done.returncode, done.stderr or done.stdout))
        return done.stdout

    def write(self, path, text):
        self.good("sh", "-c", 'mkdir -p "$(dirname "$0")" && cat >"$0"', path, data=text.encode())

    def make_store(self, name, sectors=2000):
        self.format("/var/lib/audit/%s.store" % name, str(sectors))

    def format(self, *words):
        with open(KEY, "rb") as key:
            self.good("runuser", "-u", "audit", "--", "sh", "-c", 'cat | audit format "$@" /dev/stdin', "sh", *words,
                      data=key.read())

    def start(self, unit):
        self.good("systemctl", "start", unit)

    def stop(self, *units):
        self.good("systemctl", "stop", *units)

    def count(self, name):
        """How many events a daemon has; None if it doesn't answer."""
        done = self.run("audit", "ask", "/run/audit-%s/readers/socket" % name, "commitment", "--timeout", "5")
        return int(done.stdout.split()[1]) if done.returncode == 0 else None

    def append(self, name, text):
        said = self.good("audit", "send", "/run/audit-%s/writers/socket" % name, "--text", "1",
                         data=text.encode() + b"\n")
        expect_true(said.startswith(b"ack "), "an event isn't acknowledged: %r" % said)

    def payloads(self, name):
        export, readers = "/tmp/%s.export" % name, "/run/audit-%s/readers/socket" % name
        newest = None
        while newest != self.good("audit", "ask", readers, "commitment"):
            newest = self.good("audit", "ask", readers, "commitment")
            self.good("audit", "ask", readers, "export", export)
        commitment = b":".join(newest.split()[1:]).decode()
        lines = self.good("audit", "verify", export, "/kit/key", commitment).splitlines()
        return [bytes.fromhex(line.split()[3].decode().replace("-", "")) for line in lines
                if line.startswith(b"event ")]

    def property(self, unit, name):
        return self.out("systemctl", "show", "--value", "--property", name, unit).decode().strip()

    def messages(self, name, *words):
        return self.out("journalctl", "--quiet", "--output=cat", "--identifier=" + name, *words)

    def end(self):
        if self.process is not None:
            with contextlib.suppress(ProcessLookupError):
                os.kill(self.first or self.process.pid, signal.SIGKILL)
            self.process.wait()
        for _, new in self.groups:
            for folder, _, _ in list(os.walk(new, topdown=False)):
                for _ in range(50):
                    with contextlib.suppress(OSError):
                        os.rmdir(folder)
                        break
                    time.sleep(0.1)


def look(machine, name):
    return machine.run("systemctl", "start", "audit-watch@" + name).returncode


def alarm_is(machine, kind, name, level, status, text):
    """The newest alarm of this level names the unit and its status, and says this of the store."""
    lines = machine.messages("audit-alarm-" + name, "--priority=%s..%s" % (level, level)).splitlines()
    return bool(lines) and lines[-1].startswith(b"audit-%s@%s.service ended with status %d: %s"
                                                % (kind.encode(), name.encode(), status, text))
