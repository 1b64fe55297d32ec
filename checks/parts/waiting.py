"""Waiting for what comes, and what can be seen of other processes meanwhile."""
import contextlib
import os
import select
import socket
import stat
import time

from checks.parts.wrong import expect_true

SECONDS = 180


def wait_until(holds, wrong, seconds=SECONDS, pause=0.002):
    """Waits until something holds; `wrong` says what is wrong if it never does."""
    end = time.monotonic() + seconds
    while not holds():
        expect_true(time.monotonic() < end, wrong)
        time.sleep(pause)


def wait_for(holds, what, seconds=SECONDS):
    """Waits for what takes some time."""
    wait_until(holds, what + " never comes", seconds, 0.02)


def wait_while_growing(holds, size, what):
    """Waits for what comes after much else, however slowly that comes on a busy machine, as long as something does. A
    look takes a processor from what is looked at, so looks take at most half of the time."""
    seen, end = None, 0
    while not holds():
        begun, found = time.monotonic(), size()
        if found != seen:
            seen, end = found, time.monotonic() + SECONDS
        expect_true(time.monotonic() < end, "%s never comes: %s came, and nothing for %d s; %s"
                    % (what, seen, SECONDS, pressure()))
        time.sleep(max(0.02, time.monotonic() - begun))


def is_socket(path):
    with contextlib.suppress(OSError):
        return stat.S_ISSOCK(os.stat(path).st_mode)
    return False


def is_listening(path):
    """Whether some program listens there. A connection isn't made, because it would take the place of a client."""
    with open("/proc/net/unix") as sockets:
        return any(line.rstrip("\n").endswith(" " + path) and line.split()[3] == "00010000" for line in sockets)


def wait_listening(path, process):
    """Waits until a program listens there, or has ended."""
    wait_until(lambda: is_listening(path) or process.poll() is not None, "nobody listens at " + path)


def has_locked(process, path):
    """Whether a process holds the lock of a file. Asking takes no lock, which might keep the process from having it."""
    number = str(os.stat(path).st_ino)
    with open("/proc/locks", encoding="ascii") as locks:
        words = [line.split() for line in locks]
    return any(lock[4] == str(process.pid) and lock[5].endswith(":" + number) for lock in words if lock[1] == "FLOCK")


def has_open(process, path):
    """Whether a process has a file open."""
    folder = "/proc/%d/fd" % process.pid
    with contextlib.suppress(OSError):
        for name in os.listdir(folder):
            with contextlib.suppress(OSError):
                if os.readlink("%s/%s" % (folder, name)) == os.path.realpath(path):
                    return True
    return False


def is_alive(process):
    """Whether the process of this number runs; one that ended and waits for its parent doesn't."""
    try:
        with open("/proc/%d/stat" % process, errors="replace") as file:
            return file.read().rsplit(")", 1)[1].split()[0] != "Z"
    except (FileNotFoundError, ProcessLookupError):
        return False


def is_readable(stream, seconds=SECONDS):
    """Waits until a program has said something, or has ended. Whether it did in time."""
    poll = select.poll()
    poll.register(stream, select.POLLIN)
    return bool(poll.poll(seconds * 1000))


def doing(process):
    """What a program that was started does: its status, or where in the system each thread waits, and the seconds of a
    processor that it had."""
    if process.poll() is not None:
        return "ended with status %d" % process.returncode
    folder = "/proc/%d/" % process.pid
    waits, times = [], []
    with contextlib.suppress(OSError):
        for thread in os.listdir(folder + "task"):
            with open("%stask/%s/wchan" % (folder, thread)) as file:
                waits.append(file.read().strip() or "?")
        with open(folder + "stat", errors="replace") as file:
            times = file.read().rsplit(")", 1)[1].split()[11:13]
    seconds = sum(map(int, times)) / os.sysconf("SC_CLK_TCK")
    return "had %.1f s of a processor, waits in %s" % (seconds, " ".join(sorted(waits)))


def pressure():
    """The machine's load, and how much of the time programs waited for a processor. A program that is starved by others
    of a higher priority looks as if it hung."""
    found = []
    for path in "/proc/loadavg", "/proc/pressure/cpu":
        with contextlib.suppress(OSError), open(path) as file:
            found.append(file.readline().strip())
    return "load " + ", waiting ".join(found)


def free_port():
    with socket.socket() as probe:
        probe.bind(("127.0.0.1", 0))
        return probe.getsockname()[1]


def is_port_taken(port):
    with socket.socket() as probe:
        return probe.connect_ex(("127.0.0.1", port)) == 0
