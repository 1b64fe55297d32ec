"""What of this machine a check needs: programs, rights and devices."""
import os
import shutil
import subprocess

from checks.parts.waiting import SECONDS
from checks.parts.wrong import LeftOut, expect_true


def missing(tools, devices=()):
    """Those of these programs that aren't there, and of these devices that can't be used."""
    found = [name for name in tools if shutil.which(name) is None]
    return found + [path for path in devices if not os.access(path, os.R_OK | os.W_OK)]


def needs(*tools, devices=()):
    found = missing(tools, devices)
    if found:
        raise LeftOut("there is no " + ", ".join(found))


def needs_root():
    if os.geteuid() != 0:
        raise LeftOut("it needs root")


def call(*words, timeout=SECONDS):
    """The output of a command of the system, which succeeds."""
    done = subprocess.run(words, stdin=subprocess.DEVNULL, capture_output=True, timeout=timeout)
    expect_true(done.returncode == 0, "%s: %s" % (" ".join(words), done.stderr.decode(errors="replace")))
    return done.stdout


def succeeds(*words):
    """Whether a command of the system exists, and succeeds in time."""
    try:
        return subprocess.run(words, stdin=subprocess.DEVNULL, stdout=subprocess.DEVNULL, stderr=subprocess.DEVNULL,
                              timeout=SECONDS).returncode == 0
    except (OSError, subprocess.TimeoutExpired):
        return False


def said_by(*words, timeout=30):
    """What a command of the system says, however it ends."""
    try:
        done = subprocess.run(words, stdin=subprocess.DEVNULL, stdout=subprocess.PIPE, stderr=subprocess.STDOUT,
                              timeout=timeout)
        return done.stdout.decode(errors="replace").strip()
    except (OSError, subprocess.TimeoutExpired) as why:
        return str(why)
