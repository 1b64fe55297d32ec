"""Programs that are started, killed and started again. None outlives its scene."""
import contextlib
import os
import signal
import subprocess

from checks.parts.waiting import SECONDS

# Those that were started and whose end nobody has awaited.
STARTED = []


def start(words, **how):
    """Starts a program that is ended with the scene."""
    process = subprocess.Popen(words, **how)
    STARTED.append(process)
    return process


def forget(process):
    """A process has ended, and all that it said was read."""
    if process in STARTED:
        STARTED.remove(process)


def end_all():
    """Ends what was started and still runs."""
    for process in STARTED:
        if process.poll() is None:
            process.kill()
        process.wait()
        for stream in (process.stdin, process.stdout, process.stderr):
            if stream:
                with contextlib.suppress(OSError):
                    stream.close()
    STARTED.clear()
    for service in Service.all:
        service.kill()
    Service.all.clear()


def kill_group(process):
    """Kills a program that was started in a session of its own, with all that it started."""
    if process.poll() is None:
        os.killpg(process.pid, signal.SIGKILL)
    process.wait()


class Service:
    """A silent program that is killed and started again, with all that it starts itself."""

    all = []

    def __init__(self, *words, **how):
        self.words, self.how, self.process = words, how, None
        Service.all.append(self)
        self.start()

    def start(self):
        self.process = subprocess.Popen(self.words, start_new_session=True, stdin=subprocess.DEVNULL,
                                        stdout=subprocess.DEVNULL, stderr=subprocess.DEVNULL, **self.how)

    def kill(self):
        kill_group(self.process)

    def restart(self):
        self.process.terminate()
        self.process.wait(SECONDS)
        self.start()
