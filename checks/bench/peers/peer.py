"""What the peers have in common."""
import os
import time


class Peer:
    """A log that lines are appended to in batches, each durable when `append` returns."""

    NAME = ""

    def __init__(self, room, most):
        """Makes the log in a folder, for that many lines at most."""
        self.room = room

    def takes(self, size):
        """From now on the batches have that many lines."""

    def append(self, batches):
        raise NotImplementedError

    def memory(self):
        """The most memory that its process took, in MB, or nothing if it is a part of this one."""
        return None

    def finish(self):
        """Ends appending, so that the log is complete in its files."""

    def verify(self):
        """The seconds of a verification of the whole log, or nothing if this peer has none."""
        return None

    def end(self):
        """Ends what still runs."""

    def size(self):
        """The bytes of its files."""
        return sum(os.path.getsize(os.path.join(at, name)) for at, _, names in os.walk(self.room) for name in names)

    @staticmethod
    def timed(work, *given):
        start = time.perf_counter()
        work(*given)
        return time.perf_counter() - start


def peak_of(process):
    """The most memory that a process took so far, in MB."""
    with open("/proc/%d/status" % process.pid) as file:
        for line in file:
            if line.startswith("VmHWM:"):
                return int(line.split()[1]) * 1024 / 1e6
    return 0.0
