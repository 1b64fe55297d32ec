"""A disk whose power can be cut, as a file."""
import os
import random
import shutil
import socket
import subprocess
import tempfile

from checks.parts.waiting import SECONDS, wait_for
from checks.parts.wrong import Wrong

chance = random.Random()
# Scenes side by side are processes of their own, each with a chance of its own.
os.register_at_fork(after_in_child=chance.seed)


class Lost(Wrong):
    """What was acknowledged and isn't there."""


def system(*words):
    done = subprocess.run(words, stdin=subprocess.DEVNULL, capture_output=True, timeout=SECONDS)
    if done.returncode:
        raise OSError("%s: %s" % (" ".join(words), done.stderr.decode()))
    return done.stdout.decode()


class Disk:
    """The disk with its power on, as a file."""

    def __init__(self, image, *options):
        self.folder = tempfile.mkdtemp(dir=".")
        server, self.orders = (os.path.join(os.path.abspath(self.folder), name) for name in ("server", "orders"))
        self.mounted = os.path.join(self.folder, "mounted")
        self.file = os.path.join(self.mounted, "disk")
        os.mkdir(self.mounted)
        plugin = ["nbdkit", "--foreground", "--unix", server, "python",
                  os.path.join(os.path.dirname(os.path.abspath(__file__)), "disk.py")]
        settings = ["image=" + os.path.abspath(image), "orders=" + self.orders, *options]
        self.ordered = None
        self.processes = [subprocess.Popen(plugin + settings, stderr=subprocess.DEVNULL)]
        try:
            wait_for(lambda: os.path.exists(server) and os.path.exists(self.orders), "the disk")
            self.processes.append(subprocess.Popen(["nbdfuse", self.file, "nbd+unix:///?socket=" + server],
                                                   stderr=subprocess.DEVNULL))
            wait_for(lambda: os.path.exists(self.file), "the disk's file")
        except BaseException:
            self.remove()
            raise

    def cut(self, calls):
        """Orders a cut before so many further calls are done."""
        order = socket.socket(socket.AF_UNIX)
        order.connect(self.orders)
        order.sendall(b"cut %d %d\n" % (calls, chance.getrandbits(32)))
        if self.ordered:
            self.ordered.close()
        self.ordered = order

    def is_cut(self):
        self.ordered.settimeout(0.001)
        try:
            return bool(self.ordered.recv(1, socket.MSG_PEEK))
        except TimeoutError:
            return False

    def remove(self):
        """Cuts the power now, if it is on. Returns how many units were in the cache and how many are torn."""
        found = None
        try:
            if self.ordered:
                if not self.is_cut():
                    self.cut(0)
                self.ordered.settimeout(SECONDS)
                with self.ordered.makefile() as lines:
                    found = [int(number) for number in lines.readline().split()]
                self.ordered.close()
        finally:
            subprocess.run(["fusermount3", "-u", "-z", self.mounted], stderr=subprocess.DEVNULL)
            for process in reversed(self.processes):
                process.kill()
                process.wait()
            shutil.rmtree(self.folder, ignore_errors=True)
        return found
