"""Lines of a file that is rotated, by tools/file-feed."""
import hashlib
import os
import random
import shutil
import subprocess
import time

from checks.parts import program
from checks.parts.answers import expect_acknowledged_kept, kept_answers
from checks.parts.daemons import FedDaemon
from checks.parts.places import tool
from checks.parts.processes import kill_group
from checks.parts.scenes import scene
from checks.parts.tools import needs
from checks.parts.waiting import SECONDS, wait_for, wait_while_growing
from checks.parts.wrong import expect_true


class RotatedLog:
    """A log file that is written and rotated, as logrotate does it: by a new file, by a copy, or packed."""

    def __init__(self, path, word=b"line"):
        self.path, self.word, self.lines, self.file = path, word, [], open(path, "ab", buffering=0)

    def line(self, number):
        return b"%s %d %s" % (self.word, number, b"x" * random.choice([0, 10, 200]))

    def write(self, count):
        for _ in range(count):
            self.lines.append(self.line(len(self.lines)))
            self.file.write(self.lines[-1] + b"\n")

    def rotate(self, how, between=lambda: None):
        """Makes room for the next file. Something else may happen between two steps."""
        for number in range(50, 0, -1):
            for packed in "", ".gz":
                if os.path.exists("%s.%d%s" % (self.path, number, packed)):
                    os.rename("%s.%d%s" % (self.path, number, packed), "%s.%d%s" % (self.path, number + 1, packed))
        between()
        if how == "copied":
            shutil.copy2(self.path, self.path + ".1")
            between()
            os.truncate(self.path, 0)
            return
        os.rename(self.path, self.path + ".1")
        between()
        # A program writes to the old file until it is told.
        self.write(random.randrange(3))
        self.file = open(self.path, "ab", buffering=0)
        between()
        if how == "packed":
            subprocess.run(["gzip", self.path + ".1"], check=True)


@scene
def scene_file():
    """Lines of a file that is rotated come by tools/file-feed, which is killed, as is the daemon: no line is missing,
    they come in their order, and a line that is too long is cut."""
    needs("gzip")
    folder = os.getcwd()
    daemon, log = FedDaemon(folder), RotatedLog(os.path.join(folder, "some.log"))
    wrapper, answers = kept_answers(folder)
    log.write(5)
    feed = FileFeed(daemon, log, wrapper)
    try:
        wait_for(lambda: daemon.count() >= 5, "the first line")
        for turn in range(100 if program.LONG else 6):
            feed_killed(turn, feed, daemon, log)
        log.file.write(b"long " * 10000 + b"\n")
        log.write(1)

        def count():
            # A feed that met a killed daemon has ended, as its unit starts it again.
            if feed.process.poll() is not None:
                feed.start()
            return daemon.read_on()
        wait_while_growing(lambda: log.lines[-1] in daemon.found, count, "the last line")
    finally:
        feed.kill()
    expect_file_stored(folder, log, daemon)
    daemon.stop()
    expect_bad_places_refused(log, daemon)
    expect_acknowledged_kept(daemon.store, answers, folder)


class FileFeed:
    """tools/file-feed of a log, which is started again and again."""

    def __init__(self, daemon, log, wrapper):
        self.words = [tool("file-feed"), daemon.socket, "position", log.path, "7"]
        self.environment = dict(os.environ, AUDIT=wrapper)
        self.start()

    def start(self):
        self.process = subprocess.Popen(self.words, env=self.environment, start_new_session=True,
                                        stderr=subprocess.DEVNULL)

    def kill(self):
        kill_group(self.process)


def feed_killed(turn, feed, daemon, log):
    """The feed is killed while lines come, in some turns the daemon too, and the file is rotated meanwhile."""
    log.write(random.randrange(100))
    time.sleep(random.uniform(0.0, 0.5))
    feed.kill()
    if turn % 3 == 1:
        daemon.kill()
    log.write(random.randrange(30))
    if turn % 2 == 0:
        log.rotate(("renamed", "copied", "packed")[turn // 2 % 3])
    log.write(random.randrange(30))
    if turn % 3 == 1:
        daemon.start()
    feed.start()


def expect_bad_places_refused(log, daemon):
    """A store, a device or another file isn't taken as POSITION."""
    for place, why in (daemon.store, "is a store"), ("/dev/null", "is no regular file"), (log.path, "has no place"):
        done = subprocess.run([tool("file-feed"), daemon.socket, place, log.path, "7"],
                              env=dict(os.environ, AUDIT=program.PATH), capture_output=True, timeout=SECONDS)
        said = "file-feed: %s %s\n" % (place, why)
        expect_true((done.returncode, done.stderr.decode()) == (1, said), "%s as POSITION: %r" % (place, done.stderr))


def expect_file_stored(folder, log, daemon):
    """Each line of the file is there, in order, and the long one is cut."""
    found = list(dict.fromkeys(daemon.payloads(folder)))
    cut = [payload for payload in found if payload.startswith(b"long ")]
    expect_true(len(cut) == 1 and len(cut[0]) == 32688, "a long line has %r bytes" % [len(payload) for payload in cut])
    said = b" [of 50000 bytes, SHA-256 %s]" % hashlib.sha256(b"long " * 10000).hexdigest().encode()
    expect_true(cut[0].endswith(said), "a long line ends with %r" % cut[0][-100:])
    found.remove(cut[0])
    missing = [line for line in log.lines if line not in set(found)]
    expect_true(not missing, "%d lines of %d are missing: %s .." % (len(missing), len(log.lines), missing[:3]))
    expect_true(found == log.lines, "the lines come in another order, or others come")
