"""Logs of programs that rotate them in ways of their own, by tools/file-feed: of auditd, of a container and of
PostgreSQL with pgaudit. Each line is in the log once and in order, whoever is killed."""
import contextlib
import gzip
import json
import os
import random
import re
import signal
import socket
import struct
import time

from checks.feeds.common import Kills, ModelSource, SourceDaemon
from checks.feeds.file import RotatedLog
from checks.feeds.placed import FINISHED, LONGEST, expect_fed, expect_lines, fed, play_kills, wait_at_rest
from checks.parts import program
from checks.parts.files import read, read_text, write
from checks.parts.frames import receive
from checks.parts.processes import Service
from checks.parts.scenes import scene
from checks.parts.tools import needs, needs_root
from checks.parts.waiting import SECONDS, free_port, is_alive, is_port_taken, wait_for
from checks.parts.wrong import LeftOut, expect

# How often a line is longer than an event.
LONG_LINES = 0.01


def text_of(number):
    """A text that differs from those of other lines. Few are longer than an event."""
    return "line %d %s" % (number, "x" * (LONGEST if random.random() < LONG_LINES else random.choice((0, 10, 200))))


def feed_and_kill(log, **how):
    """Feeds a log to a daemon while both are killed: a hundred times with --long."""
    turns, least = (0, 100) if program.LONG else (6, 0)
    play_kills(SourceDaemon(os.getcwd()), log, turns, least=least, most=20, **how)


class NumberedLog(RotatedLog):
    """A log of a program that closes a file before it renames it. The older ones have numbers, and the oldest is
    dropped: this waits until its lines are taken, as they would be lost with it."""

    # How many files there are at most, the modes of one that is written, and of one that was.
    files, mode, mode_after = 5, 0o600, 0o400

    def __init__(self, path):
        super().__init__(path)
        os.chmod(path, self.mode)
        self.ends = []

    def rotate(self, how, between):
        os.fchmod(self.file.fileno(), self.mode_after)
        self.file.close()
        self.ends.append(len(self.lines))
        if len(self.ends) >= self.files:
            dropped = self.ends[-self.files]
            wait_for(lambda: int(read_text("position").split()[-3]) > dropped, "the end of the oldest file")
        for number in range(self.files - 1, 0, -1):
            self.rename(number)
            between()
        self.file = open(self.path, "ab", buffering=0)
        os.chmod(self.path, self.mode)
        between()

    def rename(self, number):
        """Gives this number to the file with the one before it."""
        before = "%s.%d" % (self.path, number - 1) if number > 1 else self.path
        if os.path.exists(before):
            os.rename(before, "%s.%d" % (self.path, number))


class AuditdLog(NumberedLog):
    """The log of auditd with max_log_file_action = ROTATE, and log_format = ENRICHED."""

    def line(self, number):
        head = "msg=audit(%d.%03d:%d):" % (1_700_000_000 + number // 7, number % 1000, number // 3)
        bodies = (
            "type=SYSCALL %s arch=c000003e syscall=59 success=yes exit=0 a0=55d0 a1=55d1 items=2 ppid=%d pid=%d "
            'auid=1000 uid=0 tty=pts0 ses=3 comm="sh" exe="/usr/bin/dash" key="%s"\x1dARCH=x86_64 SYSCALL=execve'
            ' AUID="somebody" UID="root"', 'type=EXECVE %s argc=2 a0="%d" a1="%d" a2="%s"',
            "type=PROCTITLE %s proctitle=%08x%08x%s")
        return (bodies[number % 3] % (head, number, number + 1, text_of(number).replace(" ", "_"))).encode()


# What auditd writes its number to, wherever its configuration is.
AUDITD_PID = "/run/auditd.pid"
AUDITD = """local_events = no
log_file = %s
log_format = RAW
flush = DATA
max_log_file = 1
num_logs = 99
max_log_file_action = ROTATE
space_left = 2
space_left_action = IGNORE
admin_space_left = 1
admin_space_left_action = IGNORE
disk_full_action = IGNORE
disk_error_action = IGNORE
tcp_listen_port = %d
use_libwrap = no
plugin_dir = %s
"""


class RealAuditd:
    """A real auditd, which takes records over TCP and nothing of the kernel, and renames its file at a mebibyte."""

    def __init__(self, folder):
        needs("auditd")
        needs_root()
        with contextlib.suppress(OSError, ValueError):
            if is_alive(int(read_text(AUDITD_PID))):
                raise LeftOut("an auditd runs here, whose file %s would be replaced" % AUDITD_PID)
        port, self.path, self.sent = free_port(), os.path.join(folder, "log", "audit.log"), 0
        for name in "log", "auditd", "auditd/plugins":
            os.mkdir(name)
        write("auditd/auditd.conf", (AUDITD % (self.path, port, os.path.abspath("auditd/plugins"))).encode())
        self.service = Service("auditd", "-n", "-s", "nochange", "-c", os.path.abspath("auditd"))
        wait_for(lambda: is_port_taken(port), "auditd")
        self.stream = socket.create_connection(("127.0.0.1", port))

    def write(self, count):
        """Sends records, each in the frame of audisp-remote, and reads the answers, of which each is a frame."""
        for self.sent in range(self.sent + 1, self.sent + count + 1):
            record = b"type=USER_CMD msg=audit(1700000000.123:%d): cmd=%s\n" % (
                self.sent, b"6c73" * random.choice((1, 20, 2000, 2000)))
            self.stream.sendall(struct.pack("<IBBIHI", 0xff0000fe, 0, 0, 0, len(record), self.sent) + record)
            expect(receive(self.stream, 16)[-4:], struct.pack("<I", self.sent), "the answer of auditd")

    def stop(self):
        """It writes one more line, and removes what has its number."""
        self.stream.close()
        self.service.process.terminate()
        self.service.process.wait(SECONDS)

    def rotated(self):
        return [path for number in range(99, 0, -1) if os.path.exists(path := "%s.%d" % (self.path, number))]

    @property
    def lines(self):
        """The lines in all files, from the oldest."""
        return b"".join(map(read, [*self.rotated(), self.path])).split(b"\n")[:-1]


class ContainerLog(NumberedLog):
    """The log of a container by the driver json-file, with max-file. With compress, an older file is packed by itself,
    and has the time of that; the container goes on meanwhile."""

    mode = mode_after = 0o640

    def line(self, number):
        stamp = "2023-11-14T22:13:%02d.%09dZ" % (number % 60, number)
        return json.dumps({"log": text_of(number) + "\n", "stream": random.choice(("stdout", "stderr")), "time": stamp},
                          separators=(",", ":")).encode()

    def rotate(self, how, between):
        super().rotate(how, between)
        if how == "packed":
            self.pack(self.path + ".1", between)
            # What was written meanwhile may have filled the next file.
            if random.random() < 0.3 and len(self.lines) > self.ends[-1]:
                self.rotate(how, between)

    def rename(self, number):
        """The same of one that is packed."""
        super().rename(number)
        packed = "%s.%d.gz" % (self.path, number - 1)
        if os.path.exists(packed):
            os.rename(packed, "%s.%d.gz" % (self.path, number))

    def pack(self, path, between):
        with open(path, "rb") as old, gzip.open(path + ".gz", "wb") as packed:
            packed.write(old.read(10_000))
            between()
            self.write(random.randrange(30))
            between()
            packed.write(old.read())
        between()
        os.remove(path)


class DatabaseLog(RotatedLog):
    """The log of PostgreSQL with pgaudit and one log_filename, which logrotate renames or copies: by lines of text, or
    as CSV. A statement of several lines has them in the log too."""

    def line(self, number):
        stamp = "2023-11-14 22:13:%02d.%03d UTC" % (number % 60, number % 1000)
        audit = 'AUDIT: SESSION,%d,1,READ,SELECT,TABLE,public.some,"select \'%s\' -- ""%d""",<not logged>' % (
            number, text_of(number), number)
        if number % 4 == 3:
            return b"\tfrom some where line = %d" % number
        if number % 2:
            return ('%s,"user","db",%d,"[local]",655,"SELECT","%s",00000,"%s",,,,,,,,,"psql","client backend",,0' % (
                stamp, number, stamp, audit.replace('"', '""'))).encode()
        return ("%s [%d] user@db LOG:  %s" % (stamp, number, audit)).encode()


@scene
def scene_auditd_log():
    """Lines of auditd's form, in files that it closes, makes read-only and renumbers."""
    feed_and_kill(AuditdLog("audit.log"), ways=("renamed",))


@scene
def scene_real_auditd():
    """Records that a real auditd writes, also while it rotates its log. It has each in its files."""
    daemon, log = SourceDaemon(os.getcwd(), sectors=65536), RealAuditd(os.getcwd())
    log.write(5)
    feed = fed(log)
    wait_at_rest(log)
    kills = Kills(daemon, feed)
    while kills.count < (100 if program.LONG else 4) or len(log.rotated()) < (2 if program.LONG else 1):
        log.write(random.randrange(10 if program.LONG else 100))
        kills.maybe()
    log.stop()
    wait_at_rest(log)
    feed.kill()
    daemon.kill()
    expect_lines(daemon.held(), log)
    records = [int(found) for found in re.findall(rb"^type=USER_CMD .*?:(\d+)\)", b"\n".join(log.lines), re.MULTILINE)]
    expect(records, list(range(1, log.sent + 1)), "the records of auditd")


@scene
def scene_container_log():
    """A container's lines in files that are renumbered."""
    feed_and_kill(ContainerLog("0123abcd-json.log"), ways=("renamed",))


@scene
def scene_packed_container_log():
    """A container's lines in files that are renumbered, and packed while it goes on."""
    feed_and_kill(ContainerLog("0123abcd-json.log"), ways=("packed",))


@scene
def scene_older_files_are_packed_later():
    """A file is packed once the next one is full, so it is the newer one by its time: its lines aren't sent again."""
    daemon, log = ModelSource(), ContainerLog("0123abcd-json.log")
    log.write(5)
    feed = fed(log)
    wait_at_rest(log)
    log.rotate("renamed", pausing)
    log.write(10)
    log.pack(log.path + ".1", pausing)
    log.rotate("renamed", pausing)
    log.write(10)
    time.sleep(3 * FINISHED)
    expect_fed(log, feed, daemon)


def pausing():
    time.sleep(0.05)


@scene
def scene_empty_files_are_rotated():
    """A file is renamed before anything is in it, and the next one soon after it: none of its lines is lost."""
    daemon, log = ModelSource(), NumberedLog("some.log")
    log.write(5)
    feed = fed(log)
    wait_at_rest(log)
    log.rotate("renamed", pausing)
    time.sleep(2 * FINISHED)
    log.rotate("renamed", pausing)
    log.write(10)
    log.rotate("renamed", pausing)
    log.write(5)
    expect_fed(log, feed, daemon)


@scene
def scene_copies_come_before_a_look():
    """A file from which nothing was read is copied and truncated between two looks at it: its lines are in the copy."""
    daemon, log = ModelSource(), RotatedLog("some.log")
    log.write(5)
    feed = fed(log)
    wait_at_rest(log)
    log.rotate("copied")
    time.sleep(FINISHED)
    for copies in (1, 2):
        with halted(feed):
            for _ in range(copies):
                log.write(3)
                log.rotate("copied")
            log.write(copies - 1)
        log.write(2)
        wait_at_rest(log)
        log.rotate("copied")
        time.sleep(FINISHED)
    expect_fed(log, feed, daemon)


@scene
def scene_copies_come_before_the_end():
    """A feed begins after a file was copied, and before it is truncated: its lines are sent once."""
    needs("gzip")
    daemon, log = ModelSource(), RotatedLog("some.log")
    log.write(5)
    feed = fed(log)
    wait_at_rest(log)
    feed.kill()
    log.rotate("packed")
    log.write(10)

    def feeding():
        if os.path.exists("some.log.1"):
            feed.start()
            time.sleep(FINISHED)

    log.rotate("copied", feeding)
    log.write(5)
    expect_fed(log, feed, daemon)


@contextlib.contextmanager
def halted(feed):
    """A feed does nothing meanwhile."""
    os.killpg(feed.service.process.pid, signal.SIGSTOP)
    try:
        yield
    finally:
        os.killpg(feed.service.process.pid, signal.SIGCONT)


@scene
def scene_database_log():
    """Statements that pgaudit logs, in files that logrotate renames, or copies and truncates."""
    needs("gzip")
    feed_and_kill(DatabaseLog("postgresql.log"))
