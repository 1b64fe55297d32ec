"""Sources with places, whose lists have to be in the log whole, once and in order, whichever machine served."""
import contextlib
import os
import re
import subprocess
import threading

from checks.parts import program
from checks.parts.files import read_text
from checks.parts.places import tool
from checks.parts.processes import Service
from checks.parts.waiting import SECONDS, wait_while_growing
from checks.parts.wrong import expect, expect_true

# Seconds between two lines of a source.
PACE = 0.25
# The kinds that the daemons bind: of `send --retry`, of file-feed at the address of the newest machine, and of a
# file-feed that asks one machine after the other.
SENT, FED, FED_IN_TURN = 11, 12, 13
KINDS = SENT, FED, FED_IN_TURN


def source_at(folder, kind):
    return os.path.join(folder, "source%d" % kind)


class Placed(threading.Thread):
    """A source that writes a line at a time, until it is over."""

    def __init__(self, kind):
        super().__init__(daemon=True)
        self.kind, self.lines, self.is_over = kind, [], threading.Event()

    def run(self):
        with contextlib.closing(self.input()) as file:
            while not self.is_over.wait(PACE):
                self.lines.append("kind %d, line %d" % (self.kind, len(self.lines)))
                file.write(self.lines[-1].encode() + b"\n")
                file.flush()

    def finish(self):
        """No line follows. Waits until all are in the log, as far as the source knows."""
        self.is_over.set()
        self.join(SECONDS)
        wait_while_growing(self.is_done, self.place, "the end of the source of kind %d" % self.kind)

    def expect_whole(self, held):
        """The events of its kind are its lines."""
        found = [payload for kind, payload in held if kind == self.kind]
        wanted = [line.encode() for line in self.lines]
        expect((len(found), len(set(found)), found == wanted), (len(wanted), len(wanted), True),
               "the events of kind %d, the different ones, and whether they are the source's list" % self.kind)


class PlacedSend(Placed):
    """One `audit send --placed --retry` for all its lines, at an address that leads to the newest machine."""

    def __init__(self, address):
        super().__init__(SENT)
        self.answers, self.refused = 0, []
        self.process = subprocess.Popen(
            [program.PATH, "send", source_at(address, self.kind), "--text", str(self.kind), "--placed", "--from", "0",
             "--retry", "3600", "--timeout", "3"],
            stdin=subprocess.PIPE, stdout=subprocess.PIPE, stderr=open("sent.messages", "wb"))
        self.listener = threading.Thread(target=self.listen, daemon=True)
        self.listener.start()
        self.start()

    def input(self):
        return self.process.stdin

    def listen(self):
        """An event is in the log if it is acknowledged, or if the log has more of its kind than its place."""
        for answer in self.process.stdout:
            words = answer.split()
            if words[0] != b"ack" and not (words[0] == b"place" and int(words[1]) > self.answers):
                self.refused.append(answer)
            self.answers += 1

    def is_done(self):
        return self.process.poll() is not None

    def place(self):
        return self.answers

    def finish(self):
        super().finish()
        self.listener.join(SECONDS)
        expect((self.process.returncode, self.answers, self.refused), (0, len(self.lines), []),
               "the end of `send --retry`, its answers and refusals")
        expect_true("audit: " in read_text("sent.messages"), "`send --retry` never lost its server")

    def end(self):
        self.is_over.set()
        self.process.kill()
        self.process.wait()


class PlacedFeed(Placed):
    """A file-feed that is started again whenever it ends, at one of these addresses after the other."""

    def __init__(self, kind, addresses):
        super().__init__(kind)
        self.log, self.kept = "fed%d.log" % kind, "fed%d.position" % kind
        open(self.log, "wb").close()
        again = ('feed=$1 kept=$2 log=$3 kind=$4; shift 4\n'
                 'while :; do for each; do "$feed" "$each" "$kept" "$log" "$kind" 2>>"$log.messages"; sleep 0.1; done; '
                 'done')
        self.feed = Service("sh", "-c", again, "sh", tool("file-feed"), self.kept, self.log, str(kind),
                            *(source_at(address, kind) for address in addresses),
                            env=dict(os.environ, AUDIT=program.PATH))
        self.start()

    def input(self):
        return open(self.log, "ab")

    def is_done(self):
        return re.search(" %d idle [0-9a-f]{64}$" % len(self.lines), self.place()) is not None

    def place(self):
        with contextlib.suppress(FileNotFoundError):
            return read_text(self.kept)
        return ""

    def end(self):
        self.is_over.set()
        self.feed.kill()


def placed_sources(address, folders):
    return [PlacedSend(address), PlacedFeed(FED, [address]), PlacedFeed(FED_IN_TURN, folders)]
