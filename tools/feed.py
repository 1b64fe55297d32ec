"""What the feeds share: the file that keeps a place, events that are sent at their places, the answers of `audit send`, and
names as they are printed.

A feed numbers its events. For a kind that is bound to its socket (`--writer` of `audit daemon`) the daemon knows how many
events of the kind it has, and appends the next one alone. So whatever a feed isn't sure of it sends again, and neither loses
nor doubles it. What it kept of its last run is a place in its input, with the number of the event after it.
"""
import collections
import contextlib
import fcntl
import os
import re
import select
import socket
import stat
import struct
import tempfile
import time

# What a terminal doesn't show as a letter, and bytes that are no UTF-8.
HIDDEN = re.compile("[\0-\x1f\x7f-\x9f\\\\\xad\u061c\u180e\u200b-\u200f\u2028-\u202e\u2060-\u206f\ufeff"
                    "\ufff9-\ufffb\U000e0000-\U000e0fff\ud800-\udfff]")


def shown(text):
    """A name or a line of another program as it is printed: with escapes for what moves a cursor or turns a line."""
    def escape(found):
        code = ord(found[0])
        if code < 0x80 or 0xdc80 <= code < 0xdd00:
            return "\\x%02x" % (code & 0xff)
        return "\\u%04x" % code if code < 0x10000 else "\\u{%x}" % code
    return HIDDEN.sub(escape, text)


class BadPlace(Exception):
    """Why a path can't be that of a place."""


class PlaceFile:
    """A file with one line: the place up to which all is acknowledged. It replaces no store, no device and no locked file."""

    def __init__(self, path):
        self.path, self.saved = path, None

    def text(self):
        """What the file has, or None if there is no file. It isn't opened if that might wait."""
        try:
            if not stat.S_ISREG(os.stat(self.path).st_mode):
                raise BadPlace("is no regular file")
            with open(self.path, "rb") as file:
                fcntl.flock(file, fcntl.LOCK_SH | fcntl.LOCK_NB)
                found = file.read(1 << 16)
        except FileNotFoundError:
            return None
        except BlockingIOError:
            raise BadPlace("is locked by another program") from None
        if b"AUDITST1" in (found[:8], found[512:520]):
            raise BadPlace("is a store")
        return found.decode(errors="replace").strip()

    def save(self, text):
        """Replaces the file, durably, if that changes it."""
        if text == self.saved:
            return
        folder, name = os.path.split(self.path)
        made, beside = tempfile.mkstemp(prefix=name + ".", suffix=".tmp", dir=folder or ".")
        try:
            with open(made, "w") as file:
                file.write(text + "\n")
                file.flush()
                os.fsync(file.fileno())
            self.text()
            os.rename(beside, self.path)
        except BaseException:
            with contextlib.suppress(OSError):
                os.remove(beside)
            raise
        self.saved = text


class Answers:
    """The lines of a pipe."""

    def __init__(self, pipe):
        self.pipe, self.kept = pipe.fileno(), b""

    def __iter__(self):
        return self

    def __next__(self):
        while b"\n" not in self.kept:
            more = os.read(self.pipe, 1 << 16)
            if not more:
                raise StopIteration
            self.kept += more
        line, self.kept = self.kept.split(b"\n", 1)
        return line + b"\n"

    def is_read_up(self):
        """Whether no further line is there yet."""
        return b"\n" not in self.kept and not select.select([self.pipe], [], [], 0)[0]


class NotCounted(Exception):
    """A daemon doesn't count the events of a kind, or a server knows no places at all."""


class Ended(Exception):
    """Why a connection is of no use any more."""


# What comes in the place of an item where nothing is new: NOTHING if all that there is has come, LATER if more may be there.
NOTHING, LATER = None, False
# First bytes of requests and replies (docs/formats.md), and codes of refusals.
ENTRY, PLACE, PLACED = 5, 8, 9
ENTRY_REPLY, PLACE_REPLY, PLACED_REPLY, REFUSED = 0x85, 0x88, 0x89, 0xff
NO_SUCH_VERSION, NOT_COUNTED, MALFORMED = 8, 18, 20
REFUSALS = {4: "DamagedLog", 7: "Full", 9: "Worn", 11: "Device", 13: "Closed", 16: "NotAllowed", 18: "NotCounted",
            20: "Malformed"}
QUESTION, ENTRY_QUESTION = struct.Struct(">HBII"), struct.Struct(">HBIQ")
PLACED_HEAD, PLACE_FIELDS = struct.Struct(">HBIIQ"), struct.Struct(">QQ")
# The bodies of the replies to a placed append.
PLACE_SIZE, PLACED_SIZE = 21, 85
# The most events that are sent ahead of their answers, and how many are sent at once.
AHEAD, AT_ONCE = 1024, 128
# Seconds after which a silent server is given up, after which the place is kept under load, and between looks at rest.
PATIENCE, KEPT, PAUSE = 30.0, 1.0, 0.25


class Daemon:
    """A connection to a daemon. No call waits for longer than it says."""

    def __init__(self, path, kind):
        self.kind, self.frames, self.unread = kind, [], b""
        self.stream = socket.socket(socket.AF_UNIX, socket.SOCK_STREAM)
        self.stream.settimeout(PATIENCE)
        try:
            self.stream.connect(path)
        except OSError as why:
            raise Ended(why.strerror or str(why)) from None
        self.stream.setblocking(False)

    def move(self, seconds, also=()):
        """Sends and receives what can be within a time. Returns which descriptors were ready."""
        reading, writing, _ = select.select([self.stream, *also], [self.stream] if self.frames else [], [], seconds)
        with contextlib.suppress(BlockingIOError):
            if writing:
                self.write()
            if self.stream in reading:
                self.read()
        return reading + writing

    def write(self):
        data = b"".join(self.frames)
        try:
            sent = self.stream.send(data)
            self.frames = [memoryview(data)[sent:]] if sent < len(data) else []
        except ConnectionError:
            # What came before the end is still to be received.
            self.frames = []

    def read(self):
        try:
            data = self.stream.recv(1 << 18)
        except ConnectionError:
            data = b""
        if not data:
            raise Ended("the connection ended")
        self.unread += data

    def replies(self):
        """The bodies of the whole replies that came."""
        unread, at, found = self.unread, 0, []
        while len(unread) - at >= 2:
            end = at + 2 + int.from_bytes(unread[at:at + 2], "big")
            if end > len(unread):
                break
            found.append(unread[at + 2:end])
            at = end
        self.unread = unread[at:]
        return found

    def ask(self, request):
        """The reply to a question, while nothing else waits for an answer."""
        self.frames.append(request)
        bodies = []
        while not bodies:
            if not self.move(PATIENCE):
                raise Ended("no reply in time")
            bodies = self.replies()
        if len(bodies) > 1 or len(bodies[0]) < 6:
            raise Ended("bad reply")
        return bodies[0]

    def number(self):
        """How many events of the kind the log has."""
        body = self.ask(QUESTION.pack(9, PLACE, 1, self.kind))
        if body[0] == PLACE_REPLY and len(body) == PLACE_SIZE:
            return PLACE_FIELDS.unpack(body[5:])[0]
        if body[0] == REFUSED and body[5] in (NOT_COUNTED, MALFORMED):
            raise NotCounted
        raise Ended(refusal_in(body))

    def log(self):
        """What tells this log from others: the MAC of its first entry, or `-` if it has none."""
        body = self.ask(ENTRY_QUESTION.pack(13, ENTRY, 1, 0))
        if body[0] == ENTRY_REPLY and len(body) >= 77:
            return body[-32:].hex()
        if body[0] == REFUSED and body[5] == NO_SUCH_VERSION:
            return "-"
        raise Ended(refusal_in(body))


def refusal_in(body):
    """What a refusal says."""
    if body[0] != REFUSED or len(body) != 6:
        return "bad reply"
    return "refused: %d %s" % (body[5], REFUSALS.get(body[5], ""))


# A place with the number of the event after it, whether events may be on their way, and what tells their log from others.
Mark = collections.namedtuple("Mark", "place number state log")
IDLE, BUSY = "idle", "busy"


def mark_in(text):
    """The mark in a text; a place alone, as an earlier version kept it, has neither number nor log."""
    found = re.fullmatch("(.*) ([0-9]{1,20}) (idle|busy) ([0-9a-f]{64}|-)", text, re.DOTALL)
    return Mark(found[1], int(found[2]), found[3], found[4]) if found else Mark(text, None, IDLE, "-")


class Sent:
    """An item, and the place of its event."""

    __slots__ = "item", "number", "is_stored"

    def __init__(self, item, number):
        self.item, self.number, self.is_stored = item, number, False


class Sender:
    """Sends items, each at the place of its event, and keeps the place after those that are stored.

    An item has a `text`, an `origin`, and `is_new` if no earlier run can have sent it. `place` goes to an item of another
    origin by `begin` and past an item by `advance`, and has a `text`. While events are on their way, the place that is kept
    has their origin.
    """

    def __init__(self, daemon, kept, place, say):
        self.daemon, self.kept, self.place, self.say = daemon, kept, place, say
        self.number, self.log = daemon.number(), daemon.log()
        # The items that aren't known to be stored, in their order, and those that wait for an answer, in that of the
        # answers.
        self.order, self.asked = collections.deque(), collections.deque()
        # The place of the next item's event. Whether an earlier run may have sent items that come. What is kept, and
        # when it was.
        self.next, self.is_doubtful, self.state, self.saved = self.number, False, None, time.monotonic()
        # Whether the daemon has fewer events than were acknowledged and hasn't appended one yet. Then it may be fenced.
        self.is_behind = False
        # When an answer came, if some item waits for one.
        self.heard, self.is_said, self.also = self.saved, False, []

    def go_on(self, mark):
        """Goes on after an earlier run."""
        if mark.number is None:
            return
        if mark.log not in ("-", self.log):
            self.say("the log is another one: its event %d of kind %d is the next" % (self.number, self.daemon.kind))
        elif self.number < mark.number:
            self.say("the log has %d events of kind %d, and %d were acknowledged"
                     % (self.number, self.daemon.kind, mark.number))
            self.is_behind = True
        elif mark.state == BUSY:
            self.next, self.is_doubtful, self.state = mark.number, True, BUSY
        elif self.number > mark.number:
            self.say_others()

    def run(self, items):
        for item in items:
            if item is NOTHING or item is LATER:
                self.wait(item is NOTHING)
            else:
                self.take(item)

    def take(self, item):
        if item.origin is not self.place.origin:
            self.begin(item)
        if self.is_doubtful and item.is_new:
            self.catch_up()
        if self.next < self.number and not self.order:
            # An earlier run has sent it, and it is stored.
            self.place.advance(item)
            self.next += 1
            return
        if self.state != BUSY:
            self.save(BUSY)
        sent = Sent(item, self.next)
        self.order.append(sent)
        self.send(sent)
        if self.is_behind:
            self.settle(0)
        elif len(self.daemon.frames) >= 2 * AT_ONCE:
            self.settle(AHEAD - AT_ONCE)

    def begin(self, item):
        """Goes to another file, after all of the last one is answered. No earlier run had gone there."""
        self.settle(0)
        if self.place.origin is None:
            self.forget()
        self.catch_up()
        self.learn_log()
        self.place.begin(item)
        self.save(BUSY)

    def send(self, sent):
        """Sends an item at the next place."""
        sent.number, self.next = self.next, self.next + 1
        if not self.asked:
            self.heard = time.monotonic()
        text = sent.item.text
        self.daemon.frames += (PLACED_HEAD.pack(17 + len(text), PLACED, tag_of(sent), self.daemon.kind, sent.number), text)
        self.asked.append(sent)

    def settle(self, most):
        """Sends what is to be sent, and hears until at most this many items wait for an answer."""
        while self.daemon.frames or len(self.asked) > most:
            if not self.daemon.move(PATIENCE):
                raise Ended("no reply in time")
            self.hear()

    def hear(self):
        now = time.monotonic()
        try:
            for body in self.daemon.replies():
                self.answered(body)
                self.heard = now
        finally:
            self.advance()
        if self.asked and now - self.heard > PATIENCE:
            raise Ended("no reply in time")
        if self.state == BUSY and now - self.saved > KEPT:
            self.save(BUSY)

    def advance(self):
        while self.order and self.order[0].is_stored:
            self.place.advance(self.order.popleft().item)

    def answered(self, body):
        """Takes the answer to the item that waits for longest."""
        sent = self.asked.popleft() if self.asked else None
        if sent is None or len(body) < 6 or body[1:5] != tag_of(sent).to_bytes(4, "big"):
            raise Ended("bad reply")
        if body[0] == PLACED_REPLY and len(body) == PLACED_SIZE:
            sent.is_stored = True
            if self.is_behind:
                self.is_behind = False
                self.save(BUSY)
        elif body[0] == PLACE_REPLY and len(body) == PLACE_SIZE:
            self.displaced(sent, PLACE_FIELDS.unpack(body[5:])[0])
        else:
            raise Ended(refusal_in(body))

    def displaced(self, sent, number):
        """The log has this many events of the kind: the item's own among them, if an earlier run has sent it."""
        if number <= sent.number:
            raise Ended("bad reply")
        self.number = max(self.number, number)
        if self.is_doubtful:
            sent.is_stored = True
            return
        self.say_others()
        self.next = max(self.next, number)
        self.send(sent)

    def say_others(self):
        if not self.is_said:
            self.say("another source appends events of kind %d: give each source a kind of its own, or lines are lost"
                     % self.daemon.kind)
        self.is_said = True

    def forget(self):
        """There is no place of an earlier run, or it is gone: what comes was never sent."""
        self.next, self.is_doubtful = max(self.next, self.number), False

    def catch_up(self):
        """All that an earlier run can have sent has come, and is answered: no more can be stored."""
        self.settle(0)
        if self.next < self.number:
            self.say("the log has %d events of kind %d more than there are lines"
                     % (self.number - self.next, self.daemon.kind))
        self.forget()

    def wait(self, is_all):
        """Waits for a moment, or until `also` has more."""
        end = time.monotonic() + PAUSE
        while (left := end - time.monotonic()) > 0:
            if not self.daemon.frames and not self.asked:
                self.be_idle(is_all)
            ready = self.daemon.move(left, self.also)
            self.hear()
            if any(each in ready for each in self.also):
                break

    def be_idle(self, is_all):
        """Nothing is on its way."""
        if is_all:
            self.catch_up()
        if not self.is_doubtful and self.state == BUSY:
            self.learn_log()
            self.save(IDLE)

    def learn_log(self):
        """Once a log that was empty has an entry, it is known by that."""
        if self.log == "-" and self.next > 0:
            self.log = self.daemon.log()

    def save(self, state):
        """Keeps the place; not that in the log of a daemon that may be fenced, as its successor has more events."""
        if self.place.origin is None or self.is_behind:
            return
        number = self.order[0].number if self.order else self.next
        self.kept.save("%s %d %s %s" % (self.place.text(), number, state, self.log))
        self.state, self.saved = state, time.monotonic()


def tag_of(sent):
    """The tag of a request: not 0, which is that of a malformed one."""
    return sent.number % 0xffffffff + 1


def run_placed(sender, mark, items):
    """Sends items until the connection or they end, and returns which did."""
    try:
        if mark is not None:
            sender.go_on(mark)
        sender.run(items)
        sender.settle(0)
        return "the input ended"
    except Ended as why:
        return str(why)
    finally:
        if sender.state == BUSY:
            sender.save(BUSY)
