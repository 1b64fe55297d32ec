"""Random streams and lists of steps, drawn as crates/audit_tool_rehearse draws them, and what the model answers to them."""
import struct

from read_export import chacha20_block

from model.chain import number
from model.disk import GENERATION_LIMIT, end_of, image_of
from model.session import Rights, Server, Session
from model.wire import APPEND, COMMITMENT, ENTRY, INCREMENT, MAX_BODY, MEMBERSHIP

MASK = (1 << 64) - 1
SESSIONS = 16
FIRST_MAX_PAYLOAD, MAX_PAYLOAD = 4024, 32696


class Random:
    """A linear congruential generator modulo 2^64, of which the upper 31 bits are used."""

    def __init__(self, state):
        self.state = state

    def next(self):
        self.state = (self.state * 6364136223846793005 + 1442695040888963407) & MASK
        return self.state >> 33

    def below(self, bound):
        """A number below the bound, or 0 if that is 0."""
        drawn = self.next()
        return drawn % bound if bound else 0

    def up_to(self, most):
        return self.below(most) + 1


class CipherRandom(Random):
    """The words of ChaCha20 under a key that is a number, lowest byte first."""

    def __init__(self, start):
        super().__init__(0)
        self.words = self.words_of(start.to_bytes(32, "little"))

    @staticmethod
    def words_of(key):
        block = 0
        while True:
            yield from struct.unpack("<16I", chacha20_block(key, block))
            block += 1

    def next(self):
        return next(self.words)


def worn(commits):
    """The generation of a store that has generations left for this many commits."""
    return GENERATION_LIMIT - 1 - 2 * commits


def head(length, kind, tag):
    """The length of a body, its first byte and its tag."""
    return number(length & 0xffff, 2) + number(kind, 1) + number(tag & 0xffffffff, 4)


def payload_length(random):
    """Half of the payloads are short, a quarter fill about a sector, and the others have any length of a version."""
    pick = random.below(8)
    if pick < 4:
        return random.below(40)
    if pick < 6:
        return random.below(20) + 430
    return random.below((FIRST_MAX_PAYLOAD if pick == 6 else MAX_PAYLOAD) + 1)


def drawn_append(random, tag):
    kind = random.below(5)
    length = payload_length(random)
    first = random.below(256)
    return head(length + 9, APPEND, tag) + number(kind, 4) + bytes((first + place) & 0xff for place in range(length))


def odd_frame(random, tag):
    """A malformed frame of each kind, seven times in 24, and otherwise a question."""
    odd = [b"\0\0", number(MAX_BODY + 1, 2), head(5, 9, tag), head(6, 2, tag) + b"\0", head(9, 1, tag) + b"\xff" * 4,
           head(12, 5, tag) + bytes(7), b"\0\1\1"]
    pick = random.below(24)
    return odd[pick] if pick < len(odd) else head(5, COMMITMENT, tag)


def drawn_frame(random, appends):
    tag = random.next()
    pick = random.below(20)
    if pick < appends:
        return drawn_append(random, tag)
    if pick <= 10:
        return head(5, COMMITMENT, tag)
    if pick <= 15:
        kind = MEMBERSHIP if pick <= 13 else INCREMENT
        return head(21, kind, tag) + number(random.below(20), 8) + number(random.below(24), 8)
    return head(13, ENTRY, tag) + number(random.below(24), 8) if pick <= 18 else odd_frame(random, tag)


def cut_off(random, stream):
    """A stream is truncated one time in four."""
    return stream[:max(len(stream) - random.up_to(6), 0)] if random.below(4) == 0 else stream


def drawn_stream(random, frames, appends):
    return cut_off(random, b"".join(drawn_frame(random, appends) for _ in range(frames)))


def drawn_start(random):
    """A store of 3 to 119 sectors: worn, worn out by its first commit, of the first version, or new."""
    size = random.below(3)
    sectors = random.below(6) + 3 if size == 0 else random.below(30) + 10 if size == 1 else random.below(80) + 40
    start = random.below(8)
    if start < 2:
        return Server(sectors, generation=worn(start))
    return Server(sectors, version=1 if start == 2 else 2)


def drawn_streams(random):
    """The streams of 1 to 16 sessions."""
    sessions, length, streams = random.up_to(16), random.below(3), []
    appends = (7, 7, 1, 0)[random.below(4)]
    for _ in range(sessions):
        frames = random.below(40) + 20 if length == 2 else random.up_to(6 if length == 0 else 16)
        streams.append(drawn_stream(random, frames, appends))
    return streams


class Play:
    """Sessions whose steps are drawn over streams: one step in `flushes` is a flush."""

    def __init__(self, server, random, streams, flushes):
        self.server, self.random, self.flushes = server, random, flushes
        self.left = list(streams)
        self.sessions = [Session(Rights(), False) for _ in range(SESSIONS)]

    def step(self):
        """A flush, the end of a session, or the next bytes of its stream."""
        if self.random.below(self.flushes) == 0:
            return self.server.flush()
        place = self.random.below(len(self.left)) % SESSIONS
        session, left = self.sessions[place], self.left[place]
        if not left or self.random.below(40) == 0:
            return self.server.end(session)
        size = self.random.up_to((8, 100, 3000, 40000)[self.random.below(4)])
        self.left[place] = left[size:]
        return self.server.feed(session, left[:size])

    def run(self, steps):
        for _ in range(steps):
            self.step()
        self.server.flush()

    def said(self):
        """The length and the bytes of each session's output, and whether it has ended; then the store and its device."""
        said = b"".join(number(len(session.output), 8) + session.output + number(session.ended, 1) for session in self.sessions)
        server = self.server
        numbers = (server.generation, len(server.log.entries), end_of(server.log))
        image = image_of(server.log, server.generation, server.sectors, server.version)
        return said + b"".join(number(value, 8) for value in numbers) + server.commitment[8:] + b"".join(image)


def list_of(start):
    """What is said of a random list of 160 steps."""
    random = Random(start)
    server, streams = drawn_start(random), drawn_streams(random)
    play = Play(server, random, streams, (4, 12, 60)[random.below(3)])
    play.run(160)
    return play.said()


def swept_root(start):
    """The root of the store of a list of 200 steps, drawn by a cipher."""
    random = CipherRandom(start)
    server = Server(random.below(298) + 3)
    streams = drawn_streams(random)
    play = Play(server, random, streams, (4, 12, 60)[random.below(3)])
    play.run(200)
    return server.commitment[8:]


def drawn_place(random):
    """An index or a count, which may be far out of range."""
    pick = random.below(6)
    if pick < 3:
        return random.below(5)
    if pick == 3:
        return MASK - random.below(3)
    return random.below(3) + (1 << 24) - 1 if pick == 4 else random.next() << 33


def far_question(random, tag):
    pick = random.below(3)
    if pick == 0:
        return head(13, ENTRY, tag) + number(drawn_place(random), 8)
    kind = MEMBERSHIP if pick == 1 else INCREMENT
    return head(21, kind, tag) + number(drawn_place(random), 8) + number(drawn_place(random), 8)


def noise(random, length):
    return bytes(random.below(256) for _ in range(length))


def too_long(random):
    """A length over the limit, followed by some bytes of the body."""
    length = MAX_BODY + 1 if random.below(2) == 0 else random.below(0xffff - MAX_BODY) + MAX_BODY + 1
    return number(length, 2) + noise(random, 20)


def reserved_append(random, tag):
    length = random.below(20)
    return head(length + 9, APPEND, tag) + b"\xff" * 4 + noise(random, length)


def body(random, length, first):
    return number(length, 2) + number(first, 1) + noise(random, length - 1)


def wrong_length(random):
    """A request whose length is wrong for its kind."""
    kind = random.up_to(5)
    most, right = {1: (8, 0), 2: (40, 5), 3: (40, 21), 4: (40, 21), 5: (40, 13)}[kind]
    length = random.up_to(most)
    return body(random, 1 if length == right else length, kind)


def unknown(random):
    """A body whose first byte isn't a request's."""
    drawn = random.below(251)
    first = drawn + 5 if drawn else 0
    length = MAX_BODY if random.below(8) == 0 else random.up_to(60)
    return body(random, length, first)


def hostile_frame(random):
    """Of twelve frames two are appends, one is a commitment and three are other questions; the rest are malformed."""
    tag = random.next()
    pick = random.below(12)
    if pick < 2:
        return drawn_append(random, tag)
    if pick == 2:
        return head(5, COMMITMENT, tag)
    if pick < 6:
        return far_question(random, tag)
    if pick == 6:
        return b"\0\0"
    if pick == 7:
        return too_long(random)
    if pick == 8:
        return reserved_append(random, tag)
    return wrong_length(random) if pick < 11 else unknown(random)


def hostile_stream(random):
    frames = random.up_to(4)
    return cut_off(random, b"".join(hostile_frame(random) for _ in range(frames)))


def hostile_batch(start):
    """What is said of 64 steps over hostile streams."""
    random = Random(start)
    sectors = random.below(30) + 3
    server = Server(sectors, version=1 if random.below(4) == 0 else 2)
    streams = [hostile_stream(random) for _ in range(random.up_to(16))]
    play = Play(server, random, streams, 12)
    play.run(64)
    return play.said()
