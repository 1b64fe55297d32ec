"""Ten thousand streams of frames, as crates/audit_test_disk/src/wire/streams.rt draws them, and the sum of their readings."""
from model import wire

MASK = (1 << 64) - 1
NOTHING = 0xcbf29ce484222325
STREAMS = 10000


class Dice:
    """Marsaglia's xorshift."""

    def __init__(self, state):
        self.state = state

    def below(self, limit):
        self.state ^= self.state << 13 & MASK
        self.state ^= self.state >> 7
        self.state ^= self.state << 17 & MASK
        return (self.state >> 11) % limit

    def bytes(self, count):
        return bytes(self.below(256) for _ in range(count))


def drawn_append(dice):
    size = dice.below(24)
    front = bytes((0, 9 + size, 1)) + dice.bytes(4)
    kind = b"\xff" * 4 if dice.below(16) == 0 else dice.bytes(4)
    return front + kind + dice.bytes(size)


def drawn_junk(dice):
    """A frame that is hardly ever a request."""
    size = dice.below(24)
    return bytes((0, size)) + bytes(dice.below(8) for _ in range(size))


def drawn_frame(dice):
    drawn = dice.below(9)
    if drawn < 3:
        return drawn_append(dice)
    if drawn == 8:
        return drawn_junk(dice)
    kind = drawn - 1
    size = {wire.COMMITMENT: 5, wire.MEMBERSHIP: 21, wire.INCREMENT: 21, wire.ENTRY: 13, wire.CLOSE: 5}[kind]
    return bytes((0, size, kind)) + dice.bytes(size - 1)


def drawn_stream(number):
    """One to six frames. Every fourth stream has one byte changed, and every third is truncated."""
    dice = Dice((number * 0x9E3779B97F4A7C15 + 1) & MASK)
    stream = b"".join(drawn_frame(dice) for _ in range(dice.below(6) + 1))
    if dice.below(4) == 0:
        at = dice.below(len(stream))
        stream = stream[:at] + bytes((dice.below(256),)) + stream[at + 1:]
    if dice.below(3) == 0:
        stream = stream[:dice.below(len(stream) + 1)]
    return stream


def added(total, numbers):
    """The sum (FNV-1a over numbers) after these numbers."""
    for number in numbers:
        total = (total ^ number) * 0x100000001b3 & MASK
    return total


def numbers_of(request):
    """What is summed of a request."""
    numbers = [request.kind, request.tag, *request.numbers]
    return numbers + [len(request.payload), *request.payload] if request.kind == wire.APPEND else numbers


def sum_of_readings():
    """For each stream the sum of its requests, whether it is malformed, and whether a frame has begun at its end."""
    total = NOTHING
    for number in range(STREAMS):
        requests, malformed, rest = wire.requests_in(drawn_stream(number), of_daemon=False)
        sum_of_requests = NOTHING
        for request in requests:
            sum_of_requests = added(sum_of_requests, numbers_of(request))
        total = added(total, (sum_of_requests, malformed, bool(rest)))
    return total
