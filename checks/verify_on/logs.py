"""The logs that are made, and what is said of them by the auditor's programs."""
import collections
import random

from history import root
from model.chain import extended, log_of, mac
from read_export import sha256
from state import FIRST

SIZES = 0, 1, 2, 3, 4, 5, 6, 7, 8, 9, 15, 16, 17, 31, 33, 63, 64, 65, 100, 130
CLOSED = {5, 64}
PAYLOADS = 0, 1, 2, 31, 63, 64, 65, 130
DICE = random.Random(61)
Outcome = collections.namedtuple("Outcome", "status lines said")


def relinked(key, last_link, entry):
    """An entry with its cipher after another link, sealed under this key."""
    link = sha256(last_link, entry[8:-64], entry[:4])
    return entry[:-64] + link + mac(key, link)


class Log:
    """A log, what its entries begin from, and the auditor's states."""

    def __init__(self, first_key, events):
        self.first_key, self.events = first_key, events
        sealed = log_of([], first_key)
        # Before each entry the key and the link.
        self.before = [(sealed.key, sealed.link)]
        for event in events:
            sealed = extended(sealed, [event])
            self.before.append((sealed.key, sealed.link))
        self.entries, self.leaves = sealed.entries, sealed.leaves

    def __len__(self):
        return len(self.entries)

    def is_closed(self, count):
        return count > 0 and self.events[count - 1][0] == 0xffffffff

    def state(self, count):
        return FIRST.after(*self.before[count], self.is_closed(count), self.leaves[:count])

    def commit(self, count):
        return count, root(self.leaves[:count])

    def outcome(self, start, count):
        """What is said of the entries from `start` up to `count`."""
        lines = [b"event %d %d %s" % (index, kind, payload.hex().encode() or b"-")
                 for index, (kind, payload) in enumerate(self.events[start:count], start)]
        lines.append(b"verified %d %s" % (count, b"closed" if self.is_closed(count) else b"open"))
        return Outcome(0, lines, b"")


def made_logs():
    for size in SIZES:
        kinds = [DICE.choice((0, 1, 7, 0xfffffffe)) for _ in range(size)]
        events = [(kind, DICE.randbytes(DICE.choice(PAYLOADS))) for kind in kinds]
        if size == 33:
            events[20] = (1, DICE.randbytes(32_696))
        if size in CLOSED:
            events[-1] = (0xffffffff, b"")
        yield Log(DICE.randbytes(32), events)


def joined(entries):
    return b"".join(entries)


def turned(data, at):
    """With one bit of a byte turned."""
    return data[:at] + bytes((data[at] ^ 1 << DICE.randrange(8),)) + data[at + 1:]


def sample(items, most):
    items = list(items)
    return items if len(items) <= most else sorted(DICE.sample(items, most))
