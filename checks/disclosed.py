"""Disclosures of random logs, made and read by the program, against the model's. Each is made of events that are chosen
by their kinds or numbers, and shows these alone. Then each fault is planted: another entry's key, that of a later one,
a key that is left out, entries exchanged, an event of a chosen kind left out, and a changed cipher or MAC.

usage: bin/check disclosed EXECUTABLE [LOGS [FIRST]]

There are 300 logs unless LOGS is given. They are numbered from FIRST on, by default 0, and the same number gives the
same log.
"""
import os
import random
import tempfile

from checks.parts.files import read, write
from checks.parts.program import done, run
from checks.parts.scenes import program_of
from checks.parts.wrong import Usage, expect
from model.chain import CLOSE, ZERO_KEY, entry_keys, log_of
from model.disclosure import disclosure, shown
from model.tree import root

KINDS = 1, 2, 7, 4294967294
MOST_EVENTS = 12
LENGTHS = 0, 1, 16, 63, 64, 65, 400, 436, 437, 3000


def log_by(chance):
    events = [(chance.choice(KINDS), chance.randbytes(chance.choice(LENGTHS)))
              for _ in range(chance.randint(1, MOST_EVENTS))]
    return log_of(events + [CLOSE] if chance.random() < 0.3 else events)


def chosen_by(chance, log):
    """The words that choose events, and the events: at least one of them."""
    if chance.random() < 0.5:
        kinds = {log.events[chance.randrange(len(log.events))][0], chance.choice(KINDS)}
        words = "--kind", ",".join(map(str, kinds))
        return words, [index for index, (kind, _) in enumerate(log.events) if kind in kinds]
    first = chance.randrange(len(log.events))
    last = chance.randint(first, len(log.events) + 3)
    return ("--events", "%d-%d,%d" % (first, last, first)), list(range(first, min(last + 1, len(log.events))))


class Case:
    """A log, the events that are chosen of it, and the commitment to it."""

    def __init__(self, number):
        self.chance = random.Random(number)
        self.log = log_by(self.chance)
        self.words, self.chosen = chosen_by(self.chance, self.log)
        self.commitment = "%d:%s" % (len(self.log.events), root(self.log.leaves).hex())

    def fails(self, entries, fault, fault_with_key=None):
        """An export of these entries is refused by this fault, and nothing is made of it."""
        write("changed", b"".join(entries))
        made = run("disclose", "changed", "first", self.commitment, "made", *self.words)
        expect(made, (1, b"", b"audit: entry %s\n" % (fault_with_key or fault)), "a disclosure of a changed export")
        expect(os.path.exists("made"), False, "whether a disclosure is made of what isn't verified")
        status, _, said = run("verify", "changed", "out", self.commitment, "--disclosed")
        expect((status, said), (1, b"audit: entry %s\n" % fault), "a changed export")

    def shows(self, keys, what):
        write("other", "".join("key %d %s\n" % (index, keys[index].hex()) for index in sorted(keys)).encode())
        printed = done("verify", "export", "other", self.commitment, "--disclosed")
        expect(printed, shown(self.log, keys).encode(), what)

    def check(self):
        write("export", self.log.export)
        made = done("disclose", "export", "first", self.commitment, "out", *self.words)
        expect(made, b"disclosed %d %d\n" % (len(self.chosen), len(self.log.events)), "the line of `disclose`")
        expect(read("out"), disclosure(self.log, self.chosen).encode(), "a disclosure")
        keys = entry_keys(ZERO_KEY, self.log.events)
        self.shows({index: keys[index] for index in self.chosen}, "what is disclosed")
        self.check_keys(keys)
        self.check_entries()
        os.remove("out")

    def check_keys(self, keys):
        """A key that isn't the entry's shows another text, of that entry alone; without it the event is sealed."""
        index = self.chance.choice(self.chosen)
        right = {other: keys[other] for other in self.chosen}
        more = entry_keys(ZERO_KEY, self.log.events + [(self.log.events[index][0], b"")])
        self.shows({**right, index: keys[self.chance.randrange(len(keys))]}, "an event by another entry's key")
        self.shows({**right, index: more[-1]}, "an event by the key of a later one")
        del right[index]
        self.shows(right, "an event whose key is left out")

    def check_entries(self):
        entries, count = self.log.entries, len(self.log.entries)
        index = self.chance.choice(self.chosen)
        bad_link = b"%d: 42 BadLink" % index
        if index + 1 < count:
            self.fails(entries[:index] + [entries[index + 1], entries[index]] + entries[index + 2:], bad_link)
            self.fails(entries[:index] + entries[index + 1:], bad_link)
        else:
            self.fails(entries[:index], b"%d: 44 WrongCommitment" % index)
        # The last fields are the link and the MAC.
        size = len(entries[index])
        self.fails(with_other_byte(entries, index, self.chance.choice([*range(8, size - 32)])), bad_link)
        self.fails(with_other_byte(entries, index, self.chance.randrange(size - 32, size)),
                   b"%d: 44 WrongCommitment" % count, b"%d: 43 BadMac" % index)


def with_other_byte(entries, index, place):
    entry = bytearray(entries[index])
    entry[place] ^= 1
    return entries[:index] + [bytes(entry)] + entries[index + 1:]


def main(words):
    words = program_of(words, most=2)
    if not all(word.isdigit() for word in words):
        raise Usage
    count, first = [*map(int, words), *(300, 0)[len(words):]]
    with tempfile.TemporaryDirectory(prefix="disclosed-") as folder:
        os.chdir(folder)
        write("first", b"%064d\n" % 0)
        os.chmod("first", 0o600)
        for number in range(first, first + count):
            Case(number).check()
    return 0
