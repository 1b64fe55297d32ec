"""A log, with what was acknowledged of it, and how a store is held against that."""

from checks.parts import program
from checks.parts.files import read
from checks.parts.frames import KIND
from checks.parts.logs import History, entries_of
from checks.parts.wrong import expect_true
from checks.power.disks import Lost, chance

SECTORS = 4096


def audit(*words, data=b""):
    status, out, err = program.whole(*words, data=data)
    return status, out.decode(), err.decode()


class Log:
    """A log, with what was acknowledged of it."""

    number = 0

    def __init__(self):
        Log.number += 1
        self.key = "key%d" % Log.number
        with open(self.key, "w") as key:
            key.write("%064x\n" % chance.getrandbits(256))
        self.acknowledged, self.commitments = {}, {}
        self.held = []
        self.is_closed = False

    def acknowledge(self, index, payload, count, root):
        event = str(KIND), payload.hex()
        expect_true(self.acknowledged.setdefault(index, event) == event, "an index was acknowledged twice")
        expect_true(self.commitments.setdefault(count, root) == root, "a count was acknowledged with two roots")

    def check(self, store):
        """Looks into a copy of the store: what was acknowledged is there, and what was found earlier."""
        status, out, err = audit("show", store)
        expect_true(status == 0, "the store is refused: " + err.strip(), Lost)
        words = out.split()
        count, root, state = int(words[1]), words[2], words[-1]
        expect_true(audit("export", store, "export")[0] == 0, "no export")
        status, out, err = audit("verify", "export", self.key, "%d:%s" % (count, root))
        expect_true(status == 0, "the export isn't verified: " + err.strip(), Lost)
        events = [tuple(line.split()[2:]) for line in out.splitlines() if line.startswith("event ")]
        expect_true(events[:len(self.held)] == self.held, "what an earlier look found is gone", Lost)
        for index, event in self.acknowledged.items():
            expect_true(index < count, "%d events, and event %d was acknowledged" % (count, index), Lost)
            expect_true(events[index] == event, "event %d is another one" % index, Lost)
        expect_true(state == "closed" or not self.is_closed, "a closed log is open", Lost)
        self.expect_roots()
        self.held, self.is_closed = events, state == "closed"
        return count, root

    def expect_roots(self):
        """Each commitment that was acknowledged is that to the first entries of the export, as the formats have it."""
        history = History()
        for entry in entries_of(read("export")):
            history.push(entry)
        for count, root in self.commitments.items():
            expect_true(history.root(count) == root, "another root of %d entries was acknowledged" % count, Lost)
        self.commitments.clear()
