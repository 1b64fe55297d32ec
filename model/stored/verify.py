"""The values in crates/audit_test_verify."""
from history import leaf_hash

from model.chain import CLOSE, CLOSING_KIND, FIRST_LINK, ZERO_KEY, log_of, seal
from model.stored.common import HI, closing_of, root_of
from model.stored.value import digest, text
from model.tree import root
from model.verdict import state_after, verdict

COUNTING_KEY = bytes(range(32))
READ_FAULT = 45


def counted_log(count):
    """Events whose kinds are their numbers; the payloads have 0 to 32 bytes, each the number's lowest."""
    return log_of([(number, bytes([number % 256]) * (number % 33)) for number in range(count)], COUNTING_KEY)


def commitment_to(log):
    return len(log.entries), root(log.leaves)


def turned(data, mask):
    """The bytes with each one changed in turn."""
    for place in range(len(data)):
        yield data[:place] + bytes([data[place] ^ mask]) + data[place + 1:]


def cut(data):
    """Each front of the bytes, and all of them."""
    for length in range(len(data) + 1):
        yield data[:length]


def verdicts(exports, log):
    """For each export two bytes: the number of its fault and the index, or 0 and the number of events."""
    commitment = commitment_to(log)
    return b"".join(bytes(value % 256 for value in verdict(export, COUNTING_KEY, commitment)[:2]) for export in exports)


def exchanged(entries, at):
    return entries[:at] + [entries[at + 1], entries[at]] + entries[at + 2:]


def repeated(entries, at):
    return entries[:at + 1] + entries[at:]


def dropped(entries, at):
    return entries[:at] + entries[at + 1:]


def moved(change, places):
    log = counted_log(33)
    return verdicts((b"".join(change(log.entries, at)) for at in range(places)), log)


def failing_reader():
    """The verdicts if the reading fails after each front: a reading fault, at the first entry that isn't whole."""
    log, at = counted_log(33), 0
    said = b""
    for index, entry in enumerate(log.entries):
        said += bytes((READ_FAULT, index)) * len(entry)
        at += len(entry)
    return said + bytes((READ_FAULT, len(log.entries)))


def closed_log():
    return log_of([HI, CLOSE])


def closed_verdicts(exports):
    """For each export three bytes; the last one says whether the events close the log."""
    commitment = commitment_to(closed_log())
    return b"".join(bytes(verdict(export, ZERO_KEY, commitment)) for export in exports)


def closing_with_payload():
    return leaf_hash(seal(ZERO_KEY, FIRST_LINK, CLOSING_KIND, b"\0")[0])


def longest_root():
    return root(log_of([(1, b"\7" * length) for length in (32696, 2, 32696)], COUNTING_KEY).leaves)


def tests():
    for count in 0, 1, 2, 33, 4096:
        yield digest("%d/export" % count, lambda count=count: counted_log(count).export)
        if count:
            yield text("%d/root" % count, lambda count=count: root(counted_log(count).leaves))
    for mask in 0x01, 0x80:
        yield digest("turned_by_%d" % mask, lambda mask=mask: verdicts(turned(counted_log(33).export, mask), counted_log(33)))
    yield digest("cut", lambda: verdicts(cut(counted_log(33).export), counted_log(33)))
    for change, places in (exchanged, 32), (repeated, 33), (dropped, 33):
        yield digest(change.__name__, lambda change=change, places=places: moved(change, places))
    yield text("hi/entry", lambda: log_of([HI]).entries[0])
    yield text("hi/root", lambda: root_of([HI]))
    yield text("closed/entry", lambda: closing_of([HI]))
    yield text("closed/root", lambda: root_of([HI, CLOSE]))
    for mask in 0x01, 0x80:
        yield digest("closed/turned_by_%d" % mask, lambda mask=mask: closed_verdicts(turned(closed_log().export, mask)))
    yield digest("closed/cut", lambda: closed_verdicts(cut(closed_log().export)))
    yield digest("closed/longer", lambda: closed_verdicts(closed_log().export + bytes([byte]) for byte in range(256)))
    yield text("closing_with_payload/root", closing_with_payload)
    yield text("longest/root", longest_root)
    yield digest("failing_reader", failing_reader)


def states():
    """The texts of the states after 0 to 33 events, one after another."""
    return b"".join(state_text(counted_log(count), COUNTING_KEY) for count in range(34))


def state_text(log, first_key):
    return state_after(log, first_key, commitment_to(log)).text()


def pieces():
    yield digest("states", states)
    yield digest("closed_state", lambda: state_text(closed_log(), ZERO_KEY))


TESTS = "crates/audit_test_verify/src/"
FILES = {TESTS + "tests.rt": tests, TESTS + "pieces.rt": pieces}
