"""The values in crates/audit_test_program."""
from model.chain import CLOSE, log_of
from model.stored.common import HI, THREE, closing_of, root_of
from model.stored.value import digest, text
from model.tree import increment, increment_proof, membership, membership_proof


def auditor():
    yield text("hi/entry", lambda: log_of([HI]).entries[0])
    yield text("hi/root", lambda: root_of([HI]))
    yield text("closed/entry", lambda: closing_of([HI]))
    yield text("closed/root", lambda: root_of([HI, CLOSE]))
    yield text("hi/root_again", lambda: root_of([HI]))


def files():
    yield text("shown", lambda: root_of(THREE))
    yield text("acknowledged", lambda: root_of(THREE))


LINES = [(5, line) for line in (b"one", b"two", b"three", b"four")]


def followed():
    yield text("two_lines", lambda: root_of(LINES[:2]))
    yield text("first_of_four", lambda: root_of(LINES[:2]))
    yield text("second_of_four", lambda: root_of(LINES))
    yield text("root", lambda: root_of(LINES))


def longest_input():
    """256 events of zeros with the longest payloads, and one that fills the input up to its limit."""
    return root_of([(1, bytes(32696))] * 256 + [(1, bytes(17241))])


def replays():
    for index in range(3):
        yield text("entry/%d" % index, lambda index=index: log_of(THREE).entries[index])
    yield text("commit", lambda: root_of(THREE))
    yield text("longest_input", longest_input, is_long=True)


SALVAGED = [HI, (7, bytes(500)), (4294967294, b"\xde\xad\xbe\xef")]


def salvages():
    for count in range(4):
        yield digest("%d/export" % count, lambda count=count: log_of(SALVAGED[:count]).export)
        if count:
            yield text("%d/root" % count, lambda count=count: root_of(SALVAGED[:count]))


# For each row of the test the lengths of the payloads, and the counts at the ends of its batches.
RUNS = [
    ([0] * 65, (64, 65)),
    ([4024] * 9, (8, 9)),
    ([4024] * 7 + [0] * 7 + [4024], (14, 15)),
    ([32696, 0, 32696], (1, 2, 3)),
    ([0, 32184, 0], (2, 3)),
]


def run_root(lengths, count):
    return root_of([(1, bytes(length)) for length in lengths[:count]])


def stores():
    for row, (lengths, counts) in enumerate(RUNS, 1):
        for count in counts:
            yield text("run_%d/%d" % (row, count), lambda lengths=lengths, count=count: run_root(lengths, count))
    for case in "full/acknowledged", "full/shown":
        yield text(case, lambda: run_root([0] * 64, 64))
    for case in "closed/closed", "closed/shown":
        yield text(case, lambda: root_of([CLOSE]))
    three = log_of(THREE)
    yield text("proof/member", lambda: membership_proof(1, 3, membership(three.leaves, 1), three.entries[1]))
    yield text("proof/increment", lambda: increment_proof(1, 3, increment(three.leaves, 1)))


TESTS = "crates/audit_test_program/src/"
COMMANDS = TESTS + "commands/"
FILES = {TESTS + "auditor.rt": auditor, COMMANDS + "files.rt": files, COMMANDS + "followed.rt": followed,
         COMMANDS + "replays.rt": replays, COMMANDS + "salvages.rt": salvages, COMMANDS + "stores.rt": stores}
