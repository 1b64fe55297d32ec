"""The values in crates/audit_test_disk."""
from model import wire
from model.chain import CLOSE, FIRST_LINK, ZERO_KEY, entry_keys, log_of, number, seal
from model.disk import Header, header_of, header_sector, padded
from model.session import replies_to
from model.stored.common import HI, daemon_replies, root_of
from model.stored.streams import sum_of_readings
from model.stored.value import digest, text
from model.wire import Request


def log():
    hi, closed = log_of([HI]), log_of([HI, CLOSE])
    yield text("hi/root", lambda: root_of([HI]))
    yield text("hi/link", lambda: hi.link)
    yield text("hi/key", lambda: hi.key)
    yield text("closed/root", lambda: root_of([HI, CLOSE]))
    yield text("closed/link", lambda: closed.link)


def entries():
    for length in 0, 1, 440, 441, 952, 953, 4024, 4025, 32696:
        yield digest("%d/sectors" % length, lambda length=length: padded(seal(ZERO_KEY, FIRST_LINK, 1, b"\7" * length)[0]))


def counted(first):
    return bytes(range(first, first + 32))


LARGEST = Header(2, False, (1 << 62) - 1, 1 << 24, 1 << 21, 1 << 24, counted(0x20), counted(0x80), counted(0xe0))


def known_headers():
    """Names and headers, in the order of the test."""
    none, hi, closed = log_of([]), log_of([HI]), log_of([HI, CLOSE])
    yield "empty_1", header_of(none, 1, 16)
    yield "empty_2", header_of(none, 2, 16)
    yield "hi_3", header_of(hi, 3, 16)
    yield "hi_4", header_of(hi, 4, 16)
    yield "first_version", header_of(hi, 4, 16, 1)
    yield "closed_5", header_of(closed, 5, 16)
    yield "closed_6", header_of(closed, 6, 16)
    yield "largest", LARGEST


def headers():
    for name, header in known_headers():
        yield text(name + "/front", lambda header=header: header_sector(header)[:48])
        yield text(name + "/digest", lambda header=header: header_sector(header)[480:])
    yield text("other_than_zeros", lambda: number(1, 32))


A = 1, b"a"


def vectors():
    hi = log_of([HI])
    append = Request(wire.APPEND, 7, (1,), b"hi")
    asked = [Request(wire.ENTRY, 4, (0,)), Request(wire.STATE, 8), Request(wire.MEMBERSHIP, 5, (0, 1)),
             Request(wire.INCREMENT, 6, (1, 1))]
    after_append = lambda request: replies_to([append, request], 64, of_daemon=True)[55:]
    yield text("entry", lambda: hi.entries[0])
    yield text("root", lambda: root_of([HI]))
    yield text("acknowledged", lambda: replies_to([append], 64))
    yield text("empty_commitment", lambda: replies_to([Request(wire.COMMITMENT, 9)], 64))
    for name, request in zip(("entry_reply", "state", "membership", "increment"), asked):
        yield text(name, lambda request=request: after_append(request))
    yield text("root_of_two", lambda: root_of([HI, A]))
    yield text("key_of_entry_1", lambda: entry_keys(ZERO_KEY, [HI, A])[1])
    yield text("placed", lambda: daemon_replies([Request(wire.PLACED, 10, (1, 1), b"a")], 64, counted=[1], events=[HI]))


def streams():
    yield text("sum", lambda: number(sum_of_readings(), 8))


TESTS = "crates/audit_test_disk/src/"
FILES = {TESTS + "log.rt": log, TESTS + "log/entries.rt": entries, TESTS + "log/headers.rt": headers,
         TESTS + "wire/vectors.rt": vectors, TESTS + "wire/streams.rt": streams}
