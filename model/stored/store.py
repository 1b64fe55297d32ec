"""The values in crates/audit_test_store, and those in crates/audit_test_serve and crates/audit_tool_endure."""
from model import wire
from model.chain import CLOSE, ZERO_KEY, entry_keys, log_of, number
from model.disk import header_of, header_sector, image_of, recovered
from model.session import Rights, Server, Session, replies_to
from model.stored.common import HI, closing_of, daemon_replies, event, events, root_of, state, state_of
from model.stored.value import digest, text
from model.tree import commitment, increment, membership
from model.wire import Request


def draws(seed):
    """Pseudorandom numbers."""
    while True:
        seed = (seed * 6364136223846793005 + 1442695040888963407) % (1 << 64)
        yield seed >> 33


def many_log(count):
    return log_of(events([number * 2654435761 % (1 << 64) % 4025 for number in range(count)]))


def many_generation(count):
    """The generation after batches of 1, 2 and so on up to 7 events, then of 1 again."""
    generation, left, size = 2, count, 1
    while left > 0:
        generation, left, size = generation + 2, left - min(size, left), size % 7 + 1
    return generation


def many_answers(count):
    """Count, generation and root, the entries, and 200 drawn proofs of each kind."""
    log, drawn, proofs = many_log(count), draws(1), b""
    leaves = log.leaves
    for _ in range(200):
        version = next(drawn) % count + 1
        proofs += b"".join(membership(leaves[:version], next(drawn) % version))
        newer = next(drawn) % count + 1
        proofs += b"".join(increment(leaves[:newer], next(drawn) % newer + 1))
    said = commitment(leaves)
    return said[:8] + number(many_generation(count), 8) + said[8:] + log.export + proofs


def many():
    for count, sectors in (1, 4), (2, 7), (33, 143), (500, 2272):
        yield digest("%d/answers" % count, lambda count=count: many_answers(count))
        yield digest("%d/image" % count, lambda count=count, sectors=sectors: image(many_log(count), many_generation(count), sectors))


def image(log, generation, sectors, version=2):
    return b"".join(image_of(log, generation, sectors, version))


def appends():
    yield text("hi/root", lambda: root_of([HI]))
    yield state("hi/state", [HI], 16, 4)
    for length, count, sectors in (440, 1, 10), (441, 1, 10), (4024, 1, 10), (4025, 1, 12), (32696, 1, 66), (0, 1, 3), (0, 64, 70):
        yield state("%d_of_%d/state" % (count, length), events([length] * count), sectors, 4)


def closing():
    yield text("root", lambda: root_of([HI, CLOSE]))
    yield text("entry", lambda: closing_of([HI]))
    yield state("closed", [HI, CLOSE], 16, 6)
    yield state("hi", [HI], 16, 4)
    yield state("closed_after_441", [HI, event(1, 441), CLOSE], 16, 6)
    yield state("63_and_the_close", events([0] * 63) + [CLOSE], 70, 4)
    yield state("refused_memory", events([0, 441, 5]) + [CLOSE], 8, 6)


def faults():
    yield state("empty", [], 16, 2)
    yield state("hi", [HI], 16, 4)


LARGE = (1 << 20) + 3
LARGE_MEMBERS = [(0, 1), (0, LARGE), (255, 257), (524287, 1048575), (1048575, 1048576), (1048575, 1048577), (1048576, LARGE),
                 (LARGE - 1, LARGE)]
LARGE_INCREMENTS = [(1, LARGE), (524288, 1048576), (1048575, 1048576), (1048576, 1048577), (1048577, LARGE), (LARGE, LARGE)]


def large_answers():
    """The commitment and the end, proofs with their entries, and proofs between counts."""
    log = log_of(events([0] * LARGE))
    leaves = log.leaves
    members = b"".join(b"".join(membership(leaves[:count], index)) + log.entries[index] for index, count in LARGE_MEMBERS)
    increments = b"".join(b"".join(increment(leaves[:newer], older)) for older, newer in LARGE_INCREMENTS)
    return commitment(leaves) + number(2 + LARGE, 8) + members + increments


def large():
    yield digest("answers", large_answers, is_long=True)


def memory():
    yield state("state", events([0, 441]), 8, 4)


# The events of three batches, and how many there are after each number of batches.
BATCHES = events([0, 0, 0, 0, 0, 1000])
COUNTS = 0, 3, 5, 6


def rows():
    for count in COUNTS[1:]:
        yield text("%d/root" % count, lambda count=count: root_of(BATCHES[:count]))
    yield text("64/root", lambda: root_of(events([0] * 64)))


def receipts():
    """For each batch the number of its first event, the count and the root."""
    leaves = log_of(BATCHES).leaves
    return b"".join(number(first, 8) + commitment(leaves[:count]) for first, count in zip(COUNTS, COUNTS[1:]))


def stops():
    for batches, count in enumerate(COUNTS):
        yield state("%d/state" % count, BATCHES[:count], 16, 2 + 2 * batches)
    yield digest("receipts", receipts)


def upgrade_stopped():
    """The image after an opening that finds a header of version 2 over one event and one of version 1 over none."""
    one, none = image_of(log_of([HI]), 4, 16), image_of(log_of([]), 3, 16, 1)
    return recovered([one[0], none[1], *one[2:]])


def versions():
    yield digest("first/image", lambda: image(log_of([HI]), 4, 16, 1))
    yield state("first/state", [HI], 16, 4, 1)
    yield state("upgraded/state", [HI, (2, b"")], 16, 6)
    yield state_of("one_and_none/state", [HI], upgrade_stopped)


def append(tag, payload):
    return Request(wire.APPEND, tag, (1,), payload)


def of_three():
    """Two of three appends fit."""
    return replies_to([append(1, bytes(441)), append(2, bytes(441)), append(3, b"")], 5)


def closed_in_the_reserve():
    """The replies to a close and an append after it, when one sector is left, which is kept for the close."""
    before = [(1, bytes(441)), (1, b"")]
    server, session = Server(6, before, reserve=1), Session(Rights(), False)
    server.feed(session, wire.request_frame(Request(wire.CLOSE, 4)) + wire.request_frame(append(5, b"")))
    server.flush()
    return session.output


def commit():
    yield text("root", lambda: root_of([HI]))
    yield text("acknowledgement", lambda: replies_to([append(7, b"hi")], 16)[:-32])
    yield text("two_of_three", of_three)
    yield text("closed", closed_in_the_reserve)
    yield text("entry", lambda: log_of([HI]).entries[0])
    yield digest("65_appends", lambda: replies_until_flush([append(tag, b"") for tag in range(65)]))


def replies_until_flush(requests):
    """What a session is replied before anybody asks for a flush."""
    server, session = Server(100), Session(Rights(), False)
    server.feed(session, b"".join(wire.request_frame(request) for request in requests))
    return session.output


def placed(tag, kind, place, payload=b""):
    return Request(wire.PLACED, tag, (kind, place), payload)


# What waits together: appends of one session, and questions of another. What is appended in the next flush.
MIXED = [placed(1, 1, 0, b"a"), append(2, b"b"), placed(3, 1, 1, b"c"), placed(4, 1, 3, b"d"), placed(5, 7, 0, b"e"),
         placed(6, 2, 0, b"f"), placed(7, 1, 2, b"g")]
ASKED = [Request(wire.PLACE, tag, (kind,)) for tag, kind in ((8, 1), (9, 7), (10, 2))]
LATER = [placed(11, 1, 2, b"h"), placed(12, 1, 3, b"h")]
FULL = [placed(1, 1, 0), placed(2, 1, 1, bytes(441)), placed(3, 1, 2), placed(4, 1, 1), placed(5, 1, 2), placed(6, 1, 0)]
CLOSED = [placed(1, 1, 0), Request(wire.CLOSE, 2), placed(3, 1, 1), placed(4, 1, 0)]
SHUT = [placed(5, 1, 1), placed(6, 1, 2)]


def frames_in(stream):
    """The frames of a stream, one by one."""
    frames = []
    while stream:
        body, stream = wire.first_body(stream)
        frames.append(wire.frame(body))
    return frames


def told(rounds, sectors, counted, reserve=0):
    """What the sessions of a new store are replied in the last of some rounds, frame by frame. Each round is flushed."""
    server = Server(sectors, counted=counted, reserve=reserve)
    for requests in rounds:
        sessions = [Session(Rights(), True) for _ in requests]
        for session, asked in zip(sessions, requests):
            server.feed(session, b"".join(map(wire.request_frame, asked)))
        server.flush()
    return [frame for session in sessions for frame in frames_in(session.output)]


# For each round the replies in it that aren't refusals.
TOLD = {
    "mixed": (lambda: told([(MIXED, ASKED)], 16, [1, 7]), (0, 1, 2, 3, 4, 6, 7, 8)),
    "later": (lambda: told([(MIXED, ASKED), (LATER,)], 16, [1, 7]), (0, 1)),
    "full": (lambda: told([(FULL,)], 4, [1]), (0, 2, 3, 5)),
    "closed": (lambda: told([(CLOSED,)], 5, [1], 1), (0, 1, 3)),
    "shut": (lambda: told([(CLOSED,), (SHUT,)], 5, [1], 1), (1,)),
}


def commit_places():
    for name, (replies, kept) in TOLD.items():
        for place in kept:
            yield text("%s/%d" % (name, place), lambda replies=replies, place=place: replies()[place])


def store_places():
    for place in range(3):
        yield text("%d/key" % place, lambda place=place: entry_keys(ZERO_KEY, [(1, b""), (1, b""), (7, b"")])[place])


def serve_places():
    """The reply to the second append of a source, at its place."""
    placed_a = placed(10, 1, 1, b"a")
    yield text("placed", lambda: daemon_replies([placed_a], 64, events=[HI], counted=[1]))


def index_events(count, size):
    return [(place + 1, bytes([place]) * size) for place in range(count)]


def header_after(log_events, generation):
    return header_sector(header_of(log_of(log_events), generation, 200))


def index():
    for count, size in (1, 0), (1, 4024), (1, 32696), (2, 441), (8, 4024), (32, 441), (64, 440):
        yield digest("twice_%d_of_%d/header" % (count, size),
                     lambda count=count, size=size: header_after(index_events(count, size) * 2, 4))
    for count, size in (0, 0), (2, 441):
        yield digest("closed_after_%d/header" % count,
                     lambda count=count, size=size: header_after(index_events(count, size) + [CLOSE], 3))


LAYOUT_EVENTS = [(1, b"hi"), (2, b"\7" * 441), (3, b""), (4, b"\7" * 4024)]


def layout():
    yield digest("before/image", lambda: image(log_of([]), 2, 24))
    yield digest("after/image", lambda: image(log_of(LAYOUT_EVENTS), 4, 24))


def endure():
    each = [(kind, number(batch, 4)) for batch in range(3) for kind in range(3)]
    for count in 3, 6, 9:
        yield text("%d/root" % count, lambda count=count: root_of(each[:count]))


TESTS = "crates/audit_test_store/src/"
FILES = {
    TESTS + "commit.rt": commit, TESTS + "commit/places.rt": commit_places, TESTS + "store/places.rt": store_places,
    TESTS + "index.rt": index, TESTS + "layout.rt": layout, TESTS + "store/appends.rt": appends,
    TESTS + "store/closing.rt": closing, TESTS + "store/faults.rt": faults, TESTS + "store/large.rt": large,
    TESTS + "store/many.rt": many, TESTS + "store/memory.rt": memory, TESTS + "store/rows.rt": rows, TESTS + "store/stops.rt": stops,
    TESTS + "store/versions.rt": versions, "crates/audit_tool_endure/src/stops.rt": endure,
    "crates/audit_test_serve/src/places.rt": serve_places,
}
