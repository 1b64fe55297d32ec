"""A server of the model that is watched: what each flush replies is compared with the log, which is counted anew."""
from checks.parts.frames import MALFORMED, refused
from checks.parts.wrong import Wrong, expect, expect_true
from model import wire
from model.chain import ZERO_KEY, keystream_key, next_key
from model.disk import GENERATION_LIMIT
from model.session import CLOSED, FULL, NOT_COUNTED, WORN, DeviceFault, Session
from read_export import under_keystream

# The key of the entry of each index, in a log that begins with the key of zeros.
KEYS = [ZERO_KEY]


def key_of(index):
    while len(KEYS) <= index:
        KEYS.append(next_key(KEYS[-1]))
    return KEYS[index]


class Watched(Session):
    """A session, with the requests that its client sent by their tags, and the tags of the last replies."""

    def __init__(self, rights, asked):
        super().__init__(rights, of_daemon=True)
        self.asked, self.seen = asked, 0
        self.last = {"append": 0, "question": 0}

    def replies(self):
        """The replies since the last look, each with its request."""
        found = []
        while self.seen < len(self.output):
            end = self.seen + 2 + int.from_bytes(self.output[self.seen:self.seen + 2], "big")
            body, self.seen = self.output[self.seen + 2:end], end
            # Of a client that went in the middle of a frame.
            if not (self.ended and body == refused(0, MALFORMED)):
                found.append((self.asked[int.from_bytes(body[1:5], "big")], body))
        return found


def watched(server_class):
    """A server of this class, correct or with a planted fault, that is judged after each flush, and may meet a fault in
    a commit."""

    class Judged(server_class):
        def __init__(self, lists, sectors, **how):
            super().__init__(sectors, counted=lists, **how)
            self.lists, self.sessions, self.fault = lists, [], None

        def session(self, rights, asked):
            self.sessions.append(Watched(rights, asked))
            return self.sessions[-1]

        def write(self, events):
            if self.fault == "before":
                raise DeviceFault
            super().write(events)
            if self.fault == "after":
                raise DeviceFault

        def flush(self):
            super().flush()
            self.expect_prefixes()
            for session in self.sessions:
                judge_replies(self, session)

        def expect_prefixes(self):
            """The log's events of each kind are a prefix of its list."""
            for kind, payloads in self.lists.items():
                expect_prefix(payloads, self.events_of(kind))

        def is_worn(self):
            return self.generation + 2 >= GENERATION_LIMIT

        def events_of(self, kind):
            return [payload for found, payload in self.log.events if found == kind]

    return Judged


def expect_prefix(payloads, held):
    expect(held, payloads[:len(held)], "the events of a kind, which are no prefix of its list")


def judge_replies(server, session):
    """Each new reply says what the log is, in the order of the requests."""
    for request, body in session.replies():
        expect_in_order(session, request)
        judge_reply(server, request, body)


def expect_in_order(session, request):
    """The replies to appends come in the order of these, and those to questions too."""
    sort = "question" if request.kind == wire.PLACE else "append"
    expect_true(session.last[sort] < request.tag, "the reply to request %d comes late" % request.tag)
    session.last[sort] = request.tag


def judge_reply(server, request, body):
    if body[0] == wire.REFUSED:
        return judge_refusal(server, request, body[5])
    numbers, rest = wire.numbers_in(body[5:], [8, 8])
    if body[0] == wire.REPLY | wire.PLACE:
        wanted = len(server.events_of(request.numbers[0])), len(server.log.events)
        return expect((numbers, rest), (wanted, b""), "the number of events of a kind, and of all")
    kind = wire.APPEND if request.kind == wire.CLOSE else request.kind
    expect((body[0], numbers[1]), (wire.REPLY | kind, len(server.log.events)), "the reply to an append, and the count")
    expect(rest[:32], server.commitment[8:], "the root")
    if request.kind == wire.PLACED:
        judge_receipt(server, request, numbers[0], rest[32:])


def judge_receipt(server, request, index, key):
    """The event at the index is the one that was sent, at its place, and the key opens its entry."""
    kind, place = request.numbers
    before = [found for found, _ in server.log.events[:index]]
    expect((server.log.events[index], before.count(kind)), ((kind, request.payload), place), "the event at an index")
    expect(key, keystream_key(key_of(index), kind), "the key of an entry")
    expect(under_keystream(key, server.log.entries[index][8:-64]), request.payload, "an entry under its key")


def judge_refusal(server, request, code):
    """A code is that of a store which is so, or of a kind that isn't counted."""
    holds = {CLOSED: server.log.closed, WORN: server.is_worn(),
             NOT_COUNTED: request.kind not in (wire.APPEND, wire.CLOSE) and request.numbers[0] not in server.lists,
             FULL: True}
    if not holds.get(code):
        raise Wrong("a refusal %d of request %d" % (code, request.kind))
