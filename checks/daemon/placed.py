"""Placed appends: what each is answered, by the model, and that no list of a source loses or doubles an event."""
import contextlib
import itertools
import random
import signal
import socket
import time

from checks.daemon.common import KIND, MOST_EVENTS, OTHER, OWN, Daemon, sectors_for, sources_at
from checks.daemon.sources import flooding
from checks.parts.clients import answers_at_end, connected, in_process
from checks.parts.frames import (
    CLOSE, COMMITMENT, COMMITMENT_REPLY, MALFORMED, MAX_PLACED, PLACE_REPLY, PLACED_REPLY, STATE, append_frame,
    entry_frame, frame, place_frame, placed_frame, read_frame, refused, reply_of)
from checks.parts.logs import keys_from
from checks.parts.placing import PlacedSource, SourceProcess
from checks.parts.program import SECONDS, is_unproved
from checks.parts.rooms import FIRST_KEY
from checks.parts.scenes import scene
from checks.parts.waiting import wait_until
from checks.parts.wrong import expect
from model.chain import keystream_key
from model.session import Rights, Server, Session
from read_export import under_keystream

RESERVED = (1 << 32) - 1
# What a daemon reads of a client at a time.
ONE_READ = 4096


class Mirror:
    """A daemon with two sources and readers, and the model of its sessions: each reply must be the model's."""

    def __init__(self, room, sectors=2000, closes=False):
        words, (own, other) = sources_at(room, OWN, OTHER)
        readers = room.path("readers")
        more = ["--allow-close"] if closes else []
        self.room, self.store = room, room.store("store%d" % sectors, sectors=sectors)
        self.daemon = Daemon(room, self.store, "--reader", readers, *words, *more)
        self.paths = {"common": self.daemon.socket, "own": own, "other": other, "readers": readers}
        self.model = Server(sectors, first_key=FIRST_KEY, reserve=1, counted=[OWN, OTHER])
        self.rights = {"common": Rights(but=frozenset([OWN, OTHER]), closes=closes),
                       "own": Rights(only=OWN, closes=False), "other": Rights(only=OTHER, closes=False),
                       "readers": Rights(appends=False, closes=False)}
        self.clients = {}

    def send(self, name, *requests):
        """Sends requests on a socket and compares all replies. What one read takes is one batch, unless it is too large
        for that."""
        if name not in self.clients:
            self.clients[name] = connected(self.paths[name]), Session(self.rights[name], of_daemon=True)
            # Of a newcomer less is read.
            self.send(name, COMMITMENT)
        stream, session = self.clients[name]
        with self.stopped():
            stream.sendall(b"".join(requests))
        self.model.feed(session, b"".join(requests))
        self.model.flush()
        found = b""
        while len(found) < len(session.output):
            found += frame(read_frame(stream))
        expect(found.hex(), session.output.hex(), "the replies on socket `%s`" % name)
        session.output = b""
        if session.ended:
            with contextlib.suppress(ConnectionResetError):
                expect(stream.recv(1), b"", "what follows a refusal that ends a connection")
            stream.close()
            del self.clients[name]

    @contextlib.contextmanager
    def stopped(self):
        """The daemon reads nothing meanwhile, so that it then finds all that was sent."""
        self.daemon.process.send_signal(signal.SIGSTOP)
        try:
            yield
        finally:
            self.daemon.process.send_signal(signal.SIGCONT)

    def end(self):
        for stream, _ in self.clients.values():
            stream.close()
        self.daemon.stopped_well()
        expect(self.room.events(self.store), self.model.log.events, "the events of the store")


@scene
def questions_for_places(room):
    """Every socket answers them for counted kinds, and says of others that they aren't counted."""
    mirror = Mirror(room)
    mirror.send("own", append_frame(b"one", 4, OWN), placed_frame(b"two", 1, 5, OWN))
    for name, kind in itertools.product(mirror.paths, (OWN, OTHER, KIND, OWN + 1, RESERVED)):
        mirror.send(name, place_frame(kind, 3))
    mirror.end()


@scene
def each_place_is_judged(room):
    """At the right place, below it and above it, after an append without a place, and the longest."""
    mirror, longest = Mirror(room), b"m" * MAX_PLACED
    placed = [(1, b"early"), (0, b"first"), (0, b"late"), (2, b"early"), (1, b""), (1 << 63, b"far"),
              ((1 << 64) - 1, b"farthest"), (2, longest), (2, longest)]
    after = [(3, b"too low now"), (4, b"after it")]
    requests = [*(placed_frame(payload, place, place & 0xffff, OWN) for place, payload in placed),
                append_frame(b"without a place", 4, OWN),
                *(placed_frame(payload, place, 9, OWN) for place, payload in after)]
    for number, request in enumerate(requests):
        mirror.send("own", request)
        mirror.send("other", place_frame(OWN, 1), placed_frame(b"other", number // 2, 6, OTHER), COMMITMENT)
    mirror.end()


@scene
def places_by_socket(room):
    """A placed append is allowed where an append of its kind is. Where its kind isn't counted it is refused alone."""
    mirror = Mirror(room)
    for name, kind, place in itertools.product(mirror.paths, (OWN, OTHER, KIND), (0, 1, 5)):
        mirror.send(name, place_frame(OWN), placed_frame(b"allowed or not", place, 8, kind), place_frame(OTHER))
    mirror.end()


@scene
def malformed_places(room):
    """A reserved kind, a payload that is too long, frames that are too short or too long, and other first bytes."""
    mirror, right = Mirror(room), placed_frame(b"", 0, 9, OWN)
    question = place_frame(OWN)
    for wrong in (placed_frame(b"reserved", 0, 9, RESERVED), placed_frame(b"l" * (MAX_PLACED + 1), 0, 9, OWN)[:3],
                  frame(right[2:-1]), frame(right[2:7]), frame(question[2:-1]), frame(question[2:] + b"\0"),
                  frame(b"\x0a" + right[3:]), frame(b"\x88" + question[3:])):
        mirror.send("own", question, wrong)
    mirror.send("own", right)
    mirror.end()


def drawn_requests(kind, number):
    """Requests of a client that may append this kind, of which there are about as many events: few enough for a
    read."""
    sent, count = 0, random.randrange(1, 50)
    for tag in range(1, count + 1):
        place = max(0, number + random.choice((-1, 0, 0, 0, 0, 1, 2)))
        payload = bytes(random.choice((0, 0, 1, 30, 400, 500)))
        found = random.choice([placed_frame(payload, place, tag, kind)] * 6 + [append_frame(payload, tag, kind)] * 2 + [
            place_frame(kind, tag), COMMITMENT, STATE])
        sent += len(found)
        if sent > ONE_READ:
            return
        number += found[2] in (1, 9)
        yield found


@scene
def placed_appends_in_one_batch(room):
    """Displaced appends beside others and questions: the replies are the model's, in its order, byte by byte."""
    mirror = Mirror(room)
    for _ in range(room.tries(30)):
        name, kind = random.choice((("own", OWN), ("other", OTHER), ("common", KIND)))
        number = [found for found, _ in mirror.model.log.events].count(kind)
        mirror.send(name, *drawn_requests(kind, number))
    mirror.end()


def send_all(mirror, requests, apart):
    """Sends requests of the source in one batch, or each in one of its own."""
    for each in [[request] for request in requests] if apart else [requests]:
        mirror.send("own", *each)


@scene
def full_and_closed_stores_refuse_places(room):
    """What doesn't fit is refused as full at its right place, and what follows it is displaced, in one batch or in
    several. Once the log is closed the right place is refused as closed, and others are still displaced."""
    sizes = 0, 1000, 400, 1600, 0, 0
    events = [placed_frame(b"x" * size, place, place + 1, OWN) for place, size in enumerate(sizes)]
    again = [placed_frame(b"short", place, 20 + place, OWN) for place in (3, 4, 5)]
    late = [placed_frame(b"late", place, place, OWN) for place in range(8)]
    for apart in (True, False):
        mirror = Mirror(room, 10 + apart, closes=True)
        send_all(mirror, [*events, *again, place_frame(OWN)], apart)
        send_all(mirror, again, apart)
        mirror.send("common", CLOSE)
        send_all(mirror, [*late, place_frame(OWN), COMMITMENT, STATE], apart)
        mirror.end()


@scene
def receipts_open_their_entries_alone(room):
    """The key of each acknowledgement is that of its entry in the model's log. Under it the entry reads as the event
    that was sent, and no other entry of the kind does."""
    store = room.store("store", sectors=1000)
    words, (path,) = sources_at(room, OWN)
    daemon = Daemon(room, store, *words)
    payloads = [b"event %d of many bytes" % number for number in range(40)]
    with connected(path) as client:
        client.sendall(b"".join(placed_frame(payload, place, place, OWN) for place, payload in enumerate(payloads)))
        receipts = [reply_of(client) for _ in payloads]
        client.sendall(b"".join(map(entry_frame, range(len(payloads)))))
        ciphers = [reply_of(client)[5 + 8:-64] for _ in payloads]
    daemon.stopped_well()
    keys = [keystream_key(key, OWN) for key, _ in zip(keys_from(FIRST_KEY), payloads)]
    expect([reply[-32:] for reply in receipts], keys, "the keys of the receipts")
    expect([reply[:1] for reply in receipts], [bytes([PLACED_REPLY])] * len(payloads), "the acknowledgements")
    for index, payload in enumerate(payloads):
        opened = [under_keystream(keys[index], cipher) == payload for cipher in ciphers]
        expect(opened, [at == index for at in range(len(ciphers))], "the entries that a key opens")


@scene
def places_are_of_daemons_alone(room):
    """In the sessions of `serve` and `loop` questions for places and placed appends are malformed."""
    store = room.store("store")
    for request in place_frame(OWN), placed_frame(b"payload", 0, 1, OWN):
        served = room.path("served")
        server = room.serve(store, served)
        found = answers_at_end(served, COMMITMENT + request + COMMITMENT)
        expect((found[0][:1], found[1:]), (bytes([COMMITMENT_REPLY]), [refused(0, MALFORMED)]), "a place in `serve`")
        expect(server.wait(SECONDS), 0, "the status of a server")
        looped = room.done("loop", store, "looped", given=(COMMITMENT + request).hex().encode() + b"\n")
        expect(looped.strip().endswith(frame(refused(0, MALFORMED)).hex().encode()), True, "a place in `loop`")


def kinds_of_replies(stream, count):
    return [reply_of(stream)[0] for _ in range(count)]


@scene
def two_clients_of_one_source(room):
    """Of two that send the same places at once one is acknowledged each, and the list is there once."""
    mirror, payloads = Mirror(room), [b"event %d" % number for number in range(30)]
    one, two = (connected(mirror.paths["own"]) for _ in range(2))
    sent = [placed_frame(payload, place, place, OWN) for place, payload in enumerate(payloads)]
    for first in range(0, len(sent), 10):
        with mirror.stopped():
            one.sendall(b"".join(sent[first:first + 10]))
            two.sendall(b"".join(sent[first:first + 10]))
        answers = zip(kinds_of_replies(one, 10), kinds_of_replies(two, 10))
        expect([sorted(pair) for pair in answers], [[PLACE_REPLY, PLACED_REPLY]] * 10, "the answers to two clients")
    one.close()
    two.close()
    mirror.daemon.stopped_well()
    expect(room.events(mirror.store), [(OWN, payload) for payload in payloads], "the list of a source")


@scene
def cut_places_are_malformed(room):
    """A question or a placed append that ends early is malformed, and appends nothing."""
    mirror = Mirror(room)
    whole = place_frame(OWN), placed_frame(b"payload", 0, 1, OWN)
    cut = [request[:size] for request in whole for size in range(1, len(request))]
    for name, part in itertools.product(("own", "common", "readers"), cut):
        found = answers_at_end(mirror.paths[name], COMMITMENT + part)
        expect((found[0][:1], found[1:]), (bytes([COMMITMENT_REPLY]), [refused(0, MALFORMED)]),
               "a request that is cut after %s" % part.hex())
    mirror.end()


def forging(path):
    """Sends placed appends of the kind of another source, of its own at wrong places, and noise, without end."""
    while True:
        with contextlib.suppress(OSError), socket.socket(socket.AF_UNIX, socket.SOCK_STREAM) as stream:
            stream.settimeout(0.05)
            stream.connect(path)
            stream.sendall(random.choice((
                placed_frame(b"forged", random.randrange(50), 1, OTHER), place_frame(OTHER) * 300,
                placed_frame(b"forged", 0, 1, OWN) * 200, placed_frame(b"forged", 1 << 40, 1, OWN) * 200,
                append_frame(b"forged", 1, OTHER), random.randbytes(300), placed_frame(b"cut", 0, 1, OWN)[:20])))
            with contextlib.suppress(socket.timeout):
                stream.recv(1 << 16)


@scene
def forgers_of_places_move_no_list(room):
    """Beside hostile clients of every other socket a source's list is whole, and nothing else is of its kind."""
    words, (harmful, good) = sources_at(room, OWN, OTHER)
    readers = room.path("readers")
    store = room.store("store", sectors=sectors_for(MOST_EVENTS))
    daemon = Daemon(room, store, "--reader", readers, "--idle", "1", *words)
    source = PlacedSource(good, OTHER, [b"event %d" % number for number in range(200)])
    with contextlib.ExitStack() as hostile:
        for path in (harmful, harmful, daemon.socket, readers):
            hostile.enter_context(in_process(forging, path))
        hostile.enter_context(in_process(flooding, harmful))
        source.start()
        source.expect_done()
    daemon.stop()
    held = room.events(store)
    source.expect_whole(held)
    expect({payload for kind, payload in held if kind != OTHER} - {b"forged", b"flood"}, set(), "other events")


def kill_some(daemon, sources):
    """Kills the daemon, some of its sources, or both, and starts them again, each in any order."""
    some = random.sample(sources, random.randrange(1, len(sources) + 1))
    victims = random.choice(([daemon], some, [daemon, *some]))
    for call in "kill", "start":
        random.shuffle(victims)
        for victim in victims:
            getattr(victim, call)()


def kill_under(daemon, sources, kills):
    """Kills again and again, at random moments between the first event and the last."""
    total = sum(len(source.payloads) for source in sources)
    for kill in range(kills):
        wait_until(lambda: sum(source.stored for source in sources) >= total * kill // kills, "the sources stand still")
        time.sleep(random.random() * 0.02)
        kill_some(daemon, sources)


def for_each(sources, call, *words):
    for source in sources:
        call(source, *words)


@scene
def placed_lists_survive_kills(room):
    """The daemon, its four sources, or both are killed, and the sources also lose their connections: each list is
    whole, once and in order, and each receipt is that of its event."""
    kills, each = (200 if room.is_long else 20), (300 if is_unproved() else 5000)
    words, paths = sources_at(room, 0, 1, 2, 3)
    store = room.store("store", sectors=sectors_for(4 * each))
    daemon = Daemon(room, store, *words)
    sources = [SourceProcess(path, kind, [b"event %d of %d" % (number, kind) for number in range(each)], path + ".kept")
               for kind, path in enumerate(paths)]
    for_each(sources, SourceProcess.start)
    kill_under(daemon, sources, kills)
    for_each(sources, SourceProcess.expect_done)
    daemon.stopped_well()
    for_each(sources, SourceProcess.expect_whole, room.events(store))
