"""Sources: sockets that are bound to a kind of events."""
import contextlib
import os
import random
import socket
import struct
import time

from checks.daemon.common import MOST_EVENTS, OTHER, OWN, WATCHED, Crowd, Daemon, is_answered, sectors_for, sources_at
from checks.parts.clients import answers, connected, in_process, index_in
from checks.parts.files import mode_of, read, write
from checks.parts.frames import (
    CLOSE, CLOSED, COMMITMENT, COMMITMENT_REPLY, KIND, MALFORMED, NOT_ALLOWED, append_frame, entry_frame,
    proof_frames, refused, reply_of, take)
from checks.parts.logs import payloads_of
from checks.parts.program import FILE_FAULT
from checks.parts.scenes import scene
from checks.parts.waiting import is_socket, wait_until
from checks.parts.wrong import expect, expect_true


@scene
def a_source_appends_its_kind_alone(room):
    """A source's client appends events of its kind, and asks each question. Anything else is refused after the replies
    to what came before, and then the connection ends: nothing after it is read."""
    held = [(1, payload) for payload in payloads_of("before", 2)]
    store = room.store("store", [payload for _, payload in held])
    words, (path,) = sources_at(room, OWN)
    for more in ([], ["--allow-close"]):
        daemon = Daemon(room, store, *words, *more)
        with connected(path) as client:
            client.sendall(append_frame(b"own", 5, OWN))
            expect(index_in(reply_of(client)), len(held), "an append of a source")
            held.append((OWN, b"own"))
            client.sendall(COMMITMENT + proof_frames(len(held) - 1, len(held)) + entry_frame(len(held) - 1))
            commitment, member, increment, entry = (reply_of(client) for _ in range(4))
            expect((commitment[0], commitment[5:13]), (COMMITMENT_REPLY, struct.pack(">Q", len(held))),
                   "a source's commitment")
            expect((entry[0], entry[5:9]), (0x85, struct.pack(">I", OWN)), "a source's entry")
            expect((member[0], member[6 + 32 * member[5]:]), (0x83, entry[5:]), "the proof of a source's event")
            expect((increment[0], len(increment)), (0x84, 6 + 32 * increment[5]), "a source's increment")
        for request, refusal in (
            (append_frame(b"forged", 9, OTHER), refused(9, NOT_ALLOWED)),
            (append_frame(b"forged", 8), refused(8, NOT_ALLOWED)),
            (CLOSE, refused(7, NOT_ALLOWED)),
            (append_frame(b"forged", 6, (1 << 32) - 1), refused(0, MALFORMED)),
        ):
            before, after = append_frame(b"first", 1, OWN) + COMMITMENT, append_frame(b"late", 2, OWN) + COMMITMENT
            for pieces in ([before + request + after], [before, request, after],
                           [before + request[:6], request[6:] + after]):
                found = answers(path, pieces)
                expect(index_in(found[0]), len(held), "what came before what isn't allowed")
                held.append((OWN, b"first"))
                expect((found[1][0], found[2:]), (COMMITMENT_REPLY, [refusal]),
                       "what isn't allowed on a source's socket")
            expect(answers(path, [request + after]), [refusal], "what isn't allowed, alone")
        daemon.stopped_well()
        expect(room.events(store), held, "the store after a source's clients")


@scene
def bound_kinds_come_by_their_sockets_alone(room):
    """An event of a source's kind is refused on every other socket, and the connection ends. On SOCKET other kinds go
    on, and a close where it is allowed."""
    words, paths = sources_at(room, OWN, OTHER)
    readers = room.path("readers")
    for more in ([], ["--allow-close"]):
        store = room.store("store%d" % len(more))
        daemon = Daemon(room, store, "--reader", readers, *words, *more)
        held = []
        with connected(daemon.socket) as client:
            for path in (daemon.socket, readers, *paths):
                for kind, own in zip((OWN, OTHER), paths):
                    if path != own:
                        found = answers(path, [append_frame(b"forged", 3, kind) + append_frame(b"late") + COMMITMENT])
                        expect(found, [refused(3, NOT_ALLOWED)], "an event of kind %d at %s" % (kind, path))
                for kind in (KIND, OWN + 1, OTHER - 1):
                    client.sendall(append_frame(b"free", 1, kind))
                    expect(index_in(reply_of(client)), len(held), "an event of kind %d" % kind)
                    held.append((kind, b"free"))
            found = answers(daemon.socket,
                            [append_frame(b"first") + append_frame(b"forged", 3, OTHER) + append_frame(b"late")])
            expect((index_in(found[0]), found[1:]), (len(held), [refused(3, NOT_ALLOWED)]),
                   "what came before a bound kind")
            held.append((KIND, b"first"))
            client.sendall(CLOSE)
            if not more:
                expect(reply_of(client), refused(7, NOT_ALLOWED), "a close that isn't allowed")
                expect(take(client, 1), b"", "the end after it")
            else:
                expect(index_in(reply_of(client)), len(held), "a close that is allowed")
                held.append(((1 << 32) - 1, b""))
                with connected(paths[0]) as source:
                    source.sendall(append_frame(b"own", 4, OWN) + COMMITMENT)
                    expect(reply_of(source), refused(4, CLOSED), "a source's event after a close")
                    expect(reply_of(source)[0], COMMITMENT_REPLY, "a source's question after a close")
        daemon.stopped_well()
        expect(room.events(store), held, "the store after forged kinds")


@scene
def fifteen_sources_at_once(room):
    """Each appends its own list, as another client does: the log has each of them whole and in order."""
    words, paths = sources_at(room, *range(15))
    turns, each = room.tries(4), 8
    store = room.store("store", sectors=sectors_for(16 * turns * each))
    daemon = Daemon(room, store, *words)
    streams = {kind: connected(path) for kind, path in enumerate([*paths, daemon.socket])}
    sent, acknowledged = {kind: [] for kind in streams}, {}
    for turn in range(turns):
        for kind, stream in streams.items():
            payloads = [b"%d of %d" % (turn * each + number, kind) for number in range(each)]
            stream.sendall(b"".join(append_frame(payload, kind, kind) for payload in payloads))
            sent[kind] += payloads
        for kind, stream in streams.items():
            for payload in sent[kind][-each:]:
                reply = reply_of(stream)
                expect(reply[1:5], struct.pack(">I", kind), "the tag of a reply")
                acknowledged[index_in(reply)] = kind, payload
    daemon.stopped_well()
    held = room.events(store)
    for kind in streams:
        expect([payload for found, payload in held if found == kind], sent[kind], "the list of kind %d" % kind)
    expect(held, [acknowledged[index] for index in range(16 * turns * each)], "the events at their indices")


def flooding(path):
    """Forges kinds, leaves frames half done and hangs up, on twenty connections at a time."""
    streams = [None] * 20
    own, forged = append_frame(b"flood", 1, OWN), [append_frame(b"forged", 2, kind) for kind in (KIND, OTHER, OWN + 1)]
    while True:
        for at in range(20):
            if streams[at] is not None:
                streams[at].close()
            streams[at] = stream = socket.socket(socket.AF_UNIX, socket.SOCK_STREAM)
            request = random.choice(forged)
            with contextlib.suppress(OSError):
                stream.settimeout(0.01)
                stream.connect(path)
                stream.sendall(random.choice((own + request + own, request * 50,
                                              request[:random.randrange(1, len(request))], CLOSE)))
                if random.random() < 0.5:
                    stream.close()
        time.sleep(0.01)


@scene
def a_source_that_floods_forges_nothing(room):
    """Beside a source whose clients forge other kinds, send frames in halves and hang up, others get each
    acknowledgement."""
    words, (harmful, good) = sources_at(room, OWN, OTHER)
    store = room.store("store", sectors=sectors_for(int(2 * WATCHED * MOST_EVENTS)))
    messages = room.path("messages")
    with open(messages, "wb") as file:
        daemon = Daemon(room, store, *words, "--explain", stderr=file)
    crowds = [Crowd(good, 3, "source", OTHER), Crowd(daemon.socket, 3, "free")]
    with in_process(flooding, harmful):
        for crowd in crowds * 2:
            crowd.run(WATCHED / 2)
        wait_until(lambda: read(messages).count(b"doesn't allow the request") >= 20,
                   "few clients that forge are cut off")
    for crowd in crowds:
        crowd.end()
    order, (status, _, _) = daemon.stop()
    expect((order[0], status), (0, 0), "the statuses")
    held = room.events(store)
    for crowd in crowds:
        expect({index: event for index, event in enumerate(held) if event[0] == crowd.kind},
               {index: (crowd.kind, payload) for index, payload in crowd.acknowledged.items()},
               "the events of %s" % crowd.name)
    expect({event for event in held if event[0] not in (OTHER, KIND)}, {(OWN, b"flood")}, "the other events")


@scene
def sockets_of_sources_are_made_and_removed(room):
    """Their modes, and that nothing is left at the end, or where one can't be made; what stands in its place is
    kept."""
    store, other = room.store("store"), room.store("other")
    words, paths = sources_at(room, 1, 2)
    before = sorted(os.listdir(room.folder))
    for more, mode in (([], 0o600), (["--socket-mode", "660"], 0o660), (["--socket-mode", "0622"], 0o622)):
        daemon = Daemon(room, store, *words, *more)
        expect([mode_of(path) for path in (daemon.socket, *paths)], [mode] * 3, "the modes of the sockets")
        daemon.kill()
        expect_true(all(map(is_socket, paths)), "a killed daemon leaves no sockets")
    daemon = Daemon(room, store, *words)
    free = room.path("free")
    for command in (["daemon", other, free, "--writer", "3:" + paths[0]], ["daemon", other, paths[1]],
                    ["serve", other, paths[1], "1"],
                    ["daemon", other, free, "--reader", paths[0]],
                    ["daemon", other, free, "--writer", "1:" + daemon.socket]):
        expect(room.run(*command), FILE_FAULT, " ".join(command))
        is_answered(paths[0])
        is_answered(paths[1])
    daemon.stopped_well()
    expect(sorted(os.listdir(room.folder)), before, "the files after a daemon with sources")
    # Each path is one socket's, by whatever name.
    for more in (["--writer", "1:" + free, "--writer", "2:" + free], ["--writer", "1:" + free, "--writer", "2:./free"],
                 ["--reader", free, "--writer", "1:" + free], ["--writer", "1:" + daemon.socket],
                 ["--writer", "1:%s.stop" % daemon.socket],
                 ["--writer", "1:%s.lock" % daemon.socket], ["--writer", "1:" + free, "--writer", "2:%s.lock" % free],
                 ["--writer", "1:%s.lock" % free, "--writer", "2:" + free], [*words, "--writer", "3:missing/socket"]):
        expect(room.run("daemon", store, daemon.socket, *more), FILE_FAULT, " ".join(more))
        expect(sorted(os.listdir(room.folder)), before, "the files after %s" % " ".join(more))
    write(paths[1], b"a file")
    expect(room.run("daemon", store, daemon.socket, *words), FILE_FAULT, "a source's socket in the place of a file")
    expect(read(paths[1]), b"a file", "a file in the place of a source's socket")
    expect(sorted(os.listdir(room.folder)), sorted([*before, os.path.basename(paths[1])]), "the files beside it")


@scene
def words_are_sources(room):
    """A wrong word for a source is a wrong argument, before anything is opened."""
    store = room.path("no such store")
    before = sorted(os.listdir(room.folder))
    form = "KIND:PATH, a number from 0 to 4294967294 and a path of 1 to 107 bytes"
    cases = [([word], form) for word in (
        "7", ":", ":p", "x:p", "+7:p", " 7:p", "7 :p", "0x7:p", "7,8:p", "4294967295:p", "18446744073709551616:p",
        "00000000007:p", "7:",
        "7:" + "p" * 108)]
    cases += [(["7:p", word], "KIND:PATH with a kind that no other --writer has") for word in ("7:p", "7:q", "07:q")]
    sixteen = ["%d:p%d" % (kind, kind) for kind in range(16)]
    cases += [(sixteen, "given at most 15 times"),
              ([*sixteen[:15], "14:q"], "KIND:PATH with a kind that no other --writer has"),
              ([*sixteen[:15], "q"], form), (["q", *sixteen], form)]
    for words, cause in cases:
        wrong = "q" if words[0] == "q" else words[-1]
        found = room.whole("daemon", store, "socket", *(word for source in words for word in ("--writer", source)))
        expect(found, (2, b"", ("audit: bad argument\naudit: %s: --writer is %s\n" % (wrong, cause)).encode()),
               " ".join(words))
    expect(room.whole("daemon", store, "socket", "--writer", "")[::2],
           (2, ("audit: bad argument\naudit: the empty word: --writer is %s\n" % form).encode()),
           "an empty word for a source")
    for words in (["--writer"], ["--writer", "-1:p"]):
        expect(room.run("daemon", store, "socket", *words)[:2], (2, b""), " ".join(words))
    right = [word for source in sixteen[:15] for word in ("--writer", source)]
    expect(room.run("daemon", store, "socket", *right), FILE_FAULT, "fifteen sources without a store")
    expect(sorted(os.listdir(room.folder)), before, "the files after wrong words")
    # The first colon ends the kind, which may begin with zeros.
    store = room.store("store")
    daemon = Daemon(room, store, "--writer", "0000000007:a:b", "--writer", "8:" + "p" * 107)
    expect(index_in(answers(room.path("a:b"), [append_frame(b"7", 1, 7) + append_frame(b"8", 1, 8)])[0]), 0,
           "a path with a colon")
    expect_true(is_socket(room.path("p" * 107)), "no socket of 107 bytes")
    daemon.stopped_well()
