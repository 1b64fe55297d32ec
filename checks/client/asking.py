"""`audit ask` against `serve` and a daemon: each answer is that of the same command on the store."""
import os
import struct

from checks.client.common import expect_same_file, lines, single_of, store
from checks.parts.clients import side_by_side
from checks.parts.daemons import Daemon, Serving
from checks.parts.files import read
from checks.parts.frames import state_reply
from checks.parts.liars import ASKED, Server, honest, scripted
from checks.parts.logs import Log, entries_of, increment, membership, root, unsealed_entry
from checks.parts.program import BAD_ARGUMENT, BAD_REPLY, done, run
from checks.parts.scenes import scene
from checks.parts.wrong import expect


@scene
def scene_answers():
    """Each answer of a server is that of the same command on its store, file and line."""
    store()
    with Serving("store"):
        expect(run("ask", "serve.sock", "commitment"), (0, b"commit 0 " + b"0" * 64 + b"\n", b""), "an empty log")
        done("send", "serve.sock", data=lines(300))
        newest = done("ask", "serve.sock", "commitment")
        expect(run("ask", "serve.sock", "state"), BAD_REPLY, "the state, of which only a daemon is asked")
        asked = [
            done("ask", "serve.sock", "member", "7", "300", "m"),
            done("ask", "serve.sock", "member", "0", "1", "first"),
            done("ask", "serve.sock", "increment", "100", "300", "i"),
            done("ask", "serve.sock", "increment", "64", "65", "near"),
            done("ask", "serve.sock", "export", "e"),
        ]
        single = done("ask", "serve.sock", "entry", "299", "one")
        expect(done("ask", "serve.sock", "entry", "299", "-"), read("one"), "an entry on standard output")
        expect(done("ask", "serve.sock", "increment", "100", "300", "-"), read("i"), "a proof on standard output")
        refused = (1, b"", b"audit: 8 NoSuchVersion\n")
        expect(run("ask", "serve.sock", "member", "300", "300", "none"), refused, "no such index")
        expect(run("ask", "serve.sock", "member", "3", "301", "none"), refused, "no such count")
        expect(run("ask", "serve.sock", "increment", "0", "5", "none"), refused, "an increment from nothing")
        expect(run("ask", "serve.sock", "entry", "300", "none"), refused, "no such entry")
        expect(os.path.exists("none"), False, "a file for no answer")
    expect(newest, done("show", "store").splitlines(True)[0], "the commitment")
    wanted = [
        done("prove", "store", "member", "7", "300", "m.own"),
        done("prove", "store", "member", "0", "1", "first.own"),
        done("prove", "store", "increment", "100", "300", "i.own"),
        done("prove", "store", "increment", "64", "65", "near.own"),
        done("export", "store", "e.own"),
    ]
    expect(asked, wanted, "the lines of the answers")
    for path in "m", "first", "i", "near", "e":
        expect_same_file(path, path + ".own")
    expect(read("e").endswith(read("one")), True, "the last entry")
    expect(single, b"exported 1 %d\n" % len(read("one")), "the line of an entry")


@scene
def scene_daemon():
    """The same against a daemon, with several clients at a time: who may only ask is refused what isn't asking."""
    store(16384)
    with Daemon("store", "daemon.sock", "--reader", "reader.sock", "--allow-close") as daemon:
        expect(daemon.ready, b"ready 0 " + b"0" * 64 + b"\n", "its first line")
        watched = [run("watch", "reader.sock", "state")]
        sizes = [(str(window), 100 + 10 * place, 1000 * place) for place, window in enumerate((1, 16, 64, 1024))]
        sent = side_by_side([(send_lines, *size) for size in sizes])
        watched.append(run("watch", "reader.sock", "state"))
        newest = done("ask", "daemon.sock", "commitment")
        total = sum(count for _, count, _ in sizes)
        asked = asked_by_reader(total)
        expect_reader_refused()
        watched.append(run("watch", "reader.sock", "state"))
        expect(done("ask", "daemon.sock", "commitment"), newest, "the log after a reader")
        closed = done("ask", "daemon.sock", "close")
        expect(run("send", "daemon.sock", data=lines(1)), (1, b"refused 1 13 Closed\n", b""), "a closed log")
        expect(daemon.stop(), b"stopped" + closed[len(b"closed"):], "its last line")
    entries = entries_of(read("e"))
    expect(len(entries), total, "the events of the store")
    words = [b"%d:%s" % (count, root(entries, count).hex().encode()) for count in (0, total)]
    seen = [(0, line, b"") for line in (b"began %s\n" % words[0], b"grew %s\n" % words[1], b"same\n")]
    expect(watched, seen, "what a witness sees")
    expect(newest, b"commit " + words[1].replace(b":", b" ") + b"\n", "the commitment")
    expect_own_acknowledgements(sizes, sent, total, entries)
    expect(single_of(asked[0]), len(entries[7]), "the line of an entry")
    expect(read("one"), entries[7], "an entry")
    expect_store_has_answers(total, asked, closed)


def send_lines(window, count, first):
    return run("send", "daemon.sock", "--window", window, data=lines(count, first))


def asked_by_reader(total):
    """What the readers' socket answers."""
    return [
        done("ask", "reader.sock", "entry", "7", "one"),
        done("ask", "reader.sock", "member", "7", str(total), "m"),
        done("ask", "reader.sock", "increment", "100", str(total), "i"),
        done("ask", "reader.sock", "export", "e"),
    ]


def expect_reader_refused():
    """A client of the readers' socket that sends an event or a close is refused."""
    refused = b"audit: 16 NotAllowed\n"
    expect(run("send", "reader.sock", data=lines(2)),
           (1, b"", refused + b"audit: 2 lines from line 1 are not acknowledged\n"),
           "events of a reader")
    expect(run("ask", "reader.sock", "close"), (1, b"", refused), "a reader's close")


def expect_store_has_answers(total, asked, closed):
    """The answers are those of the store once its daemon ended."""
    wanted = [
        done("prove", "store", "member", "7", str(total), "m.own"),
        done("prove", "store", "increment", "100", str(total), "i.own"),
    ]
    expect(asked[1:3], wanted, "the lines of the answers")
    for path in "m", "i":
        expect_same_file(path, path + ".own")
    done("export", "store", "e.own")
    expect(read("e.own").startswith(read("e")), True, "the export, before the event that closes the log")
    shown = done("show", "store").splitlines()
    expect(closed, b"closed" + shown[0][len(b"commit"):] + b"\n", "the line of a close")


def expect_own_acknowledgements(sizes, sent, total, entries):
    """Each client's acknowledgements are of its own events, and of commitments of the log."""
    roots, places = {}, []
    for (status, out, err), (window, count, first) in zip(sent, sizes):
        expect((status, err, len(out.splitlines())), (0, b"", count), "send with a window of " + window)
        for place, line in enumerate(out.splitlines()):
            word, index, behind, hash = line.split()
            behind = int(behind)
            roots[behind] = roots.get(behind) or root(entries, behind).hex().encode()
            expect((word, hash, int(index) < behind), (b"ack", roots[behind], True), "an acknowledgement")
            kind, size = struct.unpack(">II", entries[int(index)][:8])
            expect((kind, size), ((first + place) % 5, 4), "the event of an acknowledgement")
            places.append(int(index))
    expect(sorted(places), list(range(total)), "the places of the events")


@scene
def scene_closing():
    store()
    with Serving("store"):
        done("send", "serve.sock", data=lines(3))
        closed = done("ask", "serve.sock", "close")
        expect(run("ask", "serve.sock", "close"), (1, b"", b"audit: 13 Closed\n"), "a second close")
        expect(run("send", "serve.sock", data=lines(2)), (1, b"refused 1 13 Closed\nrefused 2 13 Closed\n", b""),
               "a closed log")
    shown = done("show", "store").splitlines()
    expect(closed, b"closed" + shown[0][len(b"commit"):] + b"\n", "the line of a close")
    expect(shown[1].endswith(b"state closed"), True, "the state")


@scene
def scene_words():
    """Wrong words, and a socket that isn't there or has no server."""
    for words in (
        ["ask", "no.sock", "nothing"], ["ask", "no.sock", "commitment", "out"], ["ask", "no.sock", "state", "out"],
        ["ask", "no.sock", "state", "--from", "1"], ["ask", "no.sock", "State"],
        ["ask", "no.sock", "entry", "x", "out"],
        ["ask", "no.sock", "entry", "1"], ["ask", "no.sock", "member", "1", "2"], ["ask", "no.sock", "export"],
        ["ask", "no.sock", "close", "--timeout", "0"], ["ask", "no.sock", "close", "--timeout", "86401"],
        ["send", "no.sock", "--window", "0"], ["send", "no.sock", "--window", "1025"],
        ["send", "no.sock", "--timeout", "-"],
        ["send", "no.sock", "--text", "4294967295"], ["send", "no.sock", "--text", "x"],
        ["send", "no.sock", "--text", "00000000001"],
        ["watch", "no.sock", "state", "--every", "0"], ["watch", "no.sock", "state", "--timeout", "1.5"],
    ):
        expect(run(*words), BAD_ARGUMENT, " ".join(words))
    store()
    for path in "no.sock", "store":
        for words in ["ask", path, "commitment"], ["send", path], ["watch", path, "state"]:
            expect(run(*words), (3, b"", b"audit: file fault\n"), " ".join(words))
    with Server("own.sock", honest(Log(5))):
        expect(run("ask", "own.sock", "export", "-"), BAD_ARGUMENT, "an export on standard output")
        expect(run("ask", "own.sock", "entry", "1", "own.sock"), (1, b"", b"audit: file exists\n"), "OUT is the socket")
        expect(run("watch", "own.sock", "own.sock"), (3, b"", b"audit: file fault\n"), "STATE is the socket")


@scene
def scene_own_server():
    """An honest server of our own: each answer is accepted, and is the one that we know."""
    log = Log(21)
    with Server("own.sock", honest(log)):
        done("ask", "own.sock", "member", "5", "13", "m")
        hashes = membership(log.texts, 13, 5)
        expect(read("m"), b"\1" + struct.pack(">QQB", 5, 13, len(hashes)) + b"".join(hashes) + log.texts[5], "a proof")
        done("ask", "own.sock", "increment", "6", "20", "i")
        hashes = increment(log.texts, 6, 20)
        expect(read("i"), b"\2" + struct.pack(">QQB", 6, 20, len(hashes)) + b"".join(hashes), "an increment")
        size = len(b"".join(log.texts))
        expect(done("ask", "own.sock", "export", "e"), b"exported 21 %d\n" % size, "the line of an export")
        expect(read("e"), b"".join(log.texts), "an export")
    # Nothing proves a state: it is printed as it was said, and no sectors are free where the log ends after them.
    most = (1 << 64) - 1
    for end, sectors, generation, version, mark in (
            (40, 64, 30, 2, 0), (64, 64, 32, 2, 1), (most, 3, most, 65535, 1), (0, most, 0, 0, 0)):
        with Server("own.sock", scripted(state_reply(ASKED, *log.commitment(), end, sectors, generation, version,
                                                     mark))):
            words = (*log.commitment(), sectors, end, generation, version, "closed" if mark else "open",
                     max(sectors - end, 0))
            form = "commit %d %s sectors %d end %d generation %d version %d state %s free %d\n"
            words = form % (words[0], words[1].hex(), *words[2:])
            expect(done("ask", "own.sock", "state"), words.encode(), "a state")


@scene
def scene_tails():
    """The entries from an index on: those of the log, and nothing if they aren't led to the newest commitment."""
    log = Log(150)
    with Server("own.sock", honest(log)):
        for first in [*range(10), 15, 16, 17, 31, 32, 33, 63, 64, 65, 66, 100, 127, 128, 129, 148, 149, 150]:
            rest = b"".join(log.texts[first:])
            expect(done("ask", "own.sock", "export", "e", "--from", str(first)),
                   b"exported %d %d\n" % (150 - first, len(rest)),
                   "the line of the entries from %d on" % first)
            expect(read("e"), rest, "the entries from %d on" % first)
    store()
    done("append", "store", data=lines(70))
    with Daemon("store"):
        for first in 0, 1, 6, 64, 69, 70:
            done("ask", "daemon.sock", "export", "e%d" % first, "--from", str(first))
        for first in "71", "16777216", "16777217", "18446744073709551615":
            expect(run("ask", "daemon.sock", "export", "none", "--from", first), (1, b"", b"audit: 8 NoSuchVersion\n"),
                   "from %s on" % first)
    for first in 0, 1, 6, 64, 69, 70:
        done("export", "store", "own", "--from", str(first))
        expect_same_file("e%d" % first, "own")
    for words in (["export", "none", "--from", "x"], ["export", "none", "--from", ""], ["commitment", "--from", "0"],
                  ["close", "--from", "1"], ["entry", "1", "none", "--from", "1"]):
        expect(run("ask", "no.sock", *words), BAD_ARGUMENT, " ".join(words))
    expect(os.path.exists("none"), False, "a file of no entries")


@scene
def scene_long_entries():
    """An export of long entries: a daemon that keeps 50,000 bytes, which 64 of them exceed, drops no client that
    reads."""
    store(16384)
    with Daemon("store", "daemon.sock", "--backlog", "50000"):
        done("send", "daemon.sock", data=b"".join(b"event 1 %s\n" % (b"%02x" % place * 5000) for place in range(70)))
        for _ in range(2):
            found = run("ask", "daemon.sock", "export", "out")
            expect(found, (0, b"exported 70 %d\n" % (70 * 5072), b""), "an export of long entries")
    done("export", "store", "own")
    expect_same_file("out", "own")


@scene
def scene_one_entry():
    """`ask entry` takes one entry alone: what a server calls an entry may be more, or none."""
    whole = unsealed_entry(b"an event")
    for what, text in (("two entries", whole + whole), ("bytes after it", whole + b"#!/bin/sh"),
                       ("a part of it", whole[:-1]),
                       ("no entry", b"#!/bin/sh\nid\n"), ("nothing", b"")):
        log = Log(21)
        log.texts[5] = text
        with Server("own.sock", honest(log)):
            expect(run("ask", "own.sock", "entry", "5", "out"), BAD_REPLY, what)
            expect(run("ask", "own.sock", "entry", "5", "-"), BAD_REPLY, what + " on standard output")
        expect(os.path.exists("out"), False, "a file for " + what)
    log = Log(21)
    with Server("own.sock", honest(log)):
        done("ask", "own.sock", "entry", "5", "out")
    expect(read("out"), log.texts[5], "an entry")
