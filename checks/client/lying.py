"""What a server may say to `ask` instead of the truth."""
import os
import socket
import struct

from checks.client.common import run_silenced
from checks.parts.clients import side_by_side
from checks.parts.files import read, temporary_names, write
from checks.parts.frames import (
    commitment_reply, entry_reply, frame, increment_reply, member_reply, read_request, refusal, state_reply)
from checks.parts.liars import ASKED, JOIN, NEWEST, Server, cut, scripted
from checks.parts.logs import Log, increment, membership, unsealed_entry
from checks.parts.program import BAD_REPLY, ENDED, NOT_ACCEPTED, TOO_LATE, done, run
from checks.parts.scenes import scene
from checks.parts.wrong import expect


def lies_of_tails(log, other):
    """Increments and entries that are others, too few or too many."""
    newest = commitment_reply(NEWEST, *log.commitment())
    right = increment(log.texts, 13, 21)
    begun = increment_reply(ASKED, right)
    tail = [entry_reply(2 + place, log.texts[place]) for place in range(13, 21)]
    changed = [right[:place] + [bytes(32)] + right[place + 1:] for place in range(len(right))]
    lies = [("a changed hash %d" % place, scripted(newest, increment_reply(ASKED, hashes)), NOT_ACCEPTED) for place,
            hashes in enumerate(changed)]
    lies += [
        ("another past", scripted(newest, increment_reply(ASKED, increment(other.texts, 13, 21))), NOT_ACCEPTED),
        ("an increment from other counts", scripted(newest, increment_reply(ASKED, increment(log.texts, 12, 21))),
         NOT_ACCEPTED),
        ("an increment to other counts", scripted(newest, increment_reply(ASKED, increment(log.texts, 13, 20))),
         NOT_ACCEPTED),
        ("a hash short", scripted(newest, increment_reply(ASKED, right[:-1])), NOT_ACCEPTED),
        ("a hash too many", scripted(newest, increment_reply(ASKED, right + right[:1])), NOT_ACCEPTED),
        ("no hash", scripted(newest, increment_reply(ASKED, [])), NOT_ACCEPTED),
        ("hashes in another order", scripted(newest, increment_reply(ASKED, right[::-1])), NOT_ACCEPTED),
        ("another's tag", scripted(newest, increment_reply(JOIN, right)), BAD_REPLY),
        ("entries without an increment", scripted(newest, b"".join(tail)), BAD_REPLY),
        ("fewer entries", scripted(commitment_reply(NEWEST, *log.commitment(12)), increment_reply(ASKED, right)),
         NOT_ACCEPTED),
        ("a root of its own", scripted(commitment_reply(NEWEST, 21, bytes(32)), begun), NOT_ACCEPTED),
        ("the first entries", scripted(newest, begun,
                                       b"".join(entry_reply(2 + place, log.texts[place - 13])
                                                for place in range(13, 21))), NOT_ACCEPTED),
        ("another's entries", scripted(newest, begun,
                                       b"".join(entry_reply(2 + place, other.texts[place]) for place in range(13, 21))),
         NOT_ACCEPTED),
        ("a tail without its first entry", scripted(newest, begun, b"".join(tail[1:])), BAD_REPLY),
        ("a tail that ends", cut(newest, begun, b"".join(tail[:-1])), ENDED),
        ("silence after the commitment", scripted(newest), TOO_LATE),
        ("a cut increment", cut(newest, begun[:-1]), ENDED),
    ]
    return lies


@scene
def scene_lies_of_tails():
    """What a server may say instead of the increment from the entries before a tail, and of the tail."""
    lies = lies_of_tails(Log(21), Log(21, b"other"))
    expect_lies_found([(what, ["export", "out", "--from", "13"], serve, wanted) for what, serve, wanted in lies])


def lies_of_replies(log):
    """Replies that are others, cut or malformed, or that never come."""
    newest, told = commitment_reply(NEWEST, *log.commitment()), (*log.commitment(), 40, 64, 30, 2)
    return [
        ("a wrong tag", ["commitment"], scripted(commitment_reply(9, *log.commitment())), BAD_REPLY),
        ("another reply", ["commitment"], scripted(entry_reply(NEWEST, b"text")), BAD_REPLY),
        ("a frame of 65,535 bytes", ["commitment"], scripted(frame(b"\x82" * 65535)), BAD_REPLY),
        ("an empty frame", ["commitment"], scripted(frame(b"")), BAD_REPLY),
        ("a refusal of another", ["commitment"], scripted(refusal(0, 20)), BAD_REPLY),
        ("a refusal with no such code", ["commitment"], scripted(refusal(NEWEST, 99)), BAD_REPLY),
        ("a refusal", ["commitment"], scripted(refusal(NEWEST, 11)), (3, b"", b"audit: 11 Device\n")),
        ("a cut reply", ["commitment"], cut(newest[:-1]), ENDED),
        ("no reply", ["commitment"], cut(b""), ENDED),
        ("silence", ["commitment"], scripted(), TOO_LATE),
        ("silence in a reply", ["commitment"], scripted(newest[:20]), TOO_LATE),
        ("a state with the mark 2", ["state"], scripted(state_reply(ASKED, *told, 2)), BAD_REPLY),
        ("a state with another tag", ["state"], scripted(state_reply(NEWEST, *told, 0)), BAD_REPLY),
        ("a state that is too long", ["state"], scripted(frame(state_reply(ASKED, *told, 0)[2:] + b"\0")), BAD_REPLY),
        ("a state that is too short", ["state"], scripted(frame(state_reply(ASKED, *told, 0)[2:-1])), BAD_REPLY),
        ("a commitment for a state", ["state"], scripted(commitment_reply(ASKED, *log.commitment())), BAD_REPLY),
        ("a state for a commitment", ["commitment"], scripted(state_reply(NEWEST, *told, 0)), BAD_REPLY),
        ("a state that a server doesn't know", ["state"], scripted(refusal(0, 20)), BAD_REPLY),
        ("a cut state", ["state"], cut(state_reply(ASKED, *told, 0)[:-1]), ENDED),
        ("silence in a state", ["state"], scripted(state_reply(ASKED, *told, 0)[:40]), TOO_LATE),
    ]


def lies_of_entries(log):
    """What comes instead of an entry and its proof."""
    newest, proof = commitment_reply(NEWEST, *log.commitment()), membership(log.texts, 21, 5)
    return [
        ("silence after the commitment", ["entry", "5", "out"], scripted(newest), TOO_LATE),
        ("another's entry", ["entry", "5", "out"], scripted(newest, member_reply(ASKED, proof, log.texts[6])),
         NOT_ACCEPTED),
        ("another's proof", ["entry", "5", "out"],
         scripted(newest, member_reply(ASKED, membership(log.texts, 21, 6), log.texts[6])),
            NOT_ACCEPTED),
        ("a proof with a hash too many", ["entry", "5", "out"],
         scripted(newest, member_reply(ASKED, proof + proof[:1], log.texts[5])),
            NOT_ACCEPTED),
        ("a proof under a wrong root", ["entry", "5", "out"],
            scripted(commitment_reply(NEWEST, 21, bytes(32)), member_reply(ASKED, proof, log.texts[5])), NOT_ACCEPTED),
        ("the reply to another request", ["entry", "5", "out"], scripted(newest, newest), BAD_REPLY),
        ("an entry without a proof", ["entry", "5", "out"], scripted(newest, entry_reply(ASKED, log.texts[5])),
         BAD_REPLY),
        ("a cut proof", ["entry", "5", "out"], cut(newest, member_reply(ASKED, proof, log.texts[5])[:-3]), ENDED),
    ]


def lies_of_proofs(log, other):
    """Proofs that the newest commitment doesn't vouch for."""
    newest, join = commitment_reply(NEWEST, *log.commitment()), increment(log.texts, 13, 21)
    return [
        ("a proof for which the newest doesn't vouch", ["member", "5", "13", "out"],
            scripted(newest, member_reply(ASKED, membership(other.texts, 13, 5), other.texts[5]),
                     increment_reply(JOIN, join)),
            NOT_ACCEPTED),
        ("no join", ["member", "5", "13", "out"],
            scripted(newest, member_reply(ASKED, membership(log.texts, 13, 5), log.texts[5])), TOO_LATE),
        ("another past", ["increment", "6", "13", "out"],
            scripted(newest, increment_reply(ASKED, increment(other.texts, 6, 13)), increment_reply(JOIN, join)),
         NOT_ACCEPTED),
        ("an increment of other counts", ["increment", "6", "21", "out"],
            scripted(newest, increment_reply(ASKED, increment(log.texts, 7, 21))), NOT_ACCEPTED),
    ]


def lies_of_exports(log):
    """Entries that are others, in another order, or too few."""
    newest = commitment_reply(NEWEST, *log.commitment())
    return [
        ("a wrong last entry", ["export", "out"],
            scripted(newest, b"".join(entry_reply(2 + i, log.texts[min(i, 19)]) for i in range(21))), NOT_ACCEPTED),
        ("entries in another order", ["export", "out"],
            scripted(newest, b"".join(entry_reply(2 + i, log.texts[i ^ 1 if i < 20 else i]) for i in range(21))),
         NOT_ACCEPTED),
        ("an entry with another's tag", ["export", "out"],
            scripted(newest, b"".join(entry_reply(2 + (i ^ 1), log.texts[i]) for i in range(21))), BAD_REPLY),
        ("an export that ends", ["export", "out"],
            cut(newest, b"".join(entry_reply(2 + i, log.texts[i]) for i in range(20))), ENDED),
        ("an export that stops", ["export", "out"],
            scripted(newest, b"".join(entry_reply(2 + i, log.texts[i]) for i in range(20))), TOO_LATE),
        ("a count that no log has", ["export", "out"], scripted(commitment_reply(NEWEST, 1 << 63, bytes(32))),
         BAD_REPLY),
    ]


def told_lie(number, what, words, serve, wanted):
    """What a question to a liar gives, and whether OUT stayed, beside what is wanted of both."""
    path, out = "lie%d.sock" % number, "out%d" % number
    words = [out if word == "out" else word for word in words]
    write(out, b"as it was")
    with Server(path, serve):
        found = run_silenced(wanted, "ask", path, *words)
    return [(what, found, wanted), (what + ": OUT", read(out), b"as it was")]


def expect_lies_found(lies):
    """Nothing is written then, and an OUT that is there stays."""
    for rows in side_by_side([(told_lie, number, *lie) for number, lie in enumerate(lies)]):
        for what, got, wanted in rows:
            expect(got, wanted, what)
    expect(temporary_names(), [], "temporary files")


@scene
def scene_lies():
    """What a server may say instead of the truth."""
    log, other = Log(21), Log(21, b"other")
    expect_lies_found(lies_of_replies(log) + lies_of_entries(log) + lies_of_proofs(log, other) + lies_of_exports(log))


@scene
def scene_endless():
    """A server of as many entries as are asked for: no more is written than what was judged, and a piece."""
    text = unsealed_entry(b"\0" * 1000)
    sent = []

    def endless(stream):
        while len(sent) < 1000:
            kind, tag, rest = read_request(stream)
            if kind == 2:
                stream.sendall(commitment_reply(tag, 1 << 24 - 1, b"\7" * 32))
            elif kind == 4:
                stream.sendall(increment_reply(tag, [b"\7" * 32] * 20))
            else:
                stream.sendall(entry_reply(tag, text))
                sent.append(tag)

    with Server("own.sock", endless):
        expect(run("ask", "own.sock", "export", "out"), NOT_ACCEPTED, "an endless export")
    expect(len(sent) <= 64, True, "%d entries that were asked for" % len(sent))
    expect(os.listdir("."), [], "what is left")
    log, most = Log(200), []
    with Server("own.sock", lambda stream: answer_late(stream, log, most)):
        done("ask", "own.sock", "export", "out")
    expect((read("out"), max(most) <= 8), (b"".join(log.texts), True), "%d entries asked for ahead" % max(most))


def answer_late(stream, log, most):
    """Answers only when no more is asked for: so many entries are asked for ahead."""
    waiting = []
    while True:
        stream.settimeout(0.1)
        try:
            waiting.append(read_request(stream))
            continue
        except socket.timeout:
            stream.settimeout(None)
        most.append(len(waiting))
        for kind, tag, rest in waiting:
            if kind == 2:
                stream.sendall(commitment_reply(tag, *log.commitment()))
            elif kind == 4:
                older, newer = struct.unpack(">QQ", rest)
                stream.sendall(increment_reply(tag, increment(log.texts, older, newer)))
            else:
                stream.sendall(entry_reply(tag, log.texts[struct.unpack(">Q", rest)[0]]))
        waiting = []
