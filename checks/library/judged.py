"""Verdicts and frames, against the model and the auditor's programs."""
import ctypes
import random
import re

from check_proof import BadProof as BadBytes
from check_proof import event_under, is_accepted, read_proof
from checks import vectors
from checks.library.common import commitment_of, read_in_pieces
from checks.parts import frames, program
from checks.parts.files import read_text
from checks.parts.logs import keys_from
from checks.parts.places import at_top
from checks.parts.scenes import scene
from checks.parts.wrong import Wrong, expect
from model import tree, wire
from model.chain import CLOSE, ZERO_KEY, keystream_key, log_of
from model.note import note, note_in
from history import BadArgument, leaf_hash
from model.verdict import state_after, verdict
from model.wire import Request, request_frame
from read_export import read_on
from state import FIRST, State

ROLLS = random.Random(68)


def rounds(short):
    return 20000 if program.LONG else short


def events_of(count, closed=False):
    """Events of all kinds of payloads, some of them empty."""
    events = [(ROLLS.choice((0, 1, 7, 0xfffffffe)), ROLLS.randbytes(ROLLS.choice((0, 1, 2, 31, 64, 65, 200))))
              for _ in range(count)]
    return events + [CLOSE] if closed else events


def mutated(data):
    """The bytes with one change: a bit, a byte, a cut, more bytes, or a part twice."""
    place = ROLLS.randrange(len(data) + 1)
    how = ROLLS.randrange(5)
    if how == 0 and data:
        place %= len(data)
        return data[:place] + bytes([data[place] ^ 1 << ROLLS.randrange(8)]) + data[place + 1:]
    if how == 1 and data:
        place %= len(data)
        return data[:place] + bytes([ROLLS.randrange(256)]) + data[place + 1:]
    if how == 2:
        return data[:place]
    if how == 3:
        return data[:place] + ROLLS.randbytes(ROLLS.choice((1, 8, 32))) + data[place:]
    other = ROLLS.randrange(len(data) + 1)
    return data[:max(place, other)] + data[min(place, other):]


# ---- Proofs

def judged(proof, commitments):
    """What the library says of a proof under commitments."""
    from audit_store import BadProof, check
    try:
        return check(proof, *commitments)
    except BadProof:
        return None


def judged_by_auditor(proof, commitments):
    try:
        read = read_proof(proof)
    except BadBytes:
        return None
    if len(commitments) != (1 if read[0] == 1 else 2):
        return None
    return is_accepted(read, [tuple(commitment) for commitment in commitments])


def proofs_of(log):
    """Proofs of a log by the model, each with the commitments that it is for."""
    count = len(log.leaves)
    for index in range(count):
        hashes = tree.membership(log.leaves, index)
        yield tree.membership_proof(index, count, hashes, log.entries[index]), [commitment_of(log)]
    for older in range(1, count + 1):
        older_log = log_of(log.events[:older])
        proof = tree.increment_proof(older, count, tree.increment(log.leaves, older))
        yield proof, [commitment_of(older_log), commitment_of(log)]


@scene
def scene_proofs():
    """Each proof of the model is accepted under its commitments, and under no others."""
    log = log_of(events_of(18))
    for count in range(1, 19):
        part = log_of(log.events[:count])
        for proof, commitments in proofs_of(part):
            expect(judged(proof, commitments), True, "a proof of the model")
            # Under a commitment of another count with the same root: the proof's own count has to be the commitment's.
            for place, commitment in enumerate(commitments):
                for other in (commitment._replace(count=commitment.count + 1),
                              commitment._replace(root=bytes(31) + b"\1")):
                    wrong = commitments[:place] + [other] + commitments[place + 1:]
                    expect(judged(proof, wrong), False, "a proof under another commitment")
            one_more = commitments * 2 if len(commitments) == 1 else commitments[:1]
            expect(judged(proof, one_more), None, "a proof under another number of commitments")


@scene
def scene_mutated_proofs():
    """A changed proof has the verdict of the auditor's program."""
    log = log_of(events_of(21))
    proofs = list(proofs_of(log)) + list(proofs_of(log_of(log.events[:16])))
    for _ in range(rounds(6000)):
        proof, commitments = ROLLS.choice(proofs)
        proof = mutated(proof)
        if ROLLS.randrange(4) == 0:
            place = ROLLS.randrange(len(commitments))
            count = commitments[place].count + ROLLS.choice((-1, 1, 1 << 20))
            commitments = commitments[:place] + [commitments[place]._replace(count=count)] + commitments[place + 1:]
        expect(judged(proof, commitments), judged_by_auditor(proof, commitments), "a changed proof %s" % proof.hex())


# ---- Opening

def opened(proof, commitment, key):
    """What the library opens of a proof: its event, whether it isn't accepted, or nothing."""
    from audit_store import BadProof, open_proof
    try:
        event = open_proof(proof, commitment, key)
    except BadProof:
        return None
    return tuple(event) if event else False


def opened_by_auditor(proof, commitment, key):
    """The same by the auditor's programs."""
    verdict_ = judged_by_auditor(proof, [commitment])
    if not verdict_:
        return verdict_
    _, index, _, _, entry = read_proof(proof)
    event = event_under(key, entry)
    return event and (index, *event)


def entries_like(entry):
    """Bytes that are one entry, and others that aren't."""
    yield entry
    yield entry[:-1]
    yield entry + b"x"
    yield entry[:4] + b"\0\0\x7f\xb9" + entry[8:]
    yield from (entry[:size] for size in (0, 7, 8, 71))
    yield bytes(72)


@scene
def scene_opened():
    """The proof of each entry is opened by its key as the model sealed it, and by another one as the auditor's programs
    read it; proofs of other bytes, other commitments, and changed ones have their verdicts."""
    from audit_store import Commitment
    log = log_of(events_of(9) + [(7, ROLLS.randbytes(32696))])
    commitment, count = commitment_of(log), len(log.events)
    keys = [keystream_key(key, kind) for key, (kind, _) in zip(keys_from(ZERO_KEY), log.events)]
    proofs = [tree.membership_proof(index, count, tree.membership(log.leaves, index), log.entries[index])
              for index in range(count)]
    for index, (kind, payload) in enumerate(log.events):
        expect(opened(proofs[index], commitment, keys[index]), (index, kind, payload), "the event of a proof")
        other = keys[(index + 1) % count]
        expect(opened(proofs[index], commitment, other), opened_by_auditor(proofs[index], commitment, other),
               "the event under another key")
        expect(opened(proofs[index], commitment._replace(root=bytes(32)), keys[index]), False, "another root")
        expect(opened(proofs[index], commitment._replace(count=count + 1), keys[index]), False, "another count")
    for entry in entries_like(log.entries[3]):
        proof = tree.membership_proof(0, 1, [], entry)
        alone = Commitment(1, leaf_hash(entry))
        expect(opened(proof, alone, keys[3]), opened_by_auditor(proof, alone, keys[3]), "a proof of %r" % entry[:80])
    for _ in range(rounds(3000)):
        index = ROLLS.randrange(9)
        proof = mutated(proofs[index])
        expect(opened(proof, commitment, keys[index]), opened_by_auditor(proof, commitment, keys[index]),
               "a changed proof %s" % proof.hex())
    consistency = tree.increment_proof(4, count, tree.increment(log.leaves, 4))
    expect(opened(consistency, commitment, keys[0]), None, "a consistency proof")


@scene
def scene_opened_into_short_buffers():
    """Nothing is written into a buffer that is too short, nor with any other refusal."""
    from audit_store import _library as names
    from audit_store.checking import given
    log = log_of(events_of(3))
    proof = tree.membership_proof(1, 3, tree.membership(log.leaves, 1), log.entries[1])
    for proof_, size, answer in ((proof, names.PAYLOAD_MAX - 1, names.MISUSED), (proof[:20], names.PAYLOAD_MAX, 32),
                                 (proof[:17] + b"\0" + proof[18:], names.PAYLOAD_MAX, 1)):
        event, payload = names.GivenEvent(), ctypes.create_string_buffer(b"\xaa" * names.PAYLOAD_MAX, names.PAYLOAD_MAX)
        ctypes.memset(ctypes.byref(event), 0xaa, ctypes.sizeof(event))
        before = bytes(event), payload.raw
        found = names.library.open_inclusion(proof_, len(proof_), given(commitment_of(log)), ZERO_KEY, event, payload,
                                             size)
        expect(found, answer, "an opening that is refused")
        expect((bytes(event), payload.raw), before, "what it left")


# ---- Commitments and notes

WORDS = ("", ":", "3", "3:", ":" + 64 * "0", "3:" + 63 * "0", "3:" + 65 * "0", "18446744073709551615:" + 64 * "f",
         "18446744073709551616:" + 64 * "0", "3:" + 64 * "g", "-1:" + 64 * "0", "+1:" + 64 * "0", " 3:" + 64 * "0",
         "3 :" + 64 * "0", "3:" + 64 * "0" + "\n", "3\n:" + 64 * "0", "00000000000000000003:" + 64 * "A",
         "000000000000000000003:" + 64 * "0", "3:" + 64 * "0" + ":", "3::" + 64 * "0", "\u0663:" + 64 * "0",
         "3:" + 63 * "0" + "\0", "3:" + 62 * "0" + "\u00e9")


def word_in(word):
    """The commitment that a word spells, by docs/formats.md."""
    parts = re.fullmatch(rb"([0-9]{1,20}):([0-9a-fA-F]{64})", word)
    return (int(parts[1]), bytes.fromhex(parts[2].decode())) if parts and int(parts[1]) < 1 << 64 else None


@scene
def scene_words_and_notes():
    """Words of commitments and notes are read as the formats and the model say, and no others are."""
    from audit_store import _library as names
    from audit_store import Note

    def word_by_library(word):
        found = names.GivenCommitment()
        ctypes.memset(ctypes.byref(found), 0xaa, ctypes.sizeof(found))
        before = bytes(found)
        held = ctypes.create_string_buffer(word, len(word) or 1)
        if names.library.read_commitment(held.raw, len(word), found) == names.OK:
            return found.count, bytes(found.root)
        expect(bytes(found), before, "a commitment that wasn't read")
        return None

    def note_by_library(text):
        try:
            found = Note.parse(text)
        except ValueError:
            return None
        return found.name.encode(), found.commitment.count, found.commitment.root

    words = [word.encode() for word in WORDS]
    words += [mutated(b"%d:%s" % (ROLLS.choice((0, 7, 1 << 40)), ROLLS.randbytes(32).hex().encode()))
              for _ in range(rounds(3000))]
    for word in words:
        expect(word_by_library(word), word_in(word), "the word %r" % word)
    for name in (b"a", b"some.example/log", b"!~" * 127 + b"x"):
        for count in (0, 7, (1 << 64) - 1):
            root = ROLLS.randbytes(32)
            expect(note_by_library(note(name, count, root)), (name, count, root), "a note")
            for _ in range(rounds(300)):
                text = mutated(note(name, count, root))
                expect(note_by_library(text), note_in(text), "a changed note %r" % text)
    for text in (note(b"x" * 256, 1, bytes(32)), note(b"", 1, bytes(32)), note(b"a b", 1, bytes(32)),
                 note(b"a", 1 << 64, bytes(32)), note(b"a", 1, bytes(32)).upper(), b""):
        expect(note_by_library(text), None, "the text %r" % text)


# ---- Exports

def expect_verdict(pieces, commitment, what):
    """The verdict and the events are those of the model, however the bytes are cut."""
    whole = b"".join(pieces)
    found, events = read_in_pieces(pieces, ZERO_KEY, commitment)
    wanted = verdict(whole, ZERO_KEY, tuple(commitment))
    expect(found, wanted, what)
    # The events before a fault are those of the valid entries before it.
    expect(len(events), wanted[1], "the events of " + what)
    if wanted[0] == 0:
        expect(events, read_on(whole, FIRST._replace(key=ZERO_KEY), tuple(commitment))[0], "the events of " + what)


@scene
def scene_two_pieces():
    """Small exports, open and closed, cut at every byte."""
    for count, closed in ((0, False), (1, False), (3, False), (0, True), (2, True)):
        log = log_of(events_of(count, closed))
        for cut in range(len(log.export) + 1):
            pieces = [log.export[:cut], log.export[cut:]]
            found, events = read_in_pieces(pieces, ZERO_KEY, commitment_of(log))
            expect((found, events), ((0, len(log.events), log.closed), log.events), "an export cut at %d" % cut)


@scene
def scene_cut_exports():
    """Every front of an export, and an export with another commitment."""
    log = log_of(events_of(3, True))
    for size in range(len(log.export) + 1):
        expect_verdict([log.export[:size]], commitment_of(log), "the first %d bytes" % size)
    for other in (commitment_of(log)._replace(count=3), commitment_of(log)._replace(root=bytes(32)),
                  commitment_of(log_of(log.events[:2]))):
        expect_verdict([log.export], other, "another commitment")
    expect_verdict([log.export, b"x"], commitment_of(log), "a byte after the close")
    expect_verdict([log.export, log.export], commitment_of(log), "an export after the close")


@scene
def scene_mutated_exports():
    """A changed export has the verdict of the auditor's program, in up to four pieces."""
    logs = [log_of(events_of(count, closed)) for count, closed in ((1, False), (2, True), (4, False), (6, True))]
    for _ in range(rounds(4000)):
        log = ROLLS.choice(logs)
        export = mutated(log.export)
        cuts = sorted(ROLLS.randrange(len(export) + 1) for _ in range(ROLLS.randrange(4)))
        pieces = [export[start:end] for start, end in zip([0, *cuts], [*cuts, len(export)])]
        expect_verdict(pieces, commitment_of(log), "a changed export %s" % export.hex())


@scene
def scene_long_exports():
    """The longest payload, and byte by byte."""
    log = log_of([(1, ROLLS.randbytes(32696)), (2, b""), (3, ROLLS.randbytes(32695))])
    commitment = commitment_of(log)
    found, events = read_in_pieces([log.export], ZERO_KEY, commitment)
    expect((found, events), ((0, 3, False), log.events), "the longest payloads")
    found, events = read_in_pieces([log.export[at:at + 977] for at in range(0, len(log.export), 977)], ZERO_KEY,
                                   commitment)
    expect((found, events), ((0, 3, False), log.events), "the longest payloads in pieces of 977 bytes")
    small = log_of(events_of(5))
    found, events = read_in_pieces([small.export[at:at + 1] for at in range(len(small.export))], ZERO_KEY,
                                   commitment_of(small))
    expect((found, events), ((0, 5, False), small.events), "an export byte by byte")


@scene
def scene_damaged_structs():
    """A struct that no call made, and short buffers, are refused or answered, and nothing past them is written."""
    from audit_store import _library as names
    library, event = names.library, names.GivenEvent()
    payload = ctypes.create_string_buffer(names.PAYLOAD_MAX)
    verifier = names.Verifier()
    library.verify_first(ZERO_KEY, verifier)
    before = bytes(verifier)
    expect(library.verify_feed(verifier, payload, 1, event, payload, names.PAYLOAD_MAX - 1), names.MISUSED,
           "a short buffer")
    expect(bytes(verifier), before, "a verifier with a short buffer")
    for field, value in (("held", 32769), ("held", (1 << 64) - 1), ("count", (1 << 64) - 1), ("count", 5)):
        library.verify_first(ZERO_KEY, verifier)
        setattr(verifier, field, value)
        if field == "count" and value == 5:
            verifier.nodes[1][0] = 1
        expect(library.verify_feed(verifier, payload, 1, event, payload, names.PAYLOAD_MAX), names.MISUSED,
               "a verifier with %s %d" % (field, value))
    for _ in range(rounds(2000)):
        noise = ROLLS.randbytes(ctypes.sizeof(verifier) - names.ENTRY_MAX)
        ctypes.memmove(ctypes.byref(verifier), noise, len(noise))
        if ROLLS.randrange(2):
            verifier.held = ROLLS.randrange(names.ENTRY_MAX + 2)
            verifier.count, verifier.fault, verifier.closed = ROLLS.randrange(4), 0, ROLLS.randrange(3)
            ctypes.memset(ctypes.byref(verifier.nodes), 0, ctypes.sizeof(verifier.nodes))
        library.verify_feed(verifier, noise, len(noise), event, payload, names.PAYLOAD_MAX)
        library.verify_end(verifier, bytes(names.GivenCommitment()))


# ---- Frames

def written(name, *words):
    """The frame of a request by the library, in a buffer of its length; nothing in one that is a byte shorter."""
    from audit_store import _library as names
    call = getattr(names.library, "write_" + name)
    room = ctypes.create_string_buffer(names.REQUEST_MAX)
    size = call(*words, room, names.REQUEST_MAX)
    if size:
        short = ctypes.create_string_buffer(b"\xaa" * size, size)
        expect((call(*words, short, size - 1), short.raw), (0, b"\xaa" * size), "a buffer too short for " + name)
        expect((call(*words, short, size), short.raw), (size, room.raw[:size]), "a buffer that is just long enough")
    return room.raw[:size]


NUMBERS = 0, 1, 255, 256, (1 << 32) - 1, 1 << 32, (1 << 64) - 1


@scene
def scene_requests():
    """Each request has the bytes of the model, and what is none is refused."""
    for tag in (0, 1, 0x01020304, (1 << 32) - 1):
        for name, kind in ("commitment", wire.COMMITMENT), ("close", wire.CLOSE), ("state", wire.STATE):
            expect(written(name, tag), request_frame(Request(kind, tag)), name)
        for first in NUMBERS:
            expect(written("entry", tag, first), request_frame(Request(wire.ENTRY, tag, (first,))), "an entry")
            for second in NUMBERS:
                for name, kind in ("inclusion", wire.MEMBERSHIP), ("consistency", wire.INCREMENT):
                    expect(written(name, tag, first, second), request_frame(Request(kind, tag, (first, second))), name)
        for kind in (0, 1, 0xfffffffe):
            for size in (0, 1, 100, 32695, 32696):
                payload = ROLLS.randbytes(size)
                expect(written("append", tag, kind, payload, size),
                       request_frame(Request(wire.APPEND, tag, (kind,), payload)), "an append")
            for place in NUMBERS:
                for size in (0, 1, 100, 32688):
                    payload = ROLLS.randbytes(size)
                    expect(written("placed_append", tag, kind, place, payload, size),
                           request_frame(Request(wire.PLACED, tag, (kind, place), payload)), "a placed append")
        for kind in (0, 1, 0xfffffffe, 0xffffffff):
            expect(written("place", tag, kind), request_frame(Request(wire.PLACE, tag, (kind,))), "a question")
    expect(written("placed_append", 1, 1, 0, bytes(32689), 32689), b"", "a placed append of 32,689 bytes")
    expect(written("placed_append", 1, 0xffffffff, 0, b"", 0), b"", "a placed append of the closing kind")
    expect(written("append", 1, 0xffffffff, b"", 0), b"", "an append of the closing kind")
    expect(written("append", 1, 1, bytes(32697), 32697), b"", "an append of 32,697 bytes")


def reply_in(bytes_):
    """The reply at the front of bytes: its fields as a dictionary, `more`, or `malformed`, by docs/formats.md."""
    if len(bytes_) < 2 or len(bytes_) < 2 + int.from_bytes(bytes_[:2], "big"):
        return "more"
    size = 2 + int.from_bytes(bytes_[:2], "big")
    body = bytes_[2:size]
    if len(body) < 5:
        return "malformed"
    kind, tag = body[0], int.from_bytes(body[1:5], "big")
    found = fields_of_reply(kind, body[5:])
    return "malformed" if found is None else {"size": size, "kind": kind, "tag": tag, **found}


def numbers_in(fields, start, *names):
    """Numbers of eight bytes in a row."""
    return {name: int.from_bytes(fields[start + 8 * at:start + 8 * at + 8], "big") for at, name in enumerate(names)}


def fields_of_reply(kind, fields):
    """The fields of a reply of this kind, or None if they aren't those of one."""
    if kind == 0x81 and len(fields) == 48 or kind == 0x89 and len(fields) == 80:
        return {**numbers_in(fields, 0, "index", "count"), "root": fields[16:48]}
    if kind == 0x82 and len(fields) == 40:
        return {**numbers_in(fields, 0, "count"), "root": fields[8:40]}
    if kind == 0x83 and fields and fields[0] <= 24 and 0 <= len(fields) - 1 - 32 * fields[0] <= 32768:
        return {"hashes": fields[0]}
    if kind == 0x84 and fields and fields[0] <= 25 and len(fields) == 1 + 32 * fields[0]:
        return {"hashes": fields[0]}
    if kind == 0x85 and len(fields) <= 32768:
        return {}
    if kind == 0x87 and len(fields) == 67 and fields[66] <= 1:
        return {**numbers_in(fields, 0, "count"), **numbers_in(fields, 40, "end", "sectors", "generation"),
                "root": fields[8:40], "version": int.from_bytes(fields[64:66], "big"), "closed": fields[66]}
    if kind == 0x88 and len(fields) == 16:
        return numbers_in(fields, 0, "index", "count")
    if kind == 0xff and len(fields) == 1 and fields[0] in (4, 7, 8, 9, 11, 13, 16, 18, 20):
        return {"code": fields[0]}
    return None


def reply_by_library(bytes_):
    from audit_store import _library as names
    reply = names.Reply()
    ctypes.memset(ctypes.byref(reply), 0xaa, ctypes.sizeof(reply))
    before = bytes(reply)
    held = ctypes.create_string_buffer(bytes_, len(bytes_) or 1)
    answer = names.library.read_reply(held, len(bytes_), reply)
    if answer != names.OK:
        expect(bytes(reply), before, "a reply that wasn't read")
        return {names.MORE: "more", names.MALFORMED: "malformed"}[answer]
    found = {name: getattr(reply, name) for name, _ in names.Reply._fields_}
    found["root"] = bytes(found["root"])
    return {name: value for name, value in found.items()
            if name in ("size", "kind", "tag") or value not in (0, bytes(32))}


def expect_reply(bytes_, what):
    wanted = reply_in(bytes_)
    if isinstance(wanted, dict):
        wanted = {name: value for name, value in wanted.items()
                  if name in ("size", "kind", "tag") or value not in (0, bytes(32))}
    expect(reply_by_library(bytes_), wanted, what)


def replies():
    """Replies by the model, of every kind."""
    root = ROLLS.randbytes(32)
    hashes = [ROLLS.randbytes(32) for _ in range(25)]
    for count in (0, 1, 24):
        for entry in (b"", b"e", ROLLS.randbytes(32768)):
            yield frames.member_reply(count + 1, hashes[:count], entry)
    for count in (0, 1, 25):
        yield frames.increment_reply(7, hashes[:count])
    for entry in (b"", ROLLS.randbytes(72), ROLLS.randbytes(32768)):
        yield frames.entry_reply(9, entry)
    for number in (0, 5, (1 << 64) - 1):
        yield frames.acknowledgement((1 << 32) - 1, number, number, root)
        yield frames.commitment_reply(0, number, root)
        yield frames.place_reply(2, number, number)
        yield frames.placed_acknowledgement(4, number, number, root, hashes[0])
        for mark in (0, 1):
            yield frames.state_reply(3, number, root, 3, number, 1, 2, mark)
    for code in (4, 7, 8, 9, 11, 13, 16, 18, 20):
        yield frames.refusal(17, code)


@scene
def scene_replies():
    """Each reply of the model is read, also followed by another one, and no front of it."""
    for reply in replies():
        expect_reply(reply, "a reply")
        expect(isinstance(reply_by_library(reply), dict), True, "a reply of the model is one")
        expect_reply(reply + reply, "a reply before another one")
        for size in {0, 1, 2, 3, 6, 7, len(reply) - 1}:
            expect(reply_by_library(reply[:min(size, len(reply) - 1)]), "more", "the front of a reply")


@scene
def scene_mutated_replies():
    """A changed reply is read as the formats say."""
    whole = [reply for reply in replies() if len(reply) < 4000]
    for _ in range(rounds(20000)):
        expect_reply(mutated(ROLLS.choice(whole)), "a changed reply")
    for kind in range(256):
        for size in (0, 1, 5, 6, 20, 45, 53, 72, 73, 84):
            body = bytes([kind]) + bytes(size)
            expect_reply(len(body).to_bytes(2, "big") + body, "a frame of kind %d with %d bytes" % (kind, size))


@scene
def scene_vectors():
    """The test vectors of docs/formats.md: its proofs, and its requests and replies."""
    from audit_store import Commitment, check
    found = vectors.Vectors(read_text(at_top("docs", "formats.md")))
    log = log_of([(1, payload) for payload in vectors.PAYLOADS])
    inclusion, consistency = vectors.proofs(found, log.entries)
    two, three = (commitment_of(log_of(log.events[:count])) for count in (2, 3))
    expect((check(inclusion, three), check(consistency, two, three)), (True, True), "the proofs of the document")
    meant = vectors.meant_by(found, inclusion, consistency, log.entries)
    for lines in found.frames, found.placed:
        for frame in vectors.conversation(lines, meant)[1]:
            expect_reply(frame, "a reply of the document")
    expect(str(Commitment.parse("3:" + three.root.hex().upper())), "3:" + three.root.hex(), "a commitment's word")
    for word in ("", "3", "3:", ":" + 64 * "0", "3:" + 63 * "0", "18446744073709551616:" + 64 * "0", "3:" + 64 * "g",
                 "-1:" + 64 * "0", " 3:" + 64 * "0", "3:" + 64 * "0" + "\n", "000000000000000000003:" + 64 * "0"):
        try:
            Commitment.parse(word)
        except ValueError:
            continue
        raise Wrong("%r is read as a commitment" % word)


@scene
def scene_verify():
    """`verify` gives the events of a path, a file, bytes and pieces, and none of a path that isn't verified."""
    import io

    from audit_store import NotVerified, verify
    from checks.parts.files import write
    log = log_of(events_of(40, True))
    write("export", log.export)
    pieces = [log.export[at:at + 100] for at in range(0, len(log.export), 100)]
    for export in ("export", io.BytesIO(log.export), log.export, pieces, bytearray(log.export)):
        found = [(event.kind, event.payload) for event in verify(export, ZERO_KEY, commitment_of(log))]
        expect(found, log.events, "the events of an export")
    cut = log.export[:-1]
    for export, most in (("export", 0), (io.BytesIO(cut), 0), (cut, 0), ([cut], 40)):
        write("export", cut)
        found = []
        try:
            found.extend(verify(export, ZERO_KEY, commitment_of(log)))
        except NotVerified as fault:
            expect((fault.index, fault.number, fault.name), (40, 40, "Short"), "an export that is cut")
        else:
            raise Wrong("an export that is cut is verified")
        expect(len(found), 0, "the events that were handed out before the verdict") if most == 0 else None


@scene
def scene_states():
    """A log is verified on from each of its states, whose texts are the auditor's; no other text is a state."""
    from audit_store import SavedState, verify
    log = log_of(events_of(22, True))
    saved = []
    for count in range(len(log.events) + 1):
        front = log_of(log.events[:count])
        events = list(verify(front.export, ZERO_KEY, commitment_of(front), saved.append))
        state = state_after(front, ZERO_KEY, tuple(commitment_of(front)))
        expect(saved[-1].text(), state.text(), "the state after %d events" % count)
        again, rest = SavedState.parse(state.text()), b"".join(log.entries[count:])
        events += list(verify(rest, again, commitment_of(log), saved.append))
        expect([(event.index, event.kind, event.payload) for event in events],
               [(index, *event) for index, event in enumerate(log.events)], "the events before and after a state")
        expect(saved[-1].text(), state_after(log, ZERO_KEY, tuple(commitment_of(log))).text(), "the last state")
        expect(saved[-1].closed, True, "a closed log")
    for _ in range(rounds(3000)):
        text = mutated(ROLLS.choice(saved).text())
        try:
            wanted = State.read(text)[0].text()
        except BadArgument:
            wanted = None
        try:
            found = SavedState.parse(text).text()
        except ValueError:
            found = None
        expect(found, wanted, "a changed state %r" % text)
    vector = vectors.Vectors(read_text(at_top("docs", "formats.md")))
    for text in vector.state, states_of(vector):
        expect(SavedState.parse(text).count, 3, "a state of the document")


def states_of(vector):
    """The state of the document that has the newest commitment too."""
    lines = vector.state.splitlines(True)[:-1] + vector.newest.splitlines(True)
    return b"".join(lines)
