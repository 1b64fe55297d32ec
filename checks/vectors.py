"""Checks the test vectors of docs/formats.md, byte by byte, against the model, the auditor's own programs and the
program.

usage: bin/check vectors EXECUTABLE

The vectors are those of a log whose first key is 32 zero bytes, with five events; the model (model/) and the auditor's
programs (auditor/) are written from the same document.
"""
import contextlib
import json
import os
import re
import subprocess
import sys

import disclosure
from check_proof import contents, event_under, is_accepted, read_proof
from checks.parts.clients import Client
from checks.parts.daemons import Daemon
from checks.parts.files import folder_of_its_own, read, read_text, write
from checks.parts.frames import append_frame, place_frame, placed_frame, request
from checks.parts.logs import word_of
from checks.parts.places import AUDITOR, DOCS
from checks.parts.program import done, done_with, whole
from checks.parts.scenes import program_of
from checks.parts.wrong import Wrong
from history import BadArgument, commitment, leaf_hash, root
from model import wire
from model.chain import CLOSE, ZERO_KEY, entry_keys, keystream_key, log_of, next_key
from model.disk import header_of, header_sector
from model.links import ACCEPTED, NEW_HALF, OLD_HALF, judged, link_bytes, link_in, link_of
from model.note import note, note_in
from model.session import Rights, Server, Session
from model.tree import membership, membership_proof
from model.wire import Request, request_frame
from read_export import read_on, under_keystream
from state import FIRST, State

KIND = 1
PAYLOADS = b"hi", b"a", b"b", b"c", b"d"
# The name of the log in the note.
NAMED = b"some.example/log"
# The logs of the receipts, each with the index of the event that is opened.
RECEIPTS = [([(KIND, b"hi"), (KIND, b"a")], 1),
            ([(KIND, b"paid 250.00 EUR to DE02120300000000202051 by order 4711, approved by two")], 0)]
UNBOUND = b"audit: a key is not bound to a text of fewer than 16 bytes: another key can show another text\n"
# The first key of the log that goes on after the link, and what the program prints of links.
NEXT_KEY = b"\x01" * 32
SAID_OF_LINKS = {(0, b"accepted\n", b""): ACCEPTED, (1, b"not accepted: old half\n", b""): OLD_HALF,
                 (1, b"not accepted: new half\n", b""): NEW_HALF, (1, b"", b"audit: 32 BadProof\n"): None}
# The events of the vectors of printed lines.
PRINTED = [(1, b"hi"), (7, b""), (2, b"a\tb\\\n"), (7, "caf\u00e9 \"x\"".encode()), (1, b"\xff\x00"), (0xffffffff, b"")]


class Vectors:
    """The code blocks of the section, as the document has them."""

    def __init__(self, text):
        states, section = re.search("\n## State of a verification\n(.*?)(\n## Test vectors\n.*)", text, re.S).groups()
        self.state, self.newest = ("".join(line[4:] for line in block.splitlines(True)).encode()
                                   for block in re.findall(r"(?:^    .*\n)+", states + "\n", re.M))
        printed = re.search("\n## Printed events\n(.*?)\n## ", text, re.S)[1]
        noted = re.search("\n## Notes\n(.*?)\n## ", text, re.S)[1]
        self.note, = ("".join(line[4:] for line in block.splitlines(True)).encode()
                      for block in re.findall(r"(?:^    .*\n)+", noted, re.M))
        disclosed = re.search("\n## Disclosures\n(.*?)\n## ", text, re.S)[1]
        self.chosen, self.later, self.shown = ("".join(line[4:] for line in block.splitlines(True))
                                               for block in re.findall(r"(?:^    .*\n)+", disclosed + "\n", re.M))
        self.json, self.numbered = ("".join(line[4:] for line in block.splitlines(True))
                                    for block in re.findall(r"(?:^    .*\n)+", printed + "\n", re.M))
        blocks = re.findall(r"(?:^    .*\n)+", section, re.M)
        if len(blocks) != 8:
            raise Wrong("docs/formats.md: the test vectors aren't eight blocks, but %d" % len(blocks))
        blocks = [[line[4:] for line in block.splitlines()] for block in blocks]
        self.values, self.proofs, self.header, self.frames, self.of_daemon, self.placed, self.receipts, self.link = blocks
        self.last_root = re.search(r"The root of 4 is\n`([0-9a-f]{64})`", section)[1]


def entries(events):
    return log_of(events).entries


def second_keystream_key():
    return keystream_key(next_key(ZERO_KEY), KIND)


def value_lines(log):
    """The lines of values, which the document aligns."""
    key = keystream_key(ZERO_KEY, KIND)
    leaves = [leaf_hash(entry) for entry in log]
    lines = [
        ("keystream's key", key.hex()),
        ("keystream", under_keystream(key, bytes(16)).hex() + " .."),
        ("first entry", " ".join(part.hex() for part in (log[0][:4], log[0][4:8], log[0][8:-64]))),
        ("  its link", log[0][-64:-32].hex()),
        ("  its MAC", log[0][-32:].hex()),
        ("second key", next_key(ZERO_KEY).hex()),
        ("key of entry 1", second_keystream_key().hex()),
    ]
    lines += [("root of %d" % count, root(leaves[:count]).hex()) for count in (1, 2, 3, 5)]
    return ["%-17s%s" % line for line in lines]


def proofs(vectors, log):
    """The two proofs of the document, the inclusion proof with its entry."""
    texts = []
    for line in vectors.proofs:
        if not line.startswith(" "):
            texts.append("")
        texts[-1] += line
    inclusion, consistency = (bytes.fromhex(text) for text in texts)
    return inclusion + log[0], consistency


def receipts(lines):
    """For each of the document's receipts the proof, the commitment, the index and the key, and the line of its
    event."""
    text = "".join(line + "\n" for line in lines)
    parts = re.findall(r"(01 .*(?:\n  .*)+)\n(\d+:.*)\nkey (\d+) (.*)\n(\{.*\n)", text)
    return [(bytes.fromhex(proof), word, int(index), bytes.fromhex(key), line.encode())
            for proof, word, index, key, line in parts]


def header():
    """Sector 0 of a store of 8 sectors after its first event."""
    return header_sector(header_of(log_of([(KIND, PAYLOADS[0])]), 4, 8))


def conversation(lines, meant):
    """The frames of the document's requests, and those of its replies, with what it names in words put in its place."""
    frames = []
    for line in lines:
        digits, _, words = line.partition("  ")
        frames.append(bytes.fromhex(digits) + meant.get(words.strip(), b""))
    return frames[0::2], frames[1::2]


def meant_by(vectors, inclusion, consistency, log):
    """What the document names in words."""
    leaves = [leaf_hash(entry) for entry in log]
    return {
        "the root of 1": root(leaves[:1]),
        "the root of 4, below": bytes.fromhex(vectors.last_root),
        "its hashes and entry, as above": inclusion[18:],
        "its hashes, as above": consistency[18:],
        "the first entry": log[0],
        "the root of 2, and the key of entry 1": root(leaves[:2]) + second_keystream_key(),
    }


def append(tag, payload):
    return request_frame(Request(wire.APPEND, tag, (KIND,), payload))


REQUESTS = [append(7, b"hi"), request(wire.COMMITMENT, 8), request(wire.MEMBERSHIP, 9, 0, 3),
            request(wire.INCREMENT, 10, 2, 3),
            request(wire.ENTRY, 11, 0), request(wire.ENTRY, 12, 3), request(wire.CLOSE, 13), append(14, b"c"), bytes(2)]
# The document appends two more events before it asks for proofs; their acknowledgements are left out there.
MORE = [append(1, b"a"), append(2, b"b")]
# What a daemon's client asks, and what one sends to the socket that the kind is bound to.
ASKING = request(wire.STATE, 8)
PLACING = [place_frame(KIND, 9), placed_frame(b"a", 1, 10, KIND), placed_frame(b"b", 1, 11, KIND), place_frame(2, 12),
           append_frame(b"c", 13, 2)]


def model_replies(frames, session, **store):
    """What the model replies to each of these frames, in a session over a store of 64 sectors."""
    server, replies = Server(64, **store), []
    for frame in frames:
        server.feed(session, frame)
        server.flush()
        replies.append(session.output)
        session.output = b""
    return replies


def make_store(sectors):
    write("first.key", ZERO_KEY.hex().encode())
    if os.path.exists("store"):
        os.unlink("store")
    done("format", "store", str(sectors), "first.key")


def program_replies(requests):
    """A session's replies to these frames, each a line of input of its own."""
    lines = "".join(frame.hex() + "\n" for frame in requests).encode()
    return [bytes.fromhex(line.decode()) for line in done("loop", "store", "socket", data=lines).split()]


def daemon_replies(path, frames):
    """The replies of a daemon to a client that sends each frame after the reply to the one before, as far as they come.
    The store has the first event, and the kind is bound to the socket `source`."""
    make_store(64)
    done("append", "store", data=b"event 1 %s\n" % PAYLOADS[0].hex().encode())
    with Daemon("store", "socket", "--writer", "%d:source" % KIND) as daemon:
        client, replies = Client(path), []
        with contextlib.suppress(OSError, Wrong):
            for frame in frames:
                replies.append(wire.frame(client.ask(frame)))
        client.end()
        daemon.stop()
    return replies


def differences(vectors):
    log = entries([(KIND, payload) for payload in PAYLOADS])
    for line, wanted in zip(vectors.values, value_lines(log)):
        if line != wanted:
            yield "%r, and not %r" % (line, wanted)
    if len(vectors.values) != len(value_lines(log)):
        yield "%d values" % len(vectors.values)

    inclusion, consistency = proofs(vectors, log)
    older, newer = ((count, root([leaf_hash(entry) for entry in log[:count]])) for count in (2, 3))
    for proof, about, commitments in (
        (inclusion, "index 0 count 3 kind 1 bytes 2", [newer]),
        (consistency, "older 2 newer 3", [older, newer]),
    ):
        if contents(read_proof(proof)) != about or not is_accepted(read_proof(proof), commitments):
            yield "the proof %s isn't accepted" % proof[:18].hex()
    closed = entries([(KIND, payload) for payload in PAYLOADS[:3]] + [CLOSE])
    if vectors.last_root != root([leaf_hash(entry) for entry in closed]).hex():
        yield "the root of 4"
    yield from differences_of_states(vectors.state, vectors.newest, log)
    yield from differences_of_lines(vectors)
    yield from differences_of_receipts(receipts(vectors.receipts))
    yield from differences_of_link(vectors.link)
    yield from differences_of_disclosures(vectors)
    yield from differences_of_program(vectors, inclusion, consistency, log)


def differences_of_states(text, newest, log):
    """The document's state is that after three entries, also with the newest commitment, is the only one that its text
    gives, and the log continues from it, for the program too."""
    first = FIRST._replace(key=ZERO_KEY)
    commitments = [(count, root([leaf_hash(entry) for entry in log[:count]])) for count in range(6)]
    _, third = read_on(b"".join(log[:3]), first, commitments[3])
    marked = text[:text.index(b"sha256")] + newest
    if third.text() != text or State.read(text) != (third, None):
        yield "the state after three entries"
    if third.text(commitments[5]) != marked or State.read(marked) != (third, commitments[5]):
        yield "the state after three entries, and the newest commitment"
    whole, last = read_on(b"".join(log), first, commitments[5])
    rest, same = read_on(b"".join(log[3:]), third, commitments[5])
    if rest != whole[3:] or same != last:
        yield "what follows the state after three entries"
    for whole in text, marked:
        for place in range(len(whole)):
            for other in (bytes((whole[place] ^ 1,)), b"", whole[place:place + 1] * 2):
                changed = whole[:place] + other + whole[place + 1:]
                if is_state(changed) and changed != whole:
                    yield "the state with another byte at %d is read" % place
        write("state", whole)
        write("tail", b"".join(log[3:]))
        done("verify", "tail", "state", word_of(*commitments[5]), "--save", "last")
        if read("last") != last.text():
            yield "the program continues to another state"


def json_line(index, kind, payload):
    event = {"index": index, "kind": kind}
    try:
        event["text"] = payload.decode()
    except UnicodeDecodeError:
        event["hex"] = payload.hex()
    return json.dumps(event, separators=(",", ":"), ensure_ascii=False).encode() + b"\n"


def numbered_line(index, kind, payload):
    """Bytes are as they are, or a backslash, `x` and two digits."""
    plain = [byte == 9 or byte >= 32 and byte not in (127, 92) for byte in payload]
    text = b"".join(bytes((byte,)) if is_plain else b"\\x%02x" % byte for byte, is_plain in zip(payload, plain))
    return b"%d\t%d\t%s\n" % (index, kind, text)


def differences_of_lines(vectors):
    """The printed events of the document are those of these events, and what the program prints of their log."""
    numbered = [numbered_line(index, kind, payload) for index, (kind, payload) in enumerate(PRINTED)]
    objects = b"".join(json_line(index, kind, payload) for index, (kind, payload) in enumerate(PRINTED))
    if vectors.json.encode() != objects or vectors.numbered.encode() != b"".join(numbered[:4] + numbered[5:]):
        yield "the printed events"
    log = entries(PRINTED)
    write("export", b"".join(log))
    write("first.key", ZERO_KEY.hex().encode())
    words = "verify", "export", "first.key", "6:" + root([leaf_hash(entry) for entry in log]).hex()
    said = b"audit: verified 6 closed\n"
    lines = done_with(said, *words, "--text", "--numbers")
    if done_with(said, *words, "--json") != objects or lines != b"".join(numbered):
        yield "the program prints other events"


def receipt_by_model(events, index):
    """What the document has of a receipt, as the model computes it."""
    log = log_of(events)
    proof = membership_proof(index, len(events), membership(log.leaves, index), log.entries[index])
    return (proof, word_of(len(events), root(log.leaves)), index, entry_keys(ZERO_KEY, events)[index],
            json_line(index, *events[index]))


def differences_of_receipts(found):
    """The document's receipts are the model's, and open their entries, for check_proof.py and for the program."""
    if found != [receipt_by_model(*wanted) for wanted in RECEIPTS]:
        yield "the receipts"
    for (proof, word, index, key, line), (events, _) in zip(found, RECEIPTS):
        kind, payload = events[index]
        *_, entry = read_proof(proof)
        if not is_accepted(read_proof(proof), [commitment(word)]) or event_under(key, entry) != (kind, payload):
            yield "check_proof.py reads another event under the receipt %d" % index
        write("proof", proof)
        for form, printed in (([], b"event %d %d %s\n" % (index, kind, payload.hex().encode())),
                              (["--text"], payload + b"\n"), (["--json"], line)):
            warning = UNBOUND if len(payload) < 16 else b""
            if done_with(warning, "check", "proof", word, "--key", key.hex(), *form) != printed:
                yield "the program reads another event under the receipt %d" % index


def differences_of_disclosures(vectors):
    """The document's disclosures are those of the model's keys, and auditor/disclosure.py shows what the document has."""
    log = log_of([(KIND, payload) for payload in PAYLOADS])
    keys = entry_keys(ZERO_KEY, log.events)
    two = read_on(b"".join(log.entries[:2]), FIRST._replace(key=ZERO_KEY), (2, root(log.leaves[:2])))[1]
    if (vectors.chosen, vectors.later) != (disclosure.text_of({1: keys[1]}), disclosure.text_of({2: keys[2]}, two)):
        yield "the disclosures"
    for text, entries, lines in ((vectors.chosen, log.entries[:3], vectors.shown),
                                 (vectors.later, log.entries[2:3], "event 2 1 62\nmatched 3 open\n")):
        write("chosen", text.encode())
        write("export", b"".join(entries))
        words = "export", "chosen", word_of(3, root(log.leaves[:3]))
        done = subprocess.run([sys.executable, os.path.join(AUDITOR, "disclosure.py"), *words], capture_output=True)
        if (done.returncode, done.stdout.decode(), done.stderr) != (0, lines, b""):
            yield "what is shown of the disclosure %r" % text


def differences_of_note(text, log):
    """The document's note is that of the log after three entries, for the model and for the program."""
    head = 3, root([leaf_hash(entry) for entry in log[:3]])
    if text != note(NAMED, *head) or note_in(text) != (NAMED, *head):
        yield "the note"
    write("note", text)
    if [done("note", NAMED.decode(), word) for word in (word_of(*head), "@note")] != [text, text]:
        yield "the program prints another note"


def differences_of_link(lines):
    """The document's link is the model's, and is accepted under the document's commitments alone, for the model and for the
    program; with another byte it isn't."""
    old = log_of([(KIND, payload) for payload in PAYLOADS[:3]] + [CLOSE])
    link, new = link_of(old, NEXT_KEY)
    text, ends = bytes.fromhex("".join(lines[:-2])), [commitment(word) for word in lines[-2:]]
    if text != link_bytes(link) or link_in(text) != link or ends != [(len(log.leaves), root(log.leaves)) for log in (old, new)]:
        yield "the link"
    others = [ends[0], (2, bytes(32))], [(4, bytes(32)), ends[1]]
    for (older, newer), verdict in zip((ends, *others), (ACCEPTED, NEW_HALF, OLD_HALF)):
        if judged(link, older, newer) != verdict or judged_by_program(text, older, newer) != verdict:
            yield "the link under %s and %s isn't judged as %s" % (word_of(*older), word_of(*newer), verdict)
    for place in range(0, len(text), 7):
        changed = text[:place] + bytes((text[place] ^ 1,)) + text[place + 1:]
        of_model = judged(link_in(changed), *ends) if link_in(changed) else None
        if of_model == ACCEPTED or judged_by_program(changed, *ends) != of_model:
            yield "the link with another byte at %d" % place


def judged_by_program(text, older, newer):
    """What the program says of a link, or nothing if it is none."""
    write("link", text)
    ended = whole("check", "link", word_of(*older), word_of(*newer), "--link")
    return SAID_OF_LINKS.get(ended, "status %d" % ended[0])


def is_state(text):
    try:
        State.read(text)
    except BadArgument:
        return False
    return True


def differences_of_program(vectors, inclusion, consistency, log):
    make_store(8)
    done("append", "store", data=b"event 1 %s\n" % PAYLOADS[0].hex().encode())
    sector = read("store")[:512]
    fields, digest = (bytes.fromhex(line) for line in vectors.header)
    if (fields, digest) != (sector[:48], sector[480:]) or sector != header():
        yield "the header sector"

    meant = meant_by(vectors, inclusion, consistency, log)
    requests, replies = conversation(vectors.frames, meant)
    if requests != REQUESTS:
        yield "the requests"
    asked = requests[:2] + MORE + requests[2:]
    make_store(64)
    for name, given in (("model", model_replies(asked, Session(Rights(), False))), ("program", program_replies(asked))):
        yield from differences_of_replies(name, requests, replies, given[:2] + given[4:])
    yield from differences_of_daemon(vectors, meant)


def differences_of_replies(name, requests, replies, given):
    for request, reply, found in zip(requests, replies, given):
        if reply != found:
            yield "to %s the %s replies %s, and not %s" % (request.hex(), name, found.hex(), reply.hex())
    if len(given) != len(replies):
        yield "%d replies of the %s, and not %d" % (len(given), name, len(replies))


def differences_of_daemon(vectors, meant):
    """The state of a store, and placed appends, by the model and by a daemon."""
    state = [bytes.fromhex(vectors.of_daemon[0])], [bytes.fromhex("".join(vectors.of_daemon[1:]))]
    placed = conversation(vectors.placed, meant)
    if state[0] != [ASKING] or placed[0] != PLACING:
        yield "the requests of a daemon's clients"
    store = {"events": [(KIND, PAYLOADS[0])], "generation": 4, "counted": [KIND]}
    for path, rights, (requests, replies) in (("socket", Rights(but=frozenset([KIND]), closes=False), state),
                                              ("source", Rights(only=KIND, closes=False), placed)):
        of_model = model_replies(requests, Session(rights, True), **store)
        yield from differences_of_replies("model", requests, replies, of_model)
        yield from differences_of_replies("daemon", requests, replies, daemon_replies(path, requests))


def main(words):
    program_of(words)
    vectors = Vectors(read_text(os.path.join(DOCS, "formats.md")))
    with folder_of_its_own("vectors-"):
        found = list(differences(vectors))
    for difference in found:
        print("docs/formats.md, test vectors: " + difference)
    return 1 if found else 0
