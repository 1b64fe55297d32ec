"""Logs, exports, proofs and tails that are drawn for the tests, from docs/formats.md."""
import base64
import hashlib

import check_proof
import history
import read_export
from checks.parts.rooms import FIRST_KEY
from model import tree
from model.chain import log_of

CLOSING = 0xffffffff


def base64_of(data):
    return base64.b64encode(data).decode()


class Draw:
    """Pseudorandom numbers from a seed, the same in every Python."""

    def __init__(self, *seed):
        self.seed, self.number = repr(seed).encode(), 0

    def below(self, limit):
        self.number += 1
        return int.from_bytes(hashlib.sha256(b"%s %d" % (self.seed, self.number)).digest()[:8], "big") % limit

    def one(self, things):
        return things[self.below(len(things))]

    def bytes(self, length):
        made = b""
        while len(made) < length:
            self.number += 1
            made += hashlib.sha256(b"%s %d" % (self.seed, self.number)).digest()
        return made[:length]


def entries_of(first_key, events):
    return log_of(events, first_key).entries


def word_of(count, root):
    return "%d:%s" % (count, root.hex())


def commitment_of(entries):
    return word_of(len(entries), history.root([history.leaf_hash(entry) for entry in entries]))


LENGTHS = [0, 1, 2, 19, 20, 31, 55, 56, 63, 64, 65, 100, 127, 128, 129, 300]
LONG_LENGTHS = [4023, 4024, 4025, 32695, 32696, 32697]


def payload_of(draw, length):
    """Of printable letters, or no UTF-8."""
    data = draw.bytes(length)
    if draw.below(3) == 0:
        return (b"\xff" + data)[:length]
    return bytes(32 + byte % 95 for byte in data)


def drawn_log(draw):
    events = [(draw.one([0, 1, 7, 255, 65536, CLOSING - 1]), payload_of(draw, draw.one(LENGTHS)))
              for _ in range(draw.one([0, 1, 2, 3, 4, 5, 7, 8, 9, 13, 16, 17]))]
    if draw.below(12) == 0:
        events.insert(draw.below(len(events) + 1), (9, payload_of(draw, draw.one(LONG_LENGTHS))))
    if draw.below(3) == 0:
        events.append((CLOSING, b""))
    return events


def flipped(draw, data):
    if not data:
        return data
    at = draw.below(len(data))
    return data[:at] + bytes([data[at] ^ 1 << draw.below(8)]) + data[at + 1:]


def resealed(entries, at, entry):
    """The export with another entry. Each link after it is recomputed, but no MAC."""
    made, link = entries[:at], entries[at - 1][-64:-32] if at else bytes(32)
    for old in [entry] + entries[at + 1:]:
        new_link = read_export.sha256(link, old[8:-64], old[:4])
        made.append(old[:-64] + new_link + old[-32:])
        link = new_link
    return made


def export_case(number):
    """An export, usually damaged, with the first key and a commitment."""
    draw = Draw("export", number)
    events = drawn_log(draw)
    entries = entries_of(FIRST_KEY, events)
    export, key, claimed = b"".join(entries), FIRST_KEY, commitment_of(entries)
    at = draw.below(len(entries)) if entries else 0
    damage = draw.below(24)
    if damage == 12:
        key = flipped(draw, key)
    elif damage in (13, 14):
        claimed = other_commitment(draw, claimed, damage)
    elif damage <= 11 or damage == 15:
        export = damaged_export(draw, damage, entries, at)
    elif damage <= 20:
        export, claimed = sealed_otherwise(draw, damage, events, at)
    return export, key, claimed


def other_commitment(draw, claimed, damage):
    """Of another count, or of another root."""
    count, root = history.commitment(claimed)
    if damage == 13:
        return word_of(draw.one([max(count, 1) - 1, count + 1, count + (1 << 32), (1 << 64) - 1]), root)
    return word_of(count, flipped(draw, root))


def damaged_export(draw, damage, entries, at):
    """The bytes of an export after they were sealed: changed, cut, or with other entries."""
    export = b"".join(entries)
    if damage <= 5:
        return flipped(draw, export)
    if damage == 6:
        return export[:draw.below(len(export) + 1)]
    if damage == 7:
        return export + draw.bytes(draw.one([1, 7, 8, 71, 72, 73]))
    if damage == 8:
        return b"".join(entries[:at] + entries[at + 1:])
    if damage == 9 and len(entries) > 1:
        entries[at], entries[at - 1] = entries[at - 1], entries[at]
        return b"".join(entries)
    if damage == 10:
        return b"".join(entries[:at] + entries[at:at + 1] + entries[at:])
    if damage == 11:
        start = sum(len(entry) for entry in entries[:at])
        length = draw.one([0, 1, 4024, 4025, 32696, 32697, 1 << 31, (1 << 32) - 1])
        return export[:start + 4] + length.to_bytes(4, "big") + export[start + 8:]
    if damage == 15 and entries:
        return b"".join(resealed(entries, at,
                                 flipped(draw, entries[at][8:-64]).join([entries[at][:8], entries[at][-64:]])))
    return export


def sealed_otherwise(draw, damage, events, at):
    """An export of other events, with its own commitment."""
    if damage == 16:
        # A closing entry in the middle, one with a payload, or entries after one.
        events.insert(at, (CLOSING, draw.one([b"", b"", b"x"])))
    elif damage == 17:
        events.append((CLOSING, draw.one([b"x", b"more"])))
    elif damage == 18:
        events = events + [(CLOSING, b"")]
    elif damage == 20:
        # Correctly sealed, with a payload at the limit of a version.
        events = events[:at] + [(3, draw.bytes(draw.one(LONG_LENGTHS)))]
    entries = entries_of(FIRST_KEY, events)
    if damage == 19:
        # The tail is cut off, and the commitment is that of the rest.
        entries = entries[:at]
    export = b"".join(entries)
    if damage == 18:
        export += draw.bytes(draw.one([1, 8, 72]))
    return export, commitment_of(entries)


def member_proof(leaves, index, entry):
    """The parts of an inclusion proof, by the model."""
    return [check_proof.MEMBERSHIP, index, len(leaves), tree.membership(leaves, index), entry]


def increment_proof(leaves, older):
    """The parts of a consistency proof, by the model."""
    return [check_proof.INCREMENTAL, older, len(leaves), tree.increment(leaves, older), b""]


def proof_bytes(kind, first, second, hashes, entry):
    return check_proof.HEAD.pack(kind, first, second, len(hashes) % 256) + b"".join(hashes) + entry


def steep_proof(draw):
    """The last entry of the largest tree, or of one that is too large."""
    index = (1 << 24) - draw.one([0, 1])
    count, value, hashes, entry = index + 1, None, [], draw.bytes(draw.one([0, 72, 32768]))
    value = history.leaf_hash(entry)
    for layer in range(history.depth(count)):
        if index >> layer & 1:
            hashes.append(draw.bytes(32))
            value = history.inner_node(hashes[-1], value)
        else:
            value = history.inner_node(value)
    return [1, index, count, hashes, entry], [word_of(count, value)]


def proof_case(number):
    """A proof, usually damaged, and its commitments."""
    draw = Draw("proof", number)
    parts, commitments = steep_proof(draw) if draw.below(25) == 0 else drawn_proof(draw)
    damage = draw.below(22)
    if damage <= 7:
        damage_hashes(draw, damage, parts)
    elif damage <= 9 or damage in (14, 16):
        damage_head(draw, damage, parts)
    elif damage <= 15:
        commitments = damaged_commitments(draw, damage, commitments)
    data = proof_bytes(*parts)
    if damage == 17:
        data = data[:draw.below(len(data))]
    elif damage == 18:
        data += draw.bytes(draw.one([1, 32, 40000]))
    elif damage == 19:
        data = flipped(draw, data[:18]) + data[18:]
    return data, commitments


def drawn_proof(draw):
    """The parts of a proof in a small log, and its commitments."""
    texts = [payload_of(draw, 72 + draw.one([0, 1, 50])) for _ in range(1 + draw.below(40))]
    leaves = [history.leaf_hash(text) for text in texts]
    roots = [word_of(count, history.root(leaves[:count])) for count in range(len(leaves) + 1)]
    older, count = draw.below(len(leaves)) + 1, len(leaves)
    if draw.below(2):
        return member_proof(leaves, older - 1, texts[older - 1]), [roots[count]]
    return increment_proof(leaves, older), [roots[older], roots[count]]


def damage_hashes(draw, damage, parts):
    """A hash or the entry is changed, or hashes are more, fewer or in another order."""
    hashes = parts[3]
    if damage <= 3 and hashes:
        at = draw.below(len(hashes))
        hashes[at] = flipped(draw, hashes[at])
    elif damage == 4:
        parts[4] = flipped(draw, parts[4])
    elif damage == 5:
        hashes.insert(draw.below(len(hashes) + 1), draw.bytes(32))
    elif damage == 6 and hashes:
        hashes.pop(draw.below(len(hashes)))
    elif damage == 7 and len(hashes) > 1:
        at = draw.below(len(hashes) - 1)
        hashes[at], hashes[at + 1] = hashes[at + 1], hashes[at]


def damage_head(draw, damage, parts):
    """Another index, count or kind, or parts at their limits."""
    if damage == 8:
        parts[1] = draw.one([0, parts[1] + 1, max(parts[1], 1) - 1, parts[2], parts[2] + 1, 1 << 24, (1 << 64) - 1])
    elif damage == 9:
        parts[2] = draw.one([0, parts[2] + 1, max(parts[2], 1) - 1, parts[1], 1 << 24, (1 << 24) + 1, (1 << 64) - 1])
    elif damage == 14:
        parts[0] = draw.one([0, 1, 2, 3, 255])
    elif damage == 16:
        parts[3], parts[4] = [bytes(32)] * draw.one([0, 23, 24, 25, 26]), bytes(draw.one([0, 1, 32768, 32769]))


def damaged_commitments(draw, damage, commitments):
    """Others, in another order, or too few or too many."""
    if damage == 10:
        commitments[0] = commitments[-1] if len(commitments) == 2 else word_of(draw.below(50), draw.bytes(32))
    elif damage == 11:
        commitments.reverse()
    elif damage == 12:
        at = draw.below(len(commitments))
        count, root = history.commitment(commitments[at])
        commitments[at] = word_of(count, flipped(draw, root))
    elif damage == 13:
        count, root = history.commitment(commitments[-1])
        commitments[-1] = word_of(draw.one([count + 1, max(count, 1) - 1, (1 << 64) - 1]), root)
    elif damage == 15:
        commitments = draw.one([commitments[:1], commitments * 2])[:2]
    return commitments


def state_after(entries, count):
    first = read_export.FIRST._replace(key=FIRST_KEY)
    root = history.root([history.leaf_hash(entry) for entry in entries[:count]])
    return read_export.read_on(b"".join(entries[:count]), first, (count, root))[1].text().decode()


def read_on_cases(draw):
    """An export of what follows a state, the state and a commitment, often damaged."""
    events = [event for event in drawn_log(draw) if len(event[1]) <= read_export.MAX_PAYLOAD]
    entries = entries_of(FIRST_KEY, events)
    cut = draw.below(len(entries) + 1)
    state, claimed = state_after(entries, cut), commitment_of(entries)
    tail, damage = b"".join(entries[cut:]), draw.below(10)
    if damage <= 2:
        tail = flipped(draw, tail)
    elif damage == 3:
        tail = tail[:draw.below(len(tail) + 1)]
    elif damage == 4:
        tail = b"".join(entries[draw.below(len(entries) + 1):])
    elif damage == 5:
        tail += draw.bytes(draw.one([1, 72, 73]))
    elif damage == 6:
        claimed = commitment_of(entries[:draw.below(len(entries) + 1)])
    elif damage == 7:
        count, root = history.commitment(claimed)
        claimed = word_of(count, flipped(draw, root))
    return tail, state, claimed
