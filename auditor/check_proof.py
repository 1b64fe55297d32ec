#!/usr/bin/env python3
"""Checks a proof under a commitment, without a store and without the program that made it.

usage: check_proof.py [--print] PROOF OLDER [NEWER]
       check_proof.py --key HEX PROOF COMMIT

A commitment is COUNT:ROOT, with the root in 64 hex digits. A membership proof is checked under one commitment, an
incremental proof under an older and a newer one. Prints `accepted`, or prints `not accepted` and exits with status 1. If the
file isn't a proof, it prints a message and exits with status 1. If a word has another form, or the proof is of the other
kind, it exits with status 2.

With --print, a line after `accepted` says what the proof is about: `index` and `count` of a membership proof, with the `kind`
and the number of the payload's `bytes` that its entry states (dashes if it isn't one entry); `older` and `newer` of an
incremental proof.

With --key it prints, instead of `accepted`, the event that the entry of an accepted membership proof is under the key of a
receipt, 64 hex digits: `event`, its number, its kind and its payload in hex digits (`-` if empty). This key opens that entry
alone. A wrong key isn't noticed: it gives other bytes. For a payload of 1 to 15 bytes somebody can find another key, under
which it is another text, and a warning says so. If the proof's bytes aren't an entry, it prints a message and exits
with status 1.

It needs only Python's standard library, and is written from docs/formats.md.
"""
import re
import struct
import sys

from history import MAX_ENTRIES, BadArgument, commitment, depth, inner_node, leaf_hash
from read_export import MAX_PAYLOAD, event_line, under_keystream

MEMBERSHIP, INCREMENTAL = 1, 2
MAX_HASHES = {MEMBERSHIP: 24, INCREMENTAL: 25}
MAX_ENTRY = 32768
HEAD = struct.Struct(">BQQB")
# The kind of an event and the length of its payload, which begin an entry; an entry has 64 bytes after the payload.
ENTRY_HEAD = struct.Struct(">II")
ENTRY_OVERHEAD = ENTRY_HEAD.size + 64
# For a payload with fewer bytes somebody can find another key, under which it is a text of their choice.
LEAST_BOUND = 16
UNBOUND = "a key is not bound to a text of fewer than %d bytes: another key can show another text"
# The most bytes of a proof. A longer file isn't a proof, and the rest of it isn't read.
MAX_PROOF = HEAD.size + 32 * MAX_HASHES[MEMBERSHIP] + MAX_ENTRY


class BadProof(Exception):
    """The bytes aren't a proof, whatever the commitment."""


def read_proof(data):
    """The kind, the two numbers, the hashes, and the entry, which an incremental proof doesn't have."""
    if not HEAD.size <= len(data) <= MAX_PROOF:
        raise BadProof
    kind, first, second, number = HEAD.unpack_from(data)
    end = HEAD.size + 32 * number
    entry = data[end:]
    if number > MAX_HASHES.get(kind, -1) or len(data) < end:
        raise BadProof
    if len(entry) > (MAX_ENTRY if kind == MEMBERSHIP else 0):
        raise BadProof
    return kind, first, second, [data[at:at + 32] for at in range(HEAD.size, end, 32)], entry


def siblings(leaf, count, layer, hashes):
    """For each layer on the path up from `layer`: its number, and the siblings on the left and on the right, at most one
    of which isn't empty. Raises IndexError if a hash is missing, and ValueError if one is left over."""
    rest = list(hashes)
    for layer in range(layer, depth(count)):
        place = leaf >> layer
        if place % 2 == 1:
            yield layer, rest.pop(0), b""
        elif (place + 1) << layer < count:
            yield layer, b"", rest.pop(0)
        else:
            yield layer, b"", b""
    if rest:
        raise ValueError("hashes are left")


def root_of_member(index, count, hashes, entry):
    value = leaf_hash(entry)
    for _, left, right in siblings(index, count, 0, hashes):
        value = inner_node(left + value, right)
    return value


def roots_of_increment(older_count, newer_count, hashes):
    layer = (older_count & -older_count).bit_length() - 1
    older = newer = hashes[0]
    for layer, left, right in siblings(older_count - 1, newer_count, layer, hashes[1:]):
        newer = inner_node(left + newer, right)
        if layer < depth(older_count):
            older = inner_node(left + older)
    return older, newer


def is_accepted(proof, commitments):
    kind, first, second, hashes, entry = proof
    try:
        if kind == MEMBERSHIP:
            (count, root), = commitments
            return (first < second == count <= MAX_ENTRIES
                    and root_of_member(first, count, hashes, entry) == root)
        (older_count, older_root), (newer_count, newer_root) = commitments
        return ((first, second) == (older_count, newer_count) and 1 <= first <= second <= MAX_ENTRIES
                and roots_of_increment(first, second, hashes) == (older_root, newer_root))
    except (IndexError, ValueError):
        return False


def stated_by(entry):
    """The kind and the length of the payload that bytes state, or None if they aren't one entry."""
    if len(entry) < ENTRY_OVERHEAD:
        return None
    kind, length = ENTRY_HEAD.unpack_from(entry)
    return (kind, length) if length == len(entry) - ENTRY_OVERHEAD <= MAX_PAYLOAD else None


def contents(proof):
    """What a proof is about, as a line."""
    kind, first, second, _, entry = proof
    if kind == INCREMENTAL:
        return "older %d newer %d" % (first, second)
    return "index %d count %d kind %s bytes %s" % (first, second, *(stated_by(entry) or ("-", "-")))


def event_under(key, entry):
    """The kind and the payload of an entry under the key of its keystream, or None if the bytes aren't one entry."""
    stated = stated_by(entry)
    if stated is None:
        return None
    kind, length = stated
    return kind, under_keystream(key, entry[ENTRY_HEAD.size:ENTRY_HEAD.size + length])


def print_event(index, event):
    """Prints the event of an accepted proof, if there is one. Returns the status."""
    if event is None:
        print("check_proof: 32 BadProof", file=sys.stderr)
        return 1
    kind, payload = event
    print(event_line(index, kind, payload))
    if 0 < len(payload) < LEAST_BOUND:
        print("check_proof: " + UNBOUND % LEAST_BOUND, file=sys.stderr)
    return 0


def read_key(word):
    if re.fullmatch("[0-9a-fA-F]{64}", word, re.ASCII) is None:
        raise BadArgument
    return bytes.fromhex(word)


def main(words):
    prints, digits = "--print" in words, None
    words = [word for word in words if word != "--print"]
    if "--key" in words[:-1] and not prints:
        at = words.index("--key")
        digits = words[at + 1]
        words = words[:at] + words[at + 2:]
    if len(words) not in (2, 3):
        print(__doc__, file=sys.stderr)
        return 2
    try:
        commitments = [commitment(word) for word in words[1:]]
        key = None if digits is None else read_key(digits)
        if key and len(commitments) > 1:
            raise BadArgument
        with open(words[0], "rb") as file:
            proof = read_proof(file.read(MAX_PROOF + 1))
        if len(commitments) != (1 if proof[0] == MEMBERSHIP else 2):
            raise BadArgument
    except BadProof:
        print("check_proof: 32 BadProof", file=sys.stderr)
        return 1
    except BadArgument:
        print("check_proof: bad argument", file=sys.stderr)
        return 2
    except OSError:
        print("check_proof: file fault", file=sys.stderr)
        return 3
    accepted = is_accepted(proof, commitments)
    if accepted and key:
        return print_event(proof[1], event_under(key, proof[4]))
    print("accepted" if accepted else "not accepted")
    if accepted and prints:
        print(contents(proof))
    return 0 if accepted else 1


if __name__ == "__main__":
    sys.exit(main(sys.argv[1:]))
