"""Links of docs/formats.md: from a log that was closed to the log that goes on.

A link is written from the old log (closed), the new log's first key, and the numbers of the chain's events by kind.
"""
from typing import NamedTuple

from check_proof import is_accepted, read_proof
from history import leaf_hash
from read_export import under_keystream

from model.chain import CLOSE, CLOSING_KIND, entry_keys, log_of, number
from model.tree import membership, membership_proof, root

MARK = 3
LINK_KIND = 0
MOST_KINDS = 1000
MOST_HASHES = 24
MOST_OF_A_PAYLOAD = 32696
VERSION = b"audit-counts 1\n"
ACCEPTED, OLD_HALF, NEW_HALF = "accepted", "old half", "new half"


class Link(NamedTuple):
    """The hashes from the closing entry up to the old root, this entry's link and MAC, and two entries with their keys."""
    hashes: list
    last_link: bytes
    last_mac: bytes
    first_key: bytes
    second_key: bytes
    first: bytes
    second: bytes


def counted(events, brought=None):
    """The numbers of events by kind: those of the logs before, and of these events, but for the one that closes the log."""
    counts = dict(brought or {})
    for kind, _ in events:
        if kind != CLOSING_KIND:
            counts[kind] = counts.get(kind, 0) + 1
    return counts


def are_counts(counts):
    return len(counts) <= MOST_KINDS and all(0 <= kind < CLOSING_KIND and 1 <= count < 1 << 64
                                             for kind, count in counts.items())


def counts_text(counts):
    return VERSION + b"".join(b"%d %d\n" % pair for pair in sorted(counts.items()))


def counts_in(text):
    """The numbers whose text this is, if it is one: of all that its lines may spell, those whose text is this."""
    counts = {}
    try:
        for line in text.splitlines()[1:]:
            kind, count = line.split(b" ")
            counts[int(kind)] = int(count)
    except ValueError:
        return None
    return counts if are_counts(counts) and counts_text(counts) == text else None


def commitment_text(count, of_root):
    return b"%d:%s" % (count, of_root.hex().encode())


def link_events(old, brought=None, first=0):
    """The events that begin the log after this closed one, whose own events are counted from an index on: from 2 if it
    goes on itself by a link, which brought these numbers."""
    commitment = commitment_text(len(old.entries), root(old.leaves))
    return [(LINK_KIND, commitment), (LINK_KIND, counts_text(counted(old.events[first:], brought)))]


def link_of(old, first_key, brought=None, first=0):
    """The link from a closed log to the one that begins with this key, and that log."""
    assert old.events[-1] == CLOSE
    events = link_events(old, brought, first)
    new = log_of(events, first_key)
    first, second = entry_keys(first_key, events)
    last = old.entries[-1]
    return Link(membership(old.leaves, len(old.leaves) - 1), last[8:40], last[40:], first, second, *new.entries), new


def link_bytes(link):
    head = number(MARK, 1) + number(len(link.hashes), 1) + b"".join(link.hashes)
    return head + link.last_link + link.last_mac + link.first_key + link.second_key + link.first + link.second


def entry_length(entries):
    """How many bytes the entry at the start of these has, if one is there."""
    if len(entries) < 8:
        return None
    length = int.from_bytes(entries[4:8], "big")
    return 72 + length if length <= MOST_OF_A_PAYLOAD and 72 + length <= len(entries) else None


def link_in(text):
    """The link whose bytes these are, if they are."""
    if len(text) < 2 or text[0] != MARK or text[1] > MOST_HASHES or len(text) < 130 + 32 * text[1]:
        return None
    end = 2 + 32 * text[1]
    hashes = [text[place:place + 32] for place in range(2, end, 32)]
    parts = [text[place:place + 32] for place in range(end, end + 128, 32)]
    entries = text[end + 128:]
    first = entry_length(entries)
    if first is None or entry_length(entries[first:]) != len(entries) - first:
        return None
    return Link(hashes, *parts, entries[:first], entries[first:])


def closing_entry(link):
    return number(CLOSING_KIND, 4) + number(0, 4) + link.last_link + link.last_mac


def opened(entry, key):
    """The kind of an entry, and the payload as it reads under a key of a keystream."""
    return int.from_bytes(entry[:4], "big"), under_keystream(key, entry[8:-64])


def judged(link, old, new):
    """What a witness with the two commitments, each a count and a root, says of a link."""
    count, _ = old
    proof = membership_proof(count - 1, count, link.hashes, closing_entry(link)) if count else b""
    if not count or not is_accepted(read_proof(proof), [old]):
        return OLD_HALF
    first, second = opened(link.first, link.first_key), opened(link.second, link.second_key)
    says = first == (LINK_KIND, commitment_text(*old)) and second[0] == LINK_KIND and counts_in(second[1]) is not None
    is_new = new == (2, root([leaf_hash(link.first), leaf_hash(link.second)]))
    return ACCEPTED if says and is_new else NEW_HALF
