"""Logs that a test knows: entries of any payloads, their roots and proofs by model/, and events as lines."""
import struct

from model import tree
from history import inner_node, leaf_hash
from read_export import sha256


def leaves_of(entries):
    return [leaf_hash(entry) for entry in entries]


def root(entries, count=None):
    """The root of the first entries."""
    return tree.root(leaves_of(entries[:count]))


def membership(entries, count, index):
    return tree.membership(leaves_of(entries[:count]), index)


def increment(entries, older, newer):
    return tree.increment(leaves_of(entries[:newer]), older)


def word_of(count, value):
    """A commitment as a word of a command line."""
    return "%d:%s" % (count, value.hex())


def unsealed_entry(payload, kind=1):
    """An entry with this payload as its cipher: its link and its MAC are nobody's."""
    return struct.pack(">II", kind, len(payload)) + payload + bytes(64)


class Log:
    """A log that was never in a store."""

    def __init__(self, count, word=b"text"):
        self.texts = [unsealed_entry(b"%s %d" % (word, place)) for place in range(count)]

    def commitment(self, count=None):
        count = len(self.texts) if count is None else count
        return count, root(self.texts, count)

    def word(self, count=None):
        return word_of(*self.commitment(count))


class History:
    """The history tree of a log that grows, with the hashes of its full nodes: the root of each count."""

    def __init__(self):
        self.layers = [[]]

    def push(self, entry):
        self.layers[0].append(leaf_hash(entry))
        layer = 0
        while len(self.layers[layer]) % 2 == 0:
            if layer + 1 == len(self.layers):
                self.layers.append([])
            left, right = self.layers[layer][-2:]
            layer += 1
            self.layers[layer].append(inner_node(left, right))

    def root(self, count):
        return self.node(0, (count - 1).bit_length(), count) if count else bytes(32)

    def node(self, start, layer, count):
        if start + (1 << layer) <= count:
            return self.layers[layer][start >> layer]
        middle = start + (1 << layer - 1)
        left = self.node(start, layer - 1, count)
        return inner_node(left, self.node(middle, layer - 1, count)) if middle < count else inner_node(left)


def keys_from(first):
    """A key, followed without end by the keys that it evolves to."""
    while True:
        yield first
        first = sha256(b"Increment Hash", first)


def entries_of(export):
    """The entries of an export."""
    found, at = [], 0
    while at < len(export):
        size = 72 + struct.unpack(">I", export[at + 4:at + 8])[0]
        found.append(export[at:at + size])
        at += size
    return found


def event_line(payload, kind=1):
    return b"event %d %s\n" % (kind, payload.hex().encode() or b"-")


def event_lines(payloads, kind=1):
    return b"".join(event_line(payload, kind) for payload in payloads)


def payloads_of(name, count):
    return [b"%s %d" % (name.encode(), number) for number in range(count)]
