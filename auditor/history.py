"""The history tree of docs/formats.md: hashes of leaves and inner nodes, roots, and commitments as words."""
import hashlib
import re

MAX_ENTRIES = 1 << 24


class BadArgument(Exception):
    """A word of the command line, or the contents of a key file, doesn't have the required form."""


def leaf_hash(entry):
    return hashlib.sha256(b"\0" + entry).digest()


def inner_node(left, right=b""):
    """The right side is missing if the leaves end before it."""
    return hashlib.sha256(b"\1" + left + right).digest()


def depth(count):
    """The least depth of a tree that holds this number of leaves."""
    return max(count - 1, 0).bit_length()


def root(leaves):
    if not leaves:
        return bytes(32)
    row = leaves
    while len(row) > 1:
        row = [inner_node(*row[at:at + 2]) for at in range(0, len(row), 2)]
    return row[0]


def commitment(word):
    """The count and the root in a word COUNT:ROOT."""
    spelled = re.fullmatch("([0-9]{1,20}):([0-9a-fA-F]{64})", word, re.ASCII)
    if spelled is None or int(spelled[1]) >= 1 << 64:
        raise BadArgument
    return int(spelled[1]), bytes.fromhex(spelled[2])
