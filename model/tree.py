"""Roots and proofs: the sections History tree and Proofs of docs/formats.md, as recursions over whole lists of leaf hashes.

A node of layer r is given by the leaves that it covers, of which there are 1 to 2^r.
"""
from history import depth, inner_node

from model.chain import number

MEMBERSHIP, INCREMENT = 1, 2


def halves(leaves, layer):
    """The leaves under the left side of a node of this layer, and those under its right side, which may be none."""
    middle = 1 << layer - 1
    return leaves[:middle], leaves[middle:]


def node(leaves, layer):
    if layer == 0:
        return leaves[0]
    left, right = halves(leaves, layer)
    if not right:
        return inner_node(node(left, layer - 1))
    return inner_node(node(left, layer - 1), node(right, layer - 1))


def root(leaves):
    return node(leaves, depth(len(leaves))) if leaves else bytes(32)


def commitment(leaves):
    """The count and the root, as replies and digests have them."""
    return number(len(leaves), 8) + root(leaves)


def siblings(leaves, layer, leaf, lowest):
    """The siblings on the path from the node of layer `lowest` that covers a leaf up to this node, the lowest first."""
    if layer == lowest:
        return []
    left, right = halves(leaves, layer)
    if leaf < len(left):
        beside = [node(right, layer - 1)] if right else []
        return siblings(left, layer - 1, leaf, lowest) + beside
    return siblings(right, layer - 1, leaf - len(left), lowest) + [node(left, layer - 1)]


def membership(leaves, index):
    """The hashes that prove that the leaf of this index is one of these."""
    return siblings(leaves, depth(len(leaves)), index, 0)


def full_layer(count):
    """The layer of the largest node that ends a tree of this count and is full."""
    layer = 0
    while count % (2 << layer) == 0:
        layer += 1
    return layer


def increment(leaves, older):
    """The hashes that prove that these leaves continue the first `older` ones."""
    layer = full_layer(older)
    common = node(leaves[older - (1 << layer):older], layer)
    return [common] + siblings(leaves, depth(len(leaves)), older - 1, layer)


def membership_proof(index, count, hashes, entry):
    return number(MEMBERSHIP, 1) + number(index, 8) + number(count, 8) + number(len(hashes), 1) + b"".join(hashes) + entry


def increment_proof(older, newer, hashes):
    return number(INCREMENT, 1) + number(older, 8) + number(newer, 8) + number(len(hashes), 1) + b"".join(hashes)
