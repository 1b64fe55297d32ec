"""The state after some entries of a log, from which its verification continues, as docs/formats.md has it."""
import hashlib
import typing

from history import MAX_ENTRIES, BadArgument, depth, inner_node

LAYERS = 25


class State(typing.NamedTuple):
    count: int
    # The key and the link for the next entry. A closed log has no next entry, and a key of zero bytes.
    key: bytes
    link: bytes
    closed: bool
    # By layer, the node whose leaves are all there and whose parent's aren't. There is one for each one of `count` in binary.
    nodes: dict

    def after(self, key, link, closed, leaves):
        """The state after entries with these leaf hashes, of which these are the next key and the last link."""
        count = self.count + len(leaves)
        nodes = {layer: self.node(leaves, (count >> layer + 1) << layer + 1, layer) for layer in range(LAYERS) if count >> layer & 1}
        return State(count, bytes(32) if closed else key, link, closed, nodes)

    def node(self, leaves, start, layer):
        """The hash of the node at a layer whose first leaf is `start`, in the tree that these leaves continue."""
        if start + (1 << layer) <= self.count:
            return self.nodes[layer]
        if layer == 0:
            return leaves[start - self.count]
        middle = start + (1 << layer - 1)
        left = self.node(leaves, start, layer - 1)
        if middle >= self.count + len(leaves):
            return inner_node(left)
        return inner_node(left, self.node(leaves, middle, layer - 1))

    def root(self):
        return self.node([], 0, depth(self.count)) if self.count else bytes(32)

    def text(self, newest=None):
        """Its lines; before the last one those of the newest commitment, a count and a root, if there is one."""
        lines = ["audit-state 1", "count %d" % self.count, "key " + self.key.hex(), "link " + self.link.hex()]
        lines.append("log closed" if self.closed else "log open")
        lines += ["node " + self.nodes[layer].hex() for layer in sorted(self.nodes)]
        if newest is not None:
            lines += ["newest %d" % newest[0], "root " + newest[1].hex()]
        text = "".join(line + "\n" for line in lines).encode()
        return text + b"sha256 " + hashlib.sha256(text).hexdigest().encode() + b"\n"

    @staticmethod
    def read(text):
        """The state that has this text, of which there is at most one, and the newest commitment, or None."""
        try:
            lines = [line.split(" ") for line in text.decode().split("\n")[:-1]]
            values = [line[1] for line in lines]
            newest = (int(values[-3]), bytes.fromhex(values[-2])) if lines[-3][0] == "newest" else None
            count, digits = int(values[1]), iter(values[5:-1])
            nodes = {layer: bytes.fromhex(next(digits)) for layer in range(LAYERS) if count >> layer & 1}
            state = State(count, bytes.fromhex(values[2]), bytes.fromhex(values[3]), values[4] == "closed", nodes)
        except (IndexError, StopIteration, ValueError):
            raise BadArgument from None
        fits = count <= MAX_ENTRIES and (not state.closed or count > 0 and state.key == bytes(32))
        fits = fits and all(len(value) == 32 for value in (state.key, state.link, *nodes.values()))
        if not fits or count == 0 and any(state.link) or state.text(newest) != text:
            raise BadArgument
        return state, newest


# Before the first entry. The key is the log's own.
FIRST = State(0, bytes(32), bytes(32), False, {})
