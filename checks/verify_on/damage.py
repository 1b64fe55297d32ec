"""Faults that are planted in logs, and states and tails that are damaged."""
import hashlib

from checks.verify_on.logs import DICE, joined, relinked, sample, turned
from history import BadArgument, leaf_hash, root
from model.chain import CLOSING_KIND, seal
from read_export import CLOSING
from state import State


def planted(log, at):
    """The log's entries with a fault at one of them, and a commitment; each kind of fault in turn."""
    entries, size = log.entries, len(log)
    entry, commit = entries[at], log.commit(size)

    def with_entry(changed):
        return entries[:at] + [changed] + entries[at + 1:], commit

    yield with_entry(turned(entry, len(entry) - 40))                      # the link
    yield with_entry(turned(entry, len(entry) - 1))                       # the MAC
    yield with_entry(turned(entry, 3))                                    # the kind
    yield with_entry(turned(entry, 7))                                    # the length
    yield with_entry(entry[:4] + (32_697).to_bytes(4, "big") + entry[8:])
    yield with_entry(CLOSING + entry[4:])
    if len(entry) > 72:
        yield with_entry(turned(entry, 8))                                # the cipher
    yield with_entry(seal(DICE.randbytes(32), log.before[at][1], int.from_bytes(entry[:4], "big"), b"x")[0])
    yield with_entry(relinked(log.before[at][0], DICE.randbytes(32), entry))
    for payload in b"x", b"":                                             # closed here, and with or without a payload
        closing, _ = seal(*log.before[at], CLOSING_KIND, payload)
        yield entries[:at] + [closing] + entries[at + 1:], commit
        if at + 2 == size:
            yield entries[:at] + [closing], (at + 1, root(log.leaves[:at] + [leaf_hash(closing)]))
    # One is missing, or there twice, or two are exchanged.
    yield entries[:at] + entries[at + 1:], commit
    yield entries[:at] + [entry] + entries[at:], commit
    if at + 1 < size:
        yield entries[:at] + [entries[at + 1], entry] + entries[at + 2:], commit
    for end in 1, 7, len(entry) - 65, len(entry) - 1:                     # it ends within the entry
        yield entries[:at] + [entry[:end]], commit
    yield entries, (size, turned(commit[1], DICE.randrange(32)))
    yield entries, (size + 1, commit[1])
    yield entries, (size + (1 << 40), commit[1])
    yield entries[:at], commit


def resealed(lines):
    """A state of these lines, with their digest."""
    text = joined(line + b"\n" for line in lines)
    return text + b"sha256 " + hashlib.sha256(text).hexdigest().encode() + b"\n"


def damaged_states(state):
    """Texts that are no state, made of one that is."""
    text = state.text()
    lines = text.splitlines()
    body = lines[:-1]
    for at in sample(range(len(text)), 25):
        yield turned(text, at)
        yield text[:at] + text[at + 1:]
        yield text[:at] + text[at:at + 1] + text[at:]
        yield text[:at]
    for at in range(len(lines)):
        yield joined(line + b"\n" for line in lines[:at] + lines[at + 1:])
        yield joined(line + b"\n" for line in lines[:at] + [lines[at]] + lines[at:])
        yield joined(line + (b"\r\n" if place == at else b"\n") for place, line in enumerate(lines))
        yield joined(line + b"\n" for line in lines[:at] + [lines[at].replace(b" ", b"  ")] + lines[at + 1:])
        yield joined(line + b"\n" for line in lines[:at] + [lines[at] + b" "] + lines[at + 1:])
        yield joined(line + b"\n" for line in lines[:at] + [b" " + lines[at]] + lines[at + 1:])
        upper = lines[:at] + [lines[at].replace(lines[at].split()[1], lines[at].split()[1].upper())] + lines[at + 1:]
        if upper != lines:
            yield joined(line + b"\n" for line in upper)
    for at in range(len(body) - 1):
        # Nodes that change places are another log's.
        if body[at][:5] != body[at + 1][:5]:
            yield resealed(body[:at] + [body[at + 1], body[at]] + body[at + 2:])
    yield text.replace(b"\n", b"\r\n")
    yield text.replace(b"\n", b"\r")
    yield text.replace(b"\n", b" ")
    node = b"node " + bytes(64).hex().encode()[:64] + b"\n"
    for more in b"\n", b" ", b"\0", b"\r\n", b"x", lines[-1] + b"\n", text, node, bytes(100_000):
        yield text + more
    yield text[:-1]
    yield b"\xef\xbb\xbf" + text
    yield b""
    yield b"audit-state "
    yield b"audit-state 1\n"
    yield from resealed_states(state)


def resealed_states(state):
    """Texts that are no state, with their own digest."""
    text = state.text()
    body = text.splitlines()[:-1]
    yield resealed([])
    yield resealed(body[:1])
    yield resealed(body[:5]) if state.count else text[:-2]
    yield resealed(body + [b"node " + b"ab" * 32])
    yield resealed(body + [b"sha256 " + b"ab" * 32])
    if state.nodes:
        yield resealed(body[:-1])
        yield resealed(body[:-1] + [body[-1][:-2]])
        yield resealed(body[:-1] + [body[-1] + b"00"])
        yield resealed(body[:-1] + [body[-1][:-1] + b"g"])
    for line in b"audit-state 2", b"audit-state 01", b"audit-state", b"Audit-State 1":
        yield resealed([line] + body[1:])
    for count in (b"0%d" % state.count, b"+%d" % state.count, b"-1", b"", b"0x1", b"%d" % (state.count + 1 << 25),
                  b"%d" % (1 << 64)):
        yield resealed(body[:1] + [b"count " + count] + body[2:])
    for at in 2, 3:
        yield resealed(body[:at] + [body[at][:-2]] + body[at + 1:])
        yield resealed(body[:at] + [body[at] + b"00"] + body[at + 1:])
        yield resealed(body[:at] + [body[at].upper()] + body[at + 1:])
    for word in b"shut", b"Open", b"", b"open closed", b"closed" if not state.closed else b"open ":
        yield resealed(body[:4] + [b"log " + word] + body[5:])
    if state.count == 0:
        yield resealed(body[:3] + [b"link " + b"ab" * 32] + body[4:])
    yield resealed([b"version" + body[0][11:]] + body[1:])


def damaged_tails(log, cut):
    """Exports after a state, and states, with which the rest of the log isn't verified; what is wrong is seen there."""
    state, tail = log.state(cut), joined(log.entries[cut:])
    for at in sample(range(len(tail)), 20):
        yield turned(tail, at), state
        yield tail[:at] + tail[at + 1:], state
        yield tail[:at] + b"\0" + tail[at:], state
        yield tail[:at], state
    for more in b"\0", bytes(72), tail, b"audit-state 1\n", log.entries[-1]:
        yield tail + more, state
        yield more + tail, state
    yield joined(log.entries), state
    yield joined(log.entries[cut + 1:]), state
    yield b"", state
    # States that are another log's.
    yield tail, state._replace(key=turned(state.key, DICE.randrange(32)))
    yield tail, state._replace(link=turned(state.link, DICE.randrange(32)))
    for layer in state.nodes:
        yield tail, state._replace(nodes={**state.nodes, layer: turned(state.nodes[layer], DICE.randrange(32))})
    yield tail, log.state(cut - 1)
    yield tail, log.state(cut + 1)
    yield tail, log.state(cut)._replace(count=cut + 2 ** 20, nodes={**state.nodes, 20: bytes(32)})


def is_state(text):
    if not text.startswith(b"audit-state "):
        return False
    try:
        State.read(text)
    except BadArgument:
        return False
    return True
