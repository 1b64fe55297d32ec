#!/usr/bin/env python3
"""Shows chosen events of an export to somebody who has no key of its log: section Disclosures of docs/formats.md.

usage: disclosure.py --make EXPORT KEYFILE COMMIT OUT --kind K[,K..]
       disclosure.py --make EXPORT KEYFILE COMMIT OUT --events N[,N-M..]
       disclosure.py EXPORT OUT COMMIT

With --make the export is verified first, as read_export.py does it, by the first key or the state in KEYFILE. Then OUT, which
its owner alone may read, gets the keys of the chosen entries: each opens its own entry, and no other key follows from it. The
last line printed is `disclosed`, their number, and the number of the entries.

Without it links, count and root of EXPORT are checked against COMMIT; MACs aren't, since that takes the log's key. Each chosen
event is printed as read_export.py does it, each other one as `sealed`, its number, its kind and the length of its payload, and
then `matched`, their number, and `open` or `closed`. An event reads as its key has it: a wrong key isn't noticed, and for a
text of fewer than 16 bytes whoever seals can search for a key under which it reads as another text.

Status 1: the export isn't verified, or isn't matched. It needs only Python's standard library.
"""
import os
import re
import sys
from typing import NamedTuple, Optional

from history import MAX_ENTRIES, BadArgument, commitment, leaf_hash
from read_export import CLOSING, Fault, event_line, read_entry, read_on, read_start, sha256, under_keystream
from state import FIRST, LAYERS, State


class Shown(NamedTuple):
    """An entry as a disclosure shows it: the payload is None if no key of it was given."""
    index: int
    kind: int
    length: int
    payload: Optional[bytes]

    def line(self):
        if self.payload is None:
            return "sealed %d %d %d" % (self.index, self.kind, self.length)
        return event_line(self.index, self.kind, self.payload)


def text_of(keys, start=FIRST):
    """The text of these keys, by the indices of their entries, for an export that begins after a state."""
    head = []
    if start.count:
        head = ["count %d" % start.count, "link " + start.link.hex()]
        head += ["node " + start.nodes[layer].hex() for layer in sorted(start.nodes)]
    lines = head + ["key %d %s" % (index, keys[index].hex()) for index in sorted(keys)]
    return "".join(line + "\n" for line in lines)


def read(text):
    """After what state the export begins, whose key is left out, and the keys by index. There is one text of each."""
    form = r"(?:count ([0-9]{1,8})\nlink ([0-9a-f]{64})\n((?:node [0-9a-f]{64}\n)*))?((?:key [0-9]{1,8} [0-9a-f]{64}\n)*)"
    found = re.fullmatch(form, text)
    if not found:
        raise BadArgument
    count, nodes = int(found[1] or 0), [bytes.fromhex(line[5:]) for line in (found[3] or "").splitlines()]
    layers = [layer for layer in range(LAYERS) if count >> layer & 1]
    if len(nodes) != len(layers) or count > MAX_ENTRIES:
        raise BadArgument
    start = State(count, bytes(32), bytes.fromhex(found[2]), False, dict(zip(layers, nodes))) if count else FIRST
    keys = {int(index): bytes.fromhex(key) for _, index, key in (line.split() for line in found[4].splitlines())}
    if text_of(keys, start) != text:
        raise BadArgument
    return start, keys


def linked_entries(data, start):
    """For each entry its index, kind (four bytes), cipher and bytes, as long as each has its form and the right link."""
    link, at, closed, index = start.link, 0, start.closed, start.count
    while at < len(data):
        if closed:
            raise Fault("entry %d: 46 BadClose" % index)
        kind, cipher, own, _, end = read_entry(data, at, index)
        if own != sha256(link, cipher, kind):
            raise Fault("entry %d: 42 BadLink" % index)
        closed = kind == CLOSING
        if closed and cipher:
            raise Fault("entry %d: 46 BadClose" % index)
        yield index, kind, cipher, data[at:end]
        link, at, index = own, end, index + 1


def matched(data, text, claimed):
    """What an export shows with these keys under a commitment: its entries up to the first fault, whether the last one closes
    the log, and the fault or None."""
    start, keys = read(text)
    found, leaves, closed = [], [], False
    try:
        for index, kind, cipher, entry in linked_entries(data, start):
            payload = under_keystream(keys[index], cipher) if index in keys else None
            found.append(Shown(index, int.from_bytes(kind, "big"), len(cipher), payload))
            leaves.append(leaf_hash(entry))
            closed = kind == CLOSING
    except Fault as fault:
        return found, closed, fault
    after = start.after(bytes(32), bytes(32), False, leaves)
    if after.count > MAX_ENTRIES or claimed != (after.count, after.root()):
        return found, closed, Fault("entry %d: 44 WrongCommitment" % after.count)
    return found, closed, None


def ranges(word, most):
    """Numbers and ranges of them, such as 3,10-12."""
    if not re.fullmatch(r"[0-9]{1,10}(-[0-9]{1,10})?(,[0-9]{1,10}(-[0-9]{1,10})?)*", word):
        raise BadArgument
    found = [(int(part.split("-")[0]), int(part.split("-")[-1])) for part in word.split(",")]
    if any(not first <= last <= most for first, last in found):
        raise BadArgument
    return found


def chosen_keys(data, start, is_chosen):
    """The keys of the keystreams of the chosen entries of an export that is verified, by their indices."""
    keys, key = {}, start.key
    for index, kind, _, _ in linked_entries(data, start):
        if is_chosen(index, int.from_bytes(kind, "big")):
            keys[index] = sha256(b"Encryption Key", kind, key)
        key = sha256(b"Increment Hash", key)
    return keys


def write_new(out, text):
    """Writes a new file that its owner alone may read. What couldn't be written whole is removed: it would disclose less."""
    made = os.open(out, os.O_WRONLY | os.O_CREAT | os.O_EXCL, 0o600)
    try:
        with open(made, "w", encoding="ascii") as file:
            file.write(text)
    except OSError:
        os.remove(out)
        raise


def make(export, keyfile, claimed, out, option, word):
    start, wanted = read_start(keyfile), ranges(word, 0xffffffff)
    if option not in ("--kind", "--events"):
        raise BadArgument
    with open(export, "rb") as file:
        data = file.read()
    events, _ = read_on(data, start, commitment(claimed))
    keys = chosen_keys(data, start, lambda index, kind: any(
        first <= (kind if option == "--kind" else index) <= last for first, last in wanted))
    write_new(out, text_of(keys, start))
    print("disclosed %d %d" % (len(keys), start.count + len(events)))


def show(export, disclosed, claimed):
    with open(disclosed, encoding="ascii", errors="replace", newline="") as file:
        text = file.read()
    with open(export, "rb") as file:
        found, closed, fault = matched(file.read(), text, commitment(claimed))
    if fault is not None:
        raise fault
    for entry in found:
        print(entry.line())
    print("matched %d %s" % (read(text)[0].count + len(found), "closed" if closed else "open"))


def main(words):
    makes = words[:1] == ["--make"]
    if len(words) != (7 if makes else 3):
        print(__doc__, file=sys.stderr)
        return 2
    try:
        make(*words[1:]) if makes else show(*words)
    except Fault as fault:
        print("disclosure: %s" % fault, file=sys.stderr)
        return 1
    except BadArgument:
        print("disclosure: bad argument", file=sys.stderr)
        return 2
    except FileExistsError:
        print("disclosure: file exists", file=sys.stderr)
        return 1
    except OSError:
        print("disclosure: file fault", file=sys.stderr)
        return 3
    return 0


if __name__ == "__main__":
    sys.exit(main(sys.argv[1:]))
