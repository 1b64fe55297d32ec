#!/usr/bin/env python3
"""Packs chosen events of a log, with what shows them to somebody else, into one archive: section Bundles of docs/formats.md.

usage: bundle.py EXPORT KEYS COMMIT OUT [--without-others] [--anchors DIR] [--with FILE]..

KEYS has the keys of the chosen entries, as disclosure.py makes them. First links, number and root of EXPORT are checked
against COMMIT. Then OUT, a new file, gets the export, the keys, the commitment, the page that shows them, a page of text that
says what they show and what they don't, and the SHA-256 of each. The same words make the same bytes.

With --without-others it has the chosen entries alone instead of the export, each with its inclusion proof: nothing of the
others is in it but hashes. At least one event has to be chosen then. --anchors adds the signed and stamped notes in DIR, as
tools/anchor keeps them, --with a further file, such as a certificate, but no first key and no state. The last line is
`bundled`, the number of chosen events, and that of all.

bundle_check.py checks an archive. Status 1: EXPORT isn't matched, or OUT exists. It needs only Python's standard library.
"""
import hashlib
import io
import os
import re
import sys
import tarfile
from typing import NamedTuple

from disclosure import linked_entries, matched, read
from history import BadArgument, commitment, inner_node, leaf_hash
from read_export import Fault

PAGE = os.path.join(os.path.dirname(os.path.abspath(__file__)), "verify.html")
# What an anchor may have, as in tools/anchors.py.
ANCHOR_FILES = "note", "note.sig", "note.tsr", "increment", "time"
NUMBER = re.compile("[0-9]{8}")
NAME = re.compile("[A-Za-z0-9_-][A-Za-z0-9._-]{0,99}")
SUMS = "SHA256SUMS"
# The names of the files that a bundle may have: no other program is led out of the folder that it unpacks them into.
FILES = re.compile(r"(README\.txt|SHA256SUMS|chosen\.keys|commitment|events\.export|verify\.html|proofs/[0-9]{1,8}\.proof"
                   r"|anchors/[0-9]{8}/(note|note\.sig|note\.tsr|increment|time)|with/[A-Za-z0-9_-][A-Za-z0-9._-]{0,99})")
# What begins a first key and a state, which open everything.
SECRET = re.compile(rb"[0-9a-fA-F]{64}\s*\Z|audit-state ")

OPENING = """This bundle shows {chosen} of a log's events to somebody who has no key of the log.

The log had {count} entries{end}, under the commitment
{word}
Trust it only if you have it from elsewhere: from a witness, a signed note, a time stamp.

Shown are the events {indices}.
"""
WITH_OTHERS = """events.export has {all}. chosen.keys opens these events, and no other.
To check it, run auditor/bundle_check.py, which needs Python alone, with the bundle and your commitment; or open verify.html in
a browser, and drop events.export, chosen.keys and your commitment on it.

If it is matched, then unless SHA-256 fails
- these are the log's entries, in their order, none is missing, and each has its kind and its length;
- so all events of a kind are among them, since kinds aren't sealed, and it is seen which of them are shown;
- each event that is shown is what its entry reads as under its key.
"""
WITHOUT_OTHERS = """proofs/ has their entries, each with its inclusion proof. chosen.keys opens them.
To check it, run auditor/bundle_check.py, which needs Python alone, with the bundle and your commitment; or open verify.html in
a browser, and drop a proof, its line of chosen.keys and your commitment on it.

If it is proved, then unless SHA-256 fails
- the log has each of these entries at its index, with its kind and its length;
- each event is what its entry reads as under its key.
It doesn't show the other events, nor whether others of the same kinds are among them.
"""
CLOSING_WORDS = """
What it doesn't show:
- whether an event is true, or who sent it: a log keeps what it was given;
- that a key is the one of its entry: another key gives other bytes. For a text of fewer than 16 bytes another key can be
  searched for, under which it is another text, and whoever sealed it to cheat can have two for one of fewer than 32;
- that whoever wrote the log knew its keys: authentication codes aren't checked here, since that takes a key that opens all;
- when an event was logged{anchored}.
"""
NOT_ANCHORED = ": entries have no time, and the bundle has no stamp"
ANCHORED = """, but for what the {anchors} notes in anchors/ say: a log whose commitment was signed or
  stamped had its first entries by then. `tools/anchor-check anchors SIGNERS AUTHORITY` checks them, or these two:
  ssh-keygen -Y verify -n audit-commitment -f SIGNERS -I WHO -s anchors/00000001/note.sig <anchors/00000001/note
  openssl ts -verify -data anchors/00000001/note -in anchors/00000001/note.tsr -CAfile AUTHORITY"""


class Claim(NamedTuple):
    """What a bundle is about. The first entry of its export is number `start`; without the others there is none."""
    word: str
    count: int
    start: int
    closed: bool
    chosen: tuple
    others: bool
    anchors: int


def spans(indices):
    """Indices as words such as 3,10-12."""
    found = []
    for index in indices:
        if found and found[-1][1] == index - 1:
            found[-1][1] = index
        else:
            found.append([index, index])
    return ",".join(str(first) if first == last else "%d-%d" % (first, last) for first, last in found) or "-"


def read_me(claim):
    """The page of text, which the claim alone determines."""
    end = "" if not claim.others else " and was closed" if claim.closed else " so far"
    entries = "all entries" if claim.start == 0 else "the entries from number %d on" % claim.start
    text = OPENING + "\n" + (WITH_OTHERS if claim.others else WITHOUT_OTHERS) + CLOSING_WORDS
    anchored = ANCHORED.format(anchors=claim.anchors) if claim.anchors else NOT_ANCHORED
    return text.format(chosen=len(claim.chosen), count=claim.count, end=end, word=claim.word, all=entries,
                       indices=spans(claim.chosen), anchored=anchored).encode()


def rows_of(leaves):
    """The layers of a log's tree, from its leaves to its root."""
    rows = [leaves]
    while len(rows[-1]) > 1:
        rows.append([inner_node(*rows[-1][at:at + 2]) for at in range(0, len(rows[-1]), 2)])
    return rows


def inclusion_proof(rows, index, entry):
    hashes = [row[(index >> layer) ^ 1] for layer, row in enumerate(rows[:-1]) if (index >> layer) ^ 1 < len(row)]
    numbers = index.to_bytes(8, "big") + len(rows[0]).to_bytes(8, "big")
    return b"\1" + numbers + bytes([len(hashes)]) + b"".join(hashes) + entry


def proofs_of(data, start, chosen):
    """The chosen entries of a whole export, each with its proof, by their names in a bundle. Without one nothing is shown."""
    if start.count or not chosen:
        raise BadArgument
    entries = [entry for _, _, _, entry in linked_entries(data, start)]
    rows = rows_of([leaf_hash(entry) for entry in entries])
    return {"proofs/%d.proof" % index: inclusion_proof(rows, index, entries[index]) for index in chosen}


def read_file(path):
    with open(path, "rb") as file:
        return file.read()


def anchors_in(folder):
    """The files of the anchors in a folder, by their names in a bundle. What else is there is left out."""
    found = {}
    for number in sorted(name for name in os.listdir(folder) if NUMBER.fullmatch(name)):
        for name in ANCHOR_FILES:
            path = os.path.join(folder, number, name)
            if os.path.isfile(path):
                found["anchors/%s/%s" % (number, name)] = read_file(path)
    return found


def further(paths):
    """Further files by their names in a bundle. A first key or a state is none."""
    found = {}
    for path in paths:
        name = os.path.basename(path)
        if not NAME.fullmatch(name) or "with/" + name in found:
            raise BadArgument
        found["with/" + name] = read_file(path)
        if SECRET.match(found["with/" + name]):
            raise BadArgument
    return found


def with_sums(files, claim):
    """The files of a bundle with the page of text about them, and the digests of all."""
    files = {**files, "README.txt": read_me(claim)}
    sums = "".join("%s  %s\n" % (hashlib.sha256(files[name]).hexdigest(), name) for name in sorted(files))
    return {**files, SUMS: sums.encode()}


def packed(files):
    """The archive of these files: one of tar (POSIX.1-1988), without times and owners, sorted by name."""
    room = io.BytesIO()
    with tarfile.open(fileobj=room, mode="w", format=tarfile.USTAR_FORMAT) as archive:
        for name in sorted(files):
            member = tarfile.TarInfo("bundle/" + name)
            member.size = len(files[name])
            archive.addfile(member, io.BytesIO(files[name]))
    return room.getvalue()


def files_of(export, disclosed, word, others, anchors, paths):
    """The files of the bundle that these words ask for, and what it is about."""
    with open(disclosed, encoding="ascii", errors="replace", newline="") as file:
        text = file.read()
    data, claimed = read_file(export), commitment(word)
    found, closed, fault = matched(data, text, claimed)
    if fault is not None:
        raise fault
    start, _ = read(text)
    chosen = tuple(entry.index for entry in found if entry.payload is not None)
    files = {"events.export": data} if others else proofs_of(data, start, chosen)
    notes = anchors_in(anchors) if anchors else {}
    word = "%d:%s" % (claimed[0], claimed[1].hex())
    files.update(notes, **further(paths))
    files.update({"chosen.keys": text.encode(), "commitment": word.encode() + b"\n", "verify.html": read_file(PAGE)})
    numbers = {name.split("/")[1] for name in notes}
    claim = Claim(word, claimed[0], start.count, closed, chosen, others, len(numbers))
    return with_sums(files, claim), claim


def write_new(out, data):
    made = os.open(out, os.O_WRONLY | os.O_CREAT | os.O_EXCL, 0o600)
    try:
        with open(made, "wb") as file:
            file.write(data)
    except OSError:
        os.remove(out)
        raise


def options(words):
    """The anchors, the further files, and whether the others are left out."""
    anchors, paths, others, rest = None, [], True, list(words)
    while rest:
        word = rest.pop(0)
        if word == "--without-others" and others:
            others = False
        elif word == "--anchors" and rest and anchors is None:
            anchors = rest.pop(0)
        elif word == "--with" and rest:
            paths.append(rest.pop(0))
        else:
            raise BadArgument
    return others, anchors, paths


def main(words):
    if len(words) < 4:
        print(__doc__, file=sys.stderr)
        return 2
    try:
        files, claim = files_of(*words[:3], *options(words[4:]))
        write_new(words[3], packed(files))
    except Fault as fault:
        print("bundle: %s" % fault, file=sys.stderr)
        return 1
    except BadArgument:
        print("bundle: bad argument", file=sys.stderr)
        return 2
    except FileExistsError:
        print("bundle: file exists", file=sys.stderr)
        return 1
    except OSError:
        print("bundle: file fault", file=sys.stderr)
        return 3
    print("bundled %d %d" % (len(claim.chosen), claim.count))
    return 0


if __name__ == "__main__":
    sys.exit(main(sys.argv[1:]))
