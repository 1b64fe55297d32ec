#!/usr/bin/env python3
"""Checks a bundle of chosen events, and prints them: section Bundles of docs/formats.md.

usage: bundle_check.py BUNDLE COMMIT

COMMIT is a commitment that you trust, COUNT:ROOT, of the bundle's count; the one inside is compared with it. The archive must be
byte for byte the one that bundle.py makes of its files: so it has nothing else, its digests are right, and its page of text
says what is so.

With an export in it each event that is shown is printed as disclosure.py prints it, each other one as `sealed`, its number, its
kind and its length; the last line is `matched`, their number, and `open` or `closed`. Without one each chosen event is printed,
and the last line is `proved`, how many they are, and the count of the log. Authentication codes aren't checked. Signatures and
stamps in `anchors` are left to the programs that its page of text names.

Status 1: not a bundle, or not of COMMIT, with the cause. It needs only Python's standard library.
"""
import io
import sys
import tarfile

from bundle import FILES, SUMS, Claim, packed, with_sums
from check_proof import MEMBERSHIP, BadProof, event_under, is_accepted, read_proof
from disclosure import matched, read
from history import BadArgument, commitment
from read_export import Fault, event_line


class NoBundle(Exception):
    """What is wrong with an archive."""


def unpacked(data):
    """The files of an archive that has nothing else, by their names."""
    files = {}
    try:
        with tarfile.open(fileobj=io.BytesIO(data), mode="r:") as archive:
            for member in archive:
                files[member.name[len("bundle/"):]] = archive.extractfile(member).read() if member.isreg() else b""
    except (tarfile.TarError, ValueError, OSError):
        raise NoBundle("it is no archive") from None
    if not all(FILES.fullmatch(name) for name in files):
        raise NoBundle("it has a file that no bundle has")
    if packed(files) != data:
        raise NoBundle("it is not the archive of its files")
    return files


def text_in(files, name):
    try:
        return files[name].decode("ascii")
    except (KeyError, UnicodeDecodeError):
        raise NoBundle("%s is missing, or no text" % name) from None


def shown_in_export(files, keys, claimed):
    """The lines of an export and its last one, the indices that are shown, and whether it is closed."""
    found, closed, fault = matched(files["events.export"], keys, claimed)
    if fault is not None:
        raise NoBundle(str(fault))
    lines = [entry.line() for entry in found]
    lines.append("matched %d %s" % (claimed[0], "closed" if closed else "open"))
    return lines, tuple(entry.index for entry in found if entry.payload is not None), closed


def shown_by_proof(data, index, key, claimed):
    """The line of an entry that is proved."""
    try:
        proof = read_proof(data)
    except BadProof:
        raise NoBundle("proof %d: 32 BadProof" % index) from None
    if proof[0] != MEMBERSHIP or proof[1] != index or not is_accepted(proof, [claimed]):
        raise NoBundle("proof %d: not accepted" % index)
    event = event_under(key, proof[4])
    if event is None:
        raise NoBundle("proof %d: it is of no entry" % index)
    return event_line(index, *event)


def shown_by_proofs(files, keys, claimed):
    """The lines of the entries that are proved, and their indices. There is a proof for each key."""
    names = {name for name in files if name.startswith("proofs/")}
    if not names or names != {"proofs/%d.proof" % index for index in keys}:
        raise NoBundle("there isn't one proof for each key")
    lines = [shown_by_proof(files["proofs/%d.proof" % index], index, keys[index], claimed) for index in sorted(keys)]
    lines.append("proved %d %d" % (len(keys), claimed[0]))
    return lines, tuple(sorted(keys))


def checked(data, word):
    """The lines that a bundle shows under a commitment."""
    files, claimed = unpacked(data), commitment(word)
    word = "%d:%s" % (claimed[0], claimed[1].hex())
    if text_in(files, "commitment") != word + "\n":
        raise NoBundle("its commitment is another one")
    text = text_in(files, "chosen.keys")
    try:
        start, keys = read(text)
    except BadArgument:
        raise NoBundle("chosen.keys has another form") from None
    others, closed = "events.export" in files, False
    if start.count and not others:
        raise NoBundle("chosen.keys is for an export")
    if others:
        lines, chosen, closed = shown_in_export(files, text, claimed)
    else:
        lines, chosen = shown_by_proofs(files, keys, claimed)
    anchors = len({name.split("/")[1] for name in files if name.startswith("anchors/")})
    claim = Claim(word, claimed[0], start.count, closed, chosen, others, anchors)
    rest = {name: files[name] for name in files if name not in (SUMS, "README.txt")}
    if with_sums(rest, claim) != files:
        raise NoBundle("README.txt or %s says something else" % SUMS)
    return lines


def main(words):
    if len(words) != 2:
        print(__doc__, file=sys.stderr)
        return 2
    try:
        with open(words[0], "rb") as file:
            lines = checked(file.read(), words[1])
    except NoBundle as cause:
        print("bundle_check: %s" % cause, file=sys.stderr)
        return 1
    except BadArgument:
        print("bundle_check: bad argument", file=sys.stderr)
        return 2
    except OSError:
        print("bundle_check: file fault", file=sys.stderr)
        return 3
    print("\n".join(lines))
    return 0


if __name__ == "__main__":
    sys.exit(main(sys.argv[1:]))
