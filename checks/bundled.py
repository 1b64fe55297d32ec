"""Bundles of chosen events that auditor/bundle.py makes of what a tour left, and what auditor/bundle_check.py says of them and
of others. `bin/check auditor` plays it."""
import contextlib
import io
import os
import subprocess
import tarfile

import bundle
import bundle_check

from checks.parts.files import read, write
from checks.parts.program import done

CHOSEN = 3, 10, 11, 12


def sealed_line(line):
    """What is shown of an event that isn't disclosed, by its line of `audit verify`."""
    _, index, kind, digits = line.split()
    return "sealed %s %s %d" % (index, kind, len(digits) // 2 if digits != "-" else 0)


def answered(module, *words):
    """Status, output and messages."""
    output, messages = io.StringIO(), io.StringIO()
    with contextlib.redirect_stdout(output), contextlib.redirect_stderr(messages):
        status = module.main(list(words))
    return status, output.getvalue(), messages.getvalue()


def archive(members):
    """An archive of these members, in this order."""
    room = io.BytesIO()
    with tarfile.open(fileobj=room, mode="w", format=tarfile.USTAR_FORMAT) as made:
        for member, data in members:
            made.addfile(member, io.BytesIO(data))
    return room.getvalue()


def member_of(name, data, **others):
    member = tarfile.TarInfo("bundle/" + name)
    member.size = len(data)
    for word, value in others.items():
        setattr(member, word, value)
    return member, data


def made(expect, name, newer, *words):
    """The bytes of a bundle, which are the same when it is made again."""
    wanted = 0, "bundled %d %s\n" % (len(CHOSEN), newer.split(":")[0]), ""
    for out in name, "again":
        with contextlib.suppress(FileNotFoundError):
            os.remove(out)
        expect("bundle.py", answered(bundle, "events.export", "chosen", newer, out, *words), wanted)
    expect("a bundle made again", read("again") == read(name), True)
    expect("the mode", os.stat(name).st_mode & 0o777, 0o600)
    expect("another bundle", answered(bundle, "events.export", "chosen", newer, name, *words),
           (1, "", "bundle: file exists\n"))
    return read(name)


def try_other_programs(expect, name, newer):
    """tar(1) unpacks it, sha256sum(1) agrees, and the program accepts each proof and shows its event as it verified it."""
    subprocess.run(["rm", "-rf", "bundle"], check=True)
    subprocess.run(["tar", "-xf", name], check=True)
    subprocess.run(["sha256sum", "--check", "--quiet", "--strict", "SHA256SUMS"], cwd="bundle", check=True)
    events = done("verify", "events.export", "first.key", newer).decode().splitlines()
    keys = dict(line.split()[1:] for line in read("bundle/chosen.keys").decode().splitlines())
    for index in CHOSEN:
        proof = "bundle/proofs/%d.proof" % index
        if os.path.exists(proof):
            expect(proof, done("check", proof, newer, "--key", keys[str(index)]).decode(), events[index] + "\n")


def claim_of(newer, files):
    """What is so of a bundle."""
    return bundle.Claim(newer, int(newer.split(":")[0]), 0, False, CHOSEN, "events.export" in files, 0)


def try_lies(expect, data, newer, older):
    """Whatever else is said, or is in the archive, is refused: also where digests and page were made again."""
    def refused(what, other, word=newer):
        write("other", other)
        status, shown, _ = answered(bundle_check, "other", word)
        expect(what, (status, shown), (1, ""))

    files = bundle_check.unpacked(data)
    rest = {name: files[name] for name in files if name not in (bundle.SUMS, "README.txt")}
    refused("another commitment", data, older)
    for at in range(0, len(data), 509):
        refused("a changed byte at %d" % at, data[:at] + bytes([data[at] ^ 1]) + data[at + 1:])
    for other in (data[:-1], data + bytes(512), b"", data[512:]):
        refused("bytes left out or added", other)
    for name in files:
        refused("no " + name, bundle.packed({other: files[other] for other in files if other != name}))
    for name in "../outside", "/outside", "with/..", "with/a\nb", "with/a/b", "other", "anchors/1/note", "":
        refused("a file named %r" % name, bundle.packed(bundle.with_sums({**rest, name: b"x"}, claim_of(newer, files))))
    refused("a file that no digest has", bundle.packed({**files, "with/more": b"more"}))
    for what, others in (("a time", {"mtime": 1}), ("an owner", {"uname": "root"}), ("a mode", {"mode": 0o600})):
        refused(what, archive(member_of(name, files[name], **others) for name in sorted(files)))
    refused("another order", archive(member_of(name, files[name]) for name in sorted(files, reverse=True)))
    link = member_of("zz", b"", type=tarfile.SYMTYPE, linkname="/etc/passwd")
    refused("a link", archive([*(member_of(name, files[name]) for name in sorted(files)), link]))
    claim = claim_of(newer, files)
    for what, other in (("fewer are shown", claim._replace(chosen=CHOSEN[1:])), ("anchors", claim._replace(anchors=1)),
                        ("the others", claim._replace(others=not claim.others)), ("the count", claim._replace(count=7))):
        refused("a page that is wrong about " + what, bundle.packed(bundle.with_sums(rest, other)))
    expect("what is right", bundle.packed(bundle.with_sums(rest, claim)) == data, True)
    for name in sorted(rest):
        changed = {**rest, name: rest[name][:-2] + bytes([rest[name][-2] ^ 1]) + rest[name][-1:]}
        if name not in ("verify.html", "chosen.keys"):
            refused("another " + name, bundle.packed(bundle.with_sums(changed, claim)))
    try_exchanged_proofs(refused, rest, claim)


def try_exchanged_proofs(refused, rest, claim):
    proofs = sorted(name for name in rest if name.startswith("proofs/"))
    if proofs:
        first, second = proofs[:2]
        changed = {**rest, first: rest[second], second: rest[first]}
        refused("exchanged proofs", bundle.packed(bundle.with_sums(changed, claim)))
        none = {**{name: rest[name] for name in rest if name not in proofs}, "chosen.keys": b""}
        refused("nothing is shown", bundle.packed(bundle.with_sums(none, claim._replace(chosen=()))))
        fewer = {name: rest[name] for name in rest if name != first}
        refused("a proof is missing", bundle.packed(bundle.with_sums(fewer, claim)))
        more = {**rest, "proofs/1.proof": rest[first]}
        refused("a proof without a key", bundle.packed(bundle.with_sums(more, claim)))


def try_words(expect, newer, older):
    def asked(*words):
        return answered(bundle, "events.export", "chosen", *words)[0]

    write("note.txt", b"a note\n")
    for words, status in (((older, "new"), 1), (("7", "new"), 2), ((newer, "new", "--with"), 2),
                          ((newer, "new", "--without"), 2), ((newer, "new", "--with", "missing"), 3),
                          ((newer, "new", "--with", "first.key"), 2), ((newer, "new", "--anchors", "missing"), 3),
                          ((newer, "new", "--with", "note.txt", "--with", "note.txt"), 2)):
        expect("the words " + " ".join(words), (asked(*words), os.path.exists("new")), (status, False))
    expect("a missing bundle", answered(bundle_check, "missing", newer), (3, "", "bundle_check: file fault\n"))
    expect("no commitment", answered(bundle_check, "some.bundle", "7")[0], 2)


def try_anchored(expect, newer):
    """The notes of a witness and a further file are in it, and what else stands there is not."""
    os.makedirs("kept/00000001", exist_ok=True)
    for name, text in (("note", b"audit-note 1\n"), ("time", b"2026-11-29T06:00:03Z\n"), ("other", b"x")):
        write("kept/00000001/" + name, text)
    write("kept/signers", b"x")
    write("who.pem", b"a certificate\n")
    data = made(expect, "anchored.bundle", newer, "--anchors", "kept", "--with", "who.pem")
    names = {name for name in bundle_check.unpacked(data) if "/" in name}
    expect("what is added", names, {"anchors/00000001/note", "anchors/00000001/time", "with/who.pem"})
    expect("the bundle", answered(bundle_check, "anchored.bundle", newer)[0], 0)


def try_bundles(expect, entries, newer, older):
    """The disclosure `chosen` of the tour's log shows these events."""
    events = done("verify", "events.export", "first.key", newer).decode().splitlines()
    shown = [events[index] for index in CHOSEN]
    sealed = [line if index in CHOSEN else sealed_line(line) for index, line in enumerate(events[:-1])]
    for name, words, lines in (("some.bundle", (), [*sealed, events[-1].replace("verified", "matched")]),
                               ("bare.bundle", ("--without-others",),
                                [*shown, "proved %d %s" % (len(CHOSEN), newer.split(":")[0])])):
        data = made(expect, name, newer, *words)
        expect(name, answered(bundle_check, name, newer), (0, "".join(line + "\n" for line in lines), ""))
        try_other_programs(expect, name, newer)
        try_lies(expect, data, newer, older)
    bare = read("bare.bundle")
    expect("the other entries", [at for at, entry in enumerate(entries) if at not in CHOSEN and entry in bare], [])
    expect("the chosen entries", [at for at in CHOSEN if entries[at] not in bare], [])
    try_words(expect, newer, older)
    try_anchored(expect, newer)
