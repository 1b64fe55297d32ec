"""Notes, and the anchors that a witness makes of them by tools/anchor: signed by a real ssh-keygen, stamped by a local
authority of openssl's, killed, changed, and checked by tools/anchor-check; marks, and the times of events.
500 notes are damaged; runs are killed at each program that they call; folders are hostile, and their files swapped.

usage: bin/check anchors EXECUTABLE [SCENE ..]
"""
import functools
import hashlib
import json
import os
import random
import shutil
import subprocess
import sys
import time

from checks.parts import program
from checks.parts.daemons import Daemon
from checks.parts.files import read, write
from checks.parts.places import at_top, tool
from checks.parts.program import BAD_ARGUMENT, done
from checks.parts.scenes import play_all, scene, scenes_in, words_of
from checks.parts.tools import call, needs
from checks.parts.wrong import expect, expect_true, short
from history import root as root_of
from model.note import note, note_in

ROOT = bytes(range(32))
SIGNER = "witness@example.org"
CONFIGURATION = """
[req]
distinguished_name = name
[name]
[authority]
basicConstraints = critical, CA:true
[stamps]
extendedKeyUsage = critical, timeStamping
[tsa]
default_tsa = local
[local]
serial = %(folder)s/serial
signer_cert = %(folder)s/stamps.pem
signer_key = %(folder)s/stamps.key
certs = %(folder)s/authority.pem
signer_digest = sha256
default_policy = 1.2.3.4.1
digests = sha256
accuracy = secs:1
ess_cert_id_chain = no
"""
# An issuer of certificates with a time of their own.
CA = """
[ca]
default_ca = here
[here]
database = issued
serial = next
new_certs_dir = .
default_md = sha256
policy = any
[any]
commonName = supplied
[stamps]
extendedKeyUsage = critical, timeStamping
"""
# A program in the place of another one: it counts its calls, and at one of them kills the tool that called it, before or
# after it did its work.
WRAPPER = """#!/bin/sh
place=%(folder)s
n=$(($(cat "$place/calls") + 1))
echo "$n" >"$place/calls"
read -r at when <"$place/kill"
if [ "$n" = "$at" ] && [ "$when" = before ]; then kill -9 $PPID; exit 1; fi
%(real)s "$@"
status=$?
if [ "$n" = "$at" ]; then kill -9 $PPID; fi
exit $status
"""


def script(path, text):
    write(path, text.encode())
    os.chmod(path, 0o755)


def make_authority(folder):
    """A certificate authority, one who stamps under it, and the program that asks for a stamp."""
    os.mkdir(folder)
    folder = os.path.abspath(folder)
    configuration = os.path.join(folder, "conf")
    write(configuration, (CONFIGURATION % {"folder": folder}).encode())
    write(os.path.join(folder, "serial"), b"01\n")
    def path(name):
        return os.path.join(folder, name)
    for name in "authority", "stamps":
        call("openssl", "genpkey", "-algorithm", "EC", "-pkeyopt", "ec_paramgen_curve:P-256", "-out", path(name + ".key"))
        call("openssl", "req", "-new", "-config", configuration, "-subj", "/CN=" + name, "-key", path(name + ".key"), "-out",
             path(name + ".csr"))
    call("openssl", "x509", "-req", "-in", path("authority.csr"), "-signkey", path("authority.key"), "-days", "9", "-extfile",
         configuration, "-extensions", "authority", "-out", path("authority.pem"))
    call("openssl", "x509", "-req", "-in", path("stamps.csr"), "-CA", path("authority.pem"), "-CAkey", path("authority.key"),
         "-CAcreateserial", "-days", "9", "-extfile", configuration, "-extensions", "stamps", "-out", path("stamps.pem"))
    script(path("stamper"), "#!/bin/sh\nexec openssl ts -reply -queryfile /dev/stdin -config %s 2>/dev/null\n" % configuration)
    return path("stamper"), path("authority.pem")


def make_key(name):
    call("ssh-keygen", "-q", "-t", "ed25519", "-N", "", "-f", name, "-C", name)
    return read(name + ".pub").decode().split()


class Witness:
    """A daemon, a key, an authority, and a folder of anchors."""

    def __init__(self, folder="some"):
        needs("ssh-keygen", "openssl")
        write("first.key", b"%064d\n" % 7)
        done("format", "store", "2000", "first.key")
        self.daemon = Daemon("store")
        self.stamper, self.authority = make_authority("authority")
        words = make_key("key")
        write("signers", ("%s %s %s\n" % (SIGNER, *words[:2])).encode())
        self.folder = folder
        os.mkdir(folder)

    def append(self, *lines, kind="1"):
        done("send", self.daemon.socket, "--text", kind, data="".join(line + "\n" for line in lines).encode())

    def anchor(self, stamper=True, path=None, limit=None, folder=None, **environment):
        """Status, output and messages of a run."""
        words = [tool("anchor"), self.daemon.socket, "state", folder or self.folder, "key"]
        words += [self.stamper] if stamper is True else [stamper] if stamper else []
        variables = {**os.environ, "AUDIT": program.PATH, **environment}
        if path:
            variables["PATH"] = path + ":" + os.environ["PATH"]
        if limit is not None:
            words = ["prlimit", "--fsize=%d" % limit, *words]
        ended = subprocess.run(words, stdin=subprocess.DEVNULL, capture_output=True, timeout=program.SECONDS, env=variables)
        return ended.returncode, ended.stdout.decode(), ended.stderr.decode()

    def anchored(self, **how):
        found = self.anchor(**how)
        expect((found[0], found[2]), (0, ""), "anchor")
        return found[1]

    def check(self, folder=None, signers="signers", authority=None):
        """Status and lines of anchor-check."""
        words = [tool("anchor-check"), folder or self.folder, signers, authority or self.authority]
        ended = subprocess.run(words, stdin=subprocess.DEVNULL, capture_output=True, timeout=program.SECONDS,
                               env=dict(os.environ, AUDIT=program.PATH))
        expect(ended.stderr, b"", "anchor-check says")
        return ended.returncode, ended.stdout.decode().splitlines()

    def expect_right(self, count, **how):
        status, lines = self.check(**how)
        expect((status, lines[-1], len(lines)), (0, "anchors %d right, 0 wrong, of some" % count, count + 1),
               "anchor-check: %s" % short(lines))
        return lines[:-1]

    def path(self, number, name=""):
        return os.path.join(self.folder, "%08d" % number, name)


def with_witness(function):
    """Plays a scene with a witness whose folder has three anchors."""
    @functools.wraps(function)
    def played():
        witness = Witness()
        for lines in ("a", "b"), ("c",), ("d", "e", "f"):
            witness.append(*lines)
            witness.anchored()
        function(witness)
        witness.daemon.stop()
    return played


@scene
def scene_notes():
    """Notes of the model are printed and read, and damaged ones are refused."""
    drawn = random.Random(64)
    names = [b"a", b"~" * 255, b"some.example/log", b"name", b"-"]
    for name in names:
        for count in 0, 1, 9, 10, (1 << 64) - 1, drawn.getrandbits(64):
            root = drawn.randbytes(32)
            text = note(name, count, root)
            write("note", text)
            words = "--", name.decode(), "%d:%s" % (count, root.hex())
            expect(done("note", *words), text, "a note")
            expect(done("note", "--", name.decode(), "@note"), text, "a note of a note")
            expect(done("note", "--", name.decode(), "@/dev/stdin", data=text), text, "a note from a pipe")
            expect(note_in(text), (name, count, root), "the model's reading")


def damaged(drawn, text):
    """A text that somebody changed in some way."""
    at, other = drawn.randrange(len(text)), drawn.randrange(len(text))
    way = drawn.randrange(8)
    if way == 0:
        return text[:at] + bytes([drawn.randrange(256)]) + text[at + 1:]
    if way == 1:
        return text[:at] + text[at + 1:]
    if way == 2:
        return text[:at] + drawn.choice([b"0", b" ", b"\n", b"\0", b"\r", b"a", b"A", b"_"]) + text[at:]
    if way == 3:
        return text[:at]
    if way == 4:
        return text + text[at:]
    if way == 5:
        return text[:min(at, other)] + text[max(at, other):]
    if way == 6:
        lines = text.splitlines(keepends=True)
        drawn.shuffle(lines)
        return b"".join(lines)
    return text[:at] + text[at:at + 1].swapcase() + text[at + 1:]


@scene
def scene_damaged_notes():
    """500 damaged notes: each is refused, unless the model says of what other commitment it is the note."""
    drawn, refused = random.Random(500), 0
    for _ in range(500):
        name = drawn.choice([b"some", b"a" * 255, b"0:" + b"f" * 64])
        text = damaged(drawn, note(name, drawn.choice([0, 7, 1 << 40]), drawn.randbytes(32)))
        write("note", text)
        found = note_in(text)
        if found is None:
            refused += 1
            expect(program.run("note", "x", "@note"), BAD_ARGUMENT, "%s" % short(text))
        else:
            expect(done("note", "x", "@note"), note(b"x", *found[1:]), "%s" % short(text))
    expect_true(refused > 300, "only %d of 500 were refused" % refused)


@scene
@with_witness
def scene_right(witness):
    """Anchors of a log that grows, stands still and is empty at first."""
    witness.anchored()
    lines = witness.expect_right(4)
    expect([line.split()[:3] for line in lines], [["anchor", str(at), count] for at, count in enumerate("2366", 1)], "the anchors")
    for line in lines:
        words = line.split()
        expect((words[3] in read(witness.path(int(words[1]), "note")).decode(), words[6]), (True, SIGNER), "an anchor")
        expect_true(abs(time.time() - time.mktime(time.strptime(words[4], "%Y-%m-%dT%H:%M:%SZ")) + time.timezone) < 600, line)
    expect(sorted(os.listdir(witness.path(1))), ["note", "note.sig", "note.tsr", "time"], "the first anchor")
    expect(sorted(os.listdir(witness.path(2))), ["increment", "note", "note.sig", "note.tsr", "time"], "the second anchor")
    expect(sorted(os.listdir(witness.path(4))), ["note", "note.sig", "note.tsr", "time"], "one of a log that is the same")
    done("ask", witness.daemon.socket, "export", "export")
    verified = done("verify", "export", "first.key", "@" + witness.path(4, "note"))
    expect(verified.splitlines()[-1], b"verified 6 open", "an export under a note")
    os.mkdir("empty")
    expect(witness.check("empty"), (1, ["anchors 0 right, 0 wrong"]), "no anchors")


@scene
def scene_first_events():
    """A log without events has an anchor, and what grows from it follows."""
    witness = Witness()
    witness.anchored()
    witness.append("a")
    witness.anchored(stamper=None)
    expect(witness.check()[1][1], "anchor 2: there is no stamp", "an anchor without a stamp")
    expect(witness.check(authority="-")[0], 0, "anchors whose stamps aren't asked for")
    witness.daemon.stop()


def flip(path, at):
    data = bytearray(read(path))
    data[at % len(data)] ^= 1
    write(path, bytes(data))


@scene
@with_witness
def scene_changed(witness):
    """Each file with a byte changed, left out, swapped with another anchor's, or replaced by what isn't a file."""
    witness.expect_right(3)
    drawn = random.Random(3)
    shutil.copytree(witness.folder, "whole")
    for name in "note", "increment":
        for _ in range(4):
            flip(witness.path(2, name), drawn.randrange(1 << 16))
            expect_wrong(witness, 2, "%s changed" % name)
    change_stamps(witness, drawn)
    change_signatures(witness, drawn)
    for name in "note", "note.sig", "note.tsr", "increment":
        replace_file(witness, name)
    move_anchors(witness)


def expect_wrong(witness, number, what):
    """An anchor is told to be wrong; then the folder is as it was."""
    status, lines = witness.check()
    expect(status, 1, "%s: the status" % what)
    expect_true(any(line.startswith("anchor %d: " % number) for line in lines), "%s: %s" % (what, short(lines)))
    shutil.rmtree(witness.folder)
    shutil.copytree("whole", witness.folder, symlinks=True)


def change_stamps(witness, drawn):
    """Some bytes of a reply, such as its status as text, aren't signed: then all that is said stays as it was."""
    right, refused = witness.check()[1], 0
    for _ in range(12):
        flip(witness.path(2, "note.tsr"), drawn.randrange(1 << 16))
        if witness.check()[1] == right:
            write(witness.path(2, "note.tsr"), read("whole/00000002/note.tsr"))
        else:
            refused += 1
            expect_wrong(witness, 2, "note.tsr changed")
    expect_true(refused > 5, "of 12 changed stamps only %d were refused" % refused)


def change_signatures(witness, drawn):
    """The signature's text has the key and the signature in base64."""
    for _ in range(4):
        lines = read(witness.path(2, "note.sig")).splitlines()
        at = drawn.randrange(1, len(lines) - 2)
        place = drawn.randrange(len(lines[at]))
        other = b"A" if lines[at][place:place + 1] != b"A" else b"B"
        lines[at] = lines[at][:place] + other + lines[at][place + 1:]
        write(witness.path(2, "note.sig"), b"\n".join(lines) + b"\n")
        expect_wrong(witness, 2, "note.sig changed")


def link_to_whole(path):
    os.symlink(os.path.abspath("whole/00000002/" + os.path.basename(path)), path)


def replace_file(witness, name):
    """A file of an anchor is left out, is that of another one, is long, or is none."""
    os.unlink(witness.path(2, name))
    expect_wrong(witness, 2, "no %s" % name)
    write(witness.path(2, name), read(os.path.join("whole", "00000003", name)))
    expect_wrong(witness, 2, "%s of another" % name)
    write(witness.path(2, name), b"x" * (1 << 21))
    expect_wrong(witness, 2, "a long %s" % name)
    for make in link_to_whole, os.mkfifo, os.mkdir:
        os.unlink(witness.path(2, name))
        make(witness.path(2, name))
        expect_wrong(witness, 2, "%s is no file" % name)


def move_anchors(witness):
    """An anchor is missing, is a link, or has changed places with another one."""
    shutil.rmtree(witness.path(2))
    expect_wrong(witness, 2, "a missing anchor")
    os.rename(witness.path(2), "away")
    os.symlink(os.path.abspath("away"), witness.path(2).rstrip("/"))
    expect_wrong(witness, 2, "a link to an anchor")
    for one, other in (1, 2), (2, 3), (1, 3):
        os.rename(witness.path(one), "aside")
        os.rename(witness.path(other), witness.path(one))
        os.rename("aside", witness.path(other))
        expect_wrong(witness, other, "anchors %d and %d swapped" % (one, other))


@scene
@with_witness
def scene_others(witness):
    """Other signers, other authorities, other names, and stamps that aren't of the note."""
    words = make_key("other")
    write("others", ("%s %s %s\n" % (SIGNER, *words[:2])).encode())
    status, lines = witness.check(signers="others")
    expect((status, lines[-1]), (1, "anchors 0 right, 3 wrong"), "another signer")
    write("namespaces", read("signers").replace(b" ssh-", b' namespaces="file" ssh-'))
    expect(witness.check(signers="namespaces")[0], 1, "a signer of other things")
    stamper, authority = make_authority("elsewhere")
    status, lines = witness.check(authority=authority)
    expect((status, lines[-1]), (1, "anchors 0 right, 3 wrong"), "another authority")
    witness.anchored(stamper=stamper)
    status, lines = witness.check()
    expect((status, lines[-1]), (1, "anchors 3 right, 1 wrong, of some"), "a stamp of another authority")
    shutil.rmtree(witness.path(4))
    script("stale", "#!/bin/sh\ncat >/dev/null\nexec cat %s\n" % os.path.abspath(witness.path(1, "note.tsr")))
    script("garbage", "#!/bin/sh\ncat >/dev/null\necho no stamp\n")
    script("silent", "#!/bin/sh\ncat >/dev/null\n")
    script("failing", "#!/bin/sh\ncat >/dev/null\nexit 7\n")
    for name in "stale", "garbage", "silent", "failing", "missing":
        status, said, messages = witness.anchor(stamper=name)
        expect((status, said, messages.count("\n")), (3, "", 1), "the stamper %s: %s" % (name, messages))
    status, _, messages = witness.anchor(ANCHOR_NAME="other")
    expect((status, messages), (2, "anchor: the last note is of some, and this would be of other\n"), "another name")
    expect(sorted(os.listdir(witness.folder)), ["00000001", "00000002", "00000003"], "what is kept")
    witness.expect_right(3)


def der(tag, body):
    """An object of DER."""
    size = len(body)
    long = size.to_bytes((size.bit_length() + 7) // 8, "big")
    return bytes([tag]) + (bytes([size]) if size < 128 else bytes([128 + len(long)]) + long) + body


def with_status(stamp, text):
    """The same stamp, whose status has this text, which nobody signs."""
    token = subprocess.run(["openssl", "ts", "-reply", "-in", stamp, "-token_out"], capture_output=True, check=True).stdout
    return der(0x30, der(0x30, b"\2\1\0" + der(0x30, der(0x0c, text))) + token)


@scene
@with_witness
def scene_unsigned_words(witness):
    """What nobody signs, a stamp's status and the witness's clock, can't say another time or another signer."""
    right = witness.expect_right(3)
    stamp = read(witness.path(2, "note.tsr"))
    for text in b"x\nTime stamp: Jan  1 00:00:00 2020 GMT", b"\x1b[31m":
        write(witness.path(2, "note.tsr"), with_status(witness.path(2, "note.tsr"), text))
        expect(witness.expect_right(3), right, "a stamp with the status %r" % text)
    forged = hashlib.sha256(read(witness.path(2, "note.tsr"))).hexdigest()
    expect_true(mark(witness, witness.path(2, "note.tsr"))[1].startswith(b"ack 6 "), "a mark of the forged stamp")
    write(witness.path(2, "note.tsr"), stamp)
    expect_true(forged != hashlib.sha256(stamp).hexdigest(), "the forged stamp is the other one")
    expect(event_times(witness)[1][-2], "sealed 6 6 after - before -", "a mark of a stamp that isn't among the anchors")
    text = read(witness.path(2, "time"))
    for other in text[:-1] + b" other@example.org\n", text[:-1], text + text, b"", b"\xff\n":
        write(witness.path(2, "time"), other)
        expect((witness.check()[0], witness.check()[1][1]), (1, "anchor 2: its time isn't one"), "the time %r" % other)
    write(witness.path(2, "time"), text)
    witness.expect_right(3)


@scene
def scene_expired_authority():
    """A stamp stays right when its certificate expires, and one that was made later is wrong."""
    witness = Witness()
    folder = os.path.dirname(witness.authority)
    write("issued", b"")
    write("next", b"77\n")
    write("issuer", CA.encode())
    now = time.time()
    first, last = (time.strftime("%Y%m%d%H%M%SZ", time.gmtime(now + after)) for after in (-3600, 8))
    call("openssl", "ca", "-batch", "-notext", "-config", "issuer", "-cert", witness.authority, "-keyfile",
         os.path.join(folder, "authority.key"), "-in", os.path.join(folder, "stamps.csr"), "-out", "short.pem", "-extensions",
         "stamps", "-startdate", first, "-enddate", last)
    shutil.copy("short.pem", os.path.join(folder, "stamps.pem"))
    witness.anchored()
    witness.expect_right(1)
    time.sleep(max(now + 10 - time.time(), 0))
    witness.expect_right(1)
    witness.append("late")
    witness.anchored()
    status, lines = witness.check()
    expect((status, lines[-1]), (1, "anchors 1 right, 1 wrong, of some"), "a stamp of an expired certificate")
    expect_true("certificate has expired" in lines[1], "why it is wrong: %s" % lines[1])
    witness.daemon.stop()


@scene
@with_witness
def scene_far_number(witness):
    """A folder with a far number isn't one line for each that is missing."""
    for name in "99999999", "00000000":
        os.mkdir(os.path.join(witness.folder, name))
    status, lines = witness.check()
    expect((status, lines[3:]), (1, ["anchor 4: it is missing, and all up to 99999998", "anchor 99999999: there is no note",
                                     "anchors 3 right, 99999996 wrong, of some"]), "a far number")


@scene
@with_witness
def scene_rewritten(witness):
    """A log that isn't the one that it was."""
    witness.daemon.stop()
    os.rename("store", "old")
    done("format", "store", "2000", "first.key")
    witness.daemon = Daemon("store")
    witness.append(*"zyxwvutsr")
    status, said, messages = witness.anchor()
    expect((status, said, messages), (1, "not accepted\n", "anchor: the log isn't the one that it was\n"), "another log")
    os.unlink("state")
    status, said, messages = witness.anchor()
    expect((status, said, messages), (1, "", "anchor: the log doesn't follow from the last note\n"), "a new state")
    expect(sorted(os.listdir(witness.folder)), ["00000001", "00000002", "00000003"], "what is kept")
    witness.daemon.stop()
    status, said, messages = witness.anchor()
    expect((status, said), (3, ""), "no daemon: %s" % messages)
    witness.daemon.start()


def wrappers(folder):
    os.mkdir(folder)
    folder = os.path.abspath(folder)
    for name in "ssh-keygen", "openssl":
        script(os.path.join(folder, name), WRAPPER % {"folder": folder, "real": shutil.which(name)})
    script(os.path.join(folder, "audit"), WRAPPER % {"folder": folder, "real": program.PATH})
    return folder


@scene
@with_witness
def scene_kills(witness):
    """A run is killed before and after each program that it calls, and run again."""
    folder = wrappers("wrapped")
    kept = 3
    for when in "before", "after":
        for at in range(1, 100):
            witness.append("%s %d" % (when, at))
            write(os.path.join(folder, "calls"), b"0\n")
            write(os.path.join(folder, "kill"), ("%d %s\n" % (at, when)).encode())
            status = witness.anchor(path=folder, AUDIT=os.path.join(folder, "audit"))[0]
            if int(read(os.path.join(folder, "calls"))) < at:
                expect(status, 0, "a run that nobody killed")
                kept += 1
                break
            expect_true(status in (-9, 137), "a run that was killed ended with %d" % status)
            expect_true(len([name for name in os.listdir(witness.folder) if name != "new"]) == kept, "what a killed run left")
        expect_true(at > 7, "only %d calls" % at)
        witness.expect_right(kept)
    witness.anchored()
    witness.expect_right(kept + 1)
    expect_true("new" not in os.listdir(witness.folder), "what a killed run left stays")


@scene
@with_witness
def scene_full_disk(witness):
    """No file may grow beyond some bytes: the run fails, keeps nothing, and the next one goes on."""
    needs("prlimit")
    witness.append("more")
    for limit in 0, 50, 100, 200, 400, 1000:
        status, said, messages = witness.anchor(limit=limit)
        expect((status, said), (3, ""), "a file of at most %d bytes: %s" % (limit, messages))
        expect(sorted(os.listdir(witness.folder)), ["00000001", "00000002", "00000003"], "what is kept")
    witness.anchored()
    witness.expect_right(4)


@scene
@with_witness
def scene_hostile_folder(witness):
    """What a neighbour puts into DIR is neither followed nor taken, and names are shown with escapes."""
    os.mkdir("precious")
    write("precious/file", b"precious")
    os.symlink(os.path.abspath("precious"), os.path.join(witness.folder, "new"))
    for name in "x\n", "-rf", "..hidden", "00000004x", "0000004", "\x1b[31m":
        write(os.path.join(witness.folder, name), b"")
    witness.anchored()
    expect(read("precious/file"), b"precious", "what a link leads to")
    witness.expect_right(4)
    os.mkdir(os.path.join(witness.folder, "new"))
    os.symlink(os.path.abspath("precious"), os.path.join(witness.folder, "new", "note"))
    witness.anchored()
    expect((os.listdir("precious"), read("precious/file")), (["file"], b"precious"), "what a link leads to")
    os.symlink(os.path.abspath("precious"), witness.path(6).rstrip("/"))
    status, said, messages = witness.anchor()
    expect((status, said, messages), (3, "", "anchor: anchor 6: it is no folder\n"), "a link in the place of an anchor")
    status, lines = witness.check()
    expect((status, lines[-2]), (1, "anchor 6: it is no folder"), "a link in the place of an anchor")
    for name in "a b", "caf\u00e9", "\x1b[31m":
        os.mkdir(name)
        status, said, messages = witness.anchor(folder=name)
        expect((status, said), (3, ""), "the name %r" % name)
        expect_true("\x1b" not in messages and messages.count("\n") == 1, "the name %r: %r" % (name, messages))
        expect(os.listdir(name), [], "what is kept of %r" % name)
    write(witness.path(5, "time"), b"\x1b[31m\n")
    os.unlink(witness.path(6).rstrip("/"))
    expect_true("\x1b" not in "".join(witness.check()[1]), "a time with an escape")
    holder = subprocess.Popen(["flock", witness.folder, "sleep", "30"])
    try:
        for _ in range(100):
            found = witness.anchor()
            if found[0] == 3:
                break
        expect(found, (3, "", "anchor: another run has DIR\n"), "two runs")
    finally:
        holder.kill()
        holder.wait()


def event_times(witness, *words, lines=None, folder=None):
    """Status and lines of event-times, on the log or on lines of another one whose entries nobody sealed."""
    if lines is None:
        done("ask", witness.daemon.socket, "export", "export")
        commitment = witness.daemon.commitment()
        lines = program.whole("verify", "export", "first.key", commitment, "--json")[1]
    else:
        write("export", bytes(72) * lines.count(b"\n"))
    ended = subprocess.run([tool("event-times"), "export", folder or witness.folder, "signers", witness.authority, *words],
                           input=lines, capture_output=True, timeout=program.SECONDS, env=dict(os.environ, AUDIT=program.PATH))
    expect(ended.stderr, b"", "event-times says")
    return ended.returncode, ended.stdout.decode().splitlines()


def mark(witness, *words):
    ended = subprocess.run([tool("mark"), witness.daemon.socket, *words], stdin=subprocess.DEVNULL, capture_output=True,
                           timeout=program.SECONDS, env=dict(os.environ, AUDIT=program.PATH))
    return ended.returncode, ended.stdout, ended.stderr


@scene
@with_witness
def scene_times(witness):
    """Marks and anchors bound when events were sealed."""
    times = [line.split()[4] for line in witness.expect_right(3)]
    status, said, _ = mark(witness, witness.path(3, "note.tsr"))
    expect((status, said.startswith(b"ack 6 7 ")), (0, True), "a mark")
    time.sleep(1.1)
    witness.append("after the mark")
    witness.anchored()
    witness.append("last")
    last = witness.expect_right(4)[3].split()[4]
    expect_true(last > times[2], "a stamp a second later: %s" % last)
    expect(event_times(witness), (0, [
        "sealed 0 1 after - before " + times[0], "sealed 2 2 after - before " + times[1], "sealed 3 5 after - before " + times[2],
        "sealed 6 7 after %s before %s" % (times[2], last), "sealed 8 8 after %s before -" % times[2],
        "events 9 marks 1 anchors 4"]), "the times")
    expect(mark(witness, "missing")[0], 3, "a stamp that isn't there")
    os.mkfifo("pipe")
    expect(mark(witness, "pipe"), (3, b"", b"mark: STAMP is no regular file\n"), "a stamp that is a pipe")
    expect(mark(witness)[0], 0, "a mark without a stamp")
    flip(witness.path(2, "note.sig"), 60)
    status, lines = event_times(witness)
    expect((status, lines[0].startswith("anchor 2: "), lines[-1]), (1, True, "events 10 marks 2 anchors 3"), "a wrong anchor")


@scene
@with_witness
def scene_times_of_another_log(witness):
    """Anchors of another log bound nothing, and the tool's tree is the model's."""
    sys.path.insert(0, at_top("tools"))
    from anchors import Tree
    tree, leaves = Tree(), []
    for count in range(70):
        expect(tree.root(), root_of(leaves).hex(), "the root of %d" % count)
        entry = b"entry %d" % count
        tree.add(entry)
        leaves.append(hashlib.sha256(b"\0" + entry).digest())
    done("ask", witness.daemon.socket, "export", "export")
    lines = program.whole("verify", "export", "first.key", witness.daemon.commitment(), "--json")[1]
    status, found = event_times(witness, lines=lines)
    expect((status, found), (1, ["anchor %d: it is of another log" % number for number in (1, 2, 3)] + [
        "sealed 0 5 after - before -", "events 6 marks 0 anchors 0"]), "other entries")
    status, found = event_times(witness, lines=b"".join(lines.splitlines(keepends=True)[:1]))
    expect((status, found), (0, ["sealed 0 0 after - before -", "events 1 marks 0 anchors 0"]), "a shorter log")


def line_of_mark(index, clock, boot, up, stamp=None):
    text = json.dumps({"mark": 1, "clock": clock, "boot": boot, "up": up, "stamp": stamp})
    return json.dumps({"index": index, "kind": 8, "text": text}).encode() + b"\n"


@scene
@with_witness
def scene_clocks(witness):
    """Gaps, starts, and clocks that went back or are wrong, by the marks' own words."""
    os.mkdir("none")

    def said(*marks, words=()):
        lines = b"".join(line_of_mark(10 + at, *mark) for at, mark in enumerate(marks))
        before = b"".join(b'{"index":%d,"kind":1,"text":"{}"}\n' % at for at in range(10))
        status, found = event_times(witness, *words, lines=before + lines, folder="none")
        return status, [line for line in found if line.split()[0] in ("gap", "restarted", "clock")]
    first = "2026-01-01T00:00:00.000Z", "a", 100.0
    expect(said(first, ("2026-01-01T00:05:00.000Z", "a", 400.0)), (0, []), "two marks")
    expect(said(first, ("2026-01-01T00:20:00.000Z", "a", 1300.0)), (1, ["gap 10 11 1200"]), "a gap")
    expect(said(first, ("2026-01-01T00:20:00.000Z", "a", 1300.0), words=["3600"]), (0, []), "a gap that is allowed")
    expect(said(first, ("2026-01-01T00:05:00.000Z", "b", 20.0)), (0, ["restarted 10 11"]), "a start")
    expect(said(first, ("2025-12-31T23:00:00.000Z", "a", 400.0)), (1, ["clock back 10 11 3900.0"]), "a clock that went back")
    expect(said(first, ("2025-12-31T23:00:00.000Z", "b", 4.0)), (1, ["restarted 10 11", "clock back 10 11 3600.0"]), "back at a start")
    expect(said(first, ("2026-01-01T00:00:10.000Z", "a", 400.0)), (1, ["clock back 10 11 290.0"]), "a clock that was set back")
    expect(said(first, ("2026-01-01T00:00:10.000Z", "a", 4000.0)), (1, ["clock back 10 11 3890.0", "gap 10 11 3900"]), "a hidden gap")
    stamped = line_of_mark(0, "2001-01-01T00:00:00.000Z", "a", 1.0)
    expect(event_times(witness, lines=stamped, folder="none")[0], 0, "a clock without a lower bound")
    digest = hashlib.sha256(read(witness.path(1, "note.tsr"))).hexdigest()
    status, lines = event_times(witness, lines=line_of_mark(0, "2001-01-01T00:00:00.000Z", "a", 1.0, digest))
    expect((status, lines[-2]), (1, "clock wrong 0 2001-01-01T00:00:00Z"), "a clock that is long past")
    clock = '{"mark":1,"clock":"2026-01-01T00:00:00.000Z","boot":"a","up":%s,"stamp":%s}'
    for text in ('{"mark":2}', '{"mark":1}', "[]", '{"mark":1,"clock":"x","boot":"a","up":1,"stamp":null}', "1e999",
                 "[" * 32000, clock % ("NaN", "null"), clock % ("1e999", "null"), clock % ("1", "[]"), clock % ("1", "{}")):
        line = json.dumps({"index": 0, "kind": 8, "text": text}).encode() + b"\n"
        expect(event_times(witness, lines=line, folder="none")[1][-1], "events 1 marks 0 anchors 0", "the mark %s" % text[:80])


@scene
def scene_minisign():
    """A note that minisign signs."""
    needs("minisign")
    write("note", note(b"some", 3, ROOT))
    call("minisign", "-G", "-W", "-p", "minisign.pub", "-s", "minisign.key")
    call("minisign", "-S", "-s", "minisign.key", "-m", "note")
    call("minisign", "-V", "-p", "minisign.pub", "-m", "note")
    flip("note", 20)
    refused = subprocess.run(["minisign", "-V", "-p", "minisign.pub", "-m", "note"], capture_output=True)
    expect_true(refused.returncode != 0, "minisign takes a note that was changed")


@scene
def scene_counter_of_a_tpm():
    """A TPM certifies its counter, which only grows, for the digest of a note."""
    needs("swtpm", "tpm2_nvdefine", "tpm2_nvincrement", "tpm2_nvread", "tpm2_nvcertify", "tpm2_verifysignature",
          "tpm2_flushcontext")
    os.mkdir("tpm")
    swtpm = subprocess.Popen(["swtpm", "socket", "--tpm2", "--tpmstate", "dir=tpm", "--server", "port=2321", "--ctrl",
                              "type=tcp,port=2322", "--flags", "not-need-init,startup-clear"])
    try:
        os.environ["TPM2TOOLS_TCTI"] = "swtpm:port=2321"
        call("tpm2_nvdefine", "-C", "o", "-s", "8", "-a", "ownerread|ownerwrite|nt=counter", "0x1500016")
        counts = []
        for _ in range(2):
            call("tpm2_nvincrement", "-C", "o", "0x1500016")
            counts.append(int.from_bytes(call("tpm2_nvread", "-C", "o", "0x1500016"), "big"))
        expect(counts[1], counts[0] + 1, "the counter")
        call("tpm2_createprimary", "-C", "o", "-G", "ecc", "-c", "primary")
        call("tpm2_flushcontext", "-t")
        call("tpm2_create", "-C", "primary", "-G", "ecc256:ecdsa-sha256:null", "-u", "public", "-r", "private", "-a",
             "fixedtpm|fixedparent|sensitivedataorigin|userwithauth|restricted|sign")
        call("tpm2_flushcontext", "-t")
        call("tpm2_load", "-C", "primary", "-u", "public", "-r", "private", "-c", "signer")
        call("tpm2_flushcontext", "-t")
        digest = hashlib.sha256(note(b"some", 3, ROOT)).hexdigest()
        call("tpm2_nvcertify", "-C", "signer", "-c", "o", "-g", "sha256", "-q", digest, "--size", "8", "--attestation", "certified", "-o",
             "signature", "0x1500016")
        verify = "tpm2_verifysignature", "-c", "signer", "-g", "sha256", "-m", "certified", "-s", "signature"
        call(*verify)
        expect_true(bytes.fromhex(digest) in read("certified"), "the digest isn't certified")
        flip("certified", read("certified").index(bytes.fromhex(digest)))
        refused = subprocess.run(verify, capture_output=True)
        expect_true(refused.returncode != 0, "the TPM takes a digest that was changed")
    finally:
        swtpm.kill()
        swtpm.wait()


SCENES = scenes_in(sys.modules[__name__])


def main(words):
    _, names = words_of(words, SCENES, options=())
    return play_all(SCENES, names)
