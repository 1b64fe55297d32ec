"""What the tools for anchors share: the folders of anchors, the programs that sign and stamp, and stamps' times.

An anchor is a folder of eight digits, from 00000001 on, in a folder of them: `note` (what `audit note` prints),
`note.sig` (its signature by `ssh-keygen -Y sign -n audit-commitment`), `note.tsr` (a time stamp of the note, RFC 3161),
`increment` (the consistency proof from the note before it, if there is one that counts less and not zero) and `time`
(the clock of the machine that kept it). Stamp and time may be missing.
"""
import calendar
import hashlib
import os
import re
import stat
import struct
import subprocess
import time

NAMESPACE = "audit-commitment"
NUMBER = re.compile(r"[0-9]{8}")
NOTE = re.compile(r"audit-note 1\nname ([!-~]{1,255})\ncount (0|[1-9][0-9]{0,19})\nroot ([0-9a-f]{64})\n", re.ASCII)
# The files of an anchor, and the most bytes that each is read to.
SIZES = {"note": 371, "note.sig": 1 << 16, "note.tsr": 1 << 20, "increment": 4096, "time": 64}
# An entry without its payload, and the kind and length with which it begins.
OVERHEAD, HEAD = 72, struct.Struct(">II")
# How long a program may take.
SECONDS = 300


class Bad(Exception):
    """What is wrong with an anchor."""


class Tree:
    """The history tree of a log, to which entries are added: the hashes of its full nodes, by layer."""

    def __init__(self):
        self.count, self.full = 0, []

    def add(self, entry):
        value, layer = hashlib.sha256(b"\0" + entry).digest(), 0
        while self.count >> layer & 1:
            value = hashlib.sha256(b"\1" + self.full[layer] + value).digest()
            layer += 1
        if layer == len(self.full):
            self.full.append(value)
        self.full[layer] = value
        self.count += 1

    def root(self):
        """A node without a sibling is hashed alone."""
        if self.count == 0:
            return bytes(32).hex()
        value = None
        for layer in range((self.count - 1).bit_length()):
            if self.count >> layer & 1:
                value = hashlib.sha256(b"\1" + self.full[layer] + (value or b"")).digest()
            elif value is not None:
                value = hashlib.sha256(b"\1" + value).digest()
        return (value or self.full[-1]).hex()


def entries_in(path):
    """The entries of an export; what follows the last whole one is left out."""
    with open(path, "rb") as file:
        while len(head := file.read(HEAD.size)) == HEAD.size:
            rest = HEAD.unpack(head)[1] + OVERHEAD - HEAD.size
            entry = head + file.read(rest)
            if len(entry) < HEAD.size + rest:
                return
            yield entry


class Note:
    def __init__(self, text):
        found = NOTE.fullmatch(text.decode("latin-1"))
        if found is None or int(found[2]) >= 1 << 64:
            raise Bad("it isn't a note")
        self.text, self.name, self.count, self.root = text, found[1], int(found[2]), found[3]

    def word(self):
        return "%d:%s" % (self.count, self.root)


def audit():
    """The program, by its whole path if it isn't on the PATH."""
    found = os.environ.get("AUDIT", "audit")
    return os.path.abspath(found) if "/" in found else found


def run(*words, data=b"", cwd=None):
    """Status, output and messages of a program. One that takes too long, or isn't there, is an OSError."""
    environment = dict(os.environ, LC_ALL="C", TZ="UTC")
    try:
        ended = subprocess.run(words, input=data, capture_output=True, timeout=SECONDS, cwd=cwd, env=environment)
    except subprocess.TimeoutExpired:
        raise OSError("%s: no end within %d seconds" % (os.path.basename(words[0]), SECONDS)) from None
    return ended.returncode, ended.stdout, ended.stderr


def last_line(messages):
    lines = messages.decode(errors="replace").strip().splitlines()
    return lines[-1] if lines else "no message"


def opened(folder, name):
    """A file in a folder, where neither may be a link, also if somebody puts one there meanwhile."""
    room = os.open(folder, os.O_RDONLY | os.O_DIRECTORY | os.O_NOFOLLOW | os.O_CLOEXEC)
    try:
        return os.open(name, os.O_RDONLY | os.O_NOFOLLOW | os.O_NONBLOCK | os.O_CLOEXEC, dir_fd=room)
    finally:
        os.close(room)


def read_in(folder, name):
    """The bytes of an anchor's file, which is a regular one and not too long; none if there is none."""
    try:
        descriptor = opened(folder, name)
    except FileNotFoundError:
        return None
    except OSError as error:
        raise Bad("%s: %s" % (name, error.strerror)) from None
    if not stat.S_ISREG(os.fstat(descriptor).st_mode):
        os.close(descriptor)
        raise Bad("%s is no regular file" % name)
    with os.fdopen(descriptor, "rb") as file:
        data = file.read(SIZES[name] + 1)
    if len(data) > SIZES[name]:
        raise Bad("%s is too long" % name)
    return data


def folders_in(folder):
    """The numbers of the anchors in a folder, in their order. Nothing else there is looked at."""
    return sorted(int(name) for name in os.listdir(folder) if NUMBER.fullmatch(name) and int(name))


def folder_of(folder, number):
    return os.path.join(folder, "%08d" % number)


def is_folder(path):
    return stat.S_ISDIR(os.lstat(path).st_mode)


def note_in(folder):
    data = read_in(folder, "note")
    if data is None:
        raise Bad("there is no note")
    return Note(data)


def stamp_text(path):
    """What OpenSSL says of the token in a reply to a request for a stamp. The token alone is signed: the status beside
    it has a text, which is printed as it is and may look like another time."""
    status, token, messages = run("openssl", "ts", "-reply", "-in", path, "-token_out")
    if not status:
        status, text, messages = run("openssl", "ts", "-reply", "-in", "/dev/stdin", "-token_in", "-text", data=token)
    if status:
        raise Bad("the stamp can't be read: %s" % last_line(messages))
    return text.decode(errors="replace")


def time_of_stamp(path):
    """The time in a stamp, in seconds since 1970."""
    found = re.search(r"^Time stamp: (\w{3} {1,2}\d{1,2} \d\d:\d\d:\d\d)(?:\.\d+)? (\d{4}) GMT$", stamp_text(path), re.M)
    if found is None:
        raise Bad("the stamp has no time")
    return calendar.timegm(time.strptime("%s %s" % (found[1], found[2]), "%b %d %H:%M:%S %Y"))


def shown_time(seconds):
    return "-" if seconds is None else time.strftime("%Y-%m-%dT%H:%M:%SZ", time.gmtime(seconds))
