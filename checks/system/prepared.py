"""`rotate --prepared`: links that are made before anything else is changed, kills, and stores that aren't joined."""
import os
import random
import re
import shutil
import signal
import subprocess
import threading

from checks.parts.files import mode_of, read, temporary_names, write
from checks.parts.logs import event_line, payloads_of
from checks.parts.program import BAD_ARGUMENT, FILE_EXISTS, FILE_FAULT, IN_USE, SECONDS
from checks.parts.rooms import FIRST_KEY
from checks.parts.scenes import scene
from checks.parts.waiting import wait_listening
from checks.parts.wrong import expect, expect_true
from model.chain import CLOSE, log_of
from model.links import link_bytes, link_of
from model.tree import root
from read_export import sha256

# The calls that change a file, or its name.
CHANGES = ("openat", "write", "pwrite64", "fsync", "fdatasync", "link", "linkat", "rename", "unlink", "unlinkat")


def key_named(room, name):
    """A key, and the path of its file."""
    key = sha256(name.encode())
    write(room.path(name), key.hex().encode())
    os.chmod(room.path(name), 0o600)
    return key, room.path(name)


def prepared(room, name, key_file, sectors=100):
    """An empty store with this first key."""
    path = room.path(name)
    room.done("format", path, str(sectors), key_file)
    return path


def old_of(room, name, payloads):
    """A store of events of three kinds, and its log once it is closed."""
    events = [(place % 3, payload) for place, payload in enumerate(payloads)]
    path = room.store(name)
    if events:
        room.done("append", path, given=b"".join(event_line(payload, kind) for kind, payload in events))
    return path, log_of(events + [CLOSE], FIRST_KEY)


def expect_joined(room, words, old, new, link):
    """A rotation that ends well: its lines, the link, the two logs, and that the same words find it."""
    lines = b"closed %d %s\nack 0 2 %s\n" % (len(old.entries), root_of(old), root_of(new))
    expect(room.done(*words), lines, "the lines of a rotation")
    path = words[words.index("--link") + 1]
    expect((read(path), mode_of(path)), (link_bytes(link), 0o600), "the link")
    commitments = [room.commitment_word(store) for store in words[1:3]]
    expect(commitments, ["%d:%s" % (len(log.entries), root_of(log).decode()) for log in (old, new)], "the commitments")
    expect(room.done("check", path, *commitments, "--link"), b"accepted\n", "the link as a witness checks it")
    before = [read(name) for name in (*words[1:3], path)]
    expect(room.done(*words), lines, "the lines of a rotation that was done")
    expect([read(name) for name in (*words[1:3], path)], before, "the files after they were found")
    expect(temporary_names(room.folder), [], "what rotations leave")


def root_of(log):
    return root(log.leaves).hex().encode()


@scene
def prepared_stores_are_joined(room):
    """Three logs that go on from each other: the links are those of the model, count what was counted before, and each
    log is verified with its key. What can't be joined is refused, and nothing has changed."""
    second, second_file = key_named(room, "second.key")
    third, third_file = key_named(room, "third.key")
    first, first_log = old_of(room, "first", payloads_of("event", 5))
    middle, last = prepared(room, "middle", second_file), prepared(room, "last", third_file)
    refuse_first(room, first, middle)
    link, middle_log = link_of(first_log, second)
    expect_joined(room, ("rotate", first, middle, "--prepared", "--link", room.path("link")), first_log, middle_log, link)
    room.done("append", middle, given=event_line(b"more", 7))
    refuse_second(room, first, middle, last)
    closed = log_of(middle_log.events + [(7, b"more"), CLOSE], second)
    link, last_log = link_of(closed, third, {0: 2, 1: 2, 2: 1}, 2)
    expect_joined(room, ("rotate", middle, last, "--prepared", "--link", room.path("link2"), "--after", room.path("link")),
                  closed, last_log, link)
    for store, key_file in ((first, room.key_file), (middle, second_file), (last, third_file)):
        room.done("export", store, room.path("export"))
        room.done("verify", room.path("export"), key_file, room.commitment_word(store))


def refuse_first(room, old, new):
    """What isn't joined to an empty store. Nothing is made, and the log stays open."""
    own = prepared(room, "own", room.key_file)
    small = prepared(room, "small", room.path("third.key"), 3)
    empty = room.store("empty")
    other, link = room.path("other"), room.path("link")
    write(other, b"a file of somebody else")
    os.mkfifo(room.path("pipe"))
    stores = (old, new, own, small, empty, other)
    before, names = [read(path) for path in stores], sorted(os.listdir(room.folder))
    for words, wanted in [
            ((old, old, link), BAD_ARGUMENT), ((old, own, link), BAD_ARGUMENT), ((empty, own, link), BAD_ARGUMENT),
            ((old, small, link), (1, b"", b"audit: 7 Full\n")),
            ((old, new, other), FILE_EXISTS), ((old, new, old), FILE_EXISTS), ((old, new, new), FILE_EXISTS),
            ((old, new, room.path("pipe")), FILE_EXISTS), ((old, new, room.folder), FILE_EXISTS),
            ((old, new, room.path("missing/link")), FILE_FAULT), ((old, room.path("missing"), link), FILE_FAULT),
            ((room.path("missing"), new, link), FILE_FAULT), ((old, new, link, "--after", link), FILE_FAULT),
            ((old, new, link, "--after", other), (1, b"", b"audit: 32 BadProof\n"))]:
        expect_refused(room, words, wanted)
    daemon = room.start("daemon", new, room.path("socket"))
    wait_listening(room.path("socket"), daemon)
    expect_refused(room, (old, new, link), IN_USE)
    room.done("stop", room.path("socket"))
    daemon.wait(SECONDS)
    expect([read(path) for path in stores], before, "the stores that were not joined")
    expect(sorted(os.listdir(room.folder)), names, "the files beside them")


def expect_refused(room, words, wanted):
    """The refusal of a rotation; where no second line is expected, none is compared."""
    old, new, link, *more = words
    status, output, messages = room.run("rotate", old, new, "--prepared", "--link", link, *more)
    if wanted[2].count(b"\n") == 1:
        messages = messages.splitlines(keepends=True)[0]
    expect((status, output, messages), wanted, "rotate " + " ".join(words))


def refuse_second(room, first, middle, last):
    """A store that has more than the two events, a link of another store, and one to another log."""
    link, again = room.path("link"), prepared(room, "again", room.path("third.key"))
    stores = (first, middle, last, again, link)
    before = [read(path) for path in stores]
    for words, wanted in [
            ((first, middle, link), FILE_EXISTS), ((first, again, link), FILE_EXISTS),
            ((middle, last, link, "--after", link), FILE_EXISTS),
            ((first, last, room.path("link2"), "--after", link), (1, b"", b"audit: other link\n"))]:
        expect_refused(room, words, wanted)
    many = room.store("many", sectors=2000)
    room.done("append", many, given=b"".join(event_line(b"", kind) for kind in range(1001)))
    expect_refused(room, (many, again, room.path("link2")), (1, b"", b"audit: too many kinds\n"))
    expect([read(path) for path in stores], before, "the stores that were not joined")


@scene
def prepared_rotations_survive_kills(room):
    """`rotate --prepared` is killed at each call that changes something, and at random moments, and run again: the link
    is made before the old log is closed, and stays the same."""
    key, key_file = key_named(room, "next.key")
    kills = kills_at_calls(room, key, key_file) if shutil.which("strace") else 0
    number = 0
    while kills < (200 if room.is_long else 10):
        number += 1
        kills += expect_continued(room, key, key_file, "random%d" % number, killed_later)


def killed_later(room, words):
    """Kills a rotation after a moment, or too late."""
    process = room.start(*words)
    threading.Timer(random.uniform(0, 0.2), process.kill).start()
    process.communicate(timeout=SECONDS)
    return process.returncode == -signal.SIGKILL


def kills_at_calls(room, key, key_file):
    """Kills a rotation at each call that changes something, counted for each name. Returns the number of kills."""
    kills = 0
    for name in CHANGES:
        at, killed = 1, True
        while killed:
            killed = expect_continued(room, key, key_file, "%s%d" % (name, at), killed_at(name, at))
            kills, at = kills + killed, at + 1
    expect_true(kills > 20, "a rotation makes only %d calls that change something" % kills)
    return kills


def killed_at(name, number):
    """What kills a rotation when it enters its call of that name and number."""

    def kill(room, words):
        how = ["-f", "-qq", "-o", room.path("calls"), "-e", "trace=" + name,
               "-e", "inject=%s:signal=KILL:when=%d" % (name, number)]
        done = subprocess.run(["strace", *how, room.executable, *words], cwd=room.folder, stdin=subprocess.DEVNULL,
                              stdout=subprocess.PIPE, stderr=subprocess.DEVNULL, timeout=SECONDS)
        os.remove(room.path("calls"))
        return done.returncode != 0

    return kill


def expect_continued(room, key, key_file, name, kill):
    """Rotates a store, kills that so, and runs it again. Returns whether it was killed."""
    old, log = old_of(room, name + ".old", payloads_of("event", 1 + len(name) % 4))
    new, path = prepared(room, name + ".new", key_file), room.path(name + ".link")
    link, new_log = link_of(log, key)
    words = ("rotate", old, new, "--prepared", "--link", path)
    killed = kill(room, words)
    if os.path.exists(path):
        expect(read(path), link_bytes(link), "the link after a kill")
    else:
        expect_true(re.search(rb" state open$", room.done("show", old), re.M) is not None, "a log is closed without a link")
        expect_true(room.done("show", new).startswith(b"commit 0 "), "a store has events without a link")
    expect_joined(room, words, log, new_log, link)
    for made in (old, new, path):
        os.remove(made)
    return killed
