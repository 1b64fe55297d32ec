"""Stores that are opened only if their log extends what a witness saw: `daemon`, `append` and `rotate` with `--extends
STATE`. Every store and every commitment is the model's."""
import os
import random
import re
import signal
import subprocess
import time

from checks.daemon.common import Daemon
from checks.parts.clients import connected, index_in
from checks.parts.files import read, write
from checks.parts.frames import append_frame, reply_of
from checks.parts.logs import payloads_of, root, word_of
from checks.parts.program import FILE_FAULT
from checks.parts.rooms import FIRST_KEY
from checks.parts.scenes import scene
from checks.parts.tools import needs
from checks.parts.waiting import is_socket
from checks.parts.wrong import expect, expect_true
from model.chain import log_of
from model.disk import header_of, header_sector, image_of, recovered

SECTORS = 200
GENERATION = 9
NO_LINE = (1, b"", b"audit: line 1: bad commitment line\n")


def log(count, name="text", key=FIRST_KEY, after=()):
    """A log of so many events, after others."""
    return log_of(list(after) + [(1, payload) for payload in payloads_of(name, count)], key)


def word(known, count=None):
    """The commitment to the first entries of a log."""
    count = len(known.events) if count is None else count
    return word_of(count, root(known.entries, count))


def at_rest(known):
    return image_of(known, GENERATION, SECTORS)


def half_committed(before, after):
    """The image of a commit that was stopped after its first header."""
    image = image_of(after, GENERATION + 1, SECTORS)
    image[GENERATION % 2] = header_sector(header_of(before, GENERATION, SECTORS))
    return image


def uncommitted(before, after):
    """The image of a commit that was stopped before its first header: the entries are behind the end of the log."""
    return image_of(before, GENERATION, SECTORS)[:2] + image_of(after, GENERATION, SECTORS)[2:]


def put(room, image, name="store"):
    path = room.path(name)
    write(path, b"".join(image))
    os.chmod(path, 0o600)
    return path


def state(room, *words, last=b"", name="state"):
    """A witness's file with these commitments, and then these bytes."""
    path = room.path(name)
    write(path, b"".join(b"%s\n" % each.encode() for each in words) + last)
    return path


def other_log(held, own):
    line = b"audit: held %s, the store has %s\n" % (held.encode(), own.encode())
    return 1, b"", b"audit: other log\n" + line


def rotations_of(room, store):
    """The words of both ways to let a log go on, in a new store and in one that is prepared."""
    key, prepared = room.path("next.key"), room.path("prepared")
    if not os.path.exists(prepared):
        write(key, b"%064d\n" % 7)
        room.done("format", prepared, "10", key)
    return (["rotate", store, room.path("new"), "10", key],
            ["rotate", store, prepared, "--prepared", "--link", room.path("link")])


def expect_refused(room, store, kept, wanted, what):
    """No command opens the store, and none writes to it, or makes another file."""
    before, socket = (read(store), os.stat(store).st_mtime_ns), room.path("socket")
    commands = (["daemon", store, socket], ["append", store], ["append", store, "--follow", "--text", "1"],
                *rotations_of(room, store))
    prepared = read(room.path("prepared"))
    for words in commands:
        expect(room.run(*words, "--extends", kept, given=b"event 1 -\n"), wanted, "%s: %s" % (words[0], what))
        expect((read(store), os.stat(store).st_mtime_ns), before, "the store after %s: %s" % (words[0], what))
    expect(read(room.path("prepared")), prepared, "the prepared store: " + what)
    for name in ("socket", "new", "new.rotate.tmp", "link", "link.rotate.tmp"):
        expect_true(not os.path.lexists(room.path(name)), "a command leaves %s: %s" % (name, what))


def expect_served(room, store, kept, count, what):
    """A daemon serves the store, and takes an event; so does an append."""
    daemon = Daemon(room, store, "--extends", kept)
    expect_true(daemon.ready.startswith(b"ready %d " % count), "%s: %r" % (what, daemon.ready))
    with connected(daemon.socket) as client:
        client.sendall(append_frame(b"more"))
        expect(index_in(reply_of(client)), count, "an append: " + what)
    daemon.stopped_well()
    acknowledged = room.done("append", store, "--extends", kept, given=b"event 1 -\n")
    expect_true(acknowledged.startswith(b"ack %d %d " % (count + 1, count + 2)), "%s: %r" % (what, acknowledged))


@scene
def a_store_put_back_from_a_copy_is_not_served(room):
    """A copy that lacks events of the newest commitment of STATE is refused with both commitments, and nothing is
    written. Without STATE it is served, as nobody could tell."""
    whole = log(40)
    kept = state(room, *(word(whole, count) for count in (1, 7, 32, 40)))
    for count in (0, 1, 2, 3, 31, 32, 33, 39):
        copy = log_of(whole.events[:count], FIRST_KEY)
        store = put(room, at_rest(copy))
        expect_refused(room, store, kept, other_log(word(whole), word(copy)), "a copy of %d events" % count)
        daemon = Daemon(room, store)
        expect_true(daemon.ready.startswith(b"ready %d " % count), "a copy without STATE: %r" % daemon.ready)
        daemon.stopped_well()


@scene
def a_log_that_went_on_is_served(room):
    """A store whose log extends the newest commitment of STATE is served, whatever stands in the lines before it; and
    so is every log if the commitment is that of none."""
    whole = log(40)
    for count in (0, 1, 2, 3, 31, 32, 33, 39, 40):
        kept = state(room, word(log(50, "other")), word(whole, count))
        expect_served(room, put(room, at_rest(whole)), kept, 40, "STATE of %d events" % count)
    kept = state(room, word(whole, 7), last=word(whole, 33).encode())
    expect_served(room, put(room, at_rest(whole)), kept, 40, "a last line without its end")
    kept = state(room, word(whole, 33), last=word(log(50, "other")).encode()[:20])
    expect_served(room, put(room, at_rest(whole)), kept, 40, "a last line that was cut off")


@scene
def a_log_that_went_on_is_rotated(room):
    """A log that extends STATE is closed and goes on; so it does where the same words are given again, since the closed
    log extends STATE too. Of the next store, which is another log, STATE says nothing."""
    whole = log(40)
    kept = state(room, word(whole, 7), word(whole, 33))
    store = put(room, at_rest(whole))
    for words, lines in zip(rotations_of(room, store), ((b"formatted 10", b"ack 0 1 "), (b"ack 0 2 ",))):
        put(room, at_rest(whole))
        said = room.done(*words, "--extends", kept)
        first, *others = said.splitlines()
        expect_true(first.startswith(b"closed 41 "), "a rotation: %r" % said)
        expect([line.startswith(one) for line, one in zip(others, lines, strict=True)], [True] * len(lines), "its lines")
        expect(room.done(*words, "--extends", kept), said, "the same words again")


@scene
def another_log_is_not_served(room):
    """A log of other events, of another key, and one that went on otherwise from a copy, however long."""
    whole = log(40)
    kept = state(room, word(whole, 7), word(whole))
    forks = [log(count, "other", after=whole.events[:20]) for count in (1, 19, 20, 21, 60)]
    last = log(1, "other", after=whole.events[:39])
    for other in [log(40, "other"), log(60, "other"), log(40, key=bytes(32)), last, *forks]:
        expect_refused(room, put(room, at_rest(other)), kept, other_log(word(whole), word(other)),
                       "another log of %d events" % len(other.events))


@scene
def states_that_say_nothing_end_the_command(room):
    """A STATE that isn't there, or no file, is a file fault, with its cause; one without a commitment, or with a line
    that is none, is refused as `watch` refuses it. The store isn't opened."""
    store, whole = put(room, at_rest(log(5))), log(5)
    os.mkdir(room.path("folder"))
    lines = b"%s\n" % word(whole).encode()
    for kept, wanted in (
        (room.path("missing"), FILE_FAULT),
        (room.path("folder"), FILE_FAULT),
        (state(room, name="empty"), NO_LINE),
        (state(room, last=b"5:", name="torn"), NO_LINE),
        (state(room, last=b"nonsense\n" + lines, name="wrong"), NO_LINE),
        (state(room, word(whole), last=b"nonsense\n" + lines, name="second"),
         (1, b"", b"audit: line 2: bad commitment line\n")),
    ):
        expect_refused(room, store, kept, wanted, "STATE " + os.path.basename(kept))
    for kept, cause in (("missing", b"No such file or directory"), ("folder", b"it is no regular file")):
        _, _, messages = room.whole("daemon", store, room.path("socket"), "--extends", room.path(kept))
        expect_true(re.search(rb"audit: \S*%s: %s" % (kept.encode(), cause), messages), "the cause: %r" % messages)


@scene
def a_stopped_commit_is_judged_before_its_repair(room):
    """After a commit that was stopped, the log of the active header is judged as it is: with the batch once a header has
    it. Nothing is repaired of another log; of the right one all that an opening repairs."""
    before, after, other = log(10), log(12), log(12, "other")
    for image, held, accepted, refused in (
        (half_committed(before, after), after, (word(before), word(after), word(after, 11)), (word(other), word(log(13)))),
        (uncommitted(before, after), before, (word(before), word(before, 9)), (word(after), word(other))),
    ):
        for kept in refused:
            expect_refused(room, put(room, image), state(room, kept), other_log(kept, word(held)), "a stopped commit")
        for kept in accepted:
            store = put(room, image)
            daemon = Daemon(room, store, "--extends", state(room, kept))
            daemon.stopped_well()
            expect(read(store), b"".join(recovered(image)), "the store after its repair")
            expect_served(room, store, room.path("state"), len(held.events), "a repaired store")


@scene
def another_log_is_only_read(room):
    """The calls that reach the store: reads, and one sync at most."""
    needs("strace")
    whole = log(40)
    kept = state(room, word(whole))
    store = put(room, half_committed(log(10), log(12)))
    calls = "trace=write,pwrite64,writev,pwritev,pwritev2,ftruncate,fallocate,fsync,fdatasync,sync_file_range"
    trace = room.path("trace")
    traced = ["strace", "-f", "-y", "-e", calls, "-o", trace, room.executable]
    for words in (["daemon", store, room.path("socket")], ["append", store]):
        ended = subprocess.run([*traced, *words, "--extends", kept], stdin=subprocess.DEVNULL, capture_output=True,
                               timeout=room.seconds)
        expect(ended.returncode, 1, "another log, traced: %r" % ended.stderr)
        reached = [line for line in read(trace).decode().splitlines() if "<%s>" % store in line]
        expect_true(len(reached) <= 1 and all("sync(" in line for line in reached), "calls: %r" % reached)


@scene
def openings_may_be_killed(room):
    """A daemon that is killed while it opens the store leaves one that is judged alike: another log byte for byte as it
    was, the right one with its events."""
    before, after = log(10), log(12)
    image = half_committed(before, after)
    store, longer = put(room, image), state(room, word(log(13)), name="longer")
    for _ in range(room.tries()):
        killed_early(room, store, longer)
        expect(read(store), b"".join(image), "another log, after a kill")
    expect_refused(room, store, longer, other_log(word(log(13)), word(after)), "after kills")
    kept = state(room, word(before))
    for _ in range(room.tries()):
        killed_early(room, put(room, image), kept)
        expect_served(room, store, kept, 12, "after a kill")


def killed_early(room, store, kept):
    process = room.start("daemon", store, room.path("socket"), "--extends", kept)
    time.sleep(random.uniform(0, 0.05))
    process.send_signal(signal.SIGKILL)
    process.communicate(timeout=room.seconds)
    for path in (room.path("socket"), room.path("socket.stop")):
        if is_socket(path):
            os.remove(path)
