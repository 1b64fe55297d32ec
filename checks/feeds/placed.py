"""Lines of a file at their places, by tools/file-feed: each is in the log once and in order, whoever is killed."""
import hashlib
import os
import random
import time

from checks.feeds.common import KIND, Feed, Kills, ModelSource, SourceDaemon, payloads_of_kind
from checks.feeds.file import RotatedLog
from checks.parts import program
from checks.parts.files import read_text, write
from checks.parts.model_daemon import ModelDaemon
from checks.parts.places import KEY
from checks.parts.program import done
from checks.parts.scenes import scene
from checks.parts.tools import needs
from checks.parts.waiting import wait_for, wait_while_growing
from checks.parts.wrong import expect, expect_true

# Seconds after which a file that was renamed is finished, and a little more.
FINISHED = 4
# The most bytes of a line that isn't cut.
LONGEST = 32688


def fed(log, socket="source", kept="position", kind=KIND, **how):
    return Feed("file-feed", socket, kept, log.path, str(kind), **how)


def is_at_rest(lines, kept="position"):
    """Whether the feed knows of this many events, and that none is on its way."""
    return os.path.exists(kept) and (" %d idle " % lines) in read_text(kept)


def wait_at_rest(log, kept="position"):
    # Each file that was renamed and not packed takes some seconds.
    wait_while_growing(lambda: is_at_rest(len(log.lines), kept), lambda: os.path.exists(kept) and read_text(kept),
                       "the last of %d lines" % len(log.lines))


def expect_lines(found, log):
    """Each line is there once, in order, and cut if it is too long."""
    lines = [cut_line(line) if len(line) > LONGEST else line for line in log.lines]
    held = set(found)
    missing = [line for line in lines if line not in held]
    expect(len(found), len(lines), "the events, if %d lines are missing of" % len(missing))
    expect_true(found == lines, "the lines come in another order")


def rotate_under_kills(log, kills, turns, least=0, ways=("renamed", "copied", "packed"), most=80):
    """Writes fewer lines than `most` at a time, and rotates in each of these ways, while something is killed between
    the steps: for so many turns, and until there were `least` kills."""

    def between():
        kills.maybe()
        time.sleep(random.choice((0, 0, 0.02, 0.3)))

    turn = 0
    while turn < turns or kills.count < least:
        log.write(random.randrange(most))
        between()
        log.write(random.randrange(most))
        between()
        if turn % 2:
            log.rotate(ways[turn // 2 % len(ways)], between)
        if random.random() < 0.1:
            time.sleep(FINISHED)
        turn += 1


def play_kills(daemon, log, turns, **how):
    """The lines of a log that is rotated, while its feed and the daemon are killed."""
    log.write(5)
    feed = fed(log)
    wait_at_rest(log)
    rotate_under_kills(log, Kills(daemon, feed), turns, **how)
    log.write(1)
    wait_at_rest(log)
    feed.kill()
    daemon.kill()
    expect_lines(daemon.held(), log)


@scene
def scene_placed_file():
    """The feed and the daemon are killed, also in the middle of rotations."""
    needs("gzip")
    play_kills(SourceDaemon(os.getcwd()), RotatedLog("some.log"), 100 if program.LONG else 8)


@scene
def scene_placed_file_late():
    """The same with a daemon of the model, which takes frames of clients that were killed after those of later ones."""
    needs("gzip")
    play_kills(ModelSource("--late"), RotatedLog("some.log"), 50 if program.LONG else 6)


@scene
def scene_frames_come_late():
    """Lines that a killed feed had sent arrive while the next one sends them again."""
    daemon, log = ModelSource("--late"), RotatedLog("some.log")
    log.write(20)
    feed = fed(log)
    for _ in range(30 if program.LONG else 4):
        wait_at_rest(log)
        with daemon.halted():
            log.write(50)
            wait_on_their_way()
            feed.kill()
            feed.start()
            time.sleep(0.3)
    expect_fed(log, feed, daemon)


def wait_on_their_way():
    """Waits until lines are sent to a daemon that is halted."""
    wait_for(lambda: " busy " in read_text("position"), "the place before lines that are on their way")
    time.sleep(0.1)


def expect_fed(log, feed, daemon, said=()):
    """In the end each line is there once, and the feed has said this."""
    wait_at_rest(log)
    feed.kill()
    daemon.kill()
    expect_lines(daemon.held(), log)
    expect(feed.said(), list(said), "what the feed says")


@scene
def scene_files_on_their_way_are_packed():
    """A feed is killed after it began with a file, none of whose lines was acknowledged by then. The file before is
    removed, this one is packed, and the next one begun: its lines aren't sent twice."""
    needs("gzip")
    daemon, log = ModelSource(), RotatedLog("some.log")
    log.write(20)
    feed = fed(log)
    wait_at_rest(log)
    log.rotate("renamed")
    wait_at_rest(log)
    with daemon.halted():
        log.write(30)
        wait_for(lambda: read_text("position").split()[2] == "0", "the place at the start of a file")
        wait_on_their_way()
        feed.kill()
    wait_for(lambda: len(daemon.held()) == len(log.lines), "the lines that were on their way")
    os.remove("some.log.1")
    log.rotate("packed")
    log.write(10)
    feed.start()
    expect_fed(log, feed, daemon)


@scene
def scene_files_begun_under_load():
    """A feed that is killed right after it went from one file to the next, without a pause, doesn't need the first one
    any more."""
    needs("gzip")
    daemon, log = ModelSource(), RotatedLog("some.log")
    log.write(5)
    feed = fed(log)
    wait_at_rest(log)
    feed.kill()
    log.write(20)
    log.rotate("packed")
    before = len(log.lines)
    log.write(1000)
    feed.start()
    wait_for(lambda: len(daemon.held()) > before, "a line of the next file")
    feed.kill()
    os.remove("some.log.1.gz")
    feed.start()
    expect_fed(log, feed, daemon)


@scene
def scene_logs_are_told_apart():
    """A feed whose lines were on their way finds a daemon of another log, which has more events of the kind than were
    acknowledged: none of its lines counts as stored there."""
    first, log = ModelSource(), RotatedLog("some.log")
    log.write(3)
    feed = fed(log)
    wait_at_rest(log)
    with first.halted():
        log.write(5)
        wait_on_their_way()
        feed.kill()
        first.kill()
    write("other", b"7:61 7:62 7:63 7:64 7:65 7:66\n")
    with ModelDaemon("other", "socket", "--writer", "7:source") as second:
        feed.start()
        wait_for(lambda: is_at_rest(6 + 5), "the lines in the other log")
        feed.kill()
        expect(second.payloads(KIND)[6:], log.lines[3:], "the lines in the other log")
    expect(first.held(), log.lines[:3], "the lines in the first log")
    expect(feed.said(), ["file-feed: the log is another one: its event 6 of kind 7 is the next"], "what the feed says")


def cut_line(line):
    """What stands for a line that is too long."""
    note = b" [of %d bytes, SHA-256 %s]" % (len(line), hashlib.sha256(line).hexdigest().encode())
    return line[:LONGEST - len(note)] + note


@scene
def scene_long_lines_at_places():
    """A line of the longest length, one that is longer, and one without its line feed in a file that is finished."""
    daemon, log = SourceDaemon(os.getcwd()), RotatedLog("some.log")
    texts = [b"l" * LONGEST, b"", b"m" * (LONGEST + 1), b"\0\xff\r"]
    log.file.write(b"\n".join(texts) + b"\nlast")
    log.lines += texts
    feed = fed(log)
    wait_at_rest(log)
    log.lines.append(b"last")
    os.rename(log.path, log.path + ".1")
    log.file = open(log.path, "ab", buffering=0)
    log.write(1)
    wait_at_rest(log)
    feed.kill()
    daemon.kill()
    expect_lines(daemon.held(), log)


@scene
def scene_placed_logs_are_rotated():
    """The daemon is stopped under a feed, and its store rotated, once it is full or before: each line is in one of the
    logs. The first event of a rotated log has the kind of the lines, 0."""
    folder = os.getcwd()
    daemon, log, held = SourceDaemon(folder, 0, sectors=40), RotatedLog("some.log"), []
    feed = fed(log, kind=0)
    for turn in range(4):
        log.write(60 if turn % 2 == 0 else 15)
        if turn % 2 == 0:
            wait_for(lambda: "refused: 7 Full" in "".join(feed.said()), "a full store")
        daemon.stop()
        held += payloads_of_kind(daemon.store, 0, folder, "key%d" % turn if turn else KEY)[turn > 0:]
        write("key%d" % (turn + 1), b"%064x" % (turn + 1))
        done("rotate", daemon.store, "next", "40" if turn == 1 else "1000", "key%d" % (turn + 1))
        os.replace("next", daemon.store)
        open(feed.messages, "w").close()
        daemon.start()
    wait_for(lambda: daemon.count() + len(held) == len(log.lines) + 1, "the last line", 60)
    feed.kill()
    daemon.stop()
    expect_lines(held + payloads_of_kind(daemon.store, 0, folder, "key4")[1:], log)
