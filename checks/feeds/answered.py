"""What tools/file-feed makes of the answers that it gets, of what it may do, and of who else appends."""
import os
import subprocess
import sys

from checks.feeds.common import KIND, ModelSource
from checks.feeds.file import RotatedLog
from checks.feeds.placed import expect_lines, fed, wait_at_rest
from checks.parts.clients import side_by_side
from checks.parts.daemons import Serving
from checks.parts.files import read_text
from checks.parts.frames import (
    acknowledgement, commitment_reply, entry_reply, frame, place_reply, placed_acknowledgement, refusal)
from checks.parts.liars import Server, cut, scripted
from checks.parts.logs import unsealed_entry
from checks.parts.model_daemon import ModelDaemon
from checks.parts.places import KEY, TOOLS, tool
from checks.parts.program import done
from checks.parts.scenes import scene
from checks.parts.waiting import SECONDS, wait_for
from checks.parts.wrong import expect, expect_true

UNBOUND = ("file-feed: kind 7 isn't bound to a socket of the daemon at %s: after a loss lines may be in the log twice")
SHARED = ("file-feed: another source appends events of kind 7: give each source a kind of its own, or lines are lost")
# A feed that waits so many seconds for an answer.
IMPATIENT = """
import feed, runpy, sys
feed.PATIENCE = float(sys.argv.pop(1))
sys.argv.pop(0)
runpy.run_path(sys.argv[0], run_name="__main__")
"""


@scene
def scene_unbound_kinds_are_said():
    """Where a kind isn't bound, and where a server knows no places, lines go by `audit send`, and a message says what
    that means. Once the kind is bound they go on at their places."""
    log = RotatedLog("some.log")

    def send(server, socket, count):
        with server:
            feed = fed(log, socket)
            log.write(10)
            wait_for(lambda: is_kept_at(os.path.getsize(log.path)), "the place after the lines by " + socket)
            feed.kill()
            expect(count(), len(log.lines), "the events by " + socket)
        expect(feed.said(), [UNBOUND % socket], "what is said where a kind isn't bound")

    def is_kept_at(offset):
        return os.path.exists("position") and read_text("position").split()[2] == str(offset)

    done("format", "served", "1000", KEY)
    send(Serving("served", "serve.sock"), "serve.sock",
         lambda: int(done("ask", "serve.sock", "commitment").split()[1]))
    os.remove("position")
    log = RotatedLog("other.log")
    daemon = ModelDaemon("store", "socket")
    send(daemon, "socket", lambda: len(daemon.payloads(KIND)))
    with ModelSource() as bound:
        feed = fed(log)
        log.write(10)
        wait_at_rest(log)
        feed.kill()
        expect_lines(bound.held(), log)
        expect(feed.said(), [], "what is said where a kind is bound")


@scene
def scene_feeds_that_share_a_kind():
    """Two feeds of one kind say so, and while both are at rest before each line, none is lost."""
    daemon = ModelSource()
    logs = [RotatedLog(name + ".log", name.encode()) for name in ("one", "other")]
    feeds = [fed(log, kept=log.path + ".position", said=log.path + ".said") for log in logs]
    for turn in range(12):
        log, feed = logs[turn % 2], feeds[turn % 2]
        log.write(1 + turn % 3)
        wait_for(lambda: len(daemon.held()) >= sum(len(each.lines) for each in logs), "a line of one of two feeds", 20)
        wait_for(lambda: " idle " in read_text(log.path + ".position"), "a feed at rest", 20)
        if turn in (6, 7):
            feed.kill()
            feed.start()
    feeds[0].kill()
    feeds[1].kill()
    held = daemon.held()
    expect(sorted(held), sorted(line for log in logs for line in log.lines), "the lines of two feeds")
    expect({line for feed in feeds for line in feed.said()}, {SHARED}, "what two feeds of one kind say")


@scene
def scene_feeds_and_rights():
    """A feed whose kind is bound to another socket, or at a socket for readers, ends, and its place stays."""
    log = RotatedLog("some.log")
    log.write(3)
    with ModelDaemon("store", "socket", "--writer", "7:source", "--reader", "readers") as daemon:
        for socket in "socket", "readers", "socket", "readers":
            found = run_feed(socket, log)
            expect(found, (1, "file-feed: %s: refused: 16 NotAllowed\n" % socket), "a feed at " + socket)
            expect_true(" 0 busy -" in read_text("position"), "the place moves")
        expect(daemon.events(), [], "the events of feeds that have no rights")


def run_feed(socket, log, patience=30.0, kept="position"):
    """The status of a feed that ends, and what it says. `patience` is how long it waits for a silent server."""
    words = str(patience), tool("file-feed"), socket, kept, log.path, str(KIND)
    found = subprocess.run([sys.executable, "-B", "-c", IMPATIENT, *words], env=dict(os.environ, PYTHONPATH=TOOLS),
                           capture_output=True, timeout=SECONDS)
    return found.returncode, found.stderr.decode()


@scene
def scene_feeds_and_liars():
    """An answer that isn't due ends the feed, which keeps the place before the line."""
    log = RotatedLog("some.log")
    log.write(2)
    begun = [place_reply(1, 5, 9), entry_reply(1, unsealed_entry(b"first"))]
    done_one, of_other = (placed_acknowledgement(tag, 9, 10, bytes(32), bytes(32)) for tag in (6, 7))
    bad, silent, ended = "bad reply", "no reply in time", "the connection ended"
    rows = [
        ("an acknowledgement of another line", scripted(*begun, of_other), 5, bad),
        ("an acknowledgement without a key", scripted(*begun, acknowledgement(6, 9, 10, bytes(32))), 5, bad),
        ("a number that isn't above the place", scripted(*begun, place_reply(6, 5, 9)), 5, bad),
        ("a commitment for an acknowledgement", scripted(*begun, commitment_reply(6, 9, bytes(32))), 5, bad),
        ("an acknowledgement that is cut", cut(*begun, done_one[:-1]), 5, ended),
        ("an acknowledgement that is too long", scripted(*begun, frame(done_one[2:] + b"x")), 5, bad),
        ("an empty frame", scripted(*begun, bytes(2)), 5, bad),
        ("an acknowledgement twice", scripted(*begun, done_one + done_one), 6, bad),
        ("a refusal of the second line", scripted(*begun, done_one + refusal(7, 7)), 6, "refused: 7 Full"),
        ("an end after one line", cut(*begun, done_one), 6, ended),
        ("silence after one line", scripted(*begun, done_one), 6, silent),
        ("silence", scripted(*begun), 5, silent),
        ("silence at the first question", scripted(), None, silent),
        ("another reply to the first question", scripted(commitment_reply(1, 9, bytes(32))), None, bad),
        ("a refusal of the first question", scripted(refusal(1, 11)), None, "refused: 11 Device"),
        ("an end at once", cut(), None, ended),
        ("no entry", scripted(begun[0], begun[0]), None, bad),
    ]

    def try_liar(number, what, serve, held, said):
        with Server("liar%d" % number, serve):
            found = run_feed("liar%d" % number, log, 1.0, "position%d" % number)
        kept = read_text("position%d" % number).split()[-3:-1] if held else None
        wanted = [str(held), "busy"] if held else None
        return what, (found, kept), ((1, "file-feed: liar%d: %s\n" % (number, said)), wanted)

    for what, found, wanted in side_by_side([(try_liar, number, *row) for number, row in enumerate(rows)]):
        expect(found, wanted, what)
