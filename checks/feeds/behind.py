"""A feed that reaches a daemon which was fenced before the feed's last lines came, and one over a store that was put
back."""
import os
import resource
import shutil
import signal
import subprocess

from checks.feeds.common import KIND, SourceDaemon, payloads_of_kind
from checks.feeds.file import RotatedLog
from checks.feeds.placed import expect_lines, fed, is_at_rest, wait_at_rest
from checks.parts.daemons import Daemon
from checks.parts.scenes import scene
from checks.parts.waiting import wait_for
from checks.parts.wrong import expect


def fence(daemon):
    """Every write of a running daemon to its store fails from now on."""
    resource.prlimit(daemon.process.pid, resource.RLIMIT_FSIZE, (0, 0))


def ignore_signal():
    """A write that is refused fails, and no signal ends the process."""
    signal.signal(signal.SIGXFSZ, signal.SIG_IGN)


def fed_past_copy(log):
    """A feed that is at rest with 20 lines, of which a copy of the store has 8; and its daemon."""
    daemon = SourceDaemon(os.getcwd())
    log.write(8)
    feed = fed(log)
    wait_at_rest(log)
    daemon.stop()
    shutil.copy(daemon.store, "copy")
    daemon.start()
    log.write(12)
    wait_at_rest(log)
    feed.kill()
    daemon.stop()
    return daemon, feed


def daemon_of_copy(**how):
    return Daemon("copy", "copy.socket", "--writer", "%d:source" % KIND, **how)


@scene
def scene_fenced():
    """A fenced daemon answers from its memory that it has fewer lines than were acknowledged. The feed tries a line,
    which ends that daemon, and has each line in the successor's log once."""
    log = RotatedLog("some.log")
    daemon, feed = fed_past_copy(log)
    fenced = daemon_of_copy(stderr=subprocess.PIPE, preexec_fn=ignore_signal)
    fence(fenced)
    log.write(30)
    feed.start()
    status, _, messages = fenced.end()
    expect((status, messages.splitlines()[:1]), (3, [b"audit: 11 Device"]), "the end of a fenced daemon")
    daemon.start()
    wait_at_rest(log)
    feed.kill()
    daemon.kill()
    expect_lines(daemon.held(), log)
    expect([line for line in feed.said() if "acknowledged" in line],
           ["file-feed: the log has 8 events of kind 7, and 20 were acknowledged"], "what the feed says of that")


@scene
def scene_put_back():
    """A store was put back from a copy, which is served: the feed says so, and goes on with its next line, once."""
    log = RotatedLog("some.log")
    _, feed = fed_past_copy(log)
    log.write(30)
    with daemon_of_copy() as daemon:
        feed.start()
        wait_for(lambda: is_at_rest(8 + 30), "the lines in a store that was put back")
        feed.kill()
        feed.start()
        log.write(5)
        wait_for(lambda: is_at_rest(8 + 35), "the lines in a store that was put back")
        feed.kill()
        daemon.stop()
    expect(payloads_of_kind("copy", KIND, "."), log.lines[:8] + log.lines[20:], "the lines in that store")
