"""What is lost where docs/operations.md isn't followed: with librbd's cache, and by the feature exclusive-lock
alone."""
import os

from checks.parts.files import read_text
from checks.parts.places import tool
from checks.parts.waiting import SECONDS, wait_for
from checks.parts.wrong import Wrong, expect_true
from checks.replicated_ceph.common import CLIENTS, FLOOD, acknowledged, audit, count, good, how, say
from checks.replicated_ceph.machines import Clients, Machine

# Events that are sent to each of two daemons in turn.
TURNS = 3


def cached_plugin():
    """rbd-exclusive.py with librbd's default, its cache."""
    text = read_text(tool("rbd-exclusive.py"))
    setting = '"rbd_cache", "false"'
    expect_true(setting in text, "rbd-exclusive.py sets no rbd_cache")
    with open("rbd-cached.py", "w") as file:
        file.write(text.replace(setting, '"rbd_cache", "true"'))
    return os.path.abspath("rbd-cached.py")


def missing_events(machine):
    """How many acknowledged events aren't at their indices in the log of a daemon."""
    old = count(good("ask", machine.socket, "commitment"))
    good("ask", machine.socket, "export", "export")
    newest = good("ask", machine.socket, "commitment").split()
    held = good("verify", "export", "key", ":".join(newest[1:3]), "--text").splitlines()
    expect_true(len(held) == old, "the log grows though nobody appends")
    return sum(held[index:index + 1] != [line] for index, line in acknowledged.items())


def take_over_cached(first, second):
    """The second machine fences the first one, on which clients append until then. How many acknowledged events are
    missing."""
    clients = Clients(first, FLOOD)
    clients.wait()
    second.attach()
    try:
        second.start()
    except Wrong:
        # A log with a hole is refused.
        clients.end()
        return len(acknowledged)
    clients.end()
    expect_true(len(clients.acks()) < clients.wanted, "nobody appended any more when the fence came")
    return missing_events(second)


def serve_new(machine):
    machine.format()
    machine.start()


def lose_by_cache(takeovers):
    """Takeovers of machines with librbd's cache, each from the one before. A log that has lost events, or may have no
    room for the next ones, is followed by a new one."""
    lost, first = [], Machine("first")
    first.attach()
    serve_new(first)
    for number in range(takeovers):
        second = Machine("first" if first.folder.endswith("second") else "second")
        missing = take_over_cached(first, second)
        first.lose()
        Machine.all.remove(first)
        if missing:
            lost.append(missing)
            say("fence %d: %d of %d acknowledged events are missing" % (number + 1, missing, len(acknowledged)))
        if missing or len(acknowledged) > how.sectors - 2 * CLIENTS * FLOOD:
            second.end_daemon()
            serve_new(second)
        first = second
    first.lose()
    return lost


def compare_caches(takeovers):
    for how.plugin, what in (cached_plugin(), "with librbd's cache"), (tool("rbd-exclusive.py"), "without it"):
        lost = lose_by_cache(takeovers)
        say("%s: %d of %d fences lost acknowledged events, %s" % (what, len(lost), takeovers, lost))
    expect_true(not lost, "events are lost without the cache")


def share_image():
    """Two machines have an image with the feature exclusive-lock, and nobody fences."""
    how.qemu = True
    first, second = Machine("first"), Machine("second")
    first.attach()
    serve_new(first)
    second.ask_for_image()
    wait_for(second.has_file, "the file on the image")
    second.start()
    acks = 0
    for number in range(TURNS):
        for machine in first, second:
            _, out, _ = audit("send", machine.socket, "--text", "1",
                              data=b"event %d of %s\n" % (number, machine.folder.encode()))
            acks += out.startswith("ack ")
    for machine in first, second:
        audit("stop", machine.socket)
        machine.processes["daemon"].wait(SECONDS)
    status, out, err = audit("show", first.file)
    left = count(out) if status == 0 else 0
    say("two daemons with the feature exclusive-lock alone: %d events acknowledged, %d in the log %s"
        % (acks, left, err.strip()))
    expect_true(acks > left, "two daemons at a time harm nothing")


def play_unsafe(takeovers):
    compare_caches(takeovers)
    share_image()
