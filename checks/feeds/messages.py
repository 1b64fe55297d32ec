"""Messages of a journal at their places, by tools/journal-feed: each is in the log once and in order, whoever is
killed."""
import json
import os
import random
import time

from checks.feeds.common import Feed, Kills, ModelSource, SourceDaemon
from checks.feeds.journal import messages_to, real_journal
from checks.parts import program
from checks.parts.files import read_text, write
from checks.parts.scenes import scene
from checks.parts.waiting import wait_for
from checks.parts.wrong import expect, expect_true

# A program in place of journalctl: the messages of a file, from that of a cursor on or from the first one, as they
# come.
JOURNALCTL = """#!/usr/bin/env python3
import json, os, sys, time
cursor = [word.partition("=")[2] for word in sys.argv if word.startswith("--cursor=")]
with open("journal") as file:
    lines = file.read().splitlines(True)
    at = [place for place, line in enumerate(lines) if json.loads(line)["__CURSOR"] in cursor]
    sys.stdout.write("".join(lines[at[0] if at else 0:]))
    while True:
        sys.stdout.flush()
        if os.getppid() == 1:
            break
        data = file.read()
        sys.stdout.write(data)
        time.sleep(0 if data else 0.02)
"""


class Journal:
    """A file in place of a journal."""

    def __init__(self):
        self.count = 0
        os.mkdir("bin")
        write("bin/journalctl", JOURNALCTL.encode())
        os.chmod("bin/journalctl", 0o755)
        self.path = os.path.abspath("bin") + ":" + os.environ["PATH"]
        self.boot = read_text("/proc/sys/kernel/random/boot_id").strip().replace("-", "")
        open("journal", "w").close()

    def write(self, count):
        with open("journal", "a", encoding="ascii") as file:
            for _ in range(count):
                file.write(json.dumps({
                    "__CURSOR": "s=%d" % self.count, "_BOOT_ID": self.boot, "MESSAGE": "message %d" % self.count,
                    "__MONOTONIC_TIMESTAMP": "%d" % (time.monotonic() * 1e6)}) + "\n")
                self.count += 1

    def forget(self):
        """The messages so far are gone."""
        open("journal", "w").close()


def expect_messages(held, first, last):
    found = [json.loads(payload)["MESSAGE"] for payload in held]
    wanted = ["message %d" % number for number in range(first, last)]
    expect_true(len(found) == len(wanted), "%d events of %d messages" % (len(found), len(wanted)))
    expect(found, wanted, "the messages")


def wait_kept(number):
    wait_for(lambda: os.path.exists("cursor") and read_text("cursor").split()[1:2] == [str(number)],
             "the last of %d messages" % number, 60)


@scene
def scene_placed_messages():
    """The feed and a daemon are killed, which takes frames of a killed feed after those of the next one."""
    daemon, journal = ModelSource("--late", kind=1), Journal()
    journal.write(5)
    feed = Feed("journal-feed", "source", "cursor", path=journal.path)
    wait_kept(5)
    kills = Kills(daemon, feed)
    for _ in range(100 if program.LONG else 12):
        journal.write(random.randrange(80))
        kills.maybe()
        time.sleep(random.choice((0, 0, 0.1, 0.5)))
    journal.write(1)
    wait_kept(journal.count)
    feed.kill()
    daemon.kill()
    expect_messages(daemon.held(), 0, journal.count)
    expect(feed.said(), [], "what the feed says")


@scene
def scene_messages_on_their_way():
    """Messages that a killed feed had sent are stored before the next one, which passes them over."""
    daemon, journal = ModelSource(kind=1), Journal()
    journal.write(5)
    feed = Feed("journal-feed", "source", "cursor", path=journal.path)
    for _ in range(2):
        wait_kept(journal.count)
        with daemon.halted():
            journal.write(50)
            wait_for(lambda: " busy " in read_text("cursor"), "the place before messages that are on their way")
            time.sleep(0.1)
            feed.kill()
        wait_for(lambda: len(daemon.held()) == journal.count, "the messages that were on their way")
        journal.write(3)
        feed.start()
    wait_kept(journal.count)
    feed.kill()
    daemon.kill()
    expect_messages(daemon.held(), 0, journal.count)
    expect(feed.said(), [], "what the feed says")


@scene
def scene_messages_that_are_gone():
    """The last message that was acknowledged is gone, and some after it may be stored: what comes is sent."""
    daemon, journal = ModelSource(kind=1), Journal()
    journal.write(5)
    feed = Feed("journal-feed", "source", "cursor", path=journal.path)
    wait_kept(5)
    feed.kill()
    # As if three more had been on their way.
    cursor, number, _, log = read_text("cursor").split()
    write("cursor", ("%s %d busy %s\n" % (cursor, int(number) - 3, log)).encode())
    journal.forget()
    journal.write(4)
    feed.start()
    wait_kept(9)
    feed.kill()
    daemon.kill()
    expect_messages(daemon.held(), 0, journal.count)
    expect(feed.said(), ["journal-feed: the message after which the last run ended is gone: messages may be missing"],
           "what the feed says")


@scene
def scene_placed_journal():
    """Messages of a real journal, whose feed and daemon are killed."""
    with real_journal() as namespace:
        daemon = SourceDaemon(os.getcwd(), 1)
        feed = Feed("journal-feed", daemon.source, "cursor", "--namespace=" + namespace, "SYSLOG_IDENTIFIER=feeds")
        kills, last = Kills(daemon, feed), 0
        for _ in range(40 if program.LONG else 5):
            messages_to(namespace, last, last + 50)
            last += 50
            kills.maybe()
            time.sleep(random.uniform(0, 0.6))
        wait_kept(last)
        feed.kill()
        daemon.kill()
    expect_messages(daemon.held(), 0, last)
