"""Messages of a real journal, by tools/journal-feed."""
import contextlib
import hashlib
import json
import os
import random
import shutil
import socket
import subprocess
import time

from checks.feeds.common import SMILE
from checks.parts import program
from checks.parts.answers import expect_acknowledged_kept, kept_answers
from checks.parts.daemons import FedDaemon, payloads_of_store
from checks.parts.places import loaded_tool, tool
from checks.parts.processes import kill_group
from checks.parts.scenes import scene
from checks.parts.tools import needs, needs_root
from checks.parts.waiting import wait_for
from checks.parts.wrong import expect_true

JOURNALD = "/lib/systemd/systemd-journald"


@scene
def scene_journal_lines():
    """Of each message journal-feed makes a line that is an event, and a JSON object of whole characters."""
    loaded = loaded_tool("journal-feed")
    letters = ["a", '"', "\\", "\t", "\x00", "\x7f", "\xe4", "\u202e", "\ud800", SMILE]
    for letter in letters + [None] * (300 if program.LONG else 30):
        size = random.choice([1, 2700, 5400, 32690, 32696, 40000, 100000])
        text = "".join(random.choices(letters, k=size)) if letter is None else letter * size
        forms = [text, text, list(text.encode(errors="replace")), [text, text], None]
        fields = {"__CURSOR": "here", "MESSAGE": random.choice(forms)}
        fields.update({name: random.choice(letters) * random.choice([1, 80, 300, 1000, 5000])
                       for name in loaded.ORIGIN[1:]})
        message = json.dumps(fields, ensure_ascii=letter is None or letter > "\x7f").encode(errors="surrogatepass")
        line = loaded.line_of(message + b"\n")
        expect_true(line.count(b"\n") == 1 and line.endswith(b"\n"), "%d lines" % line.count(b"\n"))
        expect_true(len(line) <= 32697, "a line of %d bytes for a message of %d" % (len(line), len(message)))
        kept = json.loads(line)
        expect_true(kept["__CURSOR"] == "here", "the cursor is %r" % kept["__CURSOR"])
        if len(message) > 32696:
            expect_true(kept["CUT"] == {"bytes": len(message), "sha256": hashlib.sha256(message).hexdigest()},
                        "CUT is %r" % kept["CUT"])
            if fields["MESSAGE"] == text:
                expect_true(text.startswith(kept["MESSAGE"]), "another text is kept: %r" % kept["MESSAGE"][-20:])
                expect_true(kept["MESSAGE"] == text or len(line) > 32680,
                            "a line of %d bytes, with room for more" % len(line))
    for message in b"", b"{", b"[]", b"x" * 40000, b"\xff" * 40000, b"[" * 100000, b"{}" + b" " * 40000:
        expect_true(len(loaded.line_of(message + b"\n")) <= 32697, "a line for %r is too long" % message[:20])
    expect_true(loaded.shown("od\x1b[31m\n\x85\u202e\\d\udc9b") == r"od\x1b[31m\x0a\u0085\u202e\x5cd\x9b",
                "names are printed as they are")


def messages_to(namespace, first, last):
    with socket.socket(socket.AF_UNIX, socket.SOCK_DGRAM) as journal:
        wait_for(lambda: journal.connect_ex("/run/systemd/journal.%s/socket" % namespace) == 0, "the journal")
        for number in range(first, last):
            journal.send(b"MESSAGE=message %d\nPRIORITY=6\nSYSLOG_IDENTIFIER=feeds\n" % number)


@contextlib.contextmanager
def real_journal():
    """A real journald with a namespace of its own, which is removed at the end."""
    needs("journalctl", JOURNALD)
    needs_root()
    namespace = "feeds%d" % os.getpid()
    journald = subprocess.Popen([JOURNALD, namespace], stdout=subprocess.DEVNULL, stderr=subprocess.DEVNULL)
    try:
        yield namespace
    finally:
        journald.kill()
        journald.wait()
        for place in "/var/log/journal", "/run/log/journal":
            for name in os.listdir(place) if os.path.isdir(place) else []:
                if name.endswith("." + namespace):
                    shutil.rmtree(os.path.join(place, name))
        shutil.rmtree("/run/systemd/journal." + namespace, ignore_errors=True)


@scene
def scene_journal():
    """Messages of a journal come by tools/journal-feed, which is killed, and goes on after the last acknowledged
    one."""
    folder = os.getcwd()
    with real_journal() as namespace:
        daemon = FedDaemon(folder)
        wrapper, answers = kept_answers(folder)
        last = send_messages_under_kills(folder, namespace, daemon, wrapper)
    expect_journal_stored(folder, daemon, last)
    expect_acknowledged_kept(daemon.store, answers, folder)


def send_messages_under_kills(folder, namespace, daemon, wrapper):
    """Sends messages, of which the number of the last is returned, while the feed is killed. Then the daemon ends."""
    feed = None

    def start():
        return subprocess.Popen([tool("journal-feed"), daemon.socket, "cursor", "--namespace=" + namespace,
                                 "SYSLOG_IDENTIFIER=feeds"],
                                env=dict(os.environ, AUDIT=wrapper), start_new_session=True, stderr=subprocess.DEVNULL)

    try:
        turns, last = 20 if program.LONG else 3, 0
        send_long_messages(namespace)
        for turn in range(turns):
            feed = start()
            messages_to(namespace, last, last + 50)
            last += 50
            time.sleep(random.uniform(0.2, 1.0))
            kill_group(feed)
        feed = start()
        messages_to(namespace, last, last + 1)
        text = b'"MESSAGE":"message %d"' % last
        daemon.wait_for(lambda held: any(text in payload for payload in held), "the last message")
        # The first message after the end of the daemon ends the feed, and it isn't lost: its cursor isn't saved.
        daemon.stop()
        messages_to(namespace, last + 1, last + 2)
        wait_for(lambda: feed.poll() is not None, "the end of the feed")
        expect_true(feed.returncode == 1, "the feed ends with status %d" % feed.returncode)
    finally:
        if feed is not None:
            kill_group(feed)
    return last


def send_long_messages(namespace):
    """A text over the limit at which journalctl leaves one out, and messages that no event can hold."""
    with socket.socket(socket.AF_UNIX, socket.SOCK_DGRAM) as journal:
        wait_for(lambda: journal.connect_ex("/run/systemd/journal.%s/socket" % namespace) == 0, "the journal")
        # A text over the limit at which journalctl leaves one out, and a message that no event can hold.
        journal.send(b"MESSAGE=%s\nSYSLOG_IDENTIFIER=feeds\n" % (b"long" * 2000))
        fields = b"".join(b"F%d=%s\n" % (number, b"f" * 3900) for number in range(12))
        journal.send(b"MESSAGE=too long\nSYSLOG_IDENTIFIER=feeds\n" + fields)
        journal.send(b"MESSAGE=%s\nPRIORITY=%s\nSYSLOG_IDENTIFIER=feeds\n"
                     % ((SMILE * 20000).encode(), (SMILE * 900).encode()))


def expect_journal_stored(folder, daemon, last):
    """Each message is there, also those that were cut."""
    found = payloads_of_store(daemon.store, folder)
    expect_true(any(b'"MESSAGE":"%s"' % (b"long" * 2000) in payload for payload in found), "the long text is missing")
    expect_true(any(b'"MESSAGE": "too long", "CUT": {"bytes": ' in payload for payload in found),
                "the long message is missing")
    smiles = [fields for fields in map(json.loads, found) if fields["MESSAGE"][0] == SMILE]
    expect_true(smiles and all(set(fields["MESSAGE"]) == {SMILE} for fields in smiles),
                "the long message of emojis is missing")
    for number in range(last + 1):
        expect_true(any(b'"MESSAGE":"message %d"' % number in payload for payload in found),
                    "message %d is missing" % number)
