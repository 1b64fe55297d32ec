"""Verified events into a real rsyslogd, by `read --json --every` and a file."""
import json
import os
import random
import subprocess
import time

from checks.feeds.common import SMILE
from checks.feeds.rsyslog import rsyslogd_of
from checks.parts import program
from checks.parts.configurations import configured
from checks.parts.daemons import FedDaemon
from checks.parts.places import KEY
from checks.parts.program import whole
from checks.parts.scenes import scene
from checks.parts.tools import needs
from checks.parts.waiting import wait_for, wait_while_growing
from checks.parts.wrong import expect_true


def reader_config(folder, events, taken):
    """The example's configuration with these files."""
    text = configured("rsyslog/read.conf", ("/var/log/audit-read/some.json", events),
                      ("/var/log/audit-some.events", taken))
    config = os.path.join(folder, "rsyslog.conf")
    os.mkdir(os.path.join(folder, "work"))
    with open(config, "w") as file:
        file.write('global(workDirectory="%s/work")\n%s' % (folder, text))
    return config


class Reader:
    """A reader that appends to a file, as the unit's does."""

    def __init__(self, daemon, events):
        self.words = [program.PATH, "read", daemon.socket, "state", "--first", KEY, "--json", "--every", "1"]
        self.events = events
        self.start()

    def start(self):
        with open(self.events, "ab+") as file:
            # A line of which a kill left a part is ended, as the unit does.
            if file.tell() and os.pread(file.fileno(), 1, file.tell() - 1) != b"\n":
                file.write(b"\n")
                file.flush()
            self.process = subprocess.Popen(self.words, stdout=file, stderr=subprocess.DEVNULL)

    def kill(self):
        self.process.kill()
        self.process.wait()


def events_taken(taken):
    """The events that rsyslogd wrote, by index; the same index has the same event each time."""
    found = {}
    with open(taken, encoding="utf-8") as file:
        for line in file:
            if line.endswith("\n"):
                event = json.loads(line)
                kept = found.setdefault(int(event.pop("index")), event)
                expect_true(kept == event, "an index has two events: %r and %r" % (kept, event))
    return found


@scene
def scene_reader_into_rsyslog():
    """Events come from `read --json --every` into a real rsyslogd by a file, within seconds. The reader and the daemon
    are killed and rsyslogd is restarted in turns: each event is there, as it was sent."""
    needs("rsyslogd")
    folder = os.getcwd()
    daemon, events, taken = FedDaemon(folder), os.path.join(folder, "some.json"), os.path.join(folder, "taken")
    for path in events, taken:
        open(path, "w").close()
    config = reader_config(folder, events, taken)
    reader, rsyslog = Reader(daemon, events), rsyslogd_of(folder, config)
    sent = []
    try:
        for turn in range(20 if program.LONG else 6):
            sent += send_hard_texts(daemon, turn)
            time.sleep(random.uniform(0.2, 1.0))
            if turn % 3 == 0:
                reader.kill()
                reader.start()
            elif turn % 3 == 1:
                daemon.kill()
                daemon.start()
            else:
                rsyslog.restart()
        wait_while_growing(lambda: len(events_taken(taken)) == len(sent), lambda: os.path.getsize(taken),
                           "the last event")
        begun = time.monotonic()
        status, _, err = whole("send", daemon.socket, data=b"event 8 78\n")
        wait_for(lambda: events_taken(taken).get(len(sent)) == {"kind": 8, "text": "x"}, "an event by itself")
        expect_true(time.monotonic() - begun < 30, "an event takes %d s" % (time.monotonic() - begun))
    finally:
        rsyslog.kill()
        reader.kill()
    expect_events_taken(taken, sent)
    daemon.stop()


def send_hard_texts(daemon, turn):
    """Sends text with everything that JSON escapes, bytes that aren't UTF-8, the longest of both, and lines; returns
    what is to come of them."""
    fresh = ['"\\\t\x1b\u2028\u202e%s' % SMILE, "", "\x01" * 32696, b"\xff\x00", b"\xfe" * 32696]
    fresh += ["turn %d line %d" % (turn, number) for number in range(20)]
    data = [text if isinstance(text, bytes) else text.encode() for text in fresh]
    lines = [b"event 7 %s\n" % (line.hex().encode() or b"-") for line in data]
    status, _, err = whole("send", daemon.socket, data=b"".join(lines))
    expect_true(status == 0, "send: %r" % err)
    return [{"kind": 7, "hex": text.hex()} if isinstance(text, bytes) else {"kind": 7, "text": text} for text in fresh]


def expect_events_taken(taken, sent):
    """Each event is there, as it was sent."""
    found = events_taken(taken)
    expect_true(sorted(found) == list(range(len(sent) + 1)), "the indices are %s .." % sorted(found)[:10])
    for index, event in enumerate(sent):
        expect_true(found[index] == event, "event %d is %.100r, not %.100r" % (index, found[index], event))
