"""`audit send --until-refused`, and how a log goes on in the next store."""
import os
import subprocess

from checks.client.common import lines, store
from checks.parts.daemons import Daemon
from checks.parts.files import read, write
from checks.parts.frames import acknowledgement, read_request, refusal
from checks.parts.liars import Server
from checks.parts.places import at_top
from checks.parts.program import done, run
from checks.parts.scenes import scene
from checks.parts.wrong import expect


@scene
def scene_stopping_at_a_refusal():
    """`send --until-refused` stops at the first refusal: at most a window more is sent than is answered before it, and
    each line that was sent has its answer. Without a refusal, or without the option, all lines are sent."""
    hash = b"\7" * 32
    count = 300
    tags, refused = [], set()

    def serve(stream):
        while True:
            _, tag, _ = read_request(stream)
            tags.append(tag)
            stream.sendall(refusal(tag, 7) if tag in refused else acknowledgement(tag, tag, tag + 1, hash))

    places = {1, 2}, {100, 103}, {300}, set()
    stopping = [(window, at, ["--until-refused"]) for window in (1, 5, 64, 100) for at in places]
    for window, at, words in stopping + [(64, {100, 103}, [])]:
        what = "a window of %d, refused %s, %s" % (window, sorted(at), words)
        tags.clear()
        refused.clear()
        refused.update(at)
        with Server("stop.sock", serve):
            status, printed, said = run("send", "stop.sock", "--window", str(window), *words, data=lines(count))
        printed = printed.splitlines()
        expect((status, said), (1 if at else 0, b""), what)
        expect((tags, len(printed)), (list(range(1, len(tags) + 1)), len(tags)), "lines and answers: " + what)
        for number, line in enumerate(printed, 1):
            taken = b"ack %d %d %s" % (number, number + 1, hash.hex().encode())
            expect(line, b"refused %d 7 Full" % number if number in at else taken, "answer %d: %s" % (number, what))
        if at and words:
            first = min(at)
            expect(first <= len(tags) <= min(first - 1 + window, count), True, "%d lines sent: %s" % (len(tags), what))
        else:
            expect(len(tags), count, "all lines: " + what)

    expect_next_store_taking()


def expect_next_store_taking():
    """A store that is full keeps what it acknowledged, and the next one takes the lines from there on."""
    # A store that is full keeps what it acknowledged, and the next one takes the lines from there on.
    store(64)
    data = lines(200).splitlines(True)
    with open("warnings", "wb") as warnings, Daemon("store", stderr=warnings):
        status, printed, said = run("send", "daemon.sock", "--window", "1", "--until-refused", data=b"".join(data))
        held = len(printed.splitlines()) - 1
        expect((status, printed.splitlines()[-1], said), (1, b"refused %d 7 Full" % (held + 1), b""), "a full store")
        expect(int(done("ask", "daemon.sock", "commitment").split()[1]), held, "the events of a full store")
    expect(held, 61, "events of one sector in a store of 64, two of which are headers and one is kept for a close")
    expect(read("warnings"), b"".join(b"audit: store: %d %% of its sectors are taken, %d are left for events\n" % share
                                      for share in ((80, 12), (90, 6), (100, 0))), "what the daemon warns of")
    os.rename("store", "full")
    store(512)
    with Daemon("store", "next.sock"):
        answers = done("send", "next.sock", "--until-refused", data=b"".join(data[held:])).splitlines()
        expect(len(answers), 200 - held, "the next store")
    os.rename("store", "next")
    sends_each_line_once_over_stores(b"".join(b"event 1 %s\n" % (b"ab" * (1 + place * 37 % 900))
                                              for place in range(300)))


def sends_each_line_once_over_stores(data):
    """Events of many sizes fill one store after the other. After each, the line of docs/operations.md prints what is
    left: in the end each event was taken once."""
    page = read(at_top("docs/operations.md")).decode()
    recipe, = (line.strip() for line in page.splitlines() if "taken[FNR]" in line)
    write("lines", data)
    counts, between = [], 0
    while read("lines"):
        store(128)
        with open("warnings", "wb") as warnings, Daemon("store", stderr=warnings):
            status, printed, said = run("send", "daemon.sock", "--until-refused", data=read("lines"))
            counts.append(int(done("ask", "daemon.sock", "commitment").split()[1]))
        expect(said, b"", "sending into store %d" % len(counts))
        words = [answer.split()[0] for answer in printed.splitlines()]
        between += status == 1 and b"ack" in words[words.index(b"refused"):]
        write("answers", printed)
        left = subprocess.run(recipe, shell=True, capture_output=True, check=True).stdout
        expect(len(read("lines").splitlines()) - len(left.splitlines()), counts[-1],
               "lines taken by store %d" % len(counts))
        write("lines", left)
        os.unlink("store")
    what = "events in stores %s, %d of which took one after a refusal" % (counts, between)
    expect((sum(counts), len(counts) > 3, between > 0), (300, True, True), what)
