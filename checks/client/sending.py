"""`audit send`: what is acknowledged, what is refused, and what it takes."""
import contextlib
import hashlib
import os
import random
import re
import shutil
import socket
import struct
import subprocess
import sys
import threading
import time

from checks.client.common import expect_acknowledged, lines, run_silenced, run_soon, store
from checks.parts import program
from checks.parts.clients import side_by_side
from checks.parts.daemons import Daemon, Serving
from checks.parts.files import read, write
from checks.parts.frames import acknowledgement, commitment_reply, frame, read_request, receive, refusal
from checks.parts.liars import Server, cut
from checks.parts.logs import entries_of
from checks.parts.program import BAD_ARGUMENT, BAD_REPLY, ENDED, TOO_LATE, done, run, without_cause
from checks.parts.scenes import scene
from checks.parts.wrong import expect


# What a client says whose server was killed.
UNANSWERED = re.compile(rb"audit: connection ended\n"
                        rb"(audit: (\d+) lines? from line (\d+) (?:is|are) not acknowledged\n)?")


def cut_line(line):
    """What stands for a line that is too long, by docs/audit.1."""
    note = b" [of %d bytes, SHA-256 %s]" % (len(line), hashlib.sha256(line).hexdigest().encode())
    return line[: 32696 - len(note)] + note


@scene
def scene_long_lines():
    """`--long cut` of `send` and `append --follow` takes each line; without it the first that is too long ends the
    input."""
    sizes = [10, 32696, 32697, 0, 70000, 40000, 3]
    texts = [b"%d" % (place % 10) * size for place, size in enumerate(sizes)]
    data = b"\n".join(texts)
    wanted = [text if len(text) <= 32696 else cut_line(text) for text in texts]
    expect({len(text) for text in wanted if len(text) > 40}, {32696}, "the length of a line that was cut")
    refused = b"audit: line 3: payload too long\n"
    for name in "own", "sent":
        store(2048)
        os.rename("store", name)
    expect(run("append", "own", "--text", "1", "--follow", "--long", "refuse", data=data)[::2], (1, refused),
           "a follower that refuses")
    done("append", "own", "--text", "1", "--follow", "--long", "cut", data=data)
    with Serving("sent", "sent.sock"):
        expect(run("send", "sent.sock", "--text", "1", data=data)[::2], (1, refused), "a client that refuses")
        done("send", "sent.sock", "--text", "1", "--long", "cut", data=data)
    for name in "own", "sent":
        done("export", name, "e")
        word = done("show", name).split()
        status, out, _ = run("verify", "e", "key", (word[1] + b":" + word[2]).decode(), "--text")
        expect((status, out.split(b"\n")[2:-1]), (0, wanted), "the events of " + name)
    for words in (["send", "no.sock", "--long", "cut"], ["send", "no.sock", "--text", "1", "--long", "x"],
                  ["append", "own", "--follow", "--long", "cut"],
                  ["append", "own", "--follow", "--text", "1", "--long", ""]):
        expect(run(*words), BAD_ARGUMENT, " ".join(words))
    expect(run("append", "own", "--text", "1", "--long", "cut")[0], 2, "an append that isn't followed")


@scene
def scene_sending():
    """Events in windows of several sizes: the store holds each, in order, and each has its line."""
    store()
    sent = b""
    with Serving("store"):
        for window, count, first in ("1", 30, 0), ("64", 1000, 30), ("1024", 1000, 1030):
            data = lines(count, first)
            sent += data
            printed = done("send", "serve.sock", "--window", window, data=data)
            expect(len(printed.splitlines()), count, "the lines of a window of " + window)
            done("ask", "serve.sock", "export", "e")
            expect_acknowledged(printed.splitlines(), entries_of(read("e")), first)
        expect(done("send", "serve.sock"), b"", "no input")
        last = b"event 4294967294 " + b"AB" * 32696
        expect(len(done("send", "serve.sock", data=last + b"\nevent 1 -").splitlines()), 2,
               "the longest payload, a last line without its end")
        sent += b"event 4294967294 " + b"ab" * 32696 + b"\nevent 1 -\n"
    newest = done("show", "store").split()
    done("export", "store", "e")
    verified = done("verify", "e", "key", "%s:%s" % (newest[1].decode(), newest[2].decode()))
    events = b"".join(b"event " + line.split(b" ", 2)[2] for line in verified.splitlines(True)[:-1])
    expect(events, sent, "the events of the store")


@scene
def scene_bad_lines():
    """A line that is no event ends the input; those before it are answered, and none after it is sent."""
    store(600)
    good = lines(70)
    with Serving("store"):
        for place, (bad, words) in enumerate((
            (b"evnt 1 -\n", b"bad event line"), (b"event 4294967295 -\n", b"reserved kind"), (b"\n", b"bad event line"),
            (b"event 1 " + b"00" * 32697 + b"\n", b"payload too long"), (b"x" * 1000000 + b"\n", b"payload too long"),
        )):
            status, out, err = run("send", "serve.sock", data=good + bad + good)
            expect((status, err), (1, b"audit: line 71: %s\n" % words), "a bad line")
            expect(len(out.splitlines()), 70, "the lines before a bad one")
            expect(done("ask", "serve.sock", "commitment").split()[1], b"%d" % (70 * place + 70),
                   "the events of the store")
        full = run("send", "serve.sock", data=lines(400))
    expect((full[0], full[2]), (1, b""), "a store that is full")
    rows = full[1].splitlines()
    expect([row.split()[0] for row in rows], [b"ack"] * 248 + [b"refused"] * 152, "the lines of a full store")
    expect(rows[248:], [b"refused %d 7 Full" % (place + 1) for place in range(248, 400)], "the refusals")


@scene
def scene_at_once():
    """Each line is sent when it comes, and its answer printed at once."""
    store()
    with Serving("store"):
        send_as_they_come(["send", "serve.sock"], [
            b"event 1 %02x\nevent" % place if place == 7 else b" 2 -\n" if place == 8 else b"event 1 %02x\n" % place
            for place in range(20)
        ], 0)


def send_as_they_come(words, pieces, first):
    """Writes pieces of an input, each of which ends one line and may begin the next: it is answered before the next
    piece."""
    send = subprocess.Popen([program.PATH, *words], stdin=subprocess.PIPE, stdout=subprocess.PIPE)
    try:
        for place, piece in enumerate(pieces):
            send.stdin.write(piece)
            send.stdin.flush()
            expect(send.stdout.readline().split()[:2], [b"ack", b"%d" % (first + place)], "line %d" % place)
        expect(send.communicate(timeout=program.SECONDS), (b"", None), "the rest")
        expect(send.returncode, 0, "the status")
    finally:
        send.kill()
        send.wait()


@scene
def scene_text():
    """Lines of text are payloads, whatever their bytes; one that is too long ends the input."""
    any_byte = bytes(byte for byte in range(256) if byte != 10)
    text = [b"plain", b"", b"\0", b"\xff\xfe \x80", b"a return\r", b"\ttab\t", b"event 1 00", any_byte, b"x" * 32696,
            b"the last"]
    sent = [(7, payload) for payload in text]
    store(16384)
    with Daemon("store") as daemon:

        def count():
            return int(done("ask", "daemon.sock", "commitment").split()[1])

        printed = done("send", "daemon.sock", "--text", "7", data=b"\n".join(text))
        expect([line.split()[:2] for line in printed.splitlines()],
               [[b"ack", b"%d" % place] for place in range(len(text))], "the answers")
        for size in 32697, 65536, 65537, 1000000:
            many = [b"line %d" % place for place in range(70)]
            status, out, err = run("send", "daemon.sock", "--text", "0",
                                   data=b"\n".join(many + [b"\xff" * size, b"a later one\n"]))
            expect((status, err), (1, b"audit: line 71: payload too long\n"), "a line of %d bytes" % size)
            expect(len(out.splitlines()), 70, "the lines before one of %d bytes" % size)
            sent += [(0, payload) for payload in many]
            expect(count(), len(sent), "the events of the store")
        expect(run("send", "daemon.sock", "--text", "4294967295", data=b"line\n"), BAD_ARGUMENT, "the reserved kind")
        expect(count(), len(sent), "the events of the store after a bad kind")
        send_as_they_come(["send", "daemon.sock", "--text", "4294967294"],
                          [b"one\n", b"two\nthr", b"ee\n", b"\n", b"\0\r\n", any_byte + b"\n"], len(sent))
        sent += [(4294967294, payload) for payload in (b"one", b"two", b"three", b"", b"\0\r", any_byte)]
        newest = done("ask", "daemon.sock", "commitment").split()
        done("ask", "daemon.sock", "export", "e")
        daemon.stop()
    verified = done("verify", "e", "key", "%s:%s" % (newest[1].decode(), newest[2].decode())).splitlines()
    expect([line.split(b" ", 2)[2] for line in verified[:-1]],
           [b"%d %s" % (kind, payload.hex().encode() or b"-") for kind, payload in sent], "the events of the store")


@scene
def scene_sending_again():
    """With `--retry`, and without places, sending goes on after a loss with the first line that has no answer."""
    hash, seen = b"\7" * 32, []

    def serve(stream):
        """The first connection is lost after one of three answers."""
        index, due = (6, 2) if seen else (5, 1)
        asked = [read_request(stream) for _ in range(3 if due == 1 else 2)]
        seen.append(asked)
        for place, (_, tag, _) in enumerate(asked[:due]):
            stream.sendall(acknowledgement(tag, index + place, index + place + 1, hash))
        stream.shutdown(socket.SHUT_RDWR)

    with Server("lost.sock", serve):
        status, out, said = program.whole("send", "lost.sock", "--text", "1", "--retry", "60", data=b"a\nb\nc\n")
    printed = b"".join(b"ack %d %d %s\n" % (index, index + 1, hash.hex().encode()) for index in (5, 6, 7))
    expect((status, out, said.splitlines()[:1]), (0, printed, [b"audit: connection ended"]), "what is sent again")
    kind = struct.pack(">I", 1)
    all_three = [(1, tag, kind + text) for tag, text in ((1, b"a"), (2, b"b"), (3, b"c"))]
    expect(seen, [all_three, all_three[1:]], "what a lost server got, and then its successor")


@scene
def scene_sending_to_liars():
    """Answers that aren't due: what was answered before them is printed, and the rest counted."""
    hash = b"\7" * 32

    def answers(*replies):
        def serve(stream):
            for _ in range(3):
                read_request(stream)
            stream.sendall(b"".join(replies))
            while True:
                receive(stream, 1)
        return serve

    first = acknowledgement(1, 5, 6, hash)
    printed = b"ack 5 6 " + hash.hex().encode() + b"\n"
    rest = b"audit: 2 lines from line 2 are not acknowledged\n"
    all_of_them = b"audit: 3 lines from line 1 are not acknowledged\n"
    rows = [
        ("all", answers(first, refusal(2, 7), acknowledgement(3, 6, 7, hash)),
            (1, printed + b"refused 2 7 Full\nack 6 7 " + hash.hex().encode() + b"\n", b"")),
        ("a wrong tag", answers(first, acknowledgement(3, 6, 7, hash)), (1, printed, BAD_REPLY[2] + rest)),
        ("an answer twice", answers(first, first), (1, printed, BAD_REPLY[2] + rest)),
        ("another reply", answers(first, commitment_reply(2, 6, hash)), (1, printed, BAD_REPLY[2] + rest)),
        ("a frame of 65,535 bytes", answers(frame(b"\x81" * 65535)), (1, b"", BAD_REPLY[2] + all_of_them)),
        ("a malformed request", answers(refusal(0, 20)), (1, b"", BAD_REPLY[2] + all_of_them)),
        ("silence", answers(first), (3, printed, TOO_LATE[2] + rest)),
        ("silence in an answer", answers(first, first[:9]), (3, printed, TOO_LATE[2] + rest)),
        ("an end", cut(first), (3, printed, ENDED[2] + rest)),
        ("an end at once", cut(), (3, b"", ENDED[2] + all_of_them)),
    ]

    def send(number, what, serve, wanted):
        path = "liar%d.sock" % number
        with Server(path, serve):
            return what, run_silenced(wanted, "send", path, data=lines(3)), wanted

    for what, found, wanted in side_by_side([(send, number, *row) for number, row in enumerate(rows)]):
        expect(found, wanted, what)
    expect_deaf_left()


def expect_deaf_left():
    """A server that reads nothing is given up in time."""
    over = threading.Event()
    with Server("deaf.sock", lambda stream: over.wait(program.SECONDS)):
        try:
            found = run_soon("send", "deaf.sock", data=b"event 1 " + b"00" * 32696 + b"\n" + b"".join(
                b"event 1 " + b"00" * 32000 + b"\n" for _ in range(63)))
        finally:
            over.set()
        expect((found[0], found[1]), (3, b""), "a server that reads nothing")
        expect(found[2].startswith(TOO_LATE[2]), True, "its words: %r" % found[2])


@scene
def scene_ahead():
    """A window of lines is sent ahead of their answers, and no more; the next ones for the answers to a part of
    them."""
    hash = b"\7" * 32
    count = 640
    beyond = []

    def serve(stream):
        sent, answered = min(window, count), 0
        # The lines go in rounds of half a window, or of 64.
        first = min(window, max(64, window // 2))
        rounds = [first, window - first]
        for _ in range(sent):
            read_request(stream)
        stream.settimeout(0.2)
        try:
            beyond.append(stream.recv(1))
        except socket.timeout:
            stream.settimeout(None)
        while answered < count:
            last = min(answered + rounds[0], count)
            stream.sendall(b"".join(acknowledgement(place + 1, place, place + 1, hash)
                                    for place in range(answered, last)))
            answered = last
            rounds.reverse()
            while sent < min(answered + window, count):
                read_request(stream)
                sent += 1

    write("lines", lines(count))
    for window in 1, 5, 64, 100, 256, 1024:
        path = "ahead%d.sock" % window
        with Server(path, serve), open("lines", "rb") as file:
            found = subprocess.run([program.PATH, "send", path, "--window", str(window), "--timeout", "20"], stdin=file,
                                   capture_output=True, timeout=program.SECONDS)
        expect(beyond, [], "lines sent beyond a window of %d" % window)
        expect((found.returncode, len(found.stdout.splitlines()), found.stderr), (0, count, b""),
               "a window of %d" % window)


def peak_of(words, path, count):
    """Runs a command on the input in a file, and returns its status, how many lines it prints and its peak of memory in
    KiB. The peak is taken while it runs, since the one that the system gives at the end is at least that of this
    program."""
    sender = subprocess.Popen([program.PATH, *words], stdin=subprocess.PIPE, stdout=subprocess.PIPE)

    def feed():
        with open(path, "rb") as data, contextlib.suppress(BrokenPipeError):
            shutil.copyfileobj(data, sender.stdin)
            sender.stdin.flush()

    feeder = threading.Thread(target=feed)
    feeder.start()
    found = 0
    while found < count:
        piece = os.read(sender.stdout.fileno(), 1 << 16)
        if not piece:
            break
        found += piece.count(b"\n")
    with open("/proc/%d/status" % sender.pid) as status:
        peak = re.search(r"VmHWM:\s*(\d+) kB", status.read())
    feeder.join()
    with contextlib.suppress(BrokenPipeError):
        sender.stdin.close()
    rest = sender.stdout.read()
    return sender.wait(program.SECONDS), found + rest.count(b"\n"), int(peak.group(1)) if peak else 0


@scene
def scene_memory():
    """What `send` takes doesn't grow with the input."""
    many = 1000000 if program.LONG else 20000
    store(2 * many + 10000)
    # The few fill each buffer.
    few_lines = 5000 if program.LONG else 2000
    for name, count in ("few", few_lines), ("many", many):
        with open(name, "wb") as file:
            for first in range(0, count, 10000):
                file.write(lines(min(10000, count - first), first))
    with Serving("store"):
        few = peak_of(["send", "serve.sock"], "few", few_lines)
        begun = time.monotonic()
        much = peak_of(["send", "serve.sock"], "many", many)
        if program.LONG:
            sys.stderr.write("%d events in %.1f s, at most %d KiB\n" % (many, time.monotonic() - begun, much[2]))
    expect((few[:2], much[:2]), ((0, few_lines), (0, many)), "the lines")
    expect(much[2] <= few[2] + 1024, True,
           "memory: %d KiB for %d lines, %d KiB for %d" % (few[2], few_lines, much[2], many))


@scene
def scene_kills():
    """The server is killed under `send`: each acknowledged event is in the store at its index, and the counts agree."""
    store(131072)
    data = lines(30000)
    held = 0
    for number in range(50 if program.LONG else 6):
        with Serving("store", "kill.sock") as serving:
            send = subprocess.Popen([program.PATH, "send", "kill.sock", "--window",
                                     str(random.choice((1, 16, 64, 1024)))],
                                    stdin=subprocess.PIPE, stdout=subprocess.PIPE, stderr=subprocess.PIPE)
            timer = threading.Timer(random.uniform(0.01, 0.2), serving.process.kill)
            timer.start()
            out, err = send.communicate(data, timeout=program.SECONDS)
            timer.join()
        printed = out.splitlines()
        err = without_cause(["send"], err)
        if err == b"audit: file fault\n":
            expect((send.returncode, printed), (3, []), "a kill before the connection")
        elif send.returncode == 3:
            found = UNANSWERED.fullmatch(err)
            expect(bool(found), True, "the words after kill %d: %r" % (number, err))
            if found.group(1):
                expect(int(found.group(3)), len(printed) + 1, "the first line that isn't acknowledged")
                expect(1 <= int(found.group(2)) <= 1024, True, "how many aren't acknowledged")
        else:
            expect((send.returncode, err), (0, b""), "a send that ended before its kill")
        done("export", "store", "e")
        entries = entries_of(read("e"))
        expect_acknowledged(printed, entries, held)
        expect(held + len(printed) <= len(entries), True, "the events of the store after kill %d" % number)
        for place in range(len(printed)):
            kind, size = struct.unpack(">II", entries[held + place][:8])
            expect((kind, size), (place % 5, 4), "the event of acknowledgement %d" % place)
        held = len(entries)
