"""What the clients print: names, causes of failures, and text on a terminal."""
import contextlib
import os
import re
import shutil
import socket
import struct
import subprocess

from checks.client.common import ODD, SHOWN, lines, store
from checks.parts import program
from checks.parts.daemons import Daemon, Serving
from checks.parts.frames import acknowledgement, commitment_reply, frame, receive, refusal
from checks.parts.liars import ASKED, JOIN, NEWEST, Server, cut, honest, scripted
from checks.parts.logs import Log
from checks.parts.program import TOO_LATE, done, run, whole
from checks.parts.scenes import scene
from checks.parts.terminals import printed_on_terminal
from checks.parts.wrong import expect


@scene
def scene_names():
    """Names of files, words and sockets are printed with escapes: none moves a terminal's cursor, or prints a line of
    its own."""
    store(64)
    shutil.copy("store", ODD)
    os.chmod(ODD, 0o644)
    os.mkdir("folder")
    for words, wanted in (
        (["ask", ODD + ".sock", "commitment", "--explain"],
         b"audit: file fault\naudit: %s.sock: No such file or directory\n"),
        (["watch", ODD + ".sock", "state", "--explain"],
         b"audit: file fault\naudit: %s.sock: No such file or directory\n"),
        (["show", ODD + "/no", "--explain"], b"audit: file fault\naudit: %s/no: Not a directory\n"),
        (["show", ODD, "--read-only", "--explain"], b"audit: %s: holds a key, and others can reach it (mode 644)\n"),
    ):
        found = run(*words)
        expect((found[2].startswith(wanted % SHOWN[:6]) or SHOWN in found[2], b"\x1b" in found[2],
                found[2].count(b"\n")),
               (True, False, wanted.count(b"\n")), "the messages of %r: %r" % (words, found[2]))
    for words in ["show", "store", ODD], [ODD], ["show", "store", "--" + ODD]:
        status, out, err = run(*words)
        expect((status, out, SHOWN in err, b"\x1b" in err), (2, b"", True, False), "the usage of %r: %r" % (words, err))


@scene
def scene_screen():
    """`verify --text` prints bytes into a file, and on a terminal nothing that moves its cursor or turns a line."""
    store(64)
    payloads = [b"plain \xc3\xa4\tand \\ and \x1b[2J", "turned \u202e and \x85 and \U000e0041".encode(),
                b"no UTF-8 \x9b2J \xff", b""]
    data = b"".join(b"event 1 %s\n" % (payload.hex().encode() or b"-") for payload in payloads)
    done("append", "store", data=data)
    done("export", "store", "e")
    word = done("show", "store").split()
    words = ["verify", "e", "key", (word[1] + b":" + word[2]).decode(), "--text"]
    first = b"plain \xc3\xa4\tand \\x5c and \\x1b[2J\n"
    status, out, err = run(*words)
    expect((status, err), (0, b"audit: verified 4 open\n"), "its end")
    expect(out, first + b"\n".join(payloads[1:]) + b"\n", "what it prints into a pipe")
    expect(printed_on_terminal(*words), first + b"turned \\u202e and \\u0085 and \\u{e0041}\nno UTF-8 \\x9b2J \\xff\n\n",
           "what it prints on a terminal")


SILENT = "all 16 places are taken, or the server is stopped, busy or slower than --timeout"


@scene
def scene_causes():
    """Below what a client says of its failure a line says what it may be, without a terminal too."""
    log = Log(5)
    expect_silence_told()
    with Server("own.sock", cut()):
        expect_said(whole("ask", "own.sock", "commitment"), 3, "connection ended",
                    "own.sock: the server closed the connection")
    # A witness that went on ends for another reason, of which that is no cause.
    with Server("own.sock", honest(log)):
        done("watch", "own.sock", "later")
    expect_later_end_told(SILENT)
    expect_full_daemon_told()
    refused = expect_numbers_named(expect_said)
    with Server("own.sock", honest(log)):
        done("watch", "own.sock", "state")
    with Server("own.sock", scripted(commitment_reply(NEWEST, *Log(9).commitment()), refusal(JOIN, 8))):
        expect_said(whole("watch", "own.sock", "state"), 1, refused,
                    "own.sock: it has no proof from STATE's last line to its newest commitment")
    # A server that refuses, and then answers no more.
    with Server("own.sock", cut(commitment_reply(NEWEST, *log.commitment()), refusal(ASKED, 8))):
        expect_said(whole("ask", "own.sock", "member", "9", "3", "out"), 1, refused, "INDEX 9 is too large for COUNT 3")
    expect_wrong_words_named(log, expect_said)


def expect_said(found, status, *messages):
    said = "".join("audit: %s\n" % message for message in messages).encode()
    expect((found[0], found[2]), (status, said), repr(messages))


def expect_silence_told():
    """What is said of a server that answers nothing."""
    with Server("own.sock", scripted()):
        for words in (["ask", "own.sock", "commitment"], ["watch", "own.sock", "state"], ["ask", "own.sock", "close"]):
            expect_said(whole(*words, "--timeout", "1"), 3, "no reply in time", "own.sock: " + SILENT)
        expect_said(whole("send", "own.sock", "--timeout", "1", data=lines(1)), 3, "no reply in time",
                    "1 line from line 1 is not acknowledged", "own.sock: " + SILENT)
        expect_said(whole("send", "own.sock", "--timeout", "1", data=lines(2)), 3, "no reply in time",
                    "2 lines from line 1 are not acknowledged", "own.sock: " + SILENT)


def expect_full_daemon_told():
    """The 17th client of a daemon."""
    store(64)
    with contextlib.ExitStack() as held:
        held.enter_context(Daemon("store"))
        for _ in range(16):
            client = held.enter_context(socket.socket(socket.AF_UNIX))
            client.connect("daemon.sock")
            client.sendall(frame(struct.pack(">BI", 2, 9)))
            receive(client, 47)
        expect_said(whole("ask", "daemon.sock", "commitment", "--timeout", "1"), 3, "no reply in time",
                    "daemon.sock: " + SILENT)


def expect_later_end_told(silent):
    """A witness that went on ends for another reason, of which silence is no cause."""
    with contextlib.ExitStack() as held:
        # The server is there before the witness starts, which would otherwise say that it isn't.
        with Server("own.sock", scripted()):
            look = held.enter_context(subprocess.Popen(
                [program.PATH, "watch", "own.sock", "later", "--every", "1", "--timeout", "1"],
                stdout=subprocess.PIPE, stderr=subprocess.PIPE))
            held.callback(look.kill)
            expect(look.stderr.readline(), TOO_LATE[2], "a silent server")
        with Server("own.sock", honest(Log(3))):
            out, err = look.communicate(timeout=program.SECONDS)
        expect((out, silent.encode() in err), (b"shorter\n", False), "what a witness says in the end: %r" % err)


def expect_numbers_named(expect_said):
    """Numbers that the log doesn't have."""
    refused = "8 NoSuchVersion"
    done("append", "store", data=lines(1))
    with Serving("store"):
        expect_said(whole("ask", "serve.sock", "entry", "1", "out"), 1, refused,
                    "INDEX 1 is too large: the log has 1 entry")
        done("send", "serve.sock", data=lines(4))
        for words, cause in (
            (["entry", "5", "out"], "INDEX 5 is too large"),
            (["member", "9", "3", "out"], "INDEX 9 is too large for COUNT 3"),
            (["member", "0", "6", "out"], "COUNT 6 is too large"),
            (["increment", "1", "6", "out"], "NEWER 6 is too large"),
            (["increment", "4", "3", "out"], "OLDER 4 is larger than NEWER 3"),
            (["increment", "0", "3", "out"], "OLDER 0 has no proof"),
        ):
            expect_said(whole("ask", "serve.sock", *words), 1, refused, cause + ": the log has 5 entries")
        expect(os.path.exists("out"), False, "OUT of a refusal")
    return refused


def expect_wrong_words_named(log, expect_said):
    """Wrong words of questions, and what form they should have."""
    questions = {"nothing": "nothing: QUESTION is commitment, state, place, close, export, entry, member or increment",
                 "close x": "close: it takes no further word",
                 "state x": "state: it takes no further word",
                 "export": "export: it takes OUT", "export -": "-: OUT is a regular file, or is made",
                 "entry 1": "entry: it takes INDEX OUT",
                 "entry , out": ",: INDEX is a number below 2^64, in decimal digits: a comma at byte 1",
                 "member 1 2": "member: it takes INDEX COUNT OUT",
                 "member 1 x out": "x: COUNT is a number below 2^64, in decimal digits: no digit at byte 1",
                 "increment x 1 out": "x: OLDER is a number below 2^64, in decimal digits: no digit at byte 1"}
    with Server("own.sock", honest(log)):
        for words, cause in questions.items():
            expect_said(whole("ask", "own.sock", *words.split()), 2, "bad argument", cause)
        for word in "0", "86401", "x":
            flaw = ": no digit at byte 1" if word == "x" else ""
            expect_said(whole("ask", "own.sock", "commitment", "--timeout", word), 2, "bad argument",
                        "%s: --timeout is a number from 1 to 86400, in decimal digits%s" % (word, flaw))
        expect_said(whole("send", "own.sock", "--window", "1025"), 2, "bad argument",
                    "1025: --window is a number from 1 to 1024, in decimal digits")
        expect_said(whole("ask", "s" * 108, "commitment"), 2, "bad argument",
                    "s" * 108 + ": SOCKET is a path of 1 to 107 bytes: it has 108")
        expect_said(whole("ask", "own.sock", "entry", "1", "own.sock"), 1, "file exists", "own.sock: OUT is the socket")
        expect_said(whole("watch", "own.sock", "own.sock"), 3, "file fault", "own.sock: it is no regular file")


@scene
def scene_not_allowed():
    """What a server doesn't allow ends every client with status 1: a feed that is started again and again would change
    nothing."""
    log = Log(5)
    newest = commitment_reply(NEWEST, *log.commitment())
    refused = b"audit: 16 NotAllowed\n"
    for words, replies, cause in (
        (["ask", "own.sock", "close"], [refusal(ASKED, 16)], "its clients may not close the log"),
        (["ask", "own.sock", "commitment"], [refusal(NEWEST, 16)], "its clients may not ask this"),
        (["ask", "own.sock", "state"], [refusal(ASKED, 16)], "its clients may not ask this"),
        (["ask", "own.sock", "member", "1", "3", "out"], [newest, refusal(ASKED, 16)], "its clients may not ask this"),
        (["ask", "own.sock", "export", "out"], [newest, refusal(2, 16)], "its clients may not ask this"),
        (["watch", "own.sock", "state"], [refusal(NEWEST, 16)], "its clients may not ask"),
    ):
        for serve in scripted(*replies), cut(*replies):
            with Server("own.sock", serve):
                expect(whole(*words), (1, b"", refused + b"audit: own.sock: %s\n" % cause.encode()), " ".join(words))
        expect((os.path.exists("out"), os.path.exists("state")), (False, False), "what is left of " + " ".join(words))
    readers = b"audit: own.sock: its clients may not append this\n"
    for serve in scripted(refusal(1, 16)), cut(refusal(1, 16)):
        for count, left in (1, b"1 line from line 1 is"), (3, b"3 lines from line 1 are"):
            with Server("own.sock", serve):
                found = whole("send", "own.sock", data=lines(count))
            # The other lines may not have been sent before the first was refused.
            left = re.sub(rb"audit: \d+ lines? from line 1 (is|are) not acknowledged\n", b"", found[2], count=1)
            expect((found[0], found[1], left, found[2].count(b"\n")), (1, b"", refused + readers, 3),
                   "send of %d events" % count)
    # What was answered before stays printed.
    with Server("own.sock", scripted(acknowledgement(1, 5, 6, bytes(32)), refusal(2, 16))):
        found = whole("send", "own.sock", "--window", "1", data=lines(2))
        expect((found[0], found[1]), (1, b"ack 5 6 %s\n" % (b"00" * 32)),
               "a send of which the second event isn't allowed")
        expect(found[2], refused + b"audit: 1 line from line 2 is not acknowledged\n" + readers, "its messages")
    # A refusal of one event ends nothing.
    with Server("own.sock", scripted(refusal(1, 7), refusal(2, 7))):
        expect(whole("send", "own.sock", data=lines(2)), (1, b"refused 1 7 Full\nrefused 2 7 Full\n", b""),
               "two events that don't fit")
