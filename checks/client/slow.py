"""Servers that are slow, silent, stopped or have no room: each command ends in its time."""
import contextlib
import os
import shutil
import signal
import socket
import subprocess
import time

from checks.client.common import SOON, lines, run_soon, store
from checks.client.git_witnesses import put_file
from checks.parts import program
from checks.parts.clients import side_by_side
from checks.parts.daemons import Daemon
from checks.parts.frames import acknowledgement, commitment_reply, entry_reply, increment_reply, member_reply
from checks.parts.liars import ASKED, JOIN, NEWEST, Server, after, dripping, honest, late
from checks.parts.logs import Log, increment, membership, root
from checks.parts.places import tool
from checks.parts.program import TOO_LATE, run, without_cause
from checks.parts.repositories import clones, git, repository
from checks.parts.scenes import scene
from checks.parts.tools import needs
from checks.parts.wrong import Wrong, expect


@scene
def scene_slow():
    """A server that sends a byte now and then: each command ends soon after its time."""
    log = Log(90)
    newest = commitment_reply(NEWEST, *log.commitment())
    proof = membership(log.texts, 90, 5)
    with open("kept", "w") as file:
        file.write(log.word(70) + "\n")
    acks = [acknowledgement(place + 1, place, place + 1, b"\7" * 32) for place in range(4)]

    entries = [entry_reply(2 + place, text) for place, text in enumerate(log.texts)]
    unanswered = b"audit: 2 lines from line 1 are not acknowledged\n"
    calls = [
        ("commitment", ["ask", "a.sock", "commitment"], dripping(newest), TOO_LATE),
        ("entry", ["ask", "b.sock", "entry", "5", "b"],
         after(newest, dripping(member_reply(ASKED, proof, log.texts[5]))), TOO_LATE),
        ("export", ["ask", "c.sock", "export", "c"], after(newest, late(b"", *entries)), TOO_LATE),
        ("watch", ["watch", "d.sock", "new"], dripping(newest), TOO_LATE),
        ("watch on", ["watch", "e.sock", "kept"],
         after(newest, dripping(increment_reply(JOIN, increment(log.texts, 70, 90)))), TOO_LATE),
        ("send", ["send", "f.sock"], dripping(acks[0]), (3, b"", TOO_LATE[2] + unanswered)),
    ]

    def call(what, words, serve, wanted):
        data = lines(2) if words[0] == "send" else b""
        with Server(words[1], serve):
            return what, run_soon(*words, data=data), wanted

    for what, found, wanted in side_by_side([(call, *row) for row in calls]):
        expect(found, wanted, what)
    expect((os.path.exists("b"), os.path.exists("c"), os.path.exists("new")), (False, False, False), "what was put")
    with Server("own.sock", late(*acks)):
        found = run("send", "own.sock", "--timeout", "5", data=lines(4))
        expect((found[0], len(found[1].splitlines()), found[2]), (0, 4, b""), "answers that are in time each")


@scene
def scene_slow_fleet():
    """One witness of a store whose daemon sends a byte now and then: a look at it ends soon after its ten seconds."""
    needs("git")
    repository("states", "fleet")
    with open("list", "w") as file:
        file.write("slow slow.sock\n")
    begun = time.monotonic()
    with Server("slow.sock", dripping(commitment_reply(NEWEST, *Log(3).commitment()), seconds=1.5)):
        found = subprocess.run([tool("fleet"), program.PATH, "list", "states"], capture_output=True,
                               timeout=program.SECONDS)
        taken = time.monotonic() - begun
    rows = [row.split(None, 3) for row in found.stdout.decode().splitlines()]
    expect((found.returncode, rows[1:]), (3, [["slow", "-", "-", "no reply in time"]]), "a look")
    expect(taken < 10 + SOON, True, "%.1f seconds of a look" % taken)


@scene
def scene_frozen():
    """`stop` at a daemon that is stopped by a signal ends in time, also if no more orders can wait there, and the
    daemon ends when it goes on."""
    store(64)
    with Daemon("store", "daemon.sock") as daemon, contextlib.ExitStack() as held:
        os.kill(daemon.process.pid, signal.SIGSTOP)
        begun = time.monotonic()
        stops = [stopping()]
        time.sleep(1)
        fill("daemon.sock.stop", held)
        stops.append(stopping())
        for stop, what in zip(stops, ("a stop of a frozen daemon",
                                      "a stop of a frozen daemon that takes no more orders")):
            try:
                output, messages = stop.communicate(timeout=30 + SOON)
            except subprocess.TimeoutExpired:
                stop.kill()
                raise Wrong(what + " doesn't end") from None
            expect((stop.returncode, output, without_cause(["stop"], messages)), (3, b"", b"audit: file fault\n"), what)
            expect(time.monotonic() - begun >= 30, True, "the time of " + what)
        os.kill(daemon.process.pid, signal.SIGCONT)
        daemon.process.communicate(timeout=program.SECONDS)
        expect(daemon.process.returncode, 0, "the end of a daemon")


def stopping():
    return subprocess.Popen([program.PATH, "stop", "daemon.sock"], stdout=subprocess.PIPE, stderr=subprocess.PIPE)


def fill(path, held):
    """Connects to a socket until no more connections can wait there."""
    while True:
        client = held.enter_context(socket.socket(socket.AF_UNIX))
        client.setblocking(False)
        try:
            client.connect(path)
        except BlockingIOError:
            return


@scene
def scene_full():
    """A socket at which no more clients can wait: each command ends in time, or goes on as soon as one can."""
    log = Log(3)
    with socket.socket(socket.AF_UNIX) as listener:
        listener.bind("full.sock")
        listener.listen(0)
        waiting = clients_that_wait("full.sock")
        expect(run_soon("ask", "full.sock", "commitment"), TOO_LATE, "ask")
        expect(run_soon("ask", "full.sock", "export", "out"), TOO_LATE, "ask for a file")
        expect(os.path.exists("out"), False, "a file for no answer")
        expect(run_soon("send", "full.sock", data=lines(3)), TOO_LATE, "send")
        expect(run_soon("watch", "full.sock", "state"), TOO_LATE, "watch")
        expect(os.path.exists("state"), False, "STATE without an answer")
        ask = subprocess.Popen([program.PATH, "ask", "full.sock", "commitment"], stdout=subprocess.PIPE,
                               stderr=subprocess.PIPE)
        time.sleep(0.3)
        for client in waiting:
            client.close()
        listener.settimeout(1)
        while ask.poll() is None:
            try:
                stream, _ = listener.accept()
                with stream:
                    honest(log)(stream)
            except (EOFError, OSError):
                pass
        found = ask.communicate(timeout=program.SECONDS)
    expect(found, (b"commit 3 %s\n" % root(log.texts, 3).hex().encode(), b""), "room in time")


def clients_that_wait(path):
    """As many clients as can wait at a socket."""
    waiting = []
    while True:
        client = socket.socket(socket.AF_UNIX)
        client.setblocking(False)
        try:
            client.connect(path)
        except BlockingIOError:
            client.close()
            return waiting
        waiting.append(client)


@scene
def scene_slow_remotes():
    """A remote that never answers: fleet and witness-git look, and end in their time, of which there is less here."""
    needs("git")
    log = Log(3)
    clones("first")
    git("first", "config", "protocol.ext.allow", "always")
    git("first", "remote", "set-url", "origin", "ext::sleep 1000")
    put_file("list", b"a own.sock\n")
    shutil.copy(tool("shown.sh"), "shown.sh")
    for name, words, wanted in (
        ("witness-git", ["own.sock", "first", "first"],
         (3, [b"began"], b"witness-git: the commitments of others couldn't be fetched\n")),
        ("fleet", ["list", "first"], (3, [b"store", b"a"], b"fleet: the commitments couldn't be pushed\n")),
    ):
        with open(tool(name), "rb") as file:
            text = file.read()
        expect(text.count(b"seconds=300\n"), 1, "the time of " + name)
        put_file(name, text.replace(b"seconds=300\n", b"seconds=1\n"))
        os.chmod(name, 0o755)
        if name == "witness-git":
            os.makedirs("first/.git/witness-git")
            put_file("first/.git/witness-git/first.state", log.word(2).encode() + b"\n")
            wanted = wanted[0], [b"grew"], wanted[2]
        begun = time.monotonic()
        with Server("own.sock", honest(log)):
            found = subprocess.run(["./" + name, program.PATH, *words], stdin=subprocess.DEVNULL, capture_output=True,
                                   timeout=program.SECONDS)
        expect((found.returncode, [row.split()[0] for row in found.stdout.splitlines()], found.stderr), wanted, name)
        expect(time.monotonic() - begun < SOON, True, "the time of " + name)
