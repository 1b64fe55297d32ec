"""`append --follow` that is killed and signalled, and stores that aren't where they were."""
import os
import random
import shutil
import signal
import socket
import subprocess
import threading
import time

from checks.parts.logs import payloads_of
from checks.parts.program import SECONDS, STORE_REPLACED
from checks.parts.rooms import ending
from checks.parts.scenes import scene
from checks.parts.waiting import is_listening, wait_until
from checks.parts.wrong import expect, expect_true
from checks.system.common import feed
from model.disk import SECTOR


@scene
def followed_lines_survive_kills(room):
    """`append --follow` is killed again and again, while it opens or after some acknowledgements, and continues with
    the lines that the store doesn't hold: every acknowledged line is there after each kill, and at the end each line
    once."""
    lines = [b"line %d of a log \xff\\" % number for number in range(100000 if room.is_long else 4000)]
    store = room.store("followed", sectors=len(lines) + 100)
    held = 0
    for kills in range(200 if room.is_long else 10, 0, -1):
        # A batch has at most 64 lines, so each of these acknowledgements comes.
        share = lines[held:held + (len(lines) - held) // (kills + 1)]
        process = start_following(room, store, held)
        process.stdin.write(b"".join(line + b"\n" for line in share))
        process.stdin.flush()
        output = b"".join(process.stdout.readline() for _ in range(random.randrange(len(share) // 64 + 1)))
        threading.Timer(random.uniform(0, 0.003), process.kill).start()
        held = expect_held(room, store, process, held, output, -signal.SIGKILL)
    process = start_following(room, store, held)
    writer = threading.Thread(target=feed, args=(process, b"".join(line + b"\n" for line in lines[held:])))
    writer.start()
    held = expect_held(room, store, process, held, b"", 0)
    writer.join()
    expect(room.payloads(store), lines, "the lines of the store")
    refused = room.run("append", store, "--follow", "--expect", "7", given=b"event 1 -\n")
    expect(refused, (1, b"", b"audit: count is %d\n" % held), "another count than the expected one")


@scene
def signals_lose_nothing_acknowledged(room):
    """Signals end a follower as a crash does: what it acknowledged is in the store, which the next command opens."""
    store = room.store("signalled")
    for number, by in enumerate((signal.SIGTERM, signal.SIGINT, signal.SIGHUP, signal.SIGUSR1)):
        process = start_following(room, store, 2 * number, preexec_fn=ending)
        process.stdin.write(b"one\ntwo\n")
        process.stdin.flush()
        output = b""
        while b" %d " % (2 * number + 2) not in output:
            output += process.stdout.readline()
        process.send_signal(by)
        expect_held(room, store, process, 2 * number, output, -by)
    expect(room.payloads(store), [b"one", b"two"] * 4, "the lines of followers that were signalled")


def removed(store):
    os.remove(store)


def renamed_over(store):
    shutil.copyfile(store, store + ".copy")
    os.replace(store + ".copy", store)


def truncated(store):
    os.truncate(store, os.stat(store).st_size - SECTOR)


@scene
def a_store_out_of_place_ends_commands(room):
    """Once FILE names another file, or none, or its length changed, a follower acknowledges nothing after a second, and
    the end of each command that keeps a store open is a fault."""
    for harm in removed, renamed_over, truncated:
        what = "a store that was %s" % harm.__name__
        store = room.store("kept", payloads_of("before", 2))
        process = start_following(room, store, 2)
        process.stdin.write(b"kept\n")
        process.stdin.flush()
        expect_true(process.stdout.readline().startswith(b"ack 2 3 "), "no acknowledgement of " + what)
        harm(store)
        time.sleep(1.1)
        output, messages = process.communicate(b"lost\n", timeout=SECONDS)
        expect((process.returncode, output, messages), (3, b"", STORE_REPLACED), "a follower of " + what)
        for name in "append", "serve", "loop":
            expect_end_replaced(room, harm, name, what)


def expect_end_replaced(room, harm, name, what):
    """A command whose store is harmed, and whose input, or client, then ends without anything more."""
    path, words = room.path("socket"), {"append": ("--text", "5", "--follow"), "serve": (room.path("socket"), "1")}
    if os.path.lexists(room.path("kept")):
        os.remove(room.path("kept"))
    store = room.store("kept", payloads_of("before", 2))
    process = room.start(name, store, *words.get(name, (path,)), stdin=subprocess.PIPE)
    if name == "append":
        process.stdin.write(b"kept\n")
        process.stdin.flush()
        process.stdout.readline()
    else:
        wait_until(lambda: is_listening(path), "no socket of " + name)
    harm(store)
    if name == "serve":
        with socket.socket(socket.AF_UNIX) as client:
            client.connect(path)
    output, messages = process.communicate(timeout=SECONDS)
    expect((process.returncode, output, messages), (3, b"", STORE_REPLACED), "%s with %s" % (name, what))
    expect_true(not os.path.lexists(path), "%s leaves its socket" % name)
    if os.path.lexists(store):
        os.remove(store)


def start_following(room, store, held, **how):
    return room.start("append", store, "--follow", "--text", "5", "--expect", str(held), stdin=subprocess.PIPE, **how)


def expect_held(room, store, process, held, output, wanted):
    """A follower ends with the wanted status. How many lines the store holds then: none of those acknowledged are
    lost."""
    output, messages = output + process.stdout.read(), process.stderr.read()
    expect((process.wait(SECONDS), messages), (wanted, b""), "how a follower ends")
    acknowledged = max([int(line.split()[2]) for line in output.split(b"\n")[:-1]], default=held)
    found, _ = room.commitment(store)
    expect_true(found >= acknowledged, "%d lines were acknowledged, and %d are held" % (acknowledged, found))
    room.end()
    return found
