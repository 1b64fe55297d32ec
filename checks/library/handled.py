"""The handler for `logging`, in processes that exit, are killed, fork, or log faster than the store takes."""
import logging
import os
import signal
import subprocess
import sys
import threading
import time

from checks.library.asked import FIRST_KEY, exported
from checks.parts import program
from checks.parts.daemons import Daemon, FedDaemon
from checks.parts.places import KEY
from checks.parts.scenes import scene
from checks.parts.wrong import Wrong, expect, expect_true


def payloads_of(daemon):
    from audit_store import verify
    export, commitment = exported(daemon)
    return [event.payload for event in verify(export, FIRST_KEY, commitment)]


def logger_with(handler):
    log = logging.Logger("trial")
    log.addHandler(handler)
    return log


def python(text, *words):
    """Starts a program."""
    return subprocess.Popen([sys.executable, "-W", "ignore::DeprecationWarning", "-c", text, *words],
                            stdout=subprocess.PIPE, stderr=subprocess.PIPE)


@scene
def scene_records():
    """Records are events in order, formatted and cut; a flush waits for them."""
    from audit_store import Handler
    done = []
    with FedDaemon(os.getcwd()) as daemon:
        handler = Handler(daemon.socket, kind=5, acknowledge=done.append)
        handler.setFormatter(logging.Formatter("%(levelname)s %(message)s"))
        log = logger_with(handler)
        for number in range(500):
            log.warning("record %d, \u00e9", number)
        log.error("x" * 40000)
        expect(handler.flush(), True, "a flush")
        expect((handler.acknowledged, handler.dropped, len(done)), (501, 0, 501), "acknowledged and dropped")
        found = payloads_of(daemon)
        wanted = ["WARNING record %d, \u00e9" % number for number in range(500)]
        expect([payload.decode() for payload in found[:500]], wanted, "the records")
        expect(found[500], b"ERROR " + b"x" * (32696 - 6), "a record that is too long")
        handler.close()
        log.warning("after the close")
        expect(handler.dropped, 1, "a record after the close")


EXITS = """
import logging, sys
from audit_store import Handler
logging.getLogger().addHandler(Handler(sys.argv[1]))
for number in range(300):
    logging.warning("record %d", number)
"""


@scene
def scene_exit():
    """A process that exits has logged all its records."""
    with FedDaemon(os.getcwd()) as daemon:
        ended = python(EXITS, daemon.socket)
        expect((ended.communicate(timeout=60)[1], ended.returncode), (b"", 0), "a program that logs and exits")
        expect(payloads_of(daemon), [b"record %d" % number for number in range(300)], "its records")


KILLED = """
import logging, sys
from audit_store import Handler
logging.getLogger().addHandler(Handler(sys.argv[1], acknowledge=lambda done: print(done.index, flush=True)))
number = 0
while True:
    logging.warning("record %d", number)
    number += 1
"""


@scene
def scene_killed():
    """A process that is killed: what was acknowledged is in the log, in order and without a gap."""
    with FedDaemon(os.getcwd()) as daemon:
        for turn in range(3):
            before = daemon.count()
            killed = python(KILLED, daemon.socket)
            last = 0
            for _ in range(50):
                last = int(killed.stdout.readline())
            killed.send_signal(signal.SIGKILL)
            rest = killed.communicate()[0].split()
            last = max([last, *map(int, rest[:-1])])
            found = payloads_of(daemon)[before:]
            expect_true(len(found) > last - before, "event %d was acknowledged, and %d are there" % (last, len(found)))
            expect(found, [b"record %d" % number for number in range(len(found))], "the records of turn %d" % turn)


FORKED = """
import logging, os, sys
from audit_store import Handler
handler = Handler(sys.argv[1])
logging.getLogger().addHandler(handler)
for number in range(100):
    logging.warning("parent %d", number)
child = os.fork()
for number in range(100):
    logging.warning("%s %d", "parent" if child else "child", number + 100)
if child:
    os.waitpid(child, 0)
"""


@scene
def scene_forked():
    """A child logs its own records, and none of its parent's twice."""
    with FedDaemon(os.getcwd()) as daemon:
        ended = python(FORKED, daemon.socket)
        expect((ended.communicate(timeout=60)[1], ended.returncode), (b"", 0), "a program that forks")
        found = payloads_of(daemon)
        parent = [payload for payload in found if payload.startswith(b"parent")]
        child = [payload for payload in found if payload.startswith(b"child")]
        expect(parent, [b"parent %d" % number for number in range(200)], "the parent's records")
        expect(child, [b"child %d" % number for number in range(100, 200)], "the child's records")


POOLED = """
import logging, multiprocessing, sys
from audit_store import Handler
def work():
    for number in range(100):
        logging.warning("child %d", number)
logging.getLogger().addHandler(Handler(sys.argv[1]))
child = multiprocessing.get_context("fork").Process(target=work)
child.start()
child.join()
"""


@scene
def scene_multiprocessing():
    """A child of `multiprocessing`, which runs nothing that is registered for the exit, has logged all its records."""
    with FedDaemon(os.getcwd()) as daemon:
        ended = python(POOLED, daemon.socket)
        expect((ended.communicate(timeout=60)[1], ended.returncode), (b"", 0), "a program with a child")
        expect(payloads_of(daemon), [b"child %d" % number for number in range(100)], "its records")


@scene
def scene_exit_without_daemon():
    """An exit waits for a daemon that isn't there once, and not for each thing that flushes."""
    begun = time.monotonic()
    ended = python(EXITS.replace("sys.argv[1]", "sys.argv[1], patience=2"), "nobody.sock")
    expect((ended.communicate(timeout=60)[1], ended.returncode), (b"", 0), "a program that nobody hears")
    expect_true(time.monotonic() - begun < 5, "an exit took %.1f s" % (time.monotonic() - begun))


@scene
def scene_lost_records():
    """A record that can't be formatted, or that finds no thread, is counted, and the next one is logged."""
    from audit_store import Handler
    raises, logging.raiseExceptions = logging.raiseExceptions, False
    started = threading.Thread.start

    def fails(_):
        raise RuntimeError("can't start new thread")

    try:
        with FedDaemon(os.getcwd()) as daemon:
            handler = Handler(daemon.socket)
            log = logger_with(handler)
            threading.Thread.start = fails
            log.warning("without a thread")
            threading.Thread.start = started
            log.warning("%d", "no number")
            log.warning("logged")
            expect((handler.flush(), handler.dropped), (False, 2), "a flush after two lost records, and these")
            expect(payloads_of(daemon), [b"logged"], "the records")
            handler.close()
    finally:
        logging.raiseExceptions, threading.Thread.start = raises, started


@scene
def scene_restarted_daemon():
    """A daemon that is killed and started again under a handler: no record is left out, and their order stays."""
    from audit_store import Handler
    kills = 20 if program.LONG else 4
    with FedDaemon(os.getcwd()) as daemon:
        handler = Handler(daemon.socket, capacity=100000, patience=60)
        log, stop = logger_with(handler), threading.Event()
        count = [0]

        def work():
            while not stop.is_set():
                log.warning("%d", count[0])
                count[0] += 1
                time.sleep(0.0005)

        thread = threading.Thread(target=work)
        thread.start()
        for _ in range(kills):
            time.sleep(0.2)
            daemon.kill()
            time.sleep(0.1)
            daemon.start()
        stop.set()
        thread.join()
        expect(handler.flush(), True, "a flush after the kills")
        expect(handler.dropped, 0, "the records that were dropped")
        numbers = [int(payload) for payload in payloads_of(daemon)]
        expect(sorted(set(numbers)), list(range(count[0])), "the records, of which none is left out")
        firsts = list(dict.fromkeys(numbers))
        expect(firsts, sorted(firsts), "the order of the records")
        handler.close()


@scene
def scene_full():
    """What happens when the queue is full is what was chosen: drop, raise, or wait and then drop."""
    from audit_store import Handler
    from audit_store.handler import Full
    # Nobody listens.
    for full in ("drop", "block", "raise"):
        handler = Handler("nobody.sock", capacity=10, full=full, patience=0.2)
        log = logger_with(handler)
        begun, raised = time.monotonic(), 0
        for number in range(12):
            try:
                log.warning("%d", number)
            except Full:
                raised += 1
        took = time.monotonic() - begun
        wanted = {"drop": (2, 0), "block": (2, 0), "raise": (2, 2)}[full]
        expect((handler.dropped, raised), wanted, "the records that were dropped, and exceptions, with " + full)
        expect_true(took >= 0.4 if full == "block" else took < 0.4, "%s took %.2f s" % (full, took))
        expect(handler.flush(), False, "a flush that nobody hears")
        handler.close()
    try:
        Handler("nobody.sock", full="never")
    except ValueError:
        return
    raise Wrong("a policy that isn't one")


@scene
def scene_refusing_store():
    """Events that a full store refuses are counted, and the last refusal is told."""
    from audit_store import Handler
    program.done("format", "store", "8", KEY)
    # It says on standard error that the store is full.
    with Daemon("store", stderr=subprocess.DEVNULL) as daemon:
        handler = Handler(daemon.socket, patience=20)
        log = logger_with(handler)
        # The first one is refused, and the next ones still fit.
        log.warning("x" * 4000)
        for number in range(20):
            log.warning("%d", number)
        expect(handler.flush(), False, "a flush of records of which one was refused")
        count = daemon.count()
        found = handler.acknowledged, handler.dropped, handler.refused.name
        expect(found, (count, 21 - count, "Full"), "a full store")
        expect(payloads_of(daemon), [b"%d" % number for number in range(count)], "the records that fit")
        expect_true(count >= 5, "a store of 8 sectors has %d events" % count)
        handler.close()


@scene
def scene_slow_start():
    """A handler whose daemon starts later appends what it had queued."""
    from audit_store import Handler
    handler = Handler(os.path.join(os.getcwd(), "socket"), patience=30)
    log = logger_with(handler)
    log.warning("early")
    time.sleep(0.3)
    with FedDaemon(os.getcwd()) as daemon:
        log.warning("late")
        expect(handler.flush(), True, "a flush")
        expect(payloads_of(daemon), [b"early", b"late"], "the records")
        handler.close()
