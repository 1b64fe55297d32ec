"""Rotates a log that is a folder by tools/rotate-log, lists it by audit-log, and lets a witness follow by its links.
Runs are killed at any moment; links and servers are forged.

usage: bin/check rotating EXECUTABLE [--long] [SCENE ..]

With --long 120 runs are killed.
"""
import os
import random
import shutil
import subprocess
import sys
import time

from checks.parts import program
from checks.parts.daemons import Daemon, commitment_of, events_in
from checks.parts.files import read, read_text, write
from checks.parts.logs import event_line
from checks.parts.places import tool
from checks.parts.processes import kill_group, start
from checks.parts.program import done
from checks.parts.scenes import play_all, scene, scenes_in, words_of
from checks.parts.wrong import expect, expect_true
from model.chain import CLOSING_KIND
from model.links import counts_text

SECTORS = "64"
CLOSED = (CLOSING_KIND, b"")


def environment(path=None):
    return dict(os.environ, AUDIT=path or program.PATH)


def run_tool(name, *words, path=None):
    """Status, standard output and standard error of a tool."""
    ended = subprocess.run([tool(name), *words], stdin=subprocess.DEVNULL, capture_output=True, timeout=program.SECONDS,
                           env=environment(path))
    return ended.returncode, ended.stdout, ended.stderr


def prepare(number, folder="log"):
    """Makes an empty store that a log may go on in. Its key is that of its number."""
    os.makedirs("%s/prepared" % folder, exist_ok=True)
    key = "key%d" % number
    write(key, b"%064d\n" % (number + 1))
    done("format", "%s/prepared/%03d.store" % (folder, number), SECTORS, key)


def begin(stores, folder="log"):
    """Makes a log's folder, with its first store and some that are prepared."""
    for number in range(stores + 1):
        prepare(number, folder)
    os.rename("%s/prepared/000.store" % folder, "%s/current.store" % folder)


def append(payloads, kind=7, store="log/current.store"):
    done("append", store, data=b"".join(event_line(payload, kind) for payload in payloads))


def closed_names(folder="log"):
    return sorted(os.listdir(os.path.join(folder, "closed"))) if os.path.isdir(os.path.join(folder, "closed")) else []


def stores_in(folder="log"):
    """The stores of a log, the first one first."""
    return ["%s/closed/%s/store" % (folder, name) for name in closed_names(folder)] + ["%s/current.store" % folder]


def events_of(store, number):
    """The events of a store, verified with its own key."""
    done("export", store, "export")
    return events_in("export", "key%d" % number, commitment_of(store))


def expect_chain(lists, kind=7, folder="log"):
    """The logs have these lists of payloads, each the last commitment of the one before and the numbers of all events so
    far, and each link is accepted."""
    stores, sent = stores_in(folder), 0
    expect(len(stores), len(lists), "how many stores a log has")
    for number, (store, payloads) in enumerate(zip(stores, lists)):
        counts = counts_text({kind: sent} if sent else {})
        begins = [(0, commitment_of(stores[number - 1]).encode()), (0, counts)] if number else []
        ends = [CLOSED] if number + 1 < len(stores) else []
        expect(events_of(store, number), begins + [(kind, payload) for payload in payloads] + ends,
               "the events of store %d" % number)
        sent += len(payloads)
    lines = run_tool("audit-log", folder)[1].decode().splitlines()
    wanted = ["%s accepted" % commitment_of(store).replace(":", " ") for store in stores[:-1]]
    found = [" ".join((*line.split()[2:4], line.split()[5])) for line in lines if line.startswith("closed ")]
    expect(found, wanted, "the closed stores that audit-log prints")


def rotated(folder="log"):
    status, output, messages = run_tool("rotate-log", folder)
    expect_true(status == 0, "a rotation ends with %r" % ((status, output, messages),))
    return output.decode().splitlines()


@scene
def scene_rotations():
    """A log goes on in five stores. Each is verified with its own key, and leads to the next."""
    begin(5)
    lists = []
    for number in range(5):
        lists.append([b"%d of %d" % (at, number) for at in range(number * 2 % 5)])
        append(lists[-1])
        lines = rotated()
        closed = commitment_of("log/closed/%s/store" % closed_names()[-1]).replace(":", " ")
        expect((lines[-3], lines[-1]), ("closed " + closed, "prepared %d" % (4 - number)), "what a rotation prints")
    lists.append([b"the last"])
    append(lists[-1])
    expect_chain(lists)
    status, output, messages = run_tool("audit-log", "log")
    expect((status, output.splitlines()[-1], messages), (1, b"prepared 0", b"audit-log: only 0 prepared stores are left\n"),
           "a listing of a log without prepared stores")
    before = commitment_of("log/current.store")
    expect(run_tool("rotate-log", "log"), (1, b"", b"rotate-log: no store is prepared in log/prepared\n"),
           "a rotation without a prepared store")
    expect(commitment_of("log/current.store"), before, "the log after a rotation that was refused")


@scene
def scene_verified():
    """verify-chain takes the logs of such a chain as those of any other."""
    begin(2)
    os.mkdir("logs")
    for _ in range(2):
        append([b"one", b"two"])
        rotated()
    for number, store in enumerate(stores_in()):
        done("export", store, "logs/%d.export" % number)
        shutil.copy("key%d" % number, "logs/%d.key" % number)
    status, output, messages = run_tool("verify-chain", "logs", commitment_of("log/current.store"))
    expect((status, output.split(b"\n")[-2], messages), (0, b"chain 3 10 open", b""), "a chain of prepared stores")


@scene
def scene_kills():
    """rotate-log is killed at any moment and run again: the log has gone on once, in the store that was next."""
    begin(40 if program.LONG else 4)
    lists, kills, whole = [], 0, None
    for number in range(40 if program.LONG else 4):
        lists.append([b"%d of %d" % (at, number) for at in range(number % 4)])
        append(lists[-1])
        killed, whole = rotate_killed(number, whole)
        kills += killed
    lists.append([])
    expect_chain(lists)
    expect(os.path.exists("log/rotating"), False, "whether a rotation is under way")
    expect_true(kills > number // 2, "only %d runs of %d rotations were killed" % (kills, number + 1))


def rotate_killed(number, whole):
    """Rotates for this time, in up to three runs that are killed and one that isn't, unless a killed one was done: how
    many were killed, and how long a run takes at most."""
    for kills in range(3 if whole else 0):
        process = start([tool("rotate-log"), "log"], stdin=subprocess.DEVNULL, stdout=subprocess.DEVNULL,
                        stderr=subprocess.DEVNULL, env=environment(), start_new_session=True)
        time.sleep(random.uniform(0, whole))
        has_ended = process.poll() is not None
        kill_group(process)
        expect_true(not has_ended or process.returncode == 0, "a rotation that isn't killed has a fault")
        if len(closed_names()) > number:
            # A machine that was busier at first takes less now.
            return kills + (not has_ended), whole / 2 if has_ended else whole
    begun = time.monotonic()
    rotated()
    return 3 if whole else 0, whole or time.monotonic() - begun


@scene
def scene_gone_on():
    """A rotation is stopped once its link is written, and the log gets events before it is rotated after all."""
    begin(2)
    append([b"one"])
    shutil.copytree("log", "copy")
    rotated("copy")
    os.mkdir("log/rotating")
    shutil.copy("copy/current.link", "log/rotating/link")
    os.rename("log/prepared/001.store", "log/rotating/next.store")
    append([b"two"])
    rotated()
    expect_chain([[b"one", b"two"], []])


@scene
def scene_refused():
    """What can't be rotated stays as it was, and is rotated once that is put right."""
    begin(1)
    append([b"one"])
    before = read("log/current.store")
    daemon = Daemon("log/current.store")
    status, output, messages = run_tool("rotate-log", "log")
    expect((status, output, messages.split(b"\n")[0]), (3, b"", b"audit: store in use"), "a rotation beside a daemon")
    daemon.stop()
    shutil.move("log/rotating/next.store", "next")
    shutil.copy("log/current.store", "log/rotating/next.store")
    status, _, messages = run_tool("rotate-log", "log")
    expect_true(status == 1 and messages.endswith(b"rotate-log: the log isn't rotated\n"),
                "a next store that isn't empty: %r" % ((status, messages),))
    os.remove("log/rotating/next.store")
    done("format", "log/rotating/next.store", SECTORS, "key0")
    expect(run_tool("rotate-log", "log")[0], 2, "a next store under the log's own first key")
    expect(read("log/current.store"), before, "the store after rotations that were refused")
    shutil.move("next", "log/rotating/next.store")
    rotated()
    expect_chain([[b"one"], []])
    for words in [], ["a", "b"], ["--all"]:
        expect(run_tool("rotate-log", *words)[:2], (2, b""), "wrong words of rotate-log")
        expect(run_tool("audit-log", *words)[:2], (2, b""), "wrong words of audit-log")


def followed(state, link, socket, following):
    """How a witness answers that goes on from STATE by a link: its status, and its line."""
    status, output, messages = program.whole("watch", socket, following, "--after", state, link)
    expect_true(status == 0 or messages.startswith(b"audit: ") or output, "%s: %r" % (link, (status, output, messages)))
    return status, (output or messages).decode()


@scene
def scene_followed():
    """A witness follows a log over two rotations by links alone. It stops at a log that doesn't go on from its own."""
    begin(2)
    append([b"one", b"two"])
    watch("state0", "log/current.store")
    append([b"three"])
    rotated()
    first = "log/closed/%s" % closed_names()[-1]
    begun = commitment_of("log/current.store")
    with Daemon("log/current.store", "new.sock"):
        expect(followed("state0", "log/current.link", "new.sock", "state1"), (1, "audit: not linked: old half\n"),
               "a witness whose last look was before the log was closed")
        watch("state0", first + "/store")
        expect(followed("state0", "log/current.link", "new.sock", "state1"), (0, "same\n"), "a log of two entries")
    expect(read_text("state1"), begun + "\n", "the file of a witness that followed")
    append([b"four"])
    grown = commitment_of("log/current.store")
    with Daemon("log/current.store", "new.sock"):
        expect(followed("state0", "log/current.link", "new.sock", "late"), (0, "grew %s\n" % grown),
               "a witness that comes later")
        expect(followed("missing", "missing", "new.sock", "state1")[0], 0, "a file that was begun goes on by itself")
    expect(read_text("late"), "%s\n%s\n" % (begun, grown), "two commitments, to the entries of the link and to all")
    expect(read_text("state1"), read_text("late"), "the file of the other witness")
    rotated()
    watch("state1", "log/closed/%s/store" % closed_names()[-1])
    append([b"five"])
    with Daemon("log/current.store", "new.sock"):
        expect(followed("state1", "log/current.link", "new.sock", "state2")[0], 0, "a second rotation")
    expect(read_text("state2").splitlines()[-1], commitment_of("log/current.store"), "the file after two rotations")


def watch(state, store):
    with Daemon(store, "watched.sock"):
        done("watch", "watched.sock", state)


@scene
def scene_forged():
    """Links and logs that don't lead on from a witness's line are refused, and nothing is kept."""
    begin(1)
    append([b"one"])
    watch("state0", "log/current.store")
    shutil.copytree("log", "fork")
    begin(1, "other")
    append([b"other"], store="other/current.store")
    rotated()
    for folder in "fork", "other":
        append([b"forged"], store=folder + "/current.store")
        rotated(folder)
    watch("state0", "log/closed/%s/store" % closed_names()[0])
    link = read("log/current.link")
    write("changed.link", link[:-70] + bytes([link[-70] ^ 1]) + link[-69:])
    write("cut.link", link[:-1])
    write("empty.link", b"")
    write("taken", b"kept")
    os.mkfifo("pipe.link")
    begun = commitment_of("log/current.store") + "\n"
    with Daemon("log/current.store", "new.sock"), Daemon("fork/current.store", "fork.sock"):
        expect_refused()
        expect((os.path.exists("next"), read("taken")), (False, b"kept"), "what is kept of what was refused")
        expect(read_text("begun"), begun, "what a link shows, whatever a server says")
        expect(followed("state0", "log/current.link", "new.sock", "next")[0], 0, "the link that leads on")
    for words in ["new.sock", "next", "some.link"], ["new.sock", "next", "--after", "state0"]:
        expect(program.whole("watch", *words)[0], 2, "half of what says where a witness goes on from")


def expect_refused():
    for wrong, said, words in (
            ("a fork's link", "audit: not linked: old half\n", ("state0", "fork/current.link", "fork.sock", "next")),
            ("another log's link", "audit: not linked: old half\n", ("state0", "other/current.link", "new.sock", "next")),
            ("a changed link", "audit: not linked: new half\n", ("state0", "changed.link", "new.sock", "next")),
            ("a cut link", "audit: 32 BadProof\n", ("state0", "cut.link", "new.sock", "next")),
            ("an empty link", "audit: 32 BadProof\n", ("state0", "empty.link", "new.sock", "next")),
            ("a server of a fork", "other root\n", ("state0", "log/current.link", "fork.sock", "begun")),
            ("a file with another line", "audit: line 1: bad commitment line\n",
             ("state0", "log/current.link", "new.sock", "taken"))):
        status, line = followed(*words)
        expect((status, line.partition("\n")[0] + "\n"), (1, said), wrong)
    for wrong, words in (("a server that isn't there", ("state0", "log/current.link", "nobody.sock", "next")),
                         ("a witness without a file", ("missing", "log/current.link", "new.sock", "next")),
                         ("a link that isn't there", ("state0", "missing", "new.sock", "next")),
                         ("a pipe as a link", ("state0", "pipe.link", "new.sock", "next"))):
        expect(followed(*words)[0], 3, wrong)


SCENES = scenes_in(sys.modules[__name__])


def main(words):
    _, names = words_of(words, SCENES)
    return play_all(SCENES, names)
