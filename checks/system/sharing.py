"""Two programs at one store."""
import os
import subprocess
import threading
import time

from checks.parts.clients import Client
from checks.parts.files import read
from checks.parts.logs import event_lines, payloads_of
from checks.parts.program import IN_USE, SECONDS
from checks.parts.rooms import outcome
from checks.parts.scenes import scene
from checks.parts.waiting import has_locked, is_listening, wait_until
from checks.parts.wrong import Wrong, expect, expect_true, short
from checks.system.common import feed, read_pipe

LOCKED_OUT = [
    ("append", "STORE"), ("close", "STORE"), ("show", "STORE"), ("export", "STORE", "made"),
    ("serve", "STORE", "socket2", "1"),
    ("prove", "STORE", "member", "0", "3", "made"), ("loop", "STORE", "socket2"), ("show", "--read-only", "STORE"),
    ("export", "--read-only", "STORE", "made"), ("prove", "--read-only", "STORE", "member", "0", "3", "made"),
    ("export", "--salvage", "STORE", "made"), ("format", "--in-place", "--erase", "STORE", "200", "key"),
]


def expect_locked_out(room, store, commands, what):
    """Each of these commands is refused, and nothing changes."""
    before = read(store), sorted(os.listdir(room.folder))
    for words in commands:
        words = [store if word == "STORE" else word for word in words]
        expect(room.run(*words, given=event_lines([b"second"])), IN_USE, "%s %s" % (" ".join(words[:2]), what))
        expect_true(before == (read(store), sorted(os.listdir(room.folder))),
                    "%s changes something %s" % (words[0], what))


@scene
def one_program_has_the_store(room):
    """While one program has a store open for writing no other can open it, but see its header; several may read it at
    the same time."""
    payloads = payloads_of("locked", 3)
    store = room.store("store", payloads)
    server = room.serve(store, room.path("socket"))
    expect_locked_out(room, store, LOCKED_OUT, "beside a server")
    client = Client(room.path("socket"))
    expect(client.append(b"served"), (3, 4), "an append over the socket")
    client.end()
    expect(server.wait(SECONDS), 0, "the server's status")

    shown = room.done("show", store)
    writer = room.start("append", store, stdin=subprocess.PIPE)
    # The program holds the lock from before its first read.
    wait_until(lambda: has_locked(writer, store) or writer.poll() is not None, "an append that doesn't lock its store")
    expect_locked_out(room, store, LOCKED_OUT, "beside an append")
    expect(room.done("show", "--header", store), shown, "show --header beside an append")
    writer.communicate(event_lines([b"appended"]), timeout=SECONDS)
    expect(writer.returncode, 0, "the append's status")
    expect(room.payloads(store), payloads + [b"served", b"appended"], "the store after both")

    os.mkfifo(room.path("pipe"))
    reader = room.start("export", "--read-only", store, room.path("pipe"))
    wait_until(lambda: has_locked(reader, store) or reader.poll() is not None, "an export that doesn't lock its store")
    expect(room.run("show", "--read-only", store)[0::2], (0, b""), "show --read-only beside a reader")
    expect_locked_out(room, store, [words for words in LOCKED_OUT if words[1] == "STORE"], "beside a reader")
    read_pipe(room.path("pipe"), reader)
    expect(reader.wait(SECONDS), 0, "the reader's status")


def acknowledged_by(output, payloads):
    """The payloads of the events that were acknowledged, by their indices."""
    found = {}
    for line in output.split(b"\n"):
        if line:
            first, count = (int(word) for word in line.split()[1:3])
            for index in range(first, count):
                found[index] = payloads[len(found)]
    return found


def expect_kept(room, store, acknowledged, what):
    held = room.payloads(store)
    for index, payload in acknowledged.items():
        expect_true(index < len(held) and held[index] == payload,
                    "%s: event %d was acknowledged and is lost" % (what, index))
    expect(len(held), len(acknowledged), what + ": events of the store")


@scene
def races_lose_no_event(room):
    """Two programs that start at the same time: each either appends its events or is refused."""
    for attempt in range(room.tries()):
        store = room.store("race%d" % attempt, sectors=400)
        acknowledged = {}
        given = [payloads_of("first", 70), payloads_of("second", 70)]
        begun = [room.start("append", store, stdin=subprocess.PIPE) for _ in given]
        writers = [threading.Thread(target=feed, args=(process, event_lines(payloads))) for process,
                   payloads in zip(begun, given)]
        for writer in writers:
            writer.start()
        for process, payloads, writer in zip(begun, given, writers):
            writer.join()
            output, messages = process.stdout.read(), process.stderr.read()
            found = process.wait(SECONDS), output, messages
            if found != IN_USE:
                expect((found[0], messages), (0, b""), "two appends")
                acknowledged.update(acknowledged_by(output, payloads))
        expect_true(acknowledged, "two appends, and none was done")
        expect_kept(room, store, acknowledged, "two appends")
        room.end()

        race_with_show(room, store, acknowledged)
        room.end()

        race_of_servers(room, store, acknowledged)
        room.end()
        os.remove(store)


def race_of_servers(room, store, acknowledged):
    """Of two servers of one store one is refused."""
    sockets = [room.path("socket%d" % number) for number in (1, 2)]
    servers = [room.start("serve", store, path, "1") for path in sockets]
    wait_until(lambda: sum(server.poll() is not None for server in servers) >= 1,
               "two servers of one store, and none is refused")
    refused = [server.poll() is not None for server in servers]
    if all(refused):
        raise Wrong("two servers of one store, and both are refused")
    in_use = IN_USE[2] + b"audit: %s: another program has it open\n" % store.encode()
    expect(outcome(servers[refused.index(True)]), (3, b"", in_use), "a server beside another")
    place = refused.index(False)
    wait_until(lambda: is_listening(sockets[place]), "no socket of a server")
    client = Client(sockets[place])
    index, _ = client.append(b"over the socket")
    acknowledged[index] = b"over the socket"
    client.end()
    expect(servers[place].wait(SECONDS), 0, "the server's status")
    expect_kept(room, store, acknowledged, "a server beside another")


def race_with_show(room, store, acknowledged):
    """A show beside an append: each is done or refused."""
    payloads = payloads_of("beside", 200 if room.is_long else 70)
    writer = room.start("append", store, stdin=subprocess.PIPE)
    thread = threading.Thread(target=feed, args=(writer, event_lines(payloads)))
    thread.start()
    while writer.poll() is None:
        found = room.run("show", store)
        expect_true(found == IN_USE or (found[0], found[2]) == (0, b""), "show beside an append: %s" % short(found))
        if not thread.is_alive() and found != IN_USE and writer.poll() is None:
            time.sleep(0.001)
    thread.join()
    output, messages = writer.stdout.read(), writer.stderr.read()
    if (writer.returncode, output, messages) != IN_USE:
        expect((writer.returncode, messages), (0, b""), "an append beside show")
        acknowledged.update(acknowledged_by(output, payloads))
    expect_kept(room, store, acknowledged, "an append beside show")
