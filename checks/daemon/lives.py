"""How a daemon begins and ends: lines, sockets, signals, kills, orders to stop."""
import contextlib
import os
import random
import signal
import socket
import sys
import time

from checks.daemon.bad_clients import asking_for_commitments, asking_for_entries, idle
from checks.daemon.common import PLACES, Crowd, Daemon, appending, expect_kept, is_answered, logged, sectors_for
from checks.parts.clients import connected, in_process, index_in
from checks.parts.files import mode_of, read, write
from checks.parts.frames import CLOSE, COMMITMENT, COMMITMENT_REPLY, NOT_ALLOWED, append_frame, refused, reply_of, take
from checks.parts.logs import keys_from, payloads_of
from checks.parts.memory import memory_of
from checks.parts.processes import forget
from checks.parts.program import BAD_ARGUMENT, FILE_FAULT, IN_USE, SECONDS
from checks.parts.rooms import FIRST_KEY, ending, in_child
from checks.parts.scenes import scene
from checks.parts.waiting import is_listening, is_socket, wait_until
from checks.parts.wrong import expect, expect_true


@scene
def a_daemon_begins_and_ends(room):
    """The lines, the sockets' files, their modes and the statuses; who has the store, and what the words may be."""
    store = room.store("store", payloads_of("before", 3))
    count, root = room.commitment(store)
    daemon = Daemon(room, store, "--reader", room.path("readers"), "--socket-mode", "660")
    expect(daemon.ready, b"ready 3 %s\n" % root.encode(), "the first line")
    modes = [oct(mode_of(room.path(name))) for name in ("socket", "readers", "socket.stop")]
    expect(modes, ["0o660", "0o660", "0o600"], "the modes of the sockets")
    expect(room.run("show", store), IN_USE, "show beside a daemon")
    expect(room.run("daemon", store, room.path("other")), IN_USE, "a second daemon for a store")
    other = room.store("second")
    expect(room.run("daemon", other, daemon.socket), FILE_FAULT, "a second daemon at a socket")
    expect(room.run("daemon", other, room.path("free"), "--reader", daemon.socket), FILE_FAULT,
           "a second daemon at a socket")
    expect(sorted(name for name in os.listdir(room.folder) if is_socket(room.path(name))),
           ["readers", "socket", "socket.stop"],
           "the sockets after daemons that didn't start")
    client = connected(daemon.socket)
    client.sendall(append_frame(b"one") + COMMITMENT)
    expect(index_in(reply_of(client)), 3, "an append")
    expect(reply_of(client)[0], COMMITMENT_REPLY, "a commitment")
    daemon.stopped_well()
    expect(take(client, 1), b"", "a client after the end")
    expect_true(not os.path.lexists(room.path("readers")), "a stopped daemon leaves its readers' socket")
    expect(room.payloads(store)[3:], [b"one"], "the store after a daemon")
    expect(room.run("stop", daemon.socket), FILE_FAULT, "stop without a daemon")
    for words in (["--idle", "x"], ["--idle", "-1"], ["--backlog", "67108865"], ["--backlog", ""], ["--reserve", "-1"],
                  ["--until-free", "x"], ["--socket-mode", "700"]):
        expect(room.run("daemon", "nothing", daemon.socket, *words)[0], 2, " ".join(words))
    expect(room.run("daemon", room.path("nothing"), daemon.socket), FILE_FAULT, "a daemon without a store")
    write(room.path("file"), b"a file")
    expect(room.run("daemon", store, room.path("file")), FILE_FAULT, "a daemon at another file")
    expect(read(room.path("file")), b"a file", "a file in the place of a socket")


@scene
def sockets_of_killed_daemons_are_replaced(room):
    """Signals end a daemon as a crash does, and the next one needs no hand."""
    store = room.store("store", sectors=4000)
    acknowledged = {}
    for number, by in enumerate((signal.SIGTERM, signal.SIGKILL, signal.SIGINT, signal.SIGHUP, signal.SIGUSR1)):
        daemon = Daemon(room, store, "--reader", room.path("readers"), preexec_fn=ending)
        crowd = Crowd(daemon.socket, 4, "killed %d" % number)
        crowd.run(0.02)
        acknowledged.update(crowd.acknowledged)
        expect(daemon.kill(by), (-by, b"", b""), "a daemon that is killed")
        crowd.end()
        expect(room.run("stop", daemon.socket), FILE_FAULT, "stop of a killed daemon")
        expect_true(all(is_socket(room.path(name)) for name in ("socket", "socket.stop", "readers")),
                    "no stale sockets")
    daemon = Daemon(room, store, "--reader", room.path("readers"))
    daemon.stopped_well()
    expect_kept(room, store, acknowledged, "after kills")


@scene
def closed_streams_harm_no_store(room):
    """A daemon that is started without standard streams: none of its descriptors is taken for one."""
    for closed in ((0,), (1,), (2,), (0, 1, 2)):
        store = room.store("store", payloads_of("before", 2))
        path = room.path("socket")
        begun = room.start("daemon", store, path, "--explain", preexec_fn=in_child(closed))
        wait_until(lambda: is_listening(path + ".stop") or begun.poll() is not None, "a daemon without a socket")
        client = connected(path)
        client.sendall(append_frame(b"after") + CLOSE)
        expect(index_in(reply_of(client)), 2, "an append")
        expect(reply_of(client), refused(7, NOT_ALLOWED), "a close that isn't allowed")
        expect(reply_of(client), b"", "the end after what isn't allowed")
        what = "a daemon with %s closed" % ", ".join(map(str, closed))
        expect(room.run("stop", path), (0, b"", b""), "stop of " + what)
        begun.communicate(timeout=SECONDS)
        forget(begun)
        expect(begun.returncode, 0, what)
        expect(room.payloads(store)[2:], [b"after"], "the store after " + what)
        os.remove(store)


@scene
def replaced_keys_are_forgotten(room):
    """After clients that came, appended and went, a daemon has only its current key in memory; after a close, none."""
    appends = 60
    keys = [key for _, key in zip(range(appends + 2), keys_from(FIRST_KEY))]
    store = room.store("store")
    daemon = Daemon(room, store, "--allow-close")
    for number in range(appends):
        with connected(daemon.socket) as client:
            client.sendall(append_frame(b"key %d" % number))
            index_in(reply_of(client))
    for closing in (False, True):
        if closing:
            with connected(daemon.socket) as client:
                client.sendall(CLOSE)
                index_in(reply_of(client))
        memory = memory_of(daemon.process)
        if memory is not None:
            expect_true(store.encode() in memory, "the memory that was searched isn't the daemon's")
            found = [index for index, key in enumerate(keys) if key in memory]
            expect(found, [] if closing else [appends], "keys in the memory of a daemon")
    daemon.stopped_well()


@scene
def an_idle_daemon_takes_no_time(room):
    """With clients that do nothing, and with one more that waits for a place."""
    store = room.store("store")
    daemon = Daemon(room, store, "--idle", "0")
    for clients in (0, PLACES, PLACES + 1):
        streams = [connected(daemon.socket) for _ in range(clients)]
        if streams:
            streams[0].sendall(COMMITMENT)
            expect(reply_of(streams[0])[0], COMMITMENT_REPLY, "a commitment")
        time.sleep(0.05)
        before = daemon.ticks()
        time.sleep(0.4)
        expect(daemon.ticks(), before, "the time and the waits of an idle daemon with %d clients" % clients)
        for stream in streams:
            stream.close()
    daemon.stopped_well()


@scene
def what_was_told_is_kept(room):
    """The daemon is killed while clients append: each acknowledgement that one read is in the store at its index."""
    kills = 200 if room.is_long else 5
    store = room.store("store", sectors=sectors_for(4000 * kills))
    acknowledged = {}
    for kill in range(kills):
        daemon = Daemon(room, store)
        log = room.path("log%d" % kill)
        write(log, b"")
        with contextlib.ExitStack() as clients:
            for client in range(4):
                clients.enter_context(in_process(appending, daemon.socket, "kill %d client %d" % (kill, client), log))
            time.sleep(0.02 + 0.08 * random.random())
            daemon.kill()
            time.sleep(0.01)
        acknowledged.update(logged(log))
        os.remove(log)
        if kill % 20 == 0 or kill == kills - 1:
            expect_kept(room, store, acknowledged, "after %d kills" % (kill + 1))
    expect_true(len(acknowledged) > kills, "few appends: %d" % len(acknowledged))


@scene
def stops_under_load(room):
    """An order to stop while clients append, ask and don't read: it is obeyed in time, and what was told is kept."""
    store = room.store("store", [b"x" * 32696], sectors=sectors_for(100_000))
    log = room.path("log")
    write(log, b"")
    daemon = Daemon(room, store)
    with contextlib.ExitStack() as clients:
        for client in range(8):
            clients.enter_context(in_process(appending, daemon.socket, "client %d" % client, log))
        for bad in (asking_for_entries, asking_for_commitments, idle):
            clients.enter_context(in_process(bad, daemon.socket))
        time.sleep(0.3)
        begun = time.monotonic()
        daemon.stopped_well()
        took = time.monotonic() - begun
        if "TIMES" in os.environ:
            print("       a stop under load took %.2f s" % took, file=sys.stderr)
    # Replies may be taken for five seconds.
    expect_true(took < 30, "a stop under load takes %.1f s" % took)
    expect_true(len(expect_kept(room, store, logged(log), "a stop under load")) > 8, "few appends")
    # One that doesn't take its replies holds the end up for five seconds, and no longer.
    daemon = Daemon(room, store)
    client = connected(daemon.socket)
    for _ in range(20):
        client.sendall(COMMITMENT * 500)
    daemon.settle()
    begun = time.monotonic()
    if room.is_long:
        daemon.stopped_well()
        took = time.monotonic() - begun
        expect_true(4.5 < took < 6, "a stop with a client that doesn't read takes %.1f s" % took)
    else:
        order = room.start("stop", daemon.socket)
        time.sleep(0.2)
        expect(len(take(client, 10_000 * 47)), 10_000 * 47, "the replies after the order to stop")
        expect((order.wait(SECONDS), daemon.end()[0]), (0, 0), "the statuses")


@scene
def an_order_is_a_message(room):
    """A connection alone is no order, nor is any other message. Those that are silent or half done hold nobody up."""
    daemon = Daemon(room, room.store("store"))
    orders = daemon.socket + ".stop"
    wrong = [b"halt\n", b"stop\r\n", b"\n", b"Stop\n"]
    for sent in wrong:
        with connected(orders) as stranger, contextlib.suppress(ConnectionResetError):
            stranger.sendall(sent)
            expect(take(stranger, 1), b"", "the answer to %r" % sent)
    begun = [connected(orders) for _ in range(3)]
    for stream, sent in zip(begun, (b"", b"st", b"stop")):
        stream.sendall(sent)
    begun[2].close()
    is_answered(daemon.socket)
    silent = [connected(orders) for _ in range(100)]
    is_answered(daemon.socket)
    expect((take(begun[0], 1), take(begun[1], 1)), (b"", b""), "the oldest of too many that order nothing")
    daemon.stopped_well()
    for stream in silent:
        stream.close()
    daemon = Daemon(room, room.path("store"))
    stream = connected(orders)
    stream.sendall(b"st")
    is_answered(daemon.socket)
    stream.sendall(b"op\nand more")
    expect(take(stream, 1), b"\0", "the answer to an order in two parts")
    expect(daemon.end()[0], 0, "a daemon that was ordered to stop")


@scene
def a_start_harms_no_other_daemon(room):
    """Another start at a daemon's sockets is refused, and a path that was removed and made again leaves both whole."""
    store, other = room.store("store"), room.store("other")
    first = Daemon(room, store)
    for command in (["daemon", other, first.socket],
                    ["daemon", other, room.path("free"), "--reader", first.socket + ".stop"],
                    ["daemon", other, first.socket + ".stop"], ["serve", other, first.socket + ".stop", "1"],
                    ["serve", other, first.socket, "1"]):
        expect(room.run(*command), FILE_FAULT, " ".join(command))
        is_answered(first.socket)
    os.remove(first.socket)
    expect(room.run("daemon", other, first.socket), FILE_FAULT,
           "a start beside the socket for orders of another daemon")
    os.rename(first.socket + ".stop", room.path("moved.stop"))
    second = Daemon(room, other)
    expect(room.run("stop", room.path("moved")), (0, b"", b""), "stop of a daemon whose sockets were replaced")
    expect(first.end()[0], 0, "a daemon whose sockets were replaced")
    is_answered(second.socket)
    expect(room.run("daemon", store, second.socket), FILE_FAULT, "a start after another daemon left the path")
    second.stopped_well()
    expect([name for name in os.listdir(room.folder) if name.endswith(".lock")], [], "the locks that are left")


@scene
def sockets_of_others_are_kept(room):
    """A socket on which nobody listens is replaced only beside the lock of a program that was killed."""
    store = room.store("store")
    daemon = Daemon(room, store)
    path = daemon.socket
    daemon.kill()
    Daemon(room, store).stopped_well()
    with socket.socket(socket.AF_UNIX, socket.SOCK_STREAM) as foreign:
        foreign.bind(path)
    expect(room.run("daemon", store, path), FILE_FAULT, "a daemon at a socket of another program")
    expect(room.run("serve", store, path, "1"), FILE_FAULT, "a server at a socket of another program")
    expect_true(is_socket(path), "the socket of another program is removed")
    os.remove(path)
    expect([name for name in os.listdir(room.folder) if name.endswith(".lock")], [], "the locks that are left")


@scene
def words_are_paths_of_sockets(room):
    """A word that is empty or too long for a socket's path is a wrong argument, before anything is opened."""
    store = room.path("no such store")
    for word in ("", "x" * 103, "x" * 108):
        for words in (["daemon", store, word], ["stop", word]):
            expect(room.run(*words), BAD_ARGUMENT, "%s at a word of %d bytes" % (words[0], len(word)))
    for word in ("", "x" * 108):
        for words in (["daemon", store, "socket", "--reader", word], ["serve", store, word, "1"],
                      ["loop", store, word]):
            expect(room.run(*words), BAD_ARGUMENT, "%s at a word of %d bytes" % (words[0], len(word)))
    store = room.store("store")
    for length, command in ((102, "daemon"), (107, "loop")):
        name = "x" * length
        if command == "loop":
            expect(room.run("loop", "store", name)[0], 0, "loop at a socket of %d bytes" % length)
            continue
        begun = room.start("daemon", store, name)
        expect_true(begun.stdout.readline(), "a daemon at a socket of %d bytes" % length)
        expect(room.run("stop", name)[0], 0, "stop at a socket of %d bytes" % length)
