"""Modes and owners of files, keys in memory, and sockets that a killed server left."""
import contextlib
import fcntl
import os
import re
import shutil
import socket
import stat
import subprocess
import sys
import time

from checks.parts.clients import Client
from checks.parts.files import mode_of, read, write
from checks.parts.frames import NOT_COUNTED, refusal
from checks.parts.liars import Server, scripted
from checks.parts.logs import keys_from, payloads_of
from checks.parts.memory import memory_of
from checks.parts.places import tool
from checks.parts.program import BAD_ARGUMENT, FILE_FAULT, SECONDS
from checks.parts.rooms import FIRST_KEY, NOBODY, in_child, outcome
from checks.parts.scenes import scene
from checks.parts.waiting import is_listening, is_socket, wait_until
from checks.parts.wrong import Wrong, expect, expect_true, short


@scene
def new_files_are_their_owners(room):
    """Only the owner can open a store or a socket, unless a mode is given."""
    for number, umask in enumerate([0o000, 0o022, 0o077]):
        store = room.path("store%d" % number)
        room.done("format", store, "16", room.key_file, umask=umask)
        expect(oct(mode_of(store)), "0o600", "the mode of a store under umask %03o" % umask)
        wide = room.path("wide%d" % number)
        room.done("format", "--mode", "640", wide, "16", room.key_file, umask=umask)
        expect(oct(mode_of(wide)), "0o640", "the mode of a store with --mode 640 under umask %03o" % umask)
        expect_socket_modes(room, umask, store)
    for word, mode in [("0660", "0o660"), ("0640", "0o640")]:
        room.done("format", "--mode", word, room.path("made" + word), "16", room.key_file)
        expect(oct(mode_of(room.path("made" + word))), mode, "--mode " + word)
        server = room.serve(store, room.path("socket"), "--socket-mode", word)
        wait_until(lambda: oct(mode_of(room.path("socket"))) == mode, "the mode of a socket for " + word)
        Client(room.path("socket")).end()
        expect(outcome(server)[0::2], (0, b""), "serve --socket-mode " + word)
    for word in ["999", "rw-", "66", "6400", "", "06660", "00660", "0999", "660 "]:
        expect(room.run("format", "--mode", word, room.path("none"), "16", room.key_file), BAD_ARGUMENT,
               "--mode %r" % word)
        expect_true(not os.path.exists(room.path("none")), "--mode %r makes a file" % word)
        expect(room.run("serve", "--socket-mode", word, store, room.path("none"), "1"), BAD_ARGUMENT,
               "--socket-mode %r" % word)
        expect(room.run("loop", "--socket-mode", word, store, room.path("none")), BAD_ARGUMENT,
               "--socket-mode %r" % word)
    expect_mode_from_the_start(room)


def expect_socket_modes(room, umask, store):
    """The sockets of servers under one umask."""
    for command in ["serve", "loop"]:
        for words, wanted in [([], "0o600"), (["--socket-mode", "660"], "0o660")]:
            path = room.path("socket")
            rest = ["1"] if command == "serve" else []
            begun = room.start(command, *words, store, path, *rest, stdin=subprocess.PIPE,
                               preexec_fn=in_child(umask=umask))
            wait_until(lambda: is_listening(path) or begun.poll() is not None, "no socket")
            # A wider mode is set after the socket has been made.
            with contextlib.suppress(Wrong, FileNotFoundError):
                end = time.monotonic() + 5
                while oct(mode_of(path)) != wanted and time.monotonic() < end:
                    time.sleep(0.002)
            found = oct(mode_of(path)) if is_socket(path) else "none"
            if command == "serve" and begun.poll() is None:
                Client(path).end()
            _, messages = begun.communicate(b"", timeout=SECONDS)
            expect((begun.returncode, messages), (0, b""), command)
            expect(found, wanted, "the mode of the socket of %s under umask %03o" % (command, umask))


def expect_mode_from_the_start(room):
    """The file is created with its mode, which isn't changed afterwards."""
    if shutil.which("strace"):
        # The mode is right from the start: the file is created with it, and it isn't changed afterwards.
        log = room.path("calls")
        subprocess.run(["strace", "-f", "-e", "trace=open,openat,creat", "-o", log, room.executable, "format",
                        room.path("traced"), "16", room.key_file],
                       stdout=subprocess.DEVNULL, stderr=subprocess.DEVNULL, timeout=SECONDS,
                       preexec_fn=in_child(umask=0))
        made = [line for line in read(log).decode(errors="replace").splitlines()
                if "O_CREAT" in line and "traced" in line]
        if os.path.exists(room.path("traced")):
            expect_true(made and all(re.search(r"O_CREAT.*, 0600\)", line) for line in made),
                        "a store is made so: %s" % short(made))


@scene
def replaced_keys_are_forgotten(room):
    """After serving appends, a server has only its current key in memory; after the log is closed, none."""
    appends = 300
    keys = []
    for key in keys_from(FIRST_KEY):
        keys.append(key)
        if len(keys) > appends + 1:
            break
    for is_closed in (False, True):
        store = room.store("store%d" % is_closed, sectors=1000)
        server = room.serve(store, room.path("socket"))
        client = Client(room.path("socket"))
        for payload in payloads_of("key", appends):
            client.append(payload)
        if is_closed:
            client.close_log()
        memory = memory_of(server)
        client.end()
        expect(server.wait(SECONDS), 0, "the server's status")
        if memory is None:
            return
        expect_true(store.encode() in memory, "the memory that was searched isn't the server's")
        found = [index for index, key in enumerate(keys) if key in memory]
        expect(found, [] if is_closed else [appends],
               "keys in the memory of a server%s" % (" that closed its log" if is_closed else ""))


@scene
def replaced_files_give_no_rights(room):
    """A file that replaces another is its writer's, and nobody may do more with it than before, or execute it."""
    store = room.store("store", payloads_of("rights", 3))
    out = room.path("out")
    for mode, wanted in [(0o6755, 0o644), (0o1777, 0o666), (0o4711, 0o600), (0o600, 0o600), (0o640, 0o640),
                         (0o2664, 0o664), (0o7777, 0o666)]:
        for words in [("export", store), ("prove", store, "member", "1", "3")]:
            write(out, b"old")
            if os.geteuid() == 0:
                os.chown(out, NOBODY, NOBODY)
            os.chmod(out, mode)
            room.done(*words, out)
            expect(oct(mode_of(out)), oct(wanted), "the mode of a file that replaces one with %o" % mode)
            expect((os.stat(out).st_uid, os.stat(out).st_gid), (os.geteuid(), os.getegid()),
                   "the owner of a file that replaces another")
            os.remove(out)


@scene
def cursors_are_files_of_their_own(room):
    """`journal-feed` keeps its place in a file, and in no store, device or locked file."""
    store = room.store("store", payloads_of("cursor", 3))
    os.mkdir(room.path("bin"))
    for name, text in [("journalctl", "echo '{\"__CURSOR\": \"here\", \"MESSAGE\": \"a\"}'; sleep 5"),
                       ("sender", "read line; echo ack 0 1; sleep 1")]:
        write(room.path("bin/" + name), ("#!/bin/sh\n" + text + "\n").encode())
        os.chmod(room.path("bin/" + name), 0o755)
    before = read(store)
    os.symlink("store", room.path("link"))
    os.mkfifo(room.path("pipe"))
    for cursor in [store, room.path("link")]:
        expect_cursor_refused(room, cursor, b"is a store")
    expect_true(read(store) == before, "journal-feed changes a store")
    expect_cursor_refused(room, room.path("pipe"), b"is no regular file")
    if os.geteuid() == 0:
        os.mknod(room.path("null"), 0o666 | stat.S_IFCHR, os.makedev(1, 3))
        expect_cursor_refused(room, room.path("null"), b"is no regular file")
    write(room.path("locked"), b"old\n")
    with open(room.path("locked"), "rb") as locked:
        fcntl.flock(locked, fcntl.LOCK_EX)
        expect_cursor_refused(room, room.path("locked"), b"is locked")
    # Another file beside it isn't overwritten either.
    shutil.copyfile(store, room.path("cursor.tmp"))
    with Server(room.path("socket"), scripted(refusal(1, NOT_COUNTED))):
        journal_fed(room, room.path("cursor"))
    expect(read(room.path("cursor")), b"here\n", "the place that journal-feed keeps")
    expect_true(read(room.path("cursor.tmp")) == before, "journal-feed overwrites a store beside its CURSOR")


def journal_fed(room, cursor):
    """journal-feed with this CURSOR, over a journalctl and a program of the room: its status, and what it says."""
    environment = dict(os.environ, PATH=room.path("bin") + ":" + os.environ["PATH"], AUDIT=room.path("bin/sender"))
    done = subprocess.run([sys.executable, tool("journal-feed"), "socket", cursor], cwd=room.folder, env=environment,
                          stdin=subprocess.DEVNULL,
                          stdout=subprocess.DEVNULL, stderr=subprocess.PIPE, timeout=SECONDS)
    return done.returncode, done.stderr


def expect_cursor_refused(room, cursor, why):
    before = os.stat(cursor)
    status, said = journal_fed(room, cursor)
    expect_true((os.stat(cursor).st_ino, os.stat(cursor).st_mode) == (before.st_ino, before.st_mode),
                "journal-feed replaces %s" % cursor)
    expect_true(status == 1 and why in said, "journal-feed with %s: %s" % (cursor, short((status, said))))


@scene
def sockets_of_killed_servers_are_replaced(room):
    """The socket that a killed server left is replaced; one in use, and any other file, stays."""
    store = room.store("store")
    path = room.path("socket")
    for number in range(3):
        server = room.serve(store, path)
        Client(path).end() if number == 2 else server.kill()
        server.wait(SECONDS)
        expect(is_socket(path), number < 2, "the socket of a server that ended")
    room.end()
    server = room.serve(store, path)
    server.kill()
    server.wait(SECONDS)
    found = room.run("loop", store, path, given=b"00050200000007\n")
    expect((found[0], found[2]), (0, b""), "a loop in place of a killed server")
    expect_true(not os.path.exists(path), "the socket's file is still there")

    with socket.socket(socket.AF_UNIX, socket.SOCK_STREAM) as other:
        other.bind(path)
        other.listen(8)
        for words in [("serve", store, path, "1"), ("loop", store, path)]:
            expect(room.run(*words), FILE_FAULT, "%s at a socket in use" % words[0])
        expect_true(is_socket(path), "a socket in use is gone")
        with socket.socket(socket.AF_UNIX, socket.SOCK_STREAM) as client:
            client.connect(path)
    os.remove(path)
    write(path, b"a file")
    os.symlink("nowhere", room.path("dangling"))
    for words in [("serve", store, path, "1"), ("loop", store, path), ("serve", store, room.path("dangling"), "1"),
                  ("loop", store, room.folder)]:
        expect(room.run(*words), FILE_FAULT, "%s at another file" % words[0])
    expect(read(path), b"a file", "a file where a socket was to be")
    expect(os.readlink(room.path("dangling")), "nowhere", "a link where a socket was to be")
