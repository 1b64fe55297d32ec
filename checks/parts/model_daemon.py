"""A daemon of the model: it speaks the grammar of `audit daemon` on Unix sockets, answers as model/session.py does, and
keeps its log in a file, so that it can be killed and started again. It is slow, and made for tests of what feeds it.

It reads late if it is told so: with pauses, and what a client that has gone had sent only after a while, so that it
comes after frames of the next one.
"""
import argparse
import contextlib
import itertools
import os
import random
import select
import signal
import socket
import subprocess
import sys
import time

from checks.parts.files import read
from checks.parts.places import TOP
from checks.parts.processes import forget, start
from checks.parts.waiting import SECONDS
from checks.parts.wrong import Wrong
from model.session import Rights, Server, Session

PIECE = 1 << 16
# Of a daemon that is late: sizes of pieces, seconds after one of them, and after the first of a client and when it has
# gone.
PIECES, PAUSES, LONG = (50, 3000, PIECE), (0,) * 8 + (0.1, 0.3), (0, 0.2, 0.5, 1.0)


def line_of(events):
    """A batch as a line of the file: words of a kind and a payload."""
    return " ".join("%d:%s" % (kind, payload.hex()) for kind, payload in events).encode() + b"\n"


def events_in(path):
    """The events of the whole batches in a file."""
    if not os.path.exists(path):
        return []
    *lines, _ = read(path).decode().split("\n")
    words = [word.partition(":") for line in lines for word in line.split(" ")]
    return [(int(kind), bytes.fromhex(digits)) for kind, _, digits in words]


class KeptServer(Server):
    """A server that writes each batch to a file, at once, before it is answered."""

    def __init__(self, path, sectors, **how):
        super().__init__(sectors, events_in(path), **how)
        whole = b"".join(line + b"\n" for line in read(path).split(b"\n")[:-1]) if os.path.exists(path) else b""
        self.file = os.open(path, os.O_WRONLY | os.O_CREAT, 0o600)
        os.truncate(self.file, len(whole))
        os.lseek(self.file, 0, os.SEEK_END)

    def write(self, events):
        os.write(self.file, line_of(events))
        super().write(events)


class Connection:
    def __init__(self, stream, rights):
        self.stream, self.session = stream, Session(rights, of_daemon=True)
        self.paused_until, self.has_gone, self.pauses = 0, False, itertools.chain([LONG], itertools.repeat(PAUSES))
        stream.setblocking(False)

    def read(self, server):
        """Takes all that is there."""
        with contextlib.suppress(BlockingIOError):
            while not self.session.ended:
                self.read_piece(server, PIECE)

    def read_late(self, server):
        """Takes a piece, if it isn't too early for that."""
        if not self.has_gone and is_gone(self.stream):
            self.has_gone, self.paused_until = True, time.monotonic() + random.choice(LONG)
        with contextlib.suppress(BlockingIOError):
            if not self.session.ended and time.monotonic() >= self.paused_until:
                self.read_piece(server, random.choice(PIECES))
                self.paused_until = time.monotonic() + random.choice(next(self.pauses))

    def read_piece(self, server, size):
        try:
            data = self.stream.recv(size)
        except ConnectionError:
            data = b""
        if data:
            server.feed(self.session, data)
        else:
            server.end(self.session)

    def send(self):
        """Sends what it can, and returns whether the connection goes on."""
        output = self.session.output
        try:
            sent = self.stream.send(output) if output else 0
        except BlockingIOError:
            return True
        except ConnectionError:
            self.session.ended, sent = True, len(output)
        self.session.output = output[sent:]
        return bool(self.session.output) or not self.session.ended


def is_gone(stream):
    """Whether the other end is closed."""
    poll = select.poll()
    poll.register(stream, select.POLLRDHUP)
    return bool(poll.poll(0))


class Sessions:
    """The sockets and connections of a server."""

    def __init__(self, server, doors, is_late):
        self.server, self.is_late, self.connections = server, is_late, []
        self.doors = {listening(path): rights for path, rights in doors.items()}

    def turn(self):
        """Reads, accepts, commits and answers."""
        reading = [each.stream for each in self.connections if not each.session.ended]
        writing = [each.stream for each in self.connections if each.session.output]
        select.select([*self.doors, *reading], writing, [], 0.2)
        for each in self.connections:
            self.read(each)
        self.accept()
        self.server.flush()
        self.connections = [each for each in self.connections if each.send() or each.stream.close()]

    def read(self, connection):
        if self.is_late:
            time.sleep(0.001)
            connection.read_late(self.server)
        else:
            connection.read(self.server)

    def accept(self):
        for door, rights in self.doors.items():
            with contextlib.suppress(BlockingIOError):
                self.connections.append(Connection(door.accept()[0], rights))


def listening(path):
    with contextlib.suppress(FileNotFoundError):
        os.unlink(path)
    door = socket.socket(socket.AF_UNIX, socket.SOCK_STREAM)
    door.bind(path)
    door.listen(16)
    door.setblocking(False)
    return door


def doors_of(words):
    """The sockets with what each allows."""
    writers = dict(word.split(":", 1) for word in words.writer)
    bound = frozenset(int(kind) for kind in writers)
    doors = {words.socket: Rights(but=bound, closes=False)}
    doors.update({path: Rights(appends=False, closes=False) for path in words.reader})
    doors.update({path: Rights(only=int(kind), closes=False) for kind, path in writers.items()})
    return bound, doors


def parsed(words):
    parser = argparse.ArgumentParser()
    parser.add_argument("store")
    parser.add_argument("socket")
    parser.add_argument("--writer", action="append", default=[])
    parser.add_argument("--reader", action="append", default=[])
    parser.add_argument("--sectors", type=int, default=1 << 20)
    parser.add_argument("--late", action="store_true")
    return parser.parse_args(words)


def serve(words):
    words = parsed(words)
    bound, doors = doors_of(words)
    sessions = Sessions(KeptServer(words.store, words.sectors, reserve=1, counted=bound), doors, words.late)
    ended = []
    signal.signal(signal.SIGTERM, lambda *_: ended.append(True))
    print("ready", flush=True)
    while not ended:
        sessions.turn()


class ModelDaemon:
    """A process of its own. As a context it is killed at the end."""

    def __init__(self, store, path, *words):
        self.store, self.socket, self.words = store, path, words
        self.start()

    def start(self):
        call = "from checks.parts.model_daemon import serve; import sys; serve(sys.argv[1:])"
        folders = os.pathsep.join([TOP, os.path.join(TOP, "auditor")])
        self.process = start([sys.executable, "-B", "-c", call, self.store, self.socket, *self.words],
                             env=dict(os.environ, PYTHONPATH=folders), stdout=subprocess.PIPE)
        if self.process.stdout.readline() != b"ready\n":
            raise Wrong("a daemon of the model doesn't start")

    def __enter__(self):
        return self

    def __exit__(self, *_):
        self.kill()

    def kill(self, by=signal.SIGKILL):
        self.process.send_signal(by)
        self.process.wait(SECONDS)
        self.process.stdout.close()
        forget(self.process)

    def stop(self):
        """Lets it answer what it has read."""
        self.kill(signal.SIGTERM)

    @contextlib.contextmanager
    def halted(self):
        """It does nothing meanwhile; what is sent to it waits in its sockets."""
        self.process.send_signal(signal.SIGSTOP)
        try:
            yield
        finally:
            self.process.send_signal(signal.SIGCONT)

    def events(self):
        return events_in(self.store)

    def payloads(self, kind):
        return [payload for found, payload in self.events() if found == kind]
