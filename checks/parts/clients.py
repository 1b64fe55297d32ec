"""Clients of a daemon or of `serve`."""
import contextlib
import os
import signal
import socket
import struct
import threading
import time

from checks.parts import frames
from checks.parts.program import SECONDS
from checks.parts.waiting import wait_until
from checks.parts.wrong import Wrong, expect


def connected(path):
    stream = socket.socket(socket.AF_UNIX, socket.SOCK_STREAM)
    stream.settimeout(SECONDS)
    stream.connect(path)
    return stream


def connected_soon(path):
    """A connection to a server that may not accept yet."""
    stream = socket.socket(socket.AF_UNIX, socket.SOCK_STREAM)
    stream.settimeout(SECONDS)

    def connects():
        try:
            stream.connect(path)
        except (FileNotFoundError, ConnectionRefusedError):
            return False
        return True

    wait_until(connects, "a server that doesn't accept at " + path)
    return stream


def answers(path, pieces):
    """The replies to a client that sends these pieces, up to the end of its connection."""
    found = []
    with connected(path) as client:
        with contextlib.suppress(BrokenPipeError):
            for piece in pieces:
                client.sendall(piece)
                time.sleep(0.002)
        with contextlib.suppress(ConnectionResetError):
            for reply in iter(lambda: frames.reply_of(client), b""):
                found.append(reply)
    return found


def answers_at_end(path, sent):
    """The replies to a client that sends this, and then says that nothing follows."""
    with connected(path) as client:
        client.sendall(sent)
        client.shutdown(socket.SHUT_WR)
        return list(iter(lambda: frames.reply_of(client), b""))


def index_in(reply):
    """The index that an acknowledgement has."""
    expect((reply[:1], len(reply)), (bytes([frames.APPEND_REPLY]), 53), "the reply to an append")
    return struct.unpack(">Q", reply[5:13])[0]


class Client:
    """One session with a server."""

    def __init__(self, path):
        self.stream = connected_soon(path)

    def ask(self, request):
        """The body of the reply to a request."""
        self.stream.sendall(request)
        try:
            return frames.read_frame(self.stream)
        except EOFError:
            raise Wrong("a server that ends in the middle of a reply") from None

    def append(self, payload, kind=1):
        reply = self.ask(frames.append_frame(payload, 7, kind))
        return index_in(reply), struct.unpack(">Q", reply[13:21])[0]

    def close_log(self):
        index_in(self.ask(frames.CLOSE))

    def end(self):
        self.stream.close()


@contextlib.contextmanager
def in_process(work, *words):
    """Runs this beside, in a process of its own, until it is killed."""
    child = os.fork()
    if child == 0:
        with contextlib.suppress(BaseException):
            work(*words)
        os._exit(0)
    try:
        yield child
    finally:
        os.kill(child, signal.SIGKILL)
        os.waitpid(child, 0)


def side_by_side(calls):
    """The results of calls, each a function and its arguments, in a thread of its own."""
    results = [None] * len(calls)

    def call(place, function, *words):
        results[place] = function(*words)

    threads = [threading.Thread(target=call, args=(place, *words)) for place, words in enumerate(calls)]
    for thread in threads:
        thread.start()
    for thread in threads:
        thread.join()
    if None in results:
        raise Wrong("a call ended by itself")
    return results
