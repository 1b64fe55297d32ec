"""Servers of our own: honest ones, and those that lie, are silent or slow."""
import os
import socket
import struct
import threading
import time

from checks.parts.frames import (commitment_reply, entry_reply, increment_reply, member_reply, read_request, receive)
from checks.parts.logs import increment, membership
from checks.parts.program import SECONDS
from checks.parts.wrong import Wrong

# The tags of a client's requests: for the newest commitment, what is asked, and the proof that joins both.
NEWEST, ASKED, JOIN = 1, 2, 3


class Server(threading.Thread):
    """Serves each client by a function of the stream, which may say anything."""

    def __init__(self, path, serve):
        super().__init__(daemon=True)
        self.path, self.serve = path, serve
        self.socket = socket.socket(socket.AF_UNIX)
        self.socket.bind(path)
        self.socket.listen(8)
        self.over = False

    def run(self):
        while not self.over:
            try:
                stream, _ = self.socket.accept()
            except OSError:
                return
            with stream:
                try:
                    self.serve(stream)
                except (EOFError, OSError):
                    pass

    def __enter__(self):
        self.start()
        return self

    def __exit__(self, *_):
        # The thread is gone before its descriptor is closed: it would otherwise accept the clients of the server that
        # gets the same number next.
        self.over = True
        self.socket.shutdown(socket.SHUT_RDWR)
        self.join(SECONDS)
        if self.is_alive():
            raise Wrong("%s: its server doesn't end" % self.path)
        self.socket.close()
        os.unlink(self.path)


def honest_answer(log, kind, tag, rest):
    """What a server answers that has this log."""
    if kind == 2:
        return commitment_reply(tag, *log.commitment())
    if kind == 3:
        index, count = struct.unpack(">QQ", rest)
        return member_reply(tag, membership(log.texts, count, index), log.texts[index])
    if kind == 4:
        return increment_reply(tag, increment(log.texts, *struct.unpack(">QQ", rest)))
    return entry_reply(tag, log.texts[struct.unpack(">Q", rest)[0]])


def honest(log):
    """Answers as a server does that has this log."""

    def serve(stream):
        while True:
            stream.sendall(honest_answer(log, *read_request(stream)))

    return serve


def scripted(*replies):
    """Reads a request before each of these replies, and then stays silent until the client goes."""

    def serve(stream):
        for reply in replies:
            read_request(stream)
            stream.sendall(reply)
        while True:
            receive(stream, 1)

    return serve


def cut(*replies):
    """The same, but closes the connection after the last reply."""

    def serve(stream):
        for reply in replies:
            read_request(stream)
            stream.sendall(reply)
        stream.shutdown(socket.SHUT_RDWR)

    return serve


def after(first, serve):
    """The reply to a first request, and then what another server does."""

    def both(stream):
        read_request(stream)
        stream.sendall(first)
        serve(stream)

    return both


def dripping(*replies, seconds=0.7):
    """Answers as `scripted` does, but byte by byte, slowly, whatever is asked meanwhile."""

    def serve(stream):
        for reply in replies:
            read_request(stream)
            for place in range(len(reply)):
                stream.sendall(reply[place:place + 1])
                time.sleep(seconds)

    return serve


def late(*replies):
    """Whole replies after a while each, the first at once."""

    def serve(stream):
        read_request(stream)
        stream.sendall(replies[0])
        for reply in replies[1:]:
            time.sleep(0.7)
            stream.sendall(reply)
        receive(stream, 1 << 20)

    return serve
