"""Runs `audit serve` with rounds of one client, and checks the lines of the rounds and each reply by the formats.

usage: bin/check serve-rounds EXECUTABLE

Each client appends one event and asks for the commitment: each round continues with the store that the previous one
left. Then a client sends without end, up to the limit of passes, which takes half a minute. It isn't part of `bin/check`.
"""
import os
import socket
import struct
import subprocess
import threading

from checks.parts import frames
from checks.parts.clients import connected_soon
from checks.parts.daemons import Serving
from checks.parts.files import folder_of_its_own
from checks.parts.places import KEY
from checks.parts.program import done
from checks.parts.scenes import program_of
from checks.parts.wrong import expect, expect_true

ROUNDS = 3
MAX_TURNS = 1048576


def read_all(stream):
    """Reads to the end, or to a reset, which means that the server left bytes unread."""
    pieces = []
    while True:
        try:
            piece = stream.recv(65536)
        except ConnectionResetError:
            piece = b""
        if not piece:
            return b"".join(pieces)
        pieces.append(piece)


def serve(rounds):
    return Serving("store", "socket", rounds, stdout=subprocess.PIPE, stderr=subprocess.PIPE)


def rounds_of_one():
    serving = serve(ROUNDS)
    for number in range(ROUNDS):
        stream = connected_soon("socket")
        # An append, then after its flush a commitment: two reads and the end of the stream take three passes.
        stream.sendall(frames.append_frame(b"hi", number))
        reply = frames.read_frame(stream)
        expect((len(reply), reply[0]), (53, frames.APPEND_REPLY), "the reply to an append")
        expect(struct.unpack(">IQQ", reply[1:21]), (number, number, number + 1), "an acknowledgement")
        stream.sendall(frames.COMMITMENT)
        stream.shutdown(socket.SHUT_WR)
        expect(read_all(stream), frames.commitment_reply(9, number + 1, reply[21:]), "a commitment")
        stream.close()
    lines = b"".join(b"round %d turns 3\n" % (number + 1) for number in range(ROUNDS))
    expect(serving.end(), (0, lines, b""), "the end of serve")


def without_an_end():
    serving = serve(2)
    stream = connected_soon("socket")
    stream.settimeout(None)
    reader = threading.Thread(target=read_all, args=(stream,))
    reader.start()
    sent = 0
    try:
        while True:
            stream.send(frames.COMMITMENT[sent % 7:sent % 7 + 1])
            sent += 1
    except OSError:
        pass
    reader.join()
    expect_true(sent >= MAX_TURNS, "serve takes %d bytes, and not %d" % (sent, MAX_TURNS))
    expect(serving.end(), (3, b"", b"audit: 45 ReadFault\n"), "the end of serve")


def main(words):
    program_of(words)
    with folder_of_its_own("serve-rounds-"):
        done("format", "store", "1000", KEY)
        rounds_of_one()
        without_an_end()
        expect_true(not os.path.exists("socket"), "the socket's file is still there")
    return 0
