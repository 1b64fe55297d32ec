"""Runs `audit serve` with 16 clients at the same time, and checks each reply by the formats.

usage: bin/check serve-clients EXECUTABLE

Clients 0 to 13 append events and ask for commitments. Client 14 stops in the middle of a frame. Client 15 sends noise.
"""
import os
import socket
import struct
import subprocess
import threading

from checks.parts import frames
from checks.parts.clients import connected_soon
from checks.parts.daemons import Serving
from checks.parts.files import folder_of_its_own
from checks.parts.places import KEY
from checks.parts.program import done
from checks.parts.scenes import program_of
from checks.parts.wrong import expect, expect_true, told

CLIENTS = 16
APPENDS = 20
MALFORMED = frames.refused(0, frames.MALFORMED)


def is_closed(stream):
    """Whether the server closed the connection. If it left bytes unread, that is a reset."""
    try:
        return stream.recv(1) == b""
    except ConnectionResetError:
        return True


def append_and_ask(stream, number, seen):
    """Each append is acknowledged with an index of its own, and a commitment covers it."""
    for turn in range(APPENDS):
        tag = 1000 * number + turn
        stream.sendall(frames.append_frame(b"client %d turn %d" % (number, turn), tag))
        body = frames.read_frame(stream)
        expect((len(body), body[0]), (53, frames.APPEND_REPLY), "the reply to an append")
        found, index, count = struct.unpack(">IQQ", body[1:21])
        expect_true(found == tag and index < count, "the reply to an append: %r" % body)
        seen.append(index)
        stream.sendall(frames.request(2, tag))
        body = frames.read_frame(stream)
        expect((len(body), body[0]), (45, frames.COMMITMENT_REPLY), "a commitment")
        found, later = struct.unpack(">IQ", body[1:13])
        expect_true(found == tag and later >= count, "a commitment: %r" % body)
    stream.shutdown(socket.SHUT_WR)


def stop_inside(stream):
    stream.sendall(frames.COMMITMENT[:3])
    stream.shutdown(socket.SHUT_WR)
    expect(frames.read_frame(stream), MALFORMED, "the reply to a part of a frame")


def send_noise(stream):
    try:
        stream.sendall(b"\xff" * 5000)
        stream.shutdown(socket.SHUT_WR)
    except OSError:
        pass
    expect(frames.read_frame(stream), MALFORMED, "the reply to noise")


def client(number, seen, faults):
    try:
        with connected_soon("socket") as stream:
            if number == 14:
                stop_inside(stream)
            elif number == 15:
                send_noise(stream)
            else:
                append_and_ask(stream, number, seen)
            expect_true(is_closed(stream), "the server keeps a connection that ended")
    except Exception as fault:
        faults.append("client %d: %s" % (number, told(fault)))


def main(words):
    program_of(words)
    with folder_of_its_own("serve-clients-"):
        done("format", "store", "1000", KEY)
        streams = {"stdout": subprocess.PIPE, "stderr": subprocess.PIPE}
        serving = Serving("store", "socket", 1, ["--sessions", str(CLIENTS)], **streams)
        seen, faults = [[] for _ in range(CLIENTS)], []
        threads = [threading.Thread(target=client, args=(number, seen[number], faults)) for number in range(CLIENTS)]
        for thread in threads:
            thread.start()
        for thread in threads:
            thread.join()
        status, output, messages = serving.end()
        expect(faults, [], "what ended clients")
        expect((status, messages), (0, b""), "the end of serve")
        expect_true(output.startswith(b"round 1 turns ") and output.count(b"\n") == 1, "its lines: %r" % output)
        indices = sorted(index for own in seen for index in own)
        expect(indices, list(range(14 * APPENDS)), "the indices of all events")
        for own in seen:
            expect(own, sorted(own), "the indices of one client")
        expect_true(not os.path.exists("socket"), "the socket's file is still there")
    return 0
