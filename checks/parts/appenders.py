"""Clients that append until their server is gone, and what each of them read."""
import random
import socket
import struct
import threading
import time

from checks.parts.frames import APPEND_REPLY, ENTRY_REPLY, KIND, append_frame, entry_frame, read_frame
from checks.parts.wrong import expect_true, told

# As many as a daemon has places.
CLIENTS = 16
# A client waits between appends, so that a store doesn't fill up.
PAUSE = 0.002


class Appender(threading.Thread):
    """Appends events, and asks for the entry of each that is acknowledged, until the server is gone."""

    def __init__(self, path, name):
        super().__init__()
        self.path, self.name = path, name
        self.acknowledged = []
        self.entries = []
        self.fault = None

    def run(self):
        with socket.socket(socket.AF_UNIX, socket.SOCK_STREAM) as stream:
            try:
                stream.connect(self.path)
                self.append_on(stream)
            except (EOFError, OSError):
                pass
            except Exception as fault:
                self.fault = told(fault)

    def append_on(self, stream):
        for turn in range(1 << 20):
            payload = ("%s turn %d" % (self.name, turn)).encode()
            self.ask_for(stream, turn, self.append(stream, turn, payload))
            time.sleep(PAUSE * random.random())

    def append(self, stream, tag, payload):
        stream.sendall(append_frame(payload, tag, KIND))
        reply = read_frame(stream)
        kind, found, index, count, root = struct.unpack(">BIQQ32s", reply)
        expect_true(kind == APPEND_REPLY and found == tag and index < count, "the reply to an append: %r" % reply)
        self.acknowledged.append((index, payload, count, root))
        return index

    def ask_for(self, stream, tag, index):
        stream.sendall(entry_frame(index, tag))
        reply = read_frame(stream)
        is_entry = reply[0] == ENTRY_REPLY and struct.unpack(">I", reply[1:5])[0] == tag
        expect_true(is_entry, "the reply to a request for an entry: %r" % reply)
        self.entries.append((index, reply[5:]))


def started(path, name):
    """As many as there are places, appending."""
    found = [Appender(path, "%s client %d" % (name, number)) for number in range(CLIENTS)]
    for each in found:
        each.start()
    return found
