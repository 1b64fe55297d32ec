"""Requests and replies as bytes, by model/, and how they come out of a stream."""
import struct

from model import wire
from model.chain import number
from model.wire import Request, frame, refusal, reply_frame, request_frame

__all__ = ["frame", "refusal"]

KIND = 7
APPEND_REPLY, COMMITMENT_REPLY, MEMBER_REPLY, INCREMENT_REPLY, ENTRY_REPLY, STATE_REPLY, PLACE_REPLY, PLACED_REPLY = (
    wire.REPLY | kind for kind in (wire.APPEND, wire.COMMITMENT, wire.MEMBERSHIP, wire.INCREMENT, wire.ENTRY,
                                   wire.STATE, wire.PLACE, wire.PLACED))
FULL, CLOSED, NOT_ALLOWED, NOT_COUNTED, MALFORMED = 7, 13, 16, 18, 20
# The lengths of replies, with those of their frames.
COMMITMENT_SIZE, APPEND_SIZE, PLACE_SIZE, PLACED_SIZE = 47, 55, 23, 87
# The most bytes of the payload of a placed append.
MAX_PLACED = 32688


def request(kind, tag, *numbers):
    return request_frame(Request(kind, tag, numbers))


def append_frame(payload, tag=1, kind=KIND):
    return request_frame(Request(wire.APPEND, tag, (kind,), payload))


def place_frame(kind=KIND, tag=6):
    """Asks for the number of events of a kind."""
    return request(wire.PLACE, tag, kind)


def placed_frame(payload, place, tag=1, kind=KIND):
    """An append of the event that has this place among those of its kind."""
    return request_frame(Request(wire.PLACED, tag, (kind, place), payload))


COMMITMENT = request(wire.COMMITMENT, 9)
CLOSE = request(wire.CLOSE, 7)
STATE = request(wire.STATE, 8)


def entry_frame(index, tag=3):
    return request(wire.ENTRY, tag, index)


def proof_frames(index, count):
    """Asks for the proof of an event under this count, and for the increment from it."""
    return request(wire.MEMBERSHIP, 1, index, count) + request(wire.INCREMENT, 2, index + 1, count)


def refused(tag, code):
    """The body of the reply that refuses a request."""
    return refusal(tag, code)[2:]


def acknowledgement(tag, index, count, root):
    return reply_frame(wire.APPEND, tag, number(index, 8) + number(count, 8) + root)


def commitment_reply(tag, count, root):
    return reply_frame(wire.COMMITMENT, tag, number(count, 8) + root)


def state_reply(tag, count, root, end, sectors, generation, version, mark):
    fields = b"".join(number(value, 8) for value in (end, sectors, generation))
    return reply_frame(wire.STATE, tag, number(count, 8) + root + fields + number(version, 2) + number(mark, 1))


def place_reply(tag, number_of_kind, count):
    return reply_frame(wire.PLACE, tag, number(number_of_kind, 8) + number(count, 8))


def placed_acknowledgement(tag, index, count, root, key):
    return reply_frame(wire.PLACED, tag, number(index, 8) + number(count, 8) + root + key)


def member_reply(tag, hashes, entry):
    return reply_frame(wire.MEMBERSHIP, tag, number(len(hashes), 1) + b"".join(hashes) + entry)


def increment_reply(tag, hashes):
    return reply_frame(wire.INCREMENT, tag, number(len(hashes), 1) + b"".join(hashes))


def entry_reply(tag, entry):
    return reply_frame(wire.ENTRY, tag, entry)


def take(stream, size):
    """This many bytes, or what came before the stream's end."""
    found = b""
    while len(found) < size:
        piece = stream.recv(size - len(found))
        if not piece:
            break
        found += piece
    return found


def receive(stream, size):
    """This many bytes, or an EOFError."""
    found = take(stream, size)
    if len(found) < size:
        raise EOFError
    return found


def read_frame(stream):
    """The body of the next frame, or an EOFError."""
    return receive(stream, struct.unpack(">H", receive(stream, 2))[0])


def reply_of(stream):
    """The body of the next reply; nothing, or a part of it, at the end of the stream."""
    head = take(stream, 2)
    return take(stream, struct.unpack(">H", head)[0]) if len(head) == 2 else b""


def read_request(stream):
    """The next request: its kind, its tag and its other bytes."""
    body = read_frame(stream)
    return body[0], struct.unpack(">I", body[1:5])[0], body[5:]


def is_whole(part):
    """Whether this part of a reply is all of it."""
    return len(part) >= 2 and len(part) >= 2 + struct.unpack(">H", part[:2])[0]
