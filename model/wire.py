"""Frames: how requests and replies are spelled, and how a stream of requests is read: the section Frames of sessions of
docs/formats.md."""
from typing import NamedTuple

from model.chain import CLOSING_KIND, number

APPEND, COMMITMENT, MEMBERSHIP, INCREMENT, ENTRY, CLOSE, STATE, PLACE, PLACED = range(1, 10)
REPLY = 0x80
REFUSED = 0xff
MAX_BODY = 32705
# For each request the widths of the numbers after its tag.
WIDTHS = {APPEND: [4], COMMITMENT: [], MEMBERSHIP: [8, 8], INCREMENT: [8, 8], ENTRY: [8], CLOSE: [], STATE: [], PLACE: [4],
          PLACED: [4, 8]}
# The requests that add an event, whose payload follows the numbers; and those of a daemon's clients alone.
APPENDS = APPEND, PLACED
OF_DAEMON = STATE, PLACE, PLACED


class Request(NamedTuple):
    """The byte of its kind, its tag, its numbers (of an append the event's kind, and after it the place, if it has one) and the
    payload of an append."""
    kind: int
    tag: int
    numbers: tuple = ()
    payload: bytes = b""


def frame(body):
    return number(len(body), 2) + body


def request_frame(request):
    numbers = b"".join(number(value, width) for value, width in zip(request.numbers, WIDTHS[request.kind]))
    return frame(number(request.kind, 1) + number(request.tag, 4) + numbers + request.payload)


def reply_frame(kind, tag, fields):
    """The reply to a request of this kind, which repeats its tag."""
    return frame(number(REPLY | kind, 1) + number(tag, 4) + fields)


def refusal(tag, code):
    return frame(number(REFUSED, 1) + number(tag, 4) + number(code, 1))


def numbers_in(fields, widths):
    """The numbers of these widths at the front of some bytes, and the bytes after them."""
    if not widths:
        return (), fields
    first, *more = widths
    numbers, rest = numbers_in(fields[first:], more)
    return (int.from_bytes(fields[:first], "big"), *numbers), rest


def request_in(body, of_daemon):
    """The request that a body is, by the grammar of a daemon's clients or by that of every session; None if it is malformed."""
    kind = body[0]
    if kind not in WIDTHS or kind in OF_DAEMON and not of_daemon:
        return None
    (tag, *numbers), payload = numbers_in(body[1:], [4, *WIDTHS[kind]])
    request, least = Request(kind, tag, tuple(numbers), payload), 5 + sum(WIDTHS[kind])
    if kind in APPENDS:
        return request if least <= len(body) <= MAX_BODY and numbers[0] != CLOSING_KIND else None
    return request if len(body) == least else None


def first_body(stream):
    """The body of the first frame and what follows it; None for the body if it isn't whole, and False if its length is none."""
    length = int.from_bytes(stream[:2], "big")
    if len(stream) < 2:
        return None, stream
    if not 1 <= length <= MAX_BODY:
        return False, stream
    if len(stream) < 2 + length:
        return None, stream
    return stream[2:2 + length], stream[2 + length:]


def requests_in(stream, of_daemon):
    """The requests at the front of a stream, whether they are followed by what is malformed, and the rest if they aren't."""
    requests = []
    while True:
        body, stream = first_body(stream)
        if body is None:
            return requests, False, stream
        request = request_in(body, of_daemon) if body else None
        if request is None:
            return requests, True, b""
        requests.append(request)
