"""Events, logs and digests that several tests share."""
from model import wire
from model.chain import CLOSE, log_of, number
from model.disk import end_of, image_of
from model.session import Rights, Server, Session
from model.stored.value import digest_of_digests
from model.tree import commitment, increment, membership, root

HI = 1, b"hi"
# The events of many command lines.
THREE = [HI, (7, b""), (4294967294, b"\xde\xad\xbe\xef")]


def event(index, length):
    """The event of this number in the tests of stores."""
    return index % 100 + 1, bytes((index * 31 + place * 7) & 0xff for place in range(length))


def events(lengths, first=0):
    """Events of consecutive numbers, with payloads of these lengths."""
    return [event(first + place, length) for place, length in enumerate(lengths)]


def root_of(log_events):
    return root(log_of(log_events).leaves)


def closing_of(log_events):
    """The entry that closes a log of these events."""
    return log_of([*log_events, CLOSE]).entries[-1]


def all_proofs(leaves):
    """The hashes of each proof of a leaf, and of each proof from an older count, in turn."""
    return b"".join(b"".join(membership(leaves, index) + increment(leaves, index + 1)) for index in range(len(leaves)))


def answers(log):
    """Everything that a store answers about its events: count, root and end, the entries, and each proof of each version."""
    proofs = b"".join(all_proofs(log.leaves[:version]) for version in range(len(log.entries) + 1))
    return commitment(log.leaves) + number(end_of(log), 8) + log.export + proofs


def state(case, log_events, sectors, generation, version=2):
    """The value of a store's whole state: the digest of what it answers, and that of its device's image."""
    return state_of(case, log_events, lambda: image_of(log_of(log_events), generation, sectors, version))


def state_of(case, log_events, make_image):
    return digest_of_digests(case, ("answers", lambda: answers(log_of(log_events))), ("image", lambda: b"".join(make_image())))


def daemon_replies(requests, sectors, **store):
    """What one of a daemon's clients is replied whose requests wait together."""
    server, session = Server(sectors, **store), Session(Rights(), True)
    server.feed(session, b"".join(map(wire.request_frame, requests)))
    server.flush()
    return session.output
