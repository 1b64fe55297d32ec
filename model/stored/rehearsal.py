"""The values in the output of crates/audit_tool_rehearse: what the model answers to the steps of its scenes, line by line."""
import hashlib

from read_export import MAX_PAYLOAD

from model.chain import number
from model.session import DeviceFault, FailingServer, Rights, Server, Session
from model.sources import read
from model.stored.common import HI
from model.stored.damaged import outcome
from model.stored.drawn import SESSIONS, hostile_batch, list_of, swept_root, worn
from model.stored.value import digest, not_made, text
from model.tree import membership_proof

SCENES = "crates/audit_tool_rehearse/stdin"
MOST_SHOWN = 400


class Scene:
    """The core of a scene: a server and its sessions. A device that failed in a commit has broken it: nothing is taken then."""

    def __init__(self, server):
        self.server, self.is_broken = server, False
        self.sessions = [Session(Rights(), False) for _ in range(SESSIONS)]

    def try_to(self, step, *words):
        if not self.is_broken:
            try:
                step(*words)
            except DeviceFault:
                self.is_broken = True

    def feed(self, place, piece):
        self.try_to(self.server.feed, self.sessions[place], piece)

    def end(self, place):
        self.try_to(self.server.end, self.sessions[place])

    def flush(self):
        self.try_to(self.server.flush)

    def taken(self, place):
        """The output of a session since it was last taken."""
        session = self.sessions[place]
        output, session.output = session.output, b""
        return output


def scene_of(task, words):
    """The scene that a line begins."""
    numbers = [int(word) for word in words]
    if task == "store":
        return Scene(FailingServer(*numbers))
    if task == "worn":
        return Scene(Server(numbers[0], generation=worn(numbers[1])))
    return Scene(Server(numbers[0], version=1))


def shown(case, output):
    """The value of a line that shows bytes: their hex digits, or the digest of many; no value if they are too few."""
    if len(output) > MOST_SHOWN:
        return [digest(case, lambda: output)]
    return [text(case, lambda: output)] if len(output) >= 20 else []


def root_shown(case, server):
    """The value of a line that shows a commitment: none before the first event."""
    root = server.commitment[8:]
    return [text(case, lambda: root)] if any(root) else []


def reopen(scene, case):
    """The values of what a store holds and of what is then opened, and the scene after it."""
    server = scene.server
    opened = server.reopened() if isinstance(server, FailingServer) else server
    values = root_shown(case + "/held", server) + root_shown(case + "/opened", opened)
    again = Server(opened.sectors, opened.log.events, generation=opened.generation, version=opened.version)
    return Scene(again), values


def drive(scene, place, piece):
    scene.feed(place, piece)
    scene.flush()
    scene.end(place)
    scene.flush()


def cuts(case, stream):
    """The answers to a stream after an event, whether the session has ended, and how many events there are."""
    scene = Scene(Server(16, [HI], generation=4))
    scene.feed(0, stream)
    scene.flush()
    said = scene.taken(0) + number(scene.sessions[0].ended, 1)
    return shown(case, said + number(len(scene.server.log.events), 8))


class Stream:
    """A stream that is read in pieces of at most `most` bytes, and fails after `reads` reads."""

    def __init__(self, data, most, reads):
        self.data, self.most, self.reads = data, most, reads
        self.written = b""

    def piece(self):
        """The next bytes, none at the end, or None if the read fails."""
        if self.reads == 0:
            return None
        self.reads -= 1
        piece, self.data = self.data[:self.most], self.data[self.most:]
        return piece


def serve(case, words):
    """What is written to two streams that are read in turn, flushed and answered in each pass."""
    fails_after, most, reads = (int(word) for word in words[:3])
    scene = Scene(FailingServer(16, fails_after))
    streams = [Stream(bytes.fromhex(digits), most, reads) for digits in words[5:]]
    while not scene.is_broken and not all(scene.sessions[place].ended for place in (0, 1)):
        for place, stream in enumerate(streams):
            piece = None if scene.sessions[place].ended else stream.piece()
            if piece:
                scene.feed(place, piece)
            else:
                scene.end(place)
        scene.flush()
        for place, stream in enumerate(streams):
            stream.written += scene.taken(place)
    return [value for place, stream in enumerate(streams) for value in shown("%s/%d" % (case, place), stream.written)]


def lists(case, first):
    return [digest(case, lambda: b"".join(list_of(first + place) for place in range(20)))]


def hostile(case, first, count):
    return [digest(case, lambda: b"".join(hostile_batch(first + place) for place in range(count)))]


def sweep(case, first, count):
    return [digest(case, lambda: b"".join(swept_root(first + place) for place in range(count)), is_long=True)]


def apart(case, task, words):
    """The values of a line that needs no store of a scene."""
    if task == "cuts":
        return cuts(case, bytes.fromhex(words[0]))
    if task == "serve":
        return serve(case, words)
    if task in RANDOM:
        return RANDOM[task](case, *map(int, words))
    return [not_made(case, reason) for reason in NOT_MADE.get(task, [])]


def devices(case, first, count):
    return [digest(case, lambda: b"".join(outcome(first + place) for place in range(count)))]


def counting_bytes(first, length):
    """Bytes of this number, each one more than the one before."""
    first %= 256
    return COUNTING[first:first + length]


COUNTING = bytes(range(256)) * 130


def read_of_length(length):
    """What is read of an append and of a proof of this length."""
    hashes = [bytes([place]) * 32 for place in range(length % 25)]
    proof = membership_proof(length, length + 1, hashes, counting_bytes(length, length + 72))
    return number(length, 4) + number(length, 4) + counting_bytes(length, length) + proof


def digest_of_lengths():
    """The digest of what is read of each length: of a thousand million bytes, which aren't kept."""
    hashed = hashlib.sha256()
    for length in range(MAX_PAYLOAD + 1):
        hashed.update(read_of_length(length))
    return hashed.digest()


def lengths(case):
    return [text(case, digest_of_lengths)]


RANDOM = {"lists": lists, "hostile": hostile, "sweep": sweep, "devices": devices, "lengths": lengths}
# The lines whose values the model doesn't make, and why.
NOT_MADE = {
    "clients": ["the formats don't order a daemon's calls, and the model has none of its places, backlogs and turns"],
}


def stepped(scene, case, task, words):
    """The values of a step in a scene."""
    if task == "flush":
        scene.flush()
        return []
    place, piece = int(words[0]), bytes.fromhex("".join(words[1:]))
    if task == "show":
        return shown(case, scene.taken(place))
    if task == "drive":
        drive(scene, place, piece)
    elif task == "feed":
        scene.feed(place, piece)
    else:
        scene.end(place)
    return []


def scenes():
    """The values of the lines that the scenes print. They are named by the lines of the input."""
    scene = None
    for line_number, line in enumerate(read(SCENES).decode().splitlines(), 1):
        task, *words = line.split(" ")
        case = "%d_%s" % (line_number, task)
        if task == "open":
            scene, values = reopen(scene, case)
            yield from values
        elif task in ("store", "worn", "first"):
            scene = scene_of(task, words)
        elif task in ("feed", "end", "drive", "show", "flush"):
            yield from stepped(scene, case, task, words)
        elif task != "#":
            yield from apart(case, task, words)


FILES = {"crates/audit_tool_rehearse/stdout": scenes}
