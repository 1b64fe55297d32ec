"""The values in cases/: what whole command lines print, and what they are given. They are numbered as they stand there."""
from history import leaf_hash
from read_export import under_keystream

from model import wire
from model.chain import CLOSE, CLOSING_KIND, FIRST_LINK, ZERO_KEY, entry_keys, log_of, seal
from model.disk import image_of
from model.links import LINK_KIND, Link, link_bytes, link_events, link_of
from model.session import replies_to
from model.sources import read
from model.stored.common import HI, THREE
from model.stored.value import text
from model.tree import increment, increment_proof, membership, membership_proof, root
from model.verdict import state_after
from model.wire import Request

EMPTY = 7, b""
# The first key of a log that goes on.
NEXT_KEY = b"\x01" * 32
TWO = [HI, EMPTY]
FOUR = [*THREE, (9, bytes(place % 256 for place in range(512)))]


def key_of(number):
    """The key in a file of 64 digits that spell a small number."""
    return number.to_bytes(32, "big")


def numbered(*makes):
    return [text(str(place), make) for place, make in enumerate(makes, 1)]


def root_after(events, first_key=ZERO_KEY):
    return lambda: root(log_of(events, first_key).leaves)


def export_of(events, first=0):
    return lambda: b"".join(log_of(events).entries[first:])


def member(events, index):
    """The whole proof of an event under the count of all."""
    log = log_of(events)
    return lambda: membership_proof(index, len(events), membership(log.leaves, index), log.entries[index])


def grown(events, older, first_key=ZERO_KEY):
    leaves = log_of(events, first_key).leaves
    return lambda: increment_proof(older, len(leaves), increment(leaves, older))


def repeat(make, times):
    return [make] * times


def checked_proofs():
    return numbered(root_after(THREE), root_after([HI]), member(THREE, 1), grown(THREE, 1))


def longer_entry():
    """An entry with a byte more."""
    return log_of([HI]).entries[0] + b"x"


def contents_of_proofs():
    head = log_of([HI]).entries[0][:8]
    return numbered(
        root_after(THREE), root_after([HI]), member(THREE, 1), member(THREE, 2), grown(THREE, 1),
        lambda: membership_proof(0, 1, [], head), lambda: leaf_hash(head),
        lambda: membership_proof(0, 1, [], longer_entry()), lambda: leaf_hash(longer_entry()))


def opened_proofs():
    """What a proof of each of two events is opened with, and proofs of bytes that are no entry."""
    told = [HI, (7, b"paid 120 to account 4711")]
    head = log_of([HI]).entries[0][:8]
    own, other = entry_keys(ZERO_KEY, told)
    return numbered(
        root_after(told), root_after([HI]), lambda: other, lambda: own, member(told, 0), member(told, 1), grown(told, 1),
        lambda: membership_proof(0, 1, [], head), lambda: leaf_hash(head),
        lambda: membership_proof(0, 1, [], longer_entry()), lambda: leaf_hash(longer_entry()))


def opened_events():
    """An event as its proof shows it under its own key, and under that of another entry."""
    payload = b"paid 120 to account 4711"
    own, other = entry_keys(ZERO_KEY, [HI, (7, payload)])
    return numbered(lambda: payload, lambda: under_keystream(own, under_keystream(other, payload)))


def checked_links():
    """A link from a closed log, and two that say no numbers: these have a zero before one, or are of another kind."""
    old = log_of([HI, (7, b""), CLOSE])
    link, new = link_of(old, NEXT_KEY)
    (said, _) = link_events(old)
    values = [lambda: root(old.leaves), lambda: root(new.leaves), lambda: link_bytes(link)]
    for numbers in (LINK_KIND, b"audit-counts 1\n1 1\n7 01\n"), (1, b"audit-counts 1\n1 1\n"):
        values += said_otherwise(link, [said, numbers])
    return numbered(*values)


def said_otherwise(link, events):
    """The root of the log of these two events, and the link with its entries."""
    log = log_of(events, NEXT_KEY)
    own, other = entry_keys(NEXT_KEY, events)
    changed = Link(*link[:3], own, other, *log.entries)
    return [lambda: root(log.leaves), lambda: link_bytes(changed)]


def close():
    key, closed = lambda: log_of(TWO).key, root_after([*TWO, CLOSE])
    return numbered(root_after(TWO), key, key, closed, closed, export_of([*TWO, CLOSE]), root_after([CLOSE]), root_after([CLOSE]),
                    root_after([HI]), root_after([HI]), root_after([CLOSE]))


def exported_stores():
    return numbered(root_after(FOUR), export_of(FOUR), payload_of_export)


def payload_of_export():
    return FOUR[-1][1]


def exported_stores_script():
    return numbered(payload_of_export, root_after(FOUR))


# The log of docs/formats.md's printed events, in the order of these cases.
PRINTED = [HI, EMPTY, (2, b"a\tb\\\n"), (1, b"\xff\x00"), (7, "caf\u00e9 \"x\"".encode()), CLOSE]


def exports_from_an_index():
    return numbered(export_of(PRINTED[:5], 3))


def exports_from_an_index_script():
    return numbered(root_after(PRINTED[:5]), root_after(PRINTED[:3]))


def packages():
    """The lines of the package log, as events of kind 1."""
    return [(1, line) for line in read("examples/packages.log").splitlines()]


def packages_key():
    return bytes.fromhex(read("examples/key").decode())


def packages_root(times):
    return lambda: root(log_of(packages() * times, packages_key()).leaves)


def replay_of_packages():
    log = lambda: log_of(packages(), packages_key())
    return numbered(*(lambda place=place: log().entries[place] for place in range(len(packages()))), packages_root(1))


def package_store():
    twice = log_of(packages() * 2, packages_key())
    leaves = twice.leaves[:24]
    return numbered(*repeat(packages_root(1), 3), *repeat(packages_root(2), 2),
                    lambda: membership_proof(5, 24, membership(leaves, 5), twice.entries[5]),
                    grown(packages() * 2, 24, packages_key()))


def ones(*texts):
    return [(1, each) for each in texts]


FOLLOWED = ones(b"one", b"two", b"three", b"without its line feed", b"five", b"a", b"b", b"a") + [(2, b"")] + ones(b"ok", b"ok")


def lines_as_they_come():
    return numbered(*(root_after(FOLLOWED[:count]) for count in (1, 2, 3, 4, 5, 7, 9, 10, 11)), root_after(ones(b"a", b"b")))


TEXT = [(7, line) for line in (b"hi", b"", b"\ttab \\ \1\x7f\xff\r", b"last")] + [(0, bytes(32696))]
TEXT += [(4294967294, b"%d" % number) for number in range(1, 71)]


def lines_of_text():
    return numbered(*(root_after(TEXT[:count]) for count in (4, 5, 69, 75)))


def limit_in_a_store():
    longest = 1, bytes(32696)
    acknowledged = lambda: replies_to([Request(wire.APPEND, 1, (1,), longest[1])], 66)
    return numbered(root_after([longest]), root_after([longest]), acknowledged, root_after([longest]))


def replayed(case):
    """The entries and the root of the input of a replay."""
    lines = read("cases/%s/stdin" % case).decode().split("\n")
    words = [line.split(" ") for line in lines if line]
    events = [(int(kind), b"" if payload == "-" else bytes.fromhex(payload)) for _, kind, payload in words[1:]]
    log = log_of(events, bytes.fromhex(words[0][1]))
    return numbered(*(lambda entry=entry: entry for entry in log.entries), lambda: root(log.leaves))


def payloads_as_text():
    """The line of a payload of every byte."""
    plain = [byte == 9 or 32 <= byte not in (92, 127) for byte in range(256)]
    line = b"".join(bytes([byte]) if plain[byte] else b"\\x%02x" % byte for byte in range(256))
    return numbered(lambda: line + b"\n")


def empty_commitment(tag):
    return lambda: replies_to([Request(wire.COMMITMENT, tag)], 64)


def reserve():
    a, ab = ones(b"a"), ones(b"a", b"b")
    return numbered(root_after(a), root_after(ab), root_after(ab), root_after([*ab, CLOSE]), root_after(ones(b"a", b"b", b"c")))


def linked(events, first_key):
    """The first event of the store that continues this log once it is closed: its commitment in words."""
    closed = [*events, CLOSE]
    return 0, b"%d:%s" % (len(closed), root(log_of(closed, first_key).leaves).hex().encode())


def rotation():
    second, third = key_of(0x1), key_of(0x2)
    closed, begun = root_after([*TWO, CLOSE]), [linked(TWO, ZERO_KEY)]
    more = [*begun, (1, b"more")]
    of_second = root_after(begun, second)
    return numbered(
        root_after(TWO), closed, of_second, closed, of_second, closed, of_second, lambda: begun[0][1],
        root_after(more, second), root_after([*more, CLOSE], second), root_after([linked(more, second)], third),
        root_after([CLOSE]), root_after([linked([], ZERO_KEY)], second), root_after([HI]), closed, of_second, closed, of_second)


def rotation_script():
    return numbered(root_after([linked(TWO, ZERO_KEY)], key_of(1)))


def prepared_rotation():
    second, third = key_of(0x1), key_of(0x2)
    old = log_of([*TWO, CLOSE])
    begun = link_events(old)
    ended = log_of([*begun, (1, b"more"), CLOSE], second)
    closed, joined = root_after(old.events), root_after(begun, second)
    closed_again, joined_again = root_after(ended.events, second), root_after(link_events(ended, {1: 1, 7: 1}, 2), third)
    return numbered(root_after(TWO), closed, joined, closed, joined, closed, root_after(ended.events[:3], second),
                    closed_again, joined_again, closed_again)


def appended(tag):
    return Request(wire.APPEND, tag, (7,), b"hi")


def sessions_of_long_lines():
    return numbered(empty_commitment(9), lambda: replies_to([appended(2)], 3), root_after([(7, b"hi")]))


def sessions_of_long_lines_script():
    return numbered(lambda: wire.request_frame(appended(2)) + wire.request_frame(appended(3)))


def sessions_over_lines():
    asked = [Request(wire.ENTRY, 4, (0,)), Request(wire.MEMBERSHIP, 5, (0, 1)), Request(wire.INCREMENT, 6, (1, 1)),
             Request(wire.COMMITMENT, 1)]
    after_append = (lambda request=request: replies_to([appended(2), request], 64)[55:] for request in asked)
    return numbered(empty_commitment(9), lambda: replies_to([appended(2)], 64), *after_append, root_after([(7, b"hi")]))


def store_of_version_1():
    two, three = root_after(TWO), root_after([*TWO, (9, bytes(4025))])
    return numbered(two, two, three, three, three, two)


def sectors_of_version_1():
    return numbered(*(lambda at=at: image_of(log_of(TWO), 4, 16, 1)[at] for at in range(4)))


def verified_exports():
    payload = seal(ZERO_KEY, FIRST_LINK, CLOSING_KIND, b"\0")[0]
    return numbered(root_after(THREE), export_of(THREE), root_after([HI]), export_of([HI, CLOSE]), root_after([HI, CLOSE]),
                    root_after([HI]), lambda: payload, lambda: leaf_hash(payload))


def state_values(count):
    """The values in the text of the state after the first of the printed events: those that aren't zeros."""
    log = log_of(PRINTED[:count])
    state = state_after(log, ZERO_KEY, (count, root(log.leaves)))
    return [bytes.fromhex(line.split()[1]) for line in state.text().decode().splitlines() if len(line.split()[1]) == 64]


def verified_further():
    values = [value for count in (3, 4, 6, 0) for value in state_values(count) if any(value)]
    return numbered(*(lambda value=value: value for value in values))


def disclosed():
    """The keys of chosen events of the printed ones, and what begins a disclosure of those after the third."""
    keys = entry_keys(ZERO_KEY, PRINTED)
    # A state's key and its check aren't in it.
    _, link, *nodes, _ = state_values(3)
    shown = [keys[1], keys[2], keys[4], keys[3], keys[5], link, *nodes, keys[4], keys[0], keys[3]]
    return numbered(*(lambda value=value: value for value in shown))


def disclosed_script():
    entries = log_of(PRINTED).entries
    return numbered(export_of(PRINTED[:3]), lambda: entries[3], lambda: b"".join(entries[4:]),
                    *(root_after(PRINTED[:count]) for count in (3, 6)))


def verified_further_script():
    entries = log_of(PRINTED).entries
    return numbered(export_of(PRINTED[:3]), lambda: entries[3], lambda: b"".join(entries[4:]),
                    *(root_after(PRINTED[:count]) for count in (3, 4, 6)))


FILES = {"cases/%s" % name: make for name, make in {
    "checked_proofs/script": checked_proofs,
    "checked_links/script": checked_links,
    "close/stdout": close,
    "contents_of_proofs/script": contents_of_proofs,
    "disclosures/script": disclosed_script,
    "disclosures/stdout": disclosed,
    "exported_stores/script": exported_stores_script,
    "exported_stores/stdout": exported_stores,
    "exports_from_an_index/script": exports_from_an_index_script,
    "exports_from_an_index/stdout": exports_from_an_index,
    "free_sectors/stdout": lambda: numbered(*repeat(root_after(THREE), 4)),
    "full_store/stdout": lambda: numbered(*repeat(packages_root(1), 2)),
    "headers_alone/stdout": lambda: numbered(*repeat(root_after(THREE), 2)),
    "lines_as_they_come/stdout": lines_as_they_come,
    "lines_of_text/stdout": lines_of_text,
    "no_command_is_replay/stdout": lambda: replayed("no_command_is_replay"),
    "notes/script": lambda: numbered(root_after(THREE), root_after([HI]), grown(THREE, 1)),
    "notes/stdout": lambda: numbered(*repeat(root_after(THREE), 3)),
    "opened_proofs/script": opened_proofs,
    "opened_proofs/stdout": opened_events,
    "out_is_the_store/script": lambda: numbered(root_after([HI])),
    "out_is_the_store/stdout": lambda: numbered(root_after([HI])),
    "payload_of_the_limit/stdout": lambda: replayed("payload_of_the_limit"),
    "payload_of_the_limit_in_a_store/stdout": limit_in_a_store,
    "payloads_as_text/stdout": payloads_as_text,
    "refused_lines/stdout": lambda: numbered(*repeat(root_after(THREE), 2)),
    "refused_sessions/stdout": lambda: numbered(*repeat(empty_commitment(9), 2)),
    "refused_stores/stdout": lambda: numbered(*repeat(root_after(THREE), 2)),
    "replay_of_a_package_log/stdout": replay_of_packages,
    "prepared_rotation/stdout": prepared_rotation,
    "replay_of_one_event/stdout": lambda: replayed("replay_of_one_event"),
    "reserve/stdout": reserve,
    "rotation/script": rotation_script,
    "rotation/stdout": rotation,
    "sessions_of_long_lines/script": sessions_of_long_lines_script,
    "sessions_of_long_lines/stdout": sessions_of_long_lines,
    "sessions_over_lines/stdout": sessions_over_lines,
    "store_of_a_package_log/stdout": package_store,
    "store_of_version_1/sectors": sectors_of_version_1,
    "store_of_version_1/stdout": store_of_version_1,
    "verified_exports/script": verified_exports,
    "verified_further/script": verified_further_script,
    "verified_further/stdout": verified_further,
}.items()}
