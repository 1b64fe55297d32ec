"""What a search of a damaged store with its log's first key finds: the section Which entries are found of
crates/audit_cli_salvage/README.md. An image is a list of sectors; one that can't be read is None."""
from typing import NamedTuple

from history import leaf_hash
from read_export import under_keystream

from model.chain import FIRST_LINK, keystream_key, mac, next_key
from model.disclosure import event_line
from model.disk import LOG_START, MOST, choose, entry_at, is_linked, sectors_of

WITHIN = 65536


class Found(NamedTuple):
    """An entry that was found: its index, its bytes, whether it follows another or begins the log, and the sector
    behind it."""
    index: int
    entry: bytes
    follows: bool
    behind: int


class Chain:
    """The keys of a log, from its first one on."""

    def __init__(self, first_key):
        self.keys = [first_key]

    def key(self, index):
        while len(self.keys) <= index:
            self.keys.append(next_key(self.keys[-1]))
        return self.keys[index]

    def seals(self, index, entry):
        return entry[-32:] == mac(self.key(index), entry[-64:-32])


def stated(image):
    """How many entries the headers of an image state, or None."""
    if len(image) < LOG_START or None in image[:LOG_START]:
        return None
    chosen = choose(image)
    return None if isinstance(chosen, int) else chosen[0].count


def read_at(image, at):
    """The entry that begins in a sector; None if there is none, or one of its sectors can't be read."""
    if image[at] is None:
        return None
    entry = entry_at([sector or b"" for sector in image], at)
    return None if entry is None or None in image[at:at + sectors_of(len(entry) - 72)] else entry


def indices(last, passed, within):
    """The indices that an entry can have behind the last one, or behind so many sectors that were passed."""
    return [last + 1] if passed == 0 else range(last + 2, last + 2 + min(passed, within))


def found_in(image, first_key, within=WITHIN):
    """The entries that a search finds."""
    chain, count = Chain(first_key), stated(image)
    most = min(len(image), MOST) if count is None else count
    found, last, behind, link, at = [], -1, LOG_START, FIRST_LINK, LOG_START
    while at < len(image) and min(indices(last, at - behind, within)) < most:
        entry, passed = read_at(image, at), at - behind
        wanted = [] if entry is None or not any(entry[-32:]) or passed == 0 and not is_linked(entry, link) else [
            index for index in indices(last, passed, within) if index < most and chain.seals(index, entry)]
        if wanted:
            last, behind, link = wanted[0], at + sectors_of(len(entry) - 72), entry[-64:-32]
            found.append(Found(last, entry, passed == 0, behind))
        at = behind if wanted else at + 1
    return found


def unread_in(image, found, first_key, within=WITHIN):
    """How many sectors are passed because a read fails: where an entry would begin of which a sector can't be read."""
    taken = {at for one in found for at in range(one.behind - sectors_of(len(one.entry) - 72), one.behind)}
    most = min(len(image), MOST) if stated(image) is None else stated(image)
    last, behind, unread = -1, LOG_START, 0
    begun = {one.behind - sectors_of(len(one.entry) - 72): one for one in found}
    for at in range(LOG_START, len(image)):
        if at in begun:
            last, behind = begun[at].index, begun[at].behind
        elif at not in taken and min(indices(last, at - behind, within)) < most:
            unread += fails_at(image, at)
    return unread


def fails_at(image, at):
    """Whether a read fails of an entry that would begin in a sector."""
    if image[at] is None:
        return True
    entry = entry_at([sector or b"" for sector in image], at)
    length = int.from_bytes(image[at][4:8], "big")
    return entry is not None and None in image[at:at + sectors_of(length)]


def text(image, first_key, proved=(), within=WITHIN):
    """What is printed of a search, its last line, and its status. `proved` has the index and the leaf of each proof."""
    found, count, lines, next_index = found_in(image, first_key, within), stated(image), [], 0
    chain, unbound, shown = Chain(first_key), 0, 0
    for index, entry, follows, _ in found:
        is_shown = (index, leaf_hash(entry)) in proved
        if not follows:
            lines.append("missing %d %d\n" % (next_index, index - next_index))
        if not follows or index == 0:
            lines.append("piece %d\n" % index)
        kind = int.from_bytes(entry[:4], "big")
        payload = under_keystream(keystream_key(chain.key(index), kind), entry[8:-64])
        lines.append(("" if follows or is_shown else "unbound ") + event_line(index, kind, payload))
        lines += ["shown %d\n" % index] * is_shown
        unbound, shown, next_index = unbound + (not follows and not is_shown), shown + is_shown, index + 1
    if count is not None and next_index < count:
        lines.append("missing %d %d\n" % (next_index, count - next_index))
    missing = (next_index if count is None else count) - len(found)
    last = "salvaged %d unbound %d missing %d unread %d shown %d %s\n" % (
        len(found), unbound, missing, unread_in(image, found, first_key, within), shown,
        "uncounted" if count is None else "counted")
    return "".join(lines), last, 1 if count is None or missing or unbound else 0
