"""Disclosures: the section Disclosures of docs/formats.md."""
from read_export import under_keystream

from model.chain import ZERO_KEY, entry_keys


def disclosure(log, chosen, first_key=ZERO_KEY):
    """The text of a disclosure of the chosen events of a log, whose export begins with the first one."""
    keys = entry_keys(first_key, log.events)
    return "".join("key %d %s\n" % (index, keys[index].hex()) for index in sorted(chosen))


def event_line(index, kind, payload):
    return "event %d %d %s\n" % (index, kind, payload.hex() or "-")


def shown(log, keys):
    """What is printed of a log by these keys of entries, by index: each opens whatever entry it is given for."""
    lines = []
    for index, ((kind, payload), entry) in enumerate(zip(log.events, log.entries)):
        if index in keys:
            cipher = entry[8:8 + len(payload)]
            lines.append(event_line(index, kind, under_keystream(keys[index], cipher)))
        else:
            lines.append("sealed %d %d %d\n" % (index, kind, len(payload)))
    return "".join(lines) + "matched %d %s\n" % (len(log.events), "closed" if log.closed else "open")
