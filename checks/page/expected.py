"""What is expected of each: verdicts by the auditor's programs, and rows as the page has them."""
import json
import os

import check_proof
import history
import read_export
from checks.page.drawn import CLOSING
from checks.page.files import VERDICTS


def entries_before(data, start, index):
    """The events of the entries before the one of an index, which are sealed right."""
    at, leaves = 0, []
    for number in range(start.count, index):
        end = read_export.read_entry(data, at, number)[-1]
        leaves.append(history.leaf_hash(data[at:end]))
        at = end
    root = start.after(bytes(32), bytes(32), False, leaves).root()
    return read_export.read_on(data[:at], start, (index, root))[0]


def tail_verdict(data, start, claimed):
    """The verdict on an export that begins after a state, and the events of its entries up to the first fault."""
    try:
        events, after = read_export.read_on(data, start, history.commitment(claimed))
    except read_export.Fault as fault:
        return str(fault), entries_before(data, start, int(str(fault).split()[1][:-1]))
    return "verified %d %s" % (after.count, "closed" if after.closed else "open"), events


def export_verdict(export, key, claimed):
    return tail_verdict(export, read_export.FIRST._replace(key=key), claimed)


def count_of(word):
    return history.commitment(word)[0]


def proof_verdict(data, commitments):
    try:
        proof = check_proof.read_proof(data)
    except check_proof.BadProof:
        return "32 BadProof"
    if len(commitments) != (1 if proof[0] == check_proof.MEMBERSHIP else 2):
        return "bad argument"
    return "accepted" if check_proof.is_accepted(proof,
                                                 [history.commitment(word) for word in commitments]) else "not accepted"


ESCAPES = {"\n": "\\n", "\r": "\\r", "\t": "\\t", "\\": "\\\\"}


def shown(payload):
    """A payload of the generated logs as the page shows it: ASCII letters, or hex digits."""
    try:
        text = payload.decode()
    except UnicodeDecodeError:
        return "hex:" + payload.hex()
    return "".join(ESCAPES.get(letter, letter if " " <= letter <= "~" else "\\u%04x" % ord(letter)) for letter in text)


def row_of(number, kind, payload):
    return [str(number), "%d (closes the log)" % kind if kind == CLOSING else str(kind), str(len(payload)),
            cut(shown(payload))]


def cut(written):
    """What the page shows of a payload until the rest is asked for."""
    return written if len(written) <= 300 else written[:300] + "\u2026 Show all %d characters" % len(written)


def written_verdicts(kind):
    """What the model wrote, by the number of the case."""
    with open(VERDICTS, encoding="ascii") as file:
        return {int(words[1]): words[2] for words in (line.rstrip("\n").split(" ", 2) for line in file)
                if words[0] == kind}


def keep(folder, kind, number, data, words, verdict):
    if folder:
        with open(os.path.join(folder, "cases"), "a", encoding="ascii") as file:
            file.write(json.dumps([kind, number, data.hex(), words, verdict]) + "\n")
