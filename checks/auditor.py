"""Compares auditor/check_proof.py, read_export.py and disclosure.py with the program, on what a tour left and on
damaged copies of it; and tries what auditor/bundle.py packs.

usage: bin/check auditor EXECUTABLE FOLDER

FOLDER was made by `examples/tour -d FOLDER`. Both are asked each question. Statuses and outputs must be the same, and
so must messages except for the name before them. Every possible answer must occur at least once.
"""
import collections
import contextlib
import io
import itertools
import os
import re

import check_proof
import disclosure
import history
import read_export

from checks.bundled import sealed_line, try_bundles
from checks.parts import program
from checks.parts.files import read, read_text, write
from checks.parts.logs import entries_of, keys_from, unsealed_entry, word_of
from checks.parts.program import done
from checks.parts.scenes import program_of
from checks.parts.wrong import Usage
from model.chain import CLOSING_KIND, keystream_key, next_key, seal
from model.tree import membership_proof

ANSWERS = ["accepted", "not accepted", "index", "older", "event", "another key can show another text",
           "32 BadProof", "verified open", "verified closed", "40 Short", "41 BadLength", "42 BadLink",
           "43 BadMac", "44 WrongCommitment", "46 BadClose", "bad argument", "file fault"]


class Comparison:
    def __init__(self):
        self.asked = 0
        self.differ = 0
        self.answers = collections.Counter()

    def ask(self, module, command, *words):
        """Asks both the same, and returns the program's status."""
        code, out, err = program.whole(command, *words)
        theirs = code, out.decode(), err.decode().replace("audit: ", "", 1)
        output, messages = io.StringIO(), io.StringIO()
        with contextlib.redirect_stdout(output), contextlib.redirect_stderr(messages):
            status = module.main(list(words))
        ours = status, output.getvalue(), messages.getvalue().replace(module.__name__ + ": ", "", 1)
        self.asked += 1
        last_line = (theirs[1] + theirs[2]).splitlines()[-1]
        self.answers[re.sub("^(verified|index|older|event) [0-9].*?( open| closed|)$", r"\1\2",
                            last_line.split(": ")[-1])] += 1
        if ours != theirs:
            self.differ += 1
            print("%s %s: the program answers %r, the other %r" % (command, " ".join(words), theirs, ours))
        return code

    def check(self, proof, *commitments):
        if self.ask(check_proof, "check", proof, *commitments) == 0:
            self.ask(check_proof, "check", proof, *commitments, "--print")

    def verify(self, data, *words):
        write("damaged", data)
        self.ask(read_export, "verify", "damaged", *words)

    def check_bytes(self, data, *commitments):
        write("damaged", data)
        self.check("damaged", *commitments)


def turned(data, step):
    """Copies with one flipped bit: one copy for each byte at a multiple of the given step."""
    for at in range(0, len(data), step):
        yield data[:at] + bytes([data[at] ^ 1 << at % 8]) + data[at + 1:]


def compare_proofs(comparison, entries):
    """Proofs of many counts, under commitments that are computed from the export."""
    leaves = [history.leaf_hash(entry) for entry in entries]
    commitments = [word_of(count, history.root(leaves[:count])) for count in range(len(leaves) + 1)]

    def prove(*words):
        done("prove", "events.store", *words, "made")

    last = len(leaves)
    for count in sorted({1, 2, 3, 5, 8, min(13, last), last - 1, last}):
        for index in {0, count // 3, count // 2, count - 1}:
            prove("member", str(index), str(count))
            comparison.check("made", commitments[count])
            comparison.check("made", commitments[count - 1])
            prove("increment", str(index + 1), str(count))
            comparison.check("made", commitments[index + 1], commitments[count])
            comparison.check("made", commitments[index], commitments[count])


def compare_damaged_proofs(comparison, older, newer):
    for name, commitments in [("member.proof", [newer]), ("increment.proof", [older, newer]), ("other.proof", [newer])]:
        proof = read(name)
        comparison.check(name, *commitments)
        for data in turned(proof, 7):
            comparison.check_bytes(data, *commitments)
        for size in [0, 16, 17, 18, len(proof) - 33, len(proof) - 1]:
            comparison.check_bytes(proof[:size], *commitments)
        comparison.check_bytes(proof + b"x", *commitments)
        # One hash too many, and one too few.
        end = 18 + 32 * proof[17]
        comparison.check_bytes(proof[:17] + bytes([proof[17] + 1]) + proof[18:end] + bytes(32) + proof[end:],
                               *commitments)
        comparison.check_bytes(proof[:17] + bytes([proof[17] - 1]) + proof[18:end - 32] + proof[end:], *commitments)
        comparison.check(name, *commitments[::-1])
        comparison.check(name, *[older for _ in commitments])
        comparison.check(name, *([newer] if len(commitments) == 2 else [older, newer]))
        comparison.ask(check_proof, "check", name, *commitments[::-1], "--print")
        comparison.ask(check_proof, "check", name, *[older for _ in commitments], "--print")
    # The numbers of hashes and the entry at their limits, and one past them.
    for kind, commitments in [(b"\1", [newer]), (b"\2", [older, newer])]:
        numbers = b"".join(int(word.split(":")[0]).to_bytes(8, "big") for word in (older, newer))
        for hashes in [0, 24, 25, 26]:
            for entry in [0, 1, 32768, 32769]:
                comparison.check_bytes(kind + numbers + bytes([hashes]) + bytes(32 * hashes + entry), *commitments)


def compare_largest_trees(comparison):
    """The last entry of a log of the greatest length, and of a longer one: its proof has siblings only on the left, or
    one hash."""
    value = history.leaf_hash(b"entry")
    for _ in range(24):
        value = history.inner_node(bytes(32), value)
    head = b"\1" + ((1 << 24) - 1).to_bytes(8, "big") + (1 << 24).to_bytes(8, "big") + bytes([24])
    comparison.check_bytes(head + bytes(24 * 32) + b"entry", "%d:%s" % (1 << 24, value.hex()))
    value = history.leaf_hash(b"entry")
    for _ in range(24):
        value = history.inner_node(value)
    value = history.inner_node(bytes(32), value)
    head = b"\1" + (1 << 24).to_bytes(8, "big") + ((1 << 24) + 1).to_bytes(8, "big") + bytes([1])
    comparison.check_bytes(head + bytes(32) + b"entry", "%d:%s" % ((1 << 24) + 1, value.hex()))


def compare_receipts(comparison, entries, older, newer):
    """Entries under the keys of receipts, under others and under words that are none; and texts that are no entry."""
    def opened(proof, digits, *commitments):
        comparison.ask(check_proof, "check", proof, *commitments, "--key", digits)

    for index, key in zip(range(len(entries)), keys_from(read_export.read_key("first.key"))):
        if index % 5 == 0 or index == len(entries) - 1:
            digits = keystream_key(key, int.from_bytes(entries[index][:4], "big")).hex()
            done("prove", "events.store", "member", str(index), str(len(entries)), "made")
            for word in digits, digits.upper(), key.hex(), "0" * 64:
                opened("made", word, newer)
            opened("made", digits, older)
    for word in ["", "0" * 63, "0" * 65, "0" * 63 + "g", "0x" + "0" * 62, "0" * 64 + "\n"]:
        opened("made", word, newer)
    for proof, *commitments in [("made", older, newer), ("made", newer, newer), ("increment.proof", newer),
                                ("increment.proof", older, newer), ("first.key", newer), ("missing", newer)]:
        opened(proof, "0" * 64, *commitments)
    texts = [unsealed_entry(bytes(length), kind) for length in (0, 1, 15, 16, 64, 65, 32696)
             for kind in (0, CLOSING_KIND)]
    texts += [text + b"x" for text in texts[:-2]] + [text[:-1] for text in texts]
    texts += [b"", bytes(8), bytes(71), bytes(73)]
    for text in texts:
        write("made", membership_proof(0, 1, [], text))
        opened("made", "5a" * 32, word_of(1, history.leaf_hash(text)))


def compare_exports(comparison, entries, newer):
    export = b"".join(entries)
    for data in [export, b"", export + b"\0"]:
        comparison.verify(data, "first.key", newer)
    comparison.verify(b"", "first.key", "0:" + "0" * 64)
    for data in turned(export, 41):
        comparison.verify(data, "first.key", newer)
    for length in [4024, 4025, 32696, 32697, 1 << 31]:
        comparison.verify(export[:4] + length.to_bytes(4, "big") + export[8:], "first.key", newer)
        comparison.verify(export + bytes(4) + length.to_bytes(4, "big") + bytes(32760), "first.key", newer)
    for size in range(0, len(export), 101):
        comparison.verify(export[:size], "first.key", newer)
    for at in range(0, len(entries) - 1, 4):
        comparison.verify(b"".join(entries[:at] + entries[at + 1:]), "first.key", newer)
        comparison.verify(b"".join(entries[:at] + [entries[at + 1], entries[at]] + entries[at + 2:]), "first.key",
                          newer)
        comparison.verify(b"".join(entries[:at] + 2 * [entries[at]] + entries[at + 1:]), "first.key", newer)


def compare_closed_exports(comparison, entries):
    """The export followed by an entry that closes the log, without and with a payload."""
    key = next(itertools.islice(keys_from(read_export.read_key("first.key")), len(entries), None))
    for payload in [b"", b"x"]:
        closing, link = seal(key, entries[-1][-64:-32], CLOSING_KIND, payload)
        leaves = [history.leaf_hash(entry) for entry in [*entries, closing]]
        word = word_of(len(leaves), history.root(leaves))
        export = b"".join([*entries, closing])
        later, _ = seal(next_key(key), link, 0, b"later")
        for more in [b"", b"\0", bytes(7), bytes(4) + b"\xff" * 4, closing, later]:
            comparison.verify(export + more, "first.key", word)
        for data in turned(closing, 5):
            comparison.verify(b"".join(entries) + data, "first.key", word)
        for size in range(0, len(closing), 7):
            comparison.verify(export[:len(export) - size], "first.key", word)


def answered(*words):
    """What disclosure.py answers: status, output and messages."""
    output, messages = io.StringIO(), io.StringIO()
    with contextlib.redirect_stdout(output), contextlib.redirect_stderr(messages):
        status = disclosure.main(list(words))
    return status, output.getvalue(), messages.getvalue()


def both(expect, *words):
    """What disclosure.py answers, as the program does, which makes the same file."""
    makes, out = words[0] == "--make", words[4] if words[0] == "--make" else ""
    ours, made = answered(*words), os.path.exists(out) and read(out)
    if makes and ours[0] == 0:
        os.remove(out)
    command = ["disclose", *words[1:]] if makes else ["verify", *words, "--disclosed"]
    code, output, messages = program.whole(*command)
    said = ours[2].replace("disclosure: ", "audit: ")
    expect(" ".join(command), (code, output.decode(), messages.decode()), (*ours[:2], said))
    expect("what is made by it", os.path.exists(out) and read(out), made)
    return ours


def try_disclosures(comparison, entries, older, newer):
    """Chosen events read as the program verified them, and of the others kind and length are shown."""
    def expect(what, found, wanted):
        comparison.asked += 1
        if found != wanted:
            comparison.differ += 1
            print("%s: %r, and not %r" % (what, found, wanted))

    for left in "chosen", "later":
        with contextlib.suppress(FileNotFoundError):
            os.remove(left)
    lines = done("verify", "events.export", "first.key", newer).decode().splitlines()
    events, count = lines[:-1], len(entries)
    kinds = [line.split()[2] for line in events]
    of_first_kind = {at for at in range(count) if kinds[at] == kinds[0]}
    for option, word, chosen in (("--events", "3,10-12", {3, 10, 11, 12}), ("--events", "99", set()),
                                 ("--events", "0-%d" % count, set(range(count))), ("--kind", kinds[0], of_first_kind)):
        made = both(expect, "--make", "events.export", "first.key", newer, "chosen", option, word)
        expect("--make %s" % word, made, (0, "disclosed %d %d\n" % (len(chosen), count), ""))
        expect("the mode", os.stat("chosen").st_mode & 0o777, 0o600)
        wanted = [line if at in chosen else sealed_line(line) for at, line in enumerate(events)]
        wanted.append(lines[-1].replace("verified", "matched"))
        expect(word, both(expect, "events.export", "chosen", newer), (0, "".join(line + "\n" for line in wanted), ""))
        expect("another file", both(expect, "--make", "events.export", "first.key", newer, "chosen", option, word),
               (1, "", "disclosure: file exists\n"))
        os.remove("chosen")
    done_by_disclosure = both(expect, "--make", "events.export", "first.key", newer, "chosen", "--events", "3,10-12")
    expect("a disclosure for bundles", done_by_disclosure[0], 0)
    try_bundles(expect, entries, newer, older)
    os.remove("chosen")
    try_damaged_disclosures(expect, entries, newer)


def try_damaged_disclosures(expect, entries, newer):
    """Damage to an export is found without a key, also where a MAC is hit: the commitment is to it."""
    expect("a key's name", both(expect, "--make", "events.export", "first.key", newer, "chosen", "--events", "1")[0], 0)
    data, text = b"".join(entries), read("chosen")
    for damaged in [*turned(data, 97), data[:-1], b"".join(entries[:-1]), b"".join(entries[1:]), data + entries[0]]:
        write("damaged", damaged)
        status, shown, _ = both(expect, "damaged", "chosen", newer)
        expect("a damaged export", (status, shown), (1, ""))
        made = both(expect, "--make", "damaged", "first.key", newer, "none", "--events", "1")
        expect("what is made of it", made[:2], (1, ""))
        expect("what is left", os.path.exists("none"), False)
    for other in (text[:-1], text + b"\n", text.replace(b"key 1", b"key 01"), text + text, text.upper(), b"\xff",
                  b"count 0\n" + text, text.replace(b"\n", b"\r\n")):
        write("other", other)
        shown = both(expect, "events.export", "other", newer)
        expect("the disclosure %r" % other, shown, (2, "", "disclosure: bad argument\n"))
    for words in (("--kind", ""), ("--kind", "4294967296"), ("--events", "2-1"), ("--events", "1,"),
                  ("--events", "1-")):
        expect(" ".join(words), both(expect, "--make", "events.export", "first.key", newer, "none", *words)[0], 2)
    expect("a missing export", both(expect, "missing", "chosen", newer), (3, "", "disclosure: file fault\n"))
    try_disclosed_tail(expect, entries, newer)


def try_disclosed_tail(expect, entries, newer):
    """What follows a state is matched with its count, link and frontier."""
    half = len(entries) // 2
    write("front", b"".join(entries[:half]))
    write("tail", b"".join(entries[half:]))
    at_half = word_of(half, history.root([history.leaf_hash(entry) for entry in entries[:half]]))
    done("verify", "front", "first.key", at_half, "--save", "half.state")
    lines = done("verify", "tail", "half.state", newer).decode().splitlines()
    made = both(expect, "--make", "tail", "half.state", newer, "later", "--events", "%d-" % half + str(half + 1))
    expect("a tail's disclosure", made, (0, "disclosed 2 %d\n" % len(entries), ""))
    wanted = lines[:2] + [sealed_line(line) for line in lines[2:-1]] + [lines[-1].replace("verified", "matched")]
    expect("a tail", both(expect, "tail", "later", newer), (0, "".join(line + "\n" for line in wanted), ""))
    expect("a tail without its state", both(expect, "tail", "chosen", newer)[0], 1)
    key = read_export.read_start("half.state").key.hex().encode()
    expect("whether the state's key is in it", key in read("later"), False)


def compare_words(comparison, newer):
    for word in ["", "24", ":", newer + "0", newer[:-1], "x" + newer, " " + newer, "1" * 21 + newer[2:], newer.upper(),
                 "18446744073709551616" + newer[2:], "0" + newer]:
        comparison.check("member.proof", word)
        comparison.verify(read("events.export"), "first.key", word)
    comparison.check("missing", newer)
    comparison.ask(read_export, "verify", "missing", "first.key", newer)
    for key in [b"", b"0" * 63, b"0" * 64, b"0" * 64 + b"\n\n", b"0" * 63 + b"g", read("first.key") + b"\n"]:
        write("other.key", key)
        comparison.verify(read("events.export"), "other.key", newer)


def compare_all(comparison):
    older, newer = read_text("older.commitment").strip(), read_text("newer.commitment").strip()
    entries = entries_of(read("events.export"))
    compare_proofs(comparison, entries)
    compare_damaged_proofs(comparison, older, newer)
    compare_largest_trees(comparison)
    compare_receipts(comparison, entries, older, newer)
    compare_exports(comparison, entries, newer)
    compare_closed_exports(comparison, entries)
    compare_words(comparison, newer)
    try_disclosures(comparison, entries, older, newer)


def compare_folder(folder):
    """Compares both on what a tour left in this folder. Says nothing but what differs; returns the status."""
    os.chdir(folder)
    comparison = Comparison()
    compare_all(comparison)
    for answer in ANSWERS:
        if comparison.answers[answer] == 0:
            comparison.differ += 1
            print("no question was answered with %s" % answer)
    if comparison.differ:
        print("%d questions, %d answered differently" % (comparison.asked, comparison.differ))
    return 1 if comparison.differ else 0


def main(words):
    folder, = program_of(words, 1) or [None]
    if folder is None:
        raise Usage
    return compare_folder(folder)
