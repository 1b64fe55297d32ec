"""Files and words that are dropped, dragged and typed."""
import json
import os
import re

import history
from checks.page.browsers import Page
from checks.page.changes import dragged
from checks.page.drawn import (
    CLOSING, base64_of, commitment_of, entries_of, increment_proof, member_proof, proof_bytes, state_after, word_of)
from checks.page.expected import count_of
from checks.page.files import PAGE
from checks.parts.files import write
from checks.parts.rooms import FIRST_KEY
from checks.parts.wrong import expect, expect_true, short


def test_taking(browser, room):
    """What people have is taken: a witness's file, lines of the program, text; and what is in another's place is put
    right or told."""
    events = [(1, b"one"), (2, b"two"), (3, b"three"), (4, b"four"), (5, b"five")]
    entries = entries_of(FIRST_KEY, events)
    leaves = [history.leaf_hash(entry) for entry in entries]
    roots = [word_of(count, history.root(leaves[:count])) for count in range(6)]
    export, key = b"".join(entries), FIRST_KEY.hex()
    member, increment = proof_bytes(*member_proof(leaves, 1, entries[1])), proof_bytes(*increment_proof(leaves, 2))
    witness = "".join(root + "\n" for root in roots[1:])
    page = Page(browser, PAGE)

    def drop(panel, *files):
        return dropped(page, panel, files)

    expect_witness_taken(entries, roots, key, export, witness, page, drop)
    expect_words_taken(roots, key, export, witness, page, drop)
    expect_true("is taken as the export" in drop("export", ("STATE", witness + "5:" + "x" * 64)),
                "a witness's file with another line")
    drop("export", ("events.export", export))

    # Text that is dragged from another window.
    dragged_text(page, roots[5] + "\n")
    page.wait("seen('export-note').textContent === 'The text is taken as the commitment.'")
    dragged_text(page, key)
    page.wait("seen('export-note').textContent === 'The text is taken as the first key.'")
    expect(page.call("pressed", "export")["verdict"], "verified 5 open", "what was dropped as text")

    expect_others_taken(room, entries, roots, key, export, increment, member, page, drop)

    expect_order_told(roots, increment, page, drop)
    return "what people have"


def dropped(page, panel, files):
    """What is said after files, names and what they have, were dropped on a panel, whose fields are empty."""
    made = ", ".join("fileOf('%s', '%s')" % (base64_of(data if isinstance(data, bytes) else data.encode()), name)
                     for name, data in files)
    for field in ("key", "commitment", "older", "newer", "receipt", "one", "other"):
        page.run("seen('%s').value = ''" % field)
    return page.run("seen('tab-%s').click(), dropOn('%s', %s)" % (panel, panel, made))


def expect_witness_taken(entries, roots, key, export, witness, page, drop):
    """Of a witness's file the line that fits is used; what is said if there is none, or two."""
    said = drop("export", ("STATE", witness), ("first.key", key + "\n"), ("events.export", export))
    expect(said, "STATE is taken as the commitment. It has 5: the one that fits is used. first.key is taken as the "
                 "first key. events.export is taken as the export.", "a witness's file")
    for count in (3, 5):
        page.run("dropOn('export', fileOf('%s', 'events.export'))" % base64_of(b"".join(entries[:count])))
        found = page.call("pressed", "export")
        expect((found["verdict"], found["inputs"]["Commitment"], found["inputs"]["Given"]),
               ("verified %d open" % count, roots[count], "5 commitments, of which this is one"),
               "the line of a witness for %d" % count)
    page.run("seen('commitment').value = '%s'" % " ".join(roots[1:4]))
    found = page.call("pressed", "export")
    expect_true(found["verdict"] == "entry 5: 44 WrongCommitment"
                and "None of the 3 commitments counts 5: the last one counts 3." in found["meaning"],
                "a witness without the line: " + found["meaning"])
    page.run("seen('commitment').value = '%s %s'" % (roots[5], word_of(5, bytes(32))))
    meaning = page.call("pressed", "export")["meaning"]
    expect_true("Two of these commitments count 5, and have different roots." in meaning,
                "a witness's file that contradicts itself")


def expect_words_taken(roots, key, export, witness, page, drop):
    """Lines of the program and long files as commitments."""
    for text, number in [("commit %d %s\n" % history_word(roots[5]), 1),
                         ("commit %d %s\nsectors 64 end 7 generation 12 version 2 state open\n"
                          % history_word(roots[5]), 1),
                         ("".join("commit %d %s\r\n" % history_word(root) for root in roots[1:]), 5)]:
        said = drop("export", ("show", text), ("first.key", key), ("events.export", export))
        expect_true(said.startswith("show is taken as the commitment." + (" It has %d" % number if number > 1 else "")),
                    "lines of the program: " + said)
        expect(page.call("pressed", "export")["verdict"], "verified 5 open", "under lines of the program")
    page.run("seen('commitment').value = 'commit %d %s'" % history_word(roots[5]))
    expect(page.call("pressed", "export")["verdict"], "verified 5 open", "under a line of the program that is typed")

    # A witness's file that has grown long, and ones whose last line a loss of power has cut off.
    long_file = "".join(word_of(10 + number, bytes(32)) + "\n" for number in range(20000)) + roots[5] + "\n"
    for text, said in [(long_file, "It has 14"), (witness + roots[5][:30], "It has 5"),
                       (witness + roots[5][:30] + "\0" * 37, "It has 5")]:
        found = drop("export", ("STATE", text), ("first.key", key), ("events.export", export))
        expect_true(said in found, "a witness's file: " + short(found))
        expect(page.call("pressed", "export")["verdict"], "verified 5 open", "under a witness's file")
    expect_notes_taken(roots, key, export, page, drop)


def expect_notes_taken(roots, key, export, page, drop):
    """A note as a commitment, and texts that are nearly one."""
    count, root = history_word(roots[5])
    note = "audit-note 1\nname acme<b>/2026\ncount %d\nroot %s\n" % (count, root)
    said = drop("export", ("day.note", note), ("first.key", key), ("events.export", export))
    expect_true(said.startswith("day.note is taken as the commitment. It is a note of the log acme<b>/2026: this page "
                                "doesn't check its signature. first.key"), "a note: " + said)
    expect(page.call("pressed", "export")["verdict"], "verified 5 open", "under a note")
    for text in (note.replace("note 1", "note 2"), note.replace("count ", "count 0"), note.replace("acme", "ac me"),
                 note[:-2], note.replace("\nroot", "\n\nroot"), note + "x"):
        said = drop("export", ("day.note", text))
        expect_true("as the commitment" not in said, "a text that is nearly a note: " + said)


def open_panel(page):
    return page.run("document.querySelector('[aria-selected=true]').id.slice(4)")


def expect_others_taken(room, entries, roots, key, export, increment, member, page, drop):
    """What belongs to another panel is taken there, or is told."""
    store = b"AUDITST1" + bytes(1016)
    for name, data in [("events.store", store), ("second.store", bytes(512) + store[:512])]:
        said = drop("export", (name, data))
        expect_true(said.startswith(name + " is a store, not an export. Whoever runs the log makes one: audit export "
                                           "%s OUT." % name), "a store is told: " + said)
        expect(open_panel(page), "export", "the panel after a store")
    expect_proofs_taken(roots, export, increment, member, page, drop)
    expect_keys_told(entries, roots, key, page, drop)
    for panel, name, data, home, field in [("export", "a.proof", member, "proof", "proof-file"),
                                           ("proof", "events.export", export, "export", "export-file"),
                                           ("export", "first.key", key.encode(), "export", "key")]:
        page.run("seen('tab-%s').click(), seen('key').value = ''" % panel)
        path = os.path.join(room, name)
        write(path, data)
        page.set_file("#%s-file" % panel, path)
        page.wait("seen('%s-note').textContent.startsWith('%s is taken as the')" % (home, name))
        expect((open_panel(page), page.run("Boolean(seen('%s').value)" % field)), (home, True),
               "%s, chosen in another's place" % name)
        os.remove(path)


def expect_proofs_taken(roots, export, increment, member, page, drop):
    """Proofs and exports in each other's place."""
    expect(drop("export", ("a.proof", member), ("commitment", roots[5])),
           "a.proof is taken as the proof. commitment is taken as the commitment.", "a proof in the export's place")
    expect((open_panel(page), page.call("pressed", "proof")["verdict"]), ("proof", "accepted"),
           "a proof in the export's place")
    expect(drop("two", ("a.proof", increment), ("older", roots[2]), ("newer", roots[5])),
           "a.proof is taken as the proof. older is taken as the commitment. newer is taken as the commitment.",
           "a proof beside two commitments")
    expect((open_panel(page), page.call("pressed", "proof")["verdict"]), ("proof", "accepted"),
           "a proof beside two commitments")
    expect(drop("proof", ("events.export", export)), "events.export is taken as the export.",
           "an export in the proof's place")
    expect(open_panel(page), "export", "the panel after an export in the proof's place")


def expect_keys_told(entries, roots, key, page, drop):
    """Keys, receipts and states where they aren't needed."""
    expect(drop("two", ("first.key", key)), "first.key is a key: it isn't needed here, and isn't shown.",
           "a key where none is needed")
    said = drop("proof", ("a.key", key + "\n"), ("older", roots[5]))
    expect((said, page.run("[seen('receipt').value, seen('older').value]")),
           ("a.key is taken as the key of a receipt. If it is a log's first key, empty that field: it opens nothing "
            "here. older is taken as the commitment.", [key, roots[5]]), "a key in the proof's place")
    for panel in ("proof", "two"):
        for lines in ("log %s\nkey 1 %s\n" % (roots[0], key), "key 1 %s" % key):
            said = drop(panel, ("receipts", lines))
            expect(said, "receipts has the keys of events: type the 64 hex digits after \"key\" and the entry's "
                         "number.", "a file of receipts")
    expect(drop("two", ("day.state", state_after(entries, 2))),
           "day.state is a state: it isn't needed here, and isn't shown.", "a state where none is needed")
    expect_true("isn't of use here: two commitments are compared" in drop("two", ("notes.txt", "hello")),
                "another file where commitments are compared")


def expect_order_told(roots, increment, page, drop):
    """Commitments of a proof in another order, and more of them."""
    # Commitments in the other order, and a witness's lines for a proof.
    drop("proof", ("a.proof", increment))
    for older, newer, note in [(roots[5], roots[2],
                                "The commitments were in the other order, and have been exchanged."),
                               (roots[2], roots[5], "")]:
        page.run("seen('older').value = '%s', seen('newer').value = '%s'" % (older, newer))
        expect(page.call("pressed", "proof")["verdict"], "accepted", "commitments in whatever order")
        expect(page.run("[seen('older').value, seen('newer').value, seen('proof-note').textContent]"),
               [roots[2], roots[5], note], "commitments that were put right")
    for older, newer in [(" ".join(roots[1:]), ""), ("", " ".join(roots[1:])),
                         (" ".join(roots[1:4]), " ".join(roots[4:]))]:
        page.run("seen('older').value = '%s', seen('newer').value = '%s'" % (older, newer))
        found = page.call("pressed", "proof")
        expect((found["verdict"], found["inputs"]["Older commitment"], found["inputs"]["Newer commitment"]),
               ("accepted", roots[2], roots[5]), "a witness's lines for a proof")
    page.run("seen('older').value = '%s', seen('newer').value = ''" % " ".join(roots[3:5]))
    expect(page.call("pressed", "proof")["verdict"], "not accepted", "a witness without the lines for a proof")


def history_word(word):
    return count_of(word), word.split(":")[1]


def dragged_text(page, text):
    data = {"items": [{"mimeType": "text/plain", "data": text}], "dragOperationsMask": 1}
    for kind in ("dragEnter", "dragOver", "drop"):
        page.ask("Input.dispatchDragEvent", type=kind, x=100, y=300, data=data)


class Told:
    """Counts the verdicts that were as they should be."""

    def __init__(self):
        self.count = 0

    def __call__(self, found, verdict, *words):
        self.count += 1
        expect(found["verdict"], verdict, "words %d (%s)" % (self.count, verdict))
        for word in words:
            expect_true(word in found["headline"] + ". " + found["meaning"],
                        "%s has no '%s': %s" % (verdict, word, short(found)))


def test_words(browser, room):
    """Wrong inputs of every kind, and their messages."""
    entries = entries_of(FIRST_KEY, [(1, b"one"), (2, b"two"), (3, b"three")])
    leaves = [history.leaf_hash(entry) for entry in entries]
    roots = [word_of(count, history.root(leaves[:count])) for count in range(4)]
    export, key = b"".join(entries), FIRST_KEY.hex()
    member = proof_bytes(*member_proof(leaves, 1, entries[1]))
    increment = proof_bytes(*increment_proof(leaves, 2))
    other = word_of(3, bytes(32))
    tell, first = Told(), Page(browser, PAGE)
    tell(first.call("pressed", "export"), "bad argument", "Nothing was checked", "Choose or drop an export.",
         "Type or drop the first key", "Type or drop a commitment")
    closed = entries_of(FIRST_KEY, [(1, b"one"), (CLOSING, b"")])
    expect_export_verdicts(entries, roots, key, export, other, closed, b"".join(closed), tell,
                           lambda data, key, claimed: first.call("verified", base64_of(data), key, claimed))
    folder = expect_files_read_anew(room, roots, key, export, tell, lambda panel: first.call("pressed", panel), first)
    tell(first.call("pressed", "export"), "bad argument", "Choose or drop an export.")

    page = Page(browser, PAGE)

    def asked(panel):
        return page.call("pressed", panel)

    expect_drops_recognised(roots, key, export, tell, asked, page)
    page.run("seen('tab-proof').click()")
    tell(asked("proof"), "bad argument", "Choose or drop a proof.", "Type or drop a commitment")
    expect_proof_verdicts(roots, member, increment, other, tell,
                          lambda data, older, newer="": page.call("checked", base64_of(data), older, newer))
    dragged(page, folder, "seen('proof-note').textContent.includes('a folder')")
    page.run("seen('newer').value = '', seen('older').value = '%s'" % roots[3])
    tell(asked("proof"), "bad argument", "Choose or drop a proof.")
    expect_gone_told(room, member, tell, asked, page)
    expect_comparisons(roots, other, tell, asked, page)
    expect_keys_hidden(entries, roots, key, tell, asked, page)
    expect_faults_by_field(roots, key, asked, page)
    return "%d wrong inputs" % tell.count


def expect_drops_recognised(roots, key, export, tell, asked, page):
    """Dropped files are recognised, together and alone; others are refused."""
    drop = "dropOn('export', new File(['%s\\n'], 'first.key'), new File(['%s\\n'], 'commitment'), fileOf('%s', 'events.export'))" % (
        key, roots[3], base64_of(export))
    expect(page.run(drop), "first.key is taken as the first key. commitment is taken as the commitment. events.export "
                           "is taken as the export.", "a drop of three files")
    tell(asked("export"), "verified 3 open")
    drop = "dropOn('export', new File(['%s'], 'short.key'))" % key[:-1]
    expect_true("A key is 64 hex digits; here are 63" in page.run(drop), "a short key is told")
    expect(page.run("dropOn('export')"), "Drop files or text.", "a drop of none")


def expect_export_verdicts(entries, roots, key, export, other, closed_entries, closed, tell, verify):
    """What is said of exports, keys and commitments."""
    tell(verify(export, key, roots[3]), "verified 3 open", "Genuine and complete: 3 events; the log is open",
         "exactly those", "may go on")
    tell(verify(closed, key, commitment_of(closed_entries)), "verified 2 closed",
         "Genuine and complete: 2 events; the log is closed", "ended there")
    tell(verify(export, " %s\n" % key.upper(), " %s " % roots[3].upper()), "verified 3 open")
    tell(verify(export, key, "000" + roots[3]), "verified 3 open")
    tell(verify(export, "", roots[3]), "bad argument", "Type or drop the first key")
    for wrong in ["0", key[:-1], key + "0", key[:-1] + "g", "\u0661" * 64]:
        tell(verify(export, wrong, roots[3]), "bad argument", "A key is 64 hex digits")
    tell(verify(export, key, ""), "bad argument", "Type or drop a commitment")
    for wrong in ["3", ":", "3:", roots[3][:-1], roots[3] + "0", "x" + roots[3], "-" + roots[3], "3 " + roots[3],
                  roots[3].replace(":", "::"),
                  "18446744073709551616" + roots[3][1:], "1" * 21 + roots[3][1:], "\u0663" + roots[3][1:]]:
        tell(verify(export, key, wrong), "bad argument", "A commitment is COUNT:ROOT")
    tell(verify(export, key, "18446744073709551615" + roots[3][1:]), "entry 3: 44 WrongCommitment",
         "The commitment is to another number of events", "counts 18446744073709551615: entries are missing")
    tell(verify(export, key, roots[2]), "entry 3: 44 WrongCommitment", "The commitment is to another number of events",
         "an honest export of a longer log looks the same", "check a consistency proof")
    tell(verify(export, key, other), "entry 3: 44 WrongCommitment", "Not what was committed",
         "It may be another log's; if it is of this log, the past was rewritten")
    tell(verify(export, "0" * 64, roots[3]), "entry 0: 43 BadMac", "The first event isn't sealed under this key",
         "this log's first key", "damaged, or somebody made it", "can't be told")
    tell(verify(export[:-1] + bytes([export[-1] ^ 1]), key, roots[3]), "entry 2: 43 BadMac",
         "Event 2 isn't sealed as those before it", "damaged, or somebody made it", "can't be told")
    tell(verify(export[:len(entries[0]) + 8] + b"?" + export[len(entries[0]) + 9:], key, roots[3]),
         "entry 1: 42 BadLink", "Damaged at event 1", "changed or damaged, or one before it is missing")
    tell(verify(entries[1], key, roots[3]), "entry 0: 42 BadLink", "Doesn't fit from its first event on",
         "needs their state")
    tell(verify(closed + b"x", key, roots[2]), "entry 2: 46 BadClose", "Wrong at the log's end, event 2",
         "bytes follow")
    tell(verify(b"", key, word_of(0, bytes(32))), "verified 0 open")
    tell(verify(b"", key, roots[3]), "entry 0: 44 WrongCommitment", "entries are missing")
    tell(verify(b"x", key, roots[3]), "entry 0: 40 Short", "Cut off at event 0", "Get it again")
    tell(verify(export + b"x", key, roots[3]), "entry 3: 40 Short", "The entries before it are sealed right.")
    tell(verify(b"\x89PNG\r\n\x1a\n" + bytes(5000), key, roots[3]), "entry 0: 41 BadLength", "Damaged at event 0",
         "32,696")
    tell(verify(b"event 0 1 6869\nverified 1 open\n", key, roots[3]), "entry 0: 41 BadLength")


def expect_files_read_anew(room, roots, key, export, tell, asked, page):
    """A file that changes, goes, or is too large or a folder."""
    # Files that change, disappear, are too long, or are folders.
    path = os.path.join(room, "events.export")
    write(path, export)
    page.run("seen('key').value = '%s', seen('commitment').value = '%s'" % (key, roots[3]))
    page.set_file("#export-file", path)
    tell(asked("export"), "verified 3 open")
    with open(path, "ab") as file:
        file.write(b"more")
    tell(asked("export"), "entry 0: 45 ReadFault", "has changed")
    os.remove(path)
    tell(asked("export"), "entry 0: 45 ReadFault", "can't be read")
    with open(path, "wb") as file:
        file.truncate((1 << 33) + 1)
    page.set_file("#export-file", path)
    tell(asked("export"), "entry 0: 45 ReadFault", "2^33 bytes")
    os.remove(path)
    folder = os.path.join(room, "a folder")
    os.makedirs(folder, exist_ok=True)
    dragged(page, folder, "seen('export-note').textContent.includes('a folder')")
    return folder


def expect_proof_verdicts(roots, member, increment, other, tell, check):
    """What is said of proofs."""
    tell(check(member, roots[3]), "accepted",
         "The entry is in the log. An inclusion proof of entry 1 in a log of 3, of kind 2 with an encrypted payload of "
         "3 bytes.")
    tell(check(increment, roots[2], roots[3]), "accepted",
         "The newer log extends the older one. A consistency proof from count 2 to 3.")
    tell(check(member, roots[3], roots[3]), "bad argument", "takes one commitment")
    tell(check(increment, roots[3]), "bad argument", "an older and a newer commitment")
    tell(check(increment, roots[1], roots[3]), "not accepted", "This proof doesn't show that the newer log extends",
         "The proof is for count 2, the commitment for 1.")
    tell(check(increment, roots[2], other), "not accepted", "commitment that is marked")
    tell(check(member, other), "not accepted", "This proof doesn't show that the entry is in the log",
         "commitment that is marked")
    tell(check(member, roots[2]), "not accepted", "The proof is for count 3, the commitment for 2.")
    tell(check(member[:17] + b"\1" + member[18:50] + member[82:], roots[3]), "not accepted", "too few hashes")
    tell(check(member[:17] + b"\3" + member[18:50] + member[18:], roots[3]), "not accepted", "too many hashes")
    tell(check(increment[:17] + b"\0", roots[2], roots[3]), "not accepted", "too few hashes")
    tell(check(member[:8] + b"\3" + member[9:], roots[3]), "not accepted", "index < count")
    tell(check(increment[:8] + b"\0" + increment[9:], word_of(0, bytes(32)), roots[3]), "not accepted", "1 <= older")
    tell(check(member[:9] + b"\xff" * 8 + member[17:], "18446744073709551615:" + "0" * 64), "not accepted", "16777216")
    tell(check(b"", roots[3]), "32 BadProof", "no proof")
    tell(check(b"\1", roots[3]), "32 BadProof")
    tell(check(bytes(40000), roots[3]), "32 BadProof", "This is no proof", "is this an export?")
    tell(check(member, "3"), "bad argument", "COUNT:ROOT")
    tell(check(member, roots[3], "x"), "bad argument", "A commitment is COUNT:ROOT")


def expect_gone_told(room, member, tell, asked, page):
    """A proof that is gone when it is read."""
    gone = os.path.join(room, "gone.proof")
    write(gone, member)
    page.set_file("#proof-file", gone)
    os.remove(gone)
    tell(asked("proof"), "file fault", "Couldn't be read")


def expect_comparisons(roots, other, tell, asked, page):
    """What is said of two commitments."""
    page.run("seen('tab-two').click()")

    def compare(one, other):
        page.run("seen('one').value = %s, seen('other').value = %s" % (json.dumps(one), json.dumps(other)))
        return asked("two")
    tell(compare(roots[3], roots[3].upper()), "The same commitment", "one log, at count 3")
    tell(compare(roots[3], other), "Two roots for one count", "If both are of one log, its past was rewritten",
         "may as well be of two logs", "evidence")
    for pair in [(roots[2], roots[3]), (roots[3], roots[2]), (" ".join(roots[:3]), " ".join(roots[1:]))]:
        found = compare(*pair)
        tell(found, "Two commitments alone show nothing", "audit prove FILE increment 2 3 OUT",
             "of one log that grew, or of two")
        expect((found["style"], found["inputs"]["One commitment"].split(":")[0]),
               ("told", "3" if pair[0] == roots[3] else "2"), "no accusation")
        expect_true(not re.search("rewritten|removed|missing", found["meaning"]),
                    "an accusation that isn't shown: " + found["meaning"])
    tell(compare(" ".join(roots[1:]), roots[1] + " " + word_of(2, bytes(32)) + " " + roots[3]),
         "Two roots for one count")
    tell(compare(roots[3], roots[0]), "Nothing to be shown", "empty")
    tell(compare("", roots[3]), "Nothing was checked", "Type or drop a commitment")
    tell(compare(roots[3], "3:"), "Nothing was checked", "A commitment is COUNT:ROOT")


def expect_keys_hidden(entries, roots, key, tell, asked, page):
    """A key in the place of a commitment is never shown."""
    for data, field in [(key, "one"), (state_after(entries, 2), "other")]:
        page.run("seen('one').value = seen('other').value = '%s', seen('%s').value = %s"
                 % (roots[1], field, json.dumps(data.replace("\n", " "))))
        tell(asked("two"), "Nothing was checked", "a key's 64 hex digits, or a state")
        expect_true(key[:8] not in page.run("document.body.innerText")
                    and data[30:60] not in page.run("document.body.innerText"),
                    "a key in the field of a commitment is repeated")
    page.run("seen('tab-export').click(), seen('key').value = '%s', seen('commitment').value = '%sx'" % (key, key))
    tell(asked("export"), "bad argument", "here are 65 characters.")
    expect_true(key[:8] not in page.run("document.body.innerText"), "a key with a letter too many is repeated")


def expect_faults_by_field(roots, key, asked, page):
    """Each field says what is wrong with it."""
    # The first field that is wrong has the focus, and is tied to what is wrong with it.
    for panel, fields, values in [("export", ["key", "commitment"], ["x", "y"]), ("export", ["commitment"], [key, "y"]),
                                  ("two", ["other"], [roots[3], ""])]:
        names = ["key", "commitment"] if panel == "export" else ["one", "other"]
        page.run("seen('tab-%s').click(), [seen('%s').value, seen('%s').value] = %s"
                 % (panel, *names, json.dumps(values)))
        asked(panel)
        expect(page.run("[...document.querySelectorAll('#%s-form [aria-invalid=true]')].map(field => field.id)"
                        % panel), fields, "the fields that are marked")
        expect(page.run("document.activeElement.id"), fields[0], "the focus after a wrong field")
        described = page.run("document.activeElement.getAttribute('aria-describedby').split(' ')")
        expect_true(fields[0] + "-error" in described
                    and page.run("seen('%s-error').checkVisibility() && seen('%s-error').textContent"
                                 % (fields[0], fields[0])), "a field isn't tied to its trouble")
