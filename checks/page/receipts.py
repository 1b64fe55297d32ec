"""Entries of inclusion proofs that are read under the key of a receipt."""
import json
import os

import history
from checks.page.browsers import Page
from checks.page.common import opened_report, text_or_hex
from checks.page.drawn import CLOSING, Draw, base64_of, increment_proof, member_proof, payload_of, proof_bytes, word_of
from checks.page.files import PAGE
from checks.page.hostile import HOSTILE, UNSEEN
from checks.page.reports import bare, printed
from checks.parts.files import write
from checks.parts.rooms import FIRST_KEY
from checks.parts.wrong import expect, expect_true, short
from model.chain import entry_keys, log_of
from read_export import under_keystream

LONG = b"paid 250.00 EUR by order 4711, approved by two; the next block of the keystream begins before this end"
EVENTS = [(1, LONG), (7, b"sixteen bytes ok"), (2, b"fifteen bytes.."), (3, b"a"), (4, b""), (9, b"\xff" * 70),
          (5, "caf\u00e9 \u202e twice, and a tab\t".encode()), (CLOSING, b"")]
SHORT = "A key is not bound to a text of fewer than 16 bytes: another key can show another text."
NOT_NOTICED = "Under this key the entry reads as below. A wrong key isn't noticed"
EMPTY = "Its payload is empty under any key."
NO_TEXT = "none: it isn't UTF-8"


def is_text(payload):
    return "text" in text_or_hex(payload)


class Receipts:
    """A log with the keys of its entries, by the model, and a page to read them on."""

    def __init__(self, page, events=EVENTS):
        self.page, self.events = page, events
        self.log, self.keys = log_of(events, FIRST_KEY), entry_keys(FIRST_KEY, events)
        self.roots = [word_of(count, history.root(self.log.leaves[:count])) for count in range(len(events) + 1)]

    def proof(self, index):
        return proof_bytes(*member_proof(self.log.leaves, index, self.log.entries[index]))

    def read(self, index, word, data=None, claimed=None):
        """What the page says of a proof and of its entry under this word."""
        said = self.page.call("checked", base64_of(data or self.proof(index)), claimed or self.roots[-1], "", word)
        expect_true(len(word) < 32 or word.strip().lower() not in self.page.run("document.body.innerText").lower(),
                    "the key of a receipt is shown")
        return said


def expect_read(said, payload, what):
    """The proof is accepted, and its entry read as this payload; what is said of the key is true for its length."""
    expect((said["verdict"], said["headline"], said["style"], said["bad"]),
           ("accepted", "The entry is in the log", "good", 0), what)
    inputs, meaning = said["inputs"], said["meaning"]
    expect((inputs["Hex digits"], inputs["Read with"]), (payload.hex(), "the key that was given, which isn't shown"),
           what)
    expect(inputs["Text under the key"] == NO_TEXT, not is_text(payload), "%s: %s" % (what, short(inputs)))
    expect((NOT_NOTICED in meaning, SHORT in meaning, EMPTY in meaning),
           (bool(payload), 0 < len(payload) < 16, not payload), "what is said of the key, %s: %s" % (what, meaning))


def test_receipts(browser, room):
    """The right key, a wrong one, short texts, another kind of proof, and words that are no key."""
    page = Page(browser, PAGE)
    page.run("seen('tab-proof').click()")
    receipts = Receipts(page)
    for index, (kind, payload) in enumerate(EVENTS):
        said = receipts.read(index, receipts.keys[index].hex())
        expect_read(said, payload, "the event %d" % index)
        expect_true("entry %d in a log of %d, of kind %d with an encrypted payload of %d bytes"
                    % (index, len(EVENTS), kind, len(payload)) in said["meaning"], "the kind of the event %d" % index)
        if is_text(payload) and not UNSEEN.search(payload.decode()):
            expect(said["inputs"]["Text under the key"], payload.decode(), "the text of the event %d" % index)
    expect(receipts.read(6, receipts.keys[6].hex())["inputs"]["Text under the key"],
           "caf\u00e9 \\u202e twice, and a tab\\t", "escapes in a text")
    expect_read(receipts.read(0, " %s\n" % receipts.keys[0].hex().upper()), LONG, "a key in capitals")

    expect_wrong_keys_read(receipts)
    expect_drawn_read(page)
    expect_refused(receipts)
    expect_no_entries_told(receipts)
    expect_hostile_shown(page)
    expect_report(browser, room, receipts)
    return "receipts"


def expect_wrong_keys_read(receipts):
    """Another key isn't noticed: the entry then reads as the model says. Without a key nothing is read."""
    for index, (_, payload) in enumerate(EVENTS):
        for key in (receipts.keys[index - 1], FIRST_KEY, bytes(32)):
            wanted = under_keystream(key, receipts.log.entries[index][8:-64])
            expect_true(wanted != payload or len(payload) < 2, "another key opens the event %d" % index)
            expect_read(receipts.read(index, key.hex()), wanted, "the event %d under a wrong key" % index)
    # A key under which a text of one byte reads as another one is soon found.
    cipher = receipts.log.entries[3][8:-64]
    sought = (bytes([number]) * 32 for number in range(256))
    other = next(key for key in sought if under_keystream(key, cipher) == b"b")
    expect_read(receipts.read(3, other.hex()), b"b", "a short text under a key that was sought")
    said = receipts.read(0, "")
    expect((said["verdict"], {"Text under the key", "Hex digits", "Read with"} & set(said["inputs"]),
            "key" in said["meaning"]), ("accepted", set(), False), "a proof without a key")


def expect_drawn_read(page):
    """Entries of many lengths and places."""
    for number in range(8):
        draw = Draw("receipts", number)
        events = [(draw.below(9), payload_of(draw, draw.one([1, 15, 16, 63, 64, 65, 128, 129, 300])))
                  for _ in range(1 + draw.below(20))]
        receipts, index = Receipts(page, events), draw.below(len(events))
        expect_read(receipts.read(index, receipts.keys[index].hex()), events[index][1], "the drawn log %d" % number)
    longest = Receipts(page, [(1, Draw("receipts").bytes(32696))])
    expect_read(longest.read(0, longest.keys[0].hex()), longest.events[0][1], "the longest event")


def expect_refused(receipts):
    """Words that are no key, a consistency proof, and a proof that isn't accepted: nothing is read."""
    page, key = receipts.page, receipts.keys[0].hex()

    def expect_unread(said, verdict, *words):
        expect(said["verdict"], verdict, "a receipt that isn't read")
        for word in words:
            expect_true(word in said["meaning"], "%s has no '%s': %s" % (verdict, word, short(said)))
        expect_true("Text under the key" not in said["inputs"] and "Under this key" not in said["meaning"],
                    "something is read: %s" % short(said))
    for word in ("0", key[:-1], key + "0", key[:-1] + "g", "key 0 " + key, "0x" + key, key[:32] + " " + key[32:],
                 "\u0661" * 64, "audit-state 1"):
        expect_unread(receipts.read(0, word), "bad argument", "The key of a receipt is 64 hex digits; here are %d"
                      % len(word))
        expect(page.run("[document.activeElement.id, seen('receipt').getAttribute('aria-invalid')]"),
               ["receipt", "true"], "the field of a key of another form")
    page.ask("Input.insertText", text="0")
    page.run("seen('receipt').blur()")
    expect(page.run("[seen('receipt-error').textContent, seen('receipt').getAttribute('aria-invalid')]"), ["", None],
           "the trouble with a key after a change")
    increment = proof_bytes(*increment_proof(receipts.log.leaves, 2))
    said = page.call("checked", base64_of(increment), receipts.roots[2], receipts.roots[-1], key)
    expect_unread(said, "bad argument", "This is a consistency proof: it has no entry to read.")
    expect(page.run("document.activeElement.id"), "receipt", "the focus after a key for a consistency proof")
    expect_unread(page.call("checked", base64_of(increment), receipts.roots[2], "", key), "bad argument",
                  "it takes an older and a newer commitment", "it has no entry to read")
    expect(page.call("checked", base64_of(increment), receipts.roots[2], receipts.roots[-1])["verdict"], "accepted",
           "a consistency proof without a key")
    expect_unread(receipts.read(0, key, claimed=word_of(len(EVENTS), bytes(32))), "not accepted")
    expect_unread(receipts.read(0, key, data=receipts.proof(0)[:-1] + b"?"), "not accepted")
    expect_unread(receipts.read(0, key, data=b"no proof"), "32 BadProof")


def expect_no_entries_told(receipts):
    """What is in a log, and isn't an entry."""
    entry = receipts.log.entries[0]
    for text in (entry + b"x", entry[:-1], entry[:71], b"x", entry[:4] + b"\xff" * 4 + entry[8:]):
        leaf = history.leaf_hash(text)
        data, claimed = proof_bytes(*member_proof([leaf], 0, text)), word_of(1, leaf)
        said = receipts.read(0, receipts.keys[0].hex(), data, claimed)
        expect((said["verdict"], said["headline"], said["style"], "Text under the key" in said["inputs"]),
               ("not an entry", "In the log, but not an entry", "bad", False), "bytes that are no entry")
        expect(receipts.read(0, "", data, claimed)["verdict"], "accepted", "bytes that are no entry, without a key")


def expect_hostile_shown(page):
    """Payloads that would do harm are shown as in the table of events."""
    receipts = Receipts(page, [(1, payload) for payload, _ in HOSTILE])
    for index, (payload, written) in enumerate(HOSTILE):
        found = receipts.read(index, receipts.keys[index].hex())["inputs"]
        expect(found["Text under the key"], written if is_text(payload) else NO_TEXT, "a hostile text")
        expect_true(not UNSEEN.search(found["Text under the key"]), "a character is left in " + short(found))
    expect(page.run("[window.hurt, document.scripts.length, document.querySelectorAll('#proof-inputs dd *').length]"),
           [None, 1, 0], "what markup left")


def expect_report(browser, room, receipts):
    """A print and a report have the text, and never the key; a verdict goes at a change of the key. A key in a file
    goes to its field."""
    page, key = receipts.page, receipts.keys[0].hex()
    receipts.read(0, key)
    again = opened_report(browser, page, room, "save-proof-report")
    for text, what in (("".join(printed(page)), "a print"), (again.run("document.body.innerText"), "a report"),
                       ("".join(printed(again)), "a print of a report")):
        expect_true(bare(LONG.decode()) in bare(text) and bare(NOT_NOTICED) in bare(text), "the text isn't in " + what)
        expect_true(key[:16] not in bare(text).lower(), "the key is in " + what)
    expect_true(key not in again.run("document.documentElement.outerHTML"), "the key is in a report's file")
    expect(page.run("getComputedStyle(seen('receipt')).webkitTextSecurity"), "disc", "the key on the screen")
    page.run("seen('receipt').focus()")
    page.ask("Input.insertText", text="0")
    expect(page.run("[seen('proof-verdict').textContent, seen('proof-inputs').textContent]"), ["", ""],
           "what is left after a letter in the key")
    path = os.path.join(room, "a.receipt")
    write(path, key.encode() + b"\n")
    page.run("seen('receipt').value = ''")
    page.set_file("#proof-file", path)
    page.wait("seen('proof-note').textContent.startsWith('a.receipt is taken as the key of a receipt.')")
    expect(page.run("seen('receipt').value"), key, "a key, chosen in the proof's place")
    expect_true(key not in json.dumps(page.run("saidBy('proof')")), "a dropped key is shown")
