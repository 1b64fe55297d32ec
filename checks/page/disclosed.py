"""Exports of which chosen events are disclosed, by the keys of their entries alone."""
import json
import os

import disclosure
import history
import read_export
from checks.page.browsers import Page
from checks.page.common import opened, opened_report, saved_lines
from checks.page.drawn import (
    CLOSING, Draw, base64_of, commitment_of, drawn_log, entries_of, export_case, read_on_cases, word_of)
from checks.page.expected import cut, shown
from checks.page.files import PAGE
from checks.page.reports import bare, printed
from checks.parts.files import write
from checks.parts.rooms import FIRST_KEY
from checks.parts.wrong import expect, expect_true, short
from model.chain import keystream_key, next_key
from state import State

EVENTS = [(1, b"logged in as ada from 10.0.0.7"), (7, b"paid 250.00 EUR by order 4711"), (2, b"a secret of others"),
          (7, b"sixteen bytes ok"), (7, b"fifteen bytes.."), (9, b""), (9, b"\xff" * 70), (CLOSING, b"")]
SEALED = "sealed: no key of it was given"
NO_MAC = "No MAC is checked, since that takes the log's key."
WRONG_KEY = "a wrong key isn't noticed"


def keys_of(data, start=read_export.FIRST._replace(key=FIRST_KEY)):
    """The keys of the keystreams of an export's entries, as far as it can be read."""
    found, key, at = [], start.key, 0
    while at < len(data):
        try:
            kind, _, _, _, at = read_export.read_entry(data, at, 0)
        except read_export.Fault:
            break
        found.append(keystream_key(key, int.from_bytes(kind, "big")))
        key = next_key(key)
    return {start.count + number: key for number, key in enumerate(found)}


def chosen(draw, keys):
    """Some of the keys, at least one; now and then one of them is another's."""
    picked = {index: key for index, key in keys.items() if draw.below(2)} or {draw.below(3): draw.bytes(32)}
    if draw.below(4) == 0:
        picked[draw.one(sorted(picked))] = draw.one(sorted(keys.values()) + [draw.bytes(32)])
    if draw.below(8) == 0:
        picked[max(picked) + 1 + draw.below(100)] = draw.bytes(32)
    return picked


def row_of(entry):
    kind = "%d (closes the log)" % CLOSING if entry.kind == CLOSING else str(entry.kind)
    written = SEALED if entry.payload is None else cut(shown(entry.payload))
    return [str(entry.index), kind, str(entry.length), written]


def expect_judged(page, data, text, claimed, what):
    """The page's verdict on an export with these disclosed keys, and its rows, are those of the auditor's program."""
    entries, closed, fault = disclosure.matched(data, text, history.commitment(claimed))
    count = disclosure.read(text)[0].count + len(entries)
    verdict = str(fault or "matched %d %s" % (count, "closed" if closed else "open"))
    found = page.call("verified", base64_of(data), " ".join(text.split("\n")), claimed)
    expect(found["verdict"], verdict, what)
    expect(found["rows"], [row_of(entry) for entry in entries[:50]], "rows of " + what)
    matched = verdict.startswith("matched")
    expect(found["style"], "good" if matched else "bad", "the style of " + what)
    expect((NO_MAC in found["meaning"], "Genuine" in found["headline"]), (matched, False), "what is said of " + what)
    expect_true("sealed right" not in found["meaning"], "MACs are said to be right: " + found["meaning"])
    for key in disclosure.read(text)[1].values():
        expect_true(key.hex() not in page.run("document.body.innerText"), "a disclosed key is shown")
    return found


def test_disclosed(browser, room, number=24):
    """Drawn and damaged exports and tails; what is said; files of keys; searches, reports, and an event alone."""
    page = opened(browser)
    for case in range(number):
        draw = Draw("disclosed", case)
        data, _, claimed = export_case(case) if case % 3 else whole_case(draw)
        text = disclosure.text_of(chosen(draw, keys_of(data)))
        expect_judged(page, data, text, claimed, "the drawn export %d" % case)
        tail, state, newest = read_on_cases(draw)
        start = State.read(state.encode())[0]
        if not start.closed:
            text = disclosure.text_of(chosen(draw, keys_of(tail, start)), start)
            expect_judged(page, tail, text, newest, "the drawn tail %d" % case)
    expect_told(page)
    expect_files_taken(page)
    expect_refused(page)
    expect_worked_with(browser, room, page)
    return "%d disclosures" % number


def whole_case(draw):
    events = [event for event in drawn_log(draw) if len(event[1]) <= read_export.MAX_PAYLOAD]
    entries = entries_of(FIRST_KEY, events)
    return b"".join(entries), FIRST_KEY, commitment_of(entries)


class Chosen:
    """The log of EVENTS, and the text that discloses those of kind 7 and one more."""
    entries = entries_of(FIRST_KEY, EVENTS)
    data, claimed = b"".join(entries), commitment_of(entries)
    keys = {index: key for index, key in keys_of(data).items() if index in (1, 3, 4, 6)}
    text = disclosure.text_of(keys)


def expect_told(page):
    """How many events of each kind are disclosed, that no MAC is checked, and to what texts keys aren't bound."""
    found = expect_judged(page, Chosen.data, Chosen.text, Chosen.claimed, "chosen events")
    expect((found["headline"], found["verdict"]),
           ("As committed: 8 events, 4 of them disclosed; the log is closed", "matched 8 closed"), "the verdict")
    expect(found["inputs"]["Read with"], "disclosed keys of 4 events, which aren't shown", "what it was read with")
    for words in ("none of 1 of kind 1, none of 1 of kind 2, all 3 of kind 7, 1 of 2 of kind 9, none of 1 of kind "
                  "4294967295.", WRONG_KEY, "1 text of fewer than 16 bytes: another key can show another text."):
        expect_true(words in found["meaning"], "not said: %s, but %s" % (words, found["meaning"]))
    one = disclosure.text_of({0: Chosen.keys[1], 5: keys_of(Chosen.data)[5], 70: bytes(32), 71: bytes(32)})
    found = expect_judged(page, Chosen.data, one, Chosen.claimed, "a wrong key and keys of other events")
    expect_true("the one of kind 1" in found["meaning"] and "2 keys of events that aren't here." in found["meaning"],
                "what is said of other keys: " + found["meaning"])
    expect_true("fewer than 16" not in found["meaning"], "an empty text is bound: " + found["meaning"])
    other = word_of(len(EVENTS), bytes(32))
    expect_judged(page, Chosen.data, Chosen.text, other, "another commitment")
    # An event of a kind that is left out, with all links made anew: what shows it is the commitment.
    without = b"".join(entries_of(FIRST_KEY, EVENTS[:3] + EVENTS[4:]))
    expect_judged(page, without, Chosen.text, Chosen.claimed, "an export without one of the kind")


def dropped(page, name, text):
    return page.run("seen('key').value = '', dropOn('export', fileOf('%s', '%s'))"
                    % (base64_of(text.encode()), name))


def expect_files_taken(page):
    """A disclosure, receipts of several connections, and more keys than fit in a field, as files."""
    receipts = "log %s\n" % Chosen.claimed + "".join(
        "key %d %s\n" % (index, Chosen.keys[index].hex()) for index in (6, 1, 4, 3)) + "log %s\n" % Chosen.claimed
    many = {number: bytes([number % 251]) * 32 for number in range(20000)}
    for name, text, number in (("chosen.keys", Chosen.text, 4), ("my.receipts", receipts, 4),
                               ("windows.keys", Chosen.text.replace("\n", "\r\n"), 4),
                               ("many.keys", disclosure.text_of({**many, **Chosen.keys}), 20000)):
        said = "%s is taken as the disclosed keys of %s events." % (name, format(number, ","))
        expect(dropped(page, name, text), said, "a file of keys")
        page.run("dropOn('export', fileOf('%s', 'events.export'))" % base64_of(Chosen.data))
        page.run("seen('commitment').value = '%s'" % Chosen.claimed)
        found = page.call("pressed", "export")
        expect(found["verdict"], "matched 8 closed", "under the keys in " + name)
        expect(page.run("cells()")[1][3], EVENTS[1][1].decode(), "an event of the keys in " + name)
        expect_true(Chosen.keys[1].hex() not in json.dumps(found), "a key is shown")
    page.run("seen('key').value += ' '")
    expect(page.call("pressed", "export")["verdict"], "bad argument", "the field of dropped keys after a change")
    page.run("seen('key').value = '%s'" % FIRST_KEY.hex())
    expect(page.call("pressed", "export")["verdict"], "verified 8 closed", "a first key after dropped keys")


def expect_refused(page):
    """Words that are nearly disclosed keys, and ones that contradict each other."""
    key = Chosen.keys[1].hex()
    for word in ("key 1 " + key[:-1], "key 1 %s key 1 %s" % (key, "0" * 64), "key 01 " + key, "key 1 %s x" % key,
                 "key 123456789 " + key, "count 3 link %s key 3 %s" % (key, key),
                 "count 1 link %s node %s node %s key 3 %s" % (key, key, key, key), "log %s" % Chosen.claimed):
        found = page.call("verified", base64_of(Chosen.data), word, Chosen.claimed)
        expect((found["verdict"], found["rows"]), ("bad argument", []), "the word " + short(word))
        expect_true(key not in json.dumps(found) and key not in page.run("document.body.innerText"), "a key is shown")
    expect_true("isn't of use here. These keys of events were cut off" in dropped(page, "cut.keys", Chosen.text[:-9]),
                "a file of keys that was cut off")
    found = expect_judged(page, Chosen.data, "key 1 %s\n" % key, Chosen.claimed, "one key")
    expect_true("1 of them disclosed" in found["headline"], "one key")


def expect_worked_with(browser, room, page):
    """A search finds no sealed text; kinds are in the clear; an event alone; reports and lines without a key."""
    expect_judged(page, Chosen.data, Chosen.text, Chosen.claimed, "chosen events")
    for field, value, numbers in (("text", "secret", []), ("text", "paid", ["1"]), ("kinds", "2", ["2"]),
                                  ("kinds", "7", ["1", "3", "4"])):
        page.run("seen('filter-form').reset(), seen('filter-%s').value = '%s'" % (field, value))
        page.run("seen('filter').click(), rest()")
        expect([row[0] for row in page.run("cells()")], numbers, "a search for " + value)
    page.run("seen('unfilter').click(), rest()")
    for index, words in ((2, SEALED), (1, EVENTS[1][1].decode())):
        page.run("seen('rows').rows[%d].querySelector('button').click(), rest()" % index)
        expect_true(words in page.run("seen('event-parts').innerText"), "the event %d alone" % index)
        expect_true(page.run("seen('event-place').textContent").startswith("It is leaf %d of a tree of 8." % index)
                    and not page.run("seen('event-proof').disabled"), "the place of the event %d" % index)
    lines = saved_lines(browser, page, room)
    expect((lines[0]["verdict"], lines[2], lines[3]),
           ("matched 8 closed", {"index": 1, "kind": 7, "text": EVENTS[1][1].decode()},
            {"index": 2, "kind": 2, "sealed": len(EVENTS[2][1])}), "saved lines")
    again = opened_report(browser, page, room)
    expect(again.run("reported()")[2][3], SEALED, "a sealed event in a report")
    texts = "".join(printed(page)), again.run("document.documentElement.outerHTML"), json.dumps(lines)
    for text in texts:
        expect_true(bare(NO_MAC) in bare(text.replace("&#39;", "'")), "a report doesn't say what isn't checked")
        for key in Chosen.keys.values():
            expect_true(key.hex() not in bare(text).lower(), "a key is in a report")
