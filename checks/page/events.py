"""The table of events: pages, searches, and one event with its proof."""
import json

import history
from checks.page.browsers import Page
from checks.page.common import downloaded, prepared
from checks.page.drawn import (
    CLOSING, Draw, base64_of, commitment_of, entries_of, member_proof, payload_of, proof_bytes, state_after)
from checks.page.expected import row_of, shown
from checks.page.files import PAGE
from checks.parts.rooms import FIRST_KEY
from checks.parts.wrong import expect, expect_true


def test_pages(browser):
    """A table of more than a page, the key of each event in it, and controls that are disabled where they can't act."""
    events = [(number % 3, b"event %d" % number) for number in range(333)]
    page, rows = prepared(browser, events)

    def expect_disabled(wanted, what):
        names = ["first", "back", "next", "last", "unfilter", "stop", "event-proof", "verify", "filter", "go", "print",
                 "save", "save-report"]
        expect(page.run("%s.filter(id => seen(id).disabled)" % json.dumps(names)), wanted, "what is disabled " + what)
    expect_disabled(["first", "back", "unfilter", "stop", "event-proof"], "at the start")
    for button, first in [("next", 50), ("last", 300), ("back", 250), ("first", 0)]:
        page.run("seen('%s').focus(), seen('%s').click(), rest()" % (button, button))
        expect(page.run("cells()"), [row_of(at, *events[at]) for at in range(first, min(first + 50, 333))],
               "the page of the button " + button)
        expect(page.run("seen('shown').textContent"),
               "Events %d to %d of 333, numbered from 0" % (first, min(first + 49, 332)), "the caption after " + button)
        expect(page.run("document.activeElement.id"), "table" if button in ("last", "first") else button,
               "the focus after " + button)
        if button == "last":
            expect_disabled(["next", "last", "unfilter", "stop", "event-proof"], "at the end")
    page.run("seen('filter-text').value = 'EVENT 1', seen('filter-kinds').value = '1', "
             "seen('filter-form').requestSubmit(), rest()")
    wanted = [at for at, (kind, payload) in enumerate(events) if kind == 1 and b"event 1" in payload]
    page.wait("seen('shown').textContent === 'Found %d of 333: events %d to %d, numbered from 0'"
              % (len(wanted), wanted[0], wanted[-1]))
    expect(page.run("cells()"), [row_of(at, *events[at]) for at in wanted], "what is found")
    expect_disabled(["first", "back", "next", "last", "stop", "event-proof"], "after a search")
    page.run("document.querySelector('#rows button').click(), rest()")
    expect_disabled(["first", "back", "next", "last", "stop"], "in an event's view")
    return "4 pages"


# Searches, and the events that they find by index.
FOUND = [
    (1, b"one \\u202e"), (7, "caf\u00e9".encode()), (7, "cafe\u0301 au lait".encode()), (100, b"\xff\xfe"),
    (150, b"ONE more"),
    (200, "user\u202eexe".encode()), (4000000000, b"a\tb"), (7, "\u0130stanbul \ufb01".encode()), (8, b"hex:fffe"),
    (CLOSING, b""),
]
SEARCHES = [
    ("one", "", "", [0, 4]), ("\\u202e", "", "", [0]), ("\u202e", "", "", [5]), ("caf\u00e9", "", "", [1, 2]),
    ("CAFE\u0301", "", "", [1, 2]),
    ("a\tb", "", "", [6]), ("fffe", "", "", [3, 8]), ("\u0130STANBUL", "", "", [7]), ("e au", "", "", []),
    ("", "7", "", [1, 2, 7]), ("", "1, 100-200", "", [0, 3, 4, 5]), ("", "201-", "", [6, 9]),
    ("", " 7 , 8 ", "", [1, 2, 7, 8]),
    ("", "", "3", [3]), ("", "", "0-1, 8-", [0, 1, 8, 9]), ("one", "100-200", "1-5", [4]), ("", "4294967295", "", [9]),
    ("", "", "", list(range(10))),
]
WRONG_RANGES = [("kinds", "x"), ("kinds", "4294967296"), ("kinds", "7 8"), ("kinds", "9-7"), ("kinds", ",1"),
                ("kinds", "-3"),
                ("numbers", "1.5"), ("numbers", "16777217"), ("numbers", "0x1")]


def test_searches(browser):
    """Searches as typed, kinds, ranges, clearing, and going to a number."""
    page, _ = prepared(browser, FOUND)
    for text, kinds, numbers, wanted in SEARCHES:
        expect(search(page, text, kinds, numbers), wanted, "the search %s %s %s" % (ascii(text), kinds, numbers))
    for field, word in WRONG_RANGES:
        expect_range_refused(page, field, word)
    expect(search(page, "one", "1", "0-5"), [0], "a search to be cleared")
    page.run("seen('unfilter').click(), rest()")
    expect(page.run("[cells().length, seen('filter-text').value, seen('filter-kinds').value, "
                    "seen('filter-numbers').value, seen('unfilter').disabled]"), [10, "", "", "", True], "after Clear")
    expect_jumps(browser)
    return "%d searches" % len(SEARCHES)


def search(page, text, kinds, numbers):
    """The numbers of the events that are found."""
    page.run("seen('filter-text').value = %s, seen('filter-kinds').value = %s, seen('filter-numbers').value = %s, "
             "seen('filter-form').requestSubmit(), rest()" % (
                 json.dumps(text), json.dumps(kinds), json.dumps(numbers)))
    page.run("rest()")
    return [int(row[0]) for row in page.run("cells()")]


def expect_range_refused(page, field, word):
    """A field of another form is told, and what is told goes with a change of it."""
    search(page, "", "", "")
    page.run("seen('filter-%s').value = %s, seen('filter-form').requestSubmit()" % (field, json.dumps(word)))
    found = page.run("[document.activeElement.id, seen('filter-%s').getAttribute('aria-invalid'), "
                     "seen('filter-%s-error').textContent, seen('stop').disabled]" % (field, field))
    expect((found[0], found[1], bool(found[2]), found[3]), ("filter-" + field, "true", True, True),
           "%s of the form %s" % (field, word))
    page.run("seen('filter-%s').value = '', seen('filter-%s').dispatchEvent(new Event('input', {bubbles: true}))"
             % (field, field))
    expect(page.run("seen('filter-%s-error').textContent" % field), "",
           "the trouble with %s after a change" % field)


def go(page, number):
    """Goes to the event of a number: the first one on its page, the one that is marked, the focus, and the trouble."""
    page.run("seen('jump').value = '%s', seen('jump-form').requestSubmit(), rest()" % number)
    page.run("rest()")
    return page.run("[cells()[0][0], document.querySelector('tr.found')?.cells[0].textContent, "
                    "document.activeElement.textContent, seen('jump-error').textContent]")


def expect_jumps(browser):
    """Numbers of 333 events, and of those of one kind."""
    events = [(number % 3, b"event %d" % number) for number in range(333)]
    page, _ = prepared(browser, events)
    for number, first in [(0, 0), (49, 0), (50, 50), (217, 200), (332, 300)]:
        expect(go(page, number), [str(first), str(number), str(number), ""], "going to %d" % number)
    expect(go(page, 333)[3], "There is none of this number, or of a higher one.", "going too far")
    expect(go(page, "x")[3], "A number of an event, from 0.", "going to x")
    page.run("seen('filter-kinds').value = '2', seen('filter-form').requestSubmit(), rest()")
    expect(go(page, 300), ["302", "302", "302", "Event 300 isn't among them: the next one is 302."],
           "going to what wasn't found")
    expect(go(page, 332), ["302", "332", "332", ""], "going to the last one found")


def test_events(browser, room):
    """An event's own view: its text, its bytes, and its inclusion proof, as the definition has it, in logs and tails of
    many lengths."""
    proofs = 0
    for count, begun in [(1, 0), (2, 0), (3, 0), (7, 0), (8, 0), (64, 0), (65, 0), (130, 0), (200, 0), (8, 3), (65, 64),
                         (130, 65), (200, 127), (200, 128), (333, 199)]:
        draw = Draw("proofs", count, begun)
        events = [(draw.below(5), payload_of(draw, draw.below(40))) for _ in range(count)]
        entries = entries_of(FIRST_KEY, events)
        leaves = [history.leaf_hash(entry) for entry in entries]
        page = Page(browser, PAGE)
        said = page.call("verified", base64_of(b"".join(entries[begun:])),
                         " ".join(state_after(entries, begun).split()) if begun else FIRST_KEY.hex(),
                         commitment_of(entries))
        expect(said["verdict"], "verified %d open" % count, "a log whose proofs are saved")
        for number in sorted({begun, count - 1, (begun + count) // 2, begun + draw.below(count - begun)}):
            page.run("seen('jump').value = '%d', seen('jump-form').requestSubmit(), rest()" % number)
            page.run("rest()")
            page.run("document.activeElement.click(), rest()")
            proof = downloaded(browser, page, room, "event-proof", "event-%d.proof" % number)
            expect(proof, proof_bytes(*member_proof(leaves, number, entries[number])),
                   "the inclusion proof of %d of %d after %d" % (number, count, begun))
            proofs += 1
        kind, payload = events[number]
        expect(page.run("Object.fromEntries([...seen('event-parts').querySelectorAll('dt')].map(term => "
                        "[term.textContent, term.nextSibling.textContent]))"),
               {"Kind": str(kind), "Length": str(len(payload)),
                "Text": "none: it isn't UTF-8" if shown(payload).startswith("hex:") else shown(payload),
                "Hex digits": payload.hex()}, "the parts of event %d" % number)
        place = page.run("seen('event-place').textContent")
        expect_true(place.startswith("It is leaf %d of a tree of %d. Its inclusion proof leads" % (number, count)),
                    "the place of event %d: %s" % (number, place))
        expect(page.run("[document.activeElement.id, seen('event-title').textContent, "
                        "document.querySelectorAll('#event-picture .good').length, "
                        "document.querySelectorAll('#event-picture .bad').length]"),
               ["event-title", "Event %d" % number, 2, 0], "the view of event %d" % number)
        page.run("seen('event-close').click()")
        expect(page.run("[document.activeElement.textContent, seen('event').checkVisibility()]"), [str(number), False],
               "after Close")
    return "%d inclusion proofs" % proofs
