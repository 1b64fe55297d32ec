"""Links between two logs have the verdicts of the model."""
from checks.page.common import opened
from checks.page.drawn import CLOSING, Draw, base64_of, word_of
from checks.parts.wrong import expect, expect_true
from model.chain import CLOSE, log_of
from model.links import ACCEPTED, counts_in, judged, link_bytes, link_events, link_in, link_of
from model.tree import root

CASES = 48


def commitment(log, count):
    return count, root(log.leaves[:count])


def link_case(number):
    """The bytes of a link, most with a fault, and a commitment of each log."""
    draw = Draw("link", number)
    events = [(draw.below(4) * 1000, draw.bytes(draw.below(40))) for _ in range(1 + draw.below(6))]
    old = log_of(events + [CLOSE], draw.bytes(32))
    brought = {7: 12, CLOSING - 1: (1 << 64) - 1} if number % 3 == 0 else None
    link, new = link_of(old, draw.bytes(32), brought)
    older, newer = commitment(old, len(old.entries)), commitment(new, 2)
    faults = {
        1: lambda: (link_bytes(link), commitment(old, len(events)), newer),
        2: lambda: (link_bytes(link), older, commitment(new, 1)),
        3: lambda: (link_bytes(link._replace(first_key=link.second_key, second_key=link.first_key)), older, newer),
        4: lambda: (link_bytes(link)[:-1 - draw.below(200)], older, newer),
        5: lambda: (link_bytes(link) + link.second, older, newer),
        6: lambda: (link_bytes(link._replace(first=link.second, second=link.first)), older, newer),
        7: lambda: (link_bytes(link._replace(hashes=link.hashes[:-1])), older, newer),
    }
    data, older, newer = faults.get(number % 10, lambda: (link_bytes(link), older, newer))()
    if number % 10 in (8, 9):
        place = 1 + draw.below(len(data) - 1)
        data = data[:place] + bytes([data[place] ^ 1 << draw.below(8)]) + data[place + 1:]
    return data, older, newer


def wanted_of(data, older, newer):
    link = link_in(data)
    if link is None:
        return "32 BadProof"
    verdict = judged(link, older, newer)
    return verdict if verdict == ACCEPTED else "not accepted: " + verdict


def test_links(browser):
    page = opened(browser)
    page.run("seen('tab-proof').click()")
    seen = set()
    for number in range(CASES):
        data, older, newer = link_case(number)
        words = [word_of(*older), word_of(*newer)]
        wanted = wanted_of(data, older, newer)
        found = page.call("checked", base64_of(data), *words)
        expect(found["verdict"], wanted, "link %d" % number)
        expect_true(found["headline"] and found["meaning"].strip(), "link %d has no meaning" % number)
        if wanted != "32 BadProof":
            expect([found["inputs"].get(name) for name in ("The old log's", "The new log's")], words,
                   "the inputs of link %d" % number)
        seen.add(wanted)
    expect(seen, {"accepted", "not accepted: old half", "not accepted: new half", "32 BadProof"}, "the verdicts that came")
    expect_chosen(page)
    return "%d links" % CASES


def expect_chosen(page):
    """The numbers of events are told; commitments in the other order, and witnesses' files, are taken."""
    events = [(1, b"one"), (7, b"two"), (7, b"three")]
    old = log_of(events + [CLOSE], b"o" * 32)
    link, new = link_of(old, b"n" * 32, {3: 5})
    data, begun = base64_of(link_bytes(link)), link_events(old, {3: 5})
    expect(counts_in(begun[1][1]), {1: 1, 3: 5, 7: 2}, "the numbers of the model")
    older, newer = word_of(*commitment(old, 4)), word_of(*commitment(new, 2))
    for words in ([older, newer], [newer, older], [" ".join(word_of(*commitment(old, count)) for count in (1, 3, 4)), newer]):
        found = page.call("checked", data, *words)
        expect(found["verdict"], "accepted", "a link under %s" % words)
        expect_true("1 of kind 1, 5 of kind 3, 2 of kind 7." in found["meaning"], "the numbers of events aren't told: "
                    + found["meaning"])
    found = page.call("checked", data, older, "")
    expect(found["verdict"], "bad argument", "a link under one commitment")
    expect_true("takes the new log's commitment" in found["headline"] + found["meaning"], "why: " + found["meaning"])
