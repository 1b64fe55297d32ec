"""Fields that change after a verdict, and the picture of a proof."""
import os
import re
import time

import history
from checks.page.browsers import Page
from checks.page.common import opened
from checks.page.drawn import base64_of, entries_of, increment_proof, member_proof, proof_bytes, word_of
from checks.page.expected import count_of
from checks.page.files import PAGE
from checks.parts.files import write
from checks.parts.rooms import FIRST_KEY
from checks.parts.wrong import expect, expect_true


EVENTS = [(1, b"one"), (2, b"two"), (3, b"three")]


class Changed:
    """A page with fields to be changed, and the ways to change them."""

    def __init__(self, browser, room):
        entries, others = entries_of(FIRST_KEY, EVENTS), entries_of(FIRST_KEY, EVENTS[::-1])
        leaves = [history.leaf_hash(entry) for entry in entries]
        self.older, self.newer = (word_of(count, history.root(leaves[:count])) for count in (2, 3))
        self.files = {"events.export": b"".join(entries), "other.export": b"".join(others),
                      "a.proof": proof_bytes(*increment_proof(leaves, 2)),
                      "other.proof": proof_bytes(*increment_proof(leaves, 1))}
        self.room = room
        for name, data in self.files.items():
            write(os.path.join(room, name), data)
        self.page = Page(browser, PAGE)

    def choose(self, field, name):
        self.page.set_file("#" + field, os.path.join(self.room, name))

    def type(self, field, text):
        self.page.run("seen('%s').focus()" % field)
        self.page.ask("Input.insertText", text=text)

    def drop(self, panel, name, data):
        self.page.run("dropOn('%s', fileOf('%s', '%s'))" % (panel, base64_of(data), name))

    def judge(self, panel):
        """A panel gets a verdict, and events below it."""
        page = self.page
        page.run("seen('tab-%s').click()" % panel)
        if panel == "export":
            self.choose("export-file", "events.export")
        else:
            self.choose("proof-file", "a.proof")
        page.run("seen('key').value = '%s', seen('commitment').value = '%s'" % (FIRST_KEY.hex(), self.newer))
        page.run("seen('older').value = seen('one').value = '%s', seen('newer').value = seen('other').value = '%s'"
                 % (self.older, self.newer))
        expect(page.call("pressed", panel)["verdict"],
               {"export": "verified 3 open", "proof": "accepted", "two": "Two commitments alone show nothing"}[panel],
               "a verdict to be cleared")
        if panel == "export":
            page.run("document.querySelector('#rows button').click(), rest()")

    def expect_clear(self, panel, what):
        found = self.page.run("saidBy('%s')" % panel)
        expect([found[part] for part in ("verdict", "headline", "inputs", "style")], ["", "", {}, "result"],
               "what is left in %s after %s" % (panel, what))
        expect(found["meaning"].strip(), "", "what is left in %s after %s" % (panel, what))
        expect(self.page.run("['events', 'event', 'picture', '%s-report'].filter(id => seen(id)?.checkVisibility())"
                             % panel), [], "what is left in %s after %s" % (panel, what))
        note = ".* is taken as the .*" if "drop" in what else ""
        expect_true(re.fullmatch(note, self.page.run("seen('%s-note').textContent" % panel)),
                    "a note is left in %s after %s" % (panel, what))

    def ways(self):
        """Each way to change a field: its panel, what is done, and the call that does it."""
        choose, type_, drop = self.choose, self.type, self.drop
        return [("export", "another file", choose, ("export-file", "other.export")),
                ("export", "a dropped file", drop, ("export", "other.export", self.files["other.export"])),
                ("export", "a letter in the key", type_, ("key", "0")),
                ("export", "a dropped key", drop, ("export", "other.key", b"0" * 64)),
                ("export", "a letter in the commitment", type_, ("commitment", "0")),
                ("export", "a dropped commitment", drop, ("export", "other", self.older.encode())),
                ("proof", "another file", choose, ("proof-file", "other.proof")),
                ("proof", "a dropped file", drop, ("proof", "other.proof", self.files["other.proof"])),
                ("proof", "a letter in the older commitment", type_, ("older", "0")),
                ("proof", "a letter in the newer commitment", type_, ("newer", "0")),
                ("proof", "a dropped commitment", drop, ("proof", "other", self.older.encode())),
                ("two", "a letter in one commitment", type_, ("one", "0")),
                ("two", "a letter in the other commitment", type_, ("other", "0")),
                ("two", "a dropped commitment", drop, ("two", "other", self.older.encode()))]


def test_changes(browser, room):
    """A verdict, its events and its picture go at each change of a field, in whatever way it is made, and don't come
    again."""
    changed = Changed(browser, room)
    page, count = changed.page, 0
    for panel, what, change, words in changed.ways():
        changed.judge(panel)
        change(*words)
        changed.expect_clear(panel, what)
        for tab in ("export", "proof", "two", panel):
            page.run("seen('tab-%s').click()" % tab)
        changed.expect_clear(panel, what + " and other panels")
        count += 1
    count += change_while_read(changed)

    # A panel's verdict stays beside fields that haven't changed, whatever is done in others.
    changed.judge("export")
    changed.judge("proof")
    changed.judge("two")
    page.run("seen('tab-export').click()")
    expect(page.run("[lineOfPanel('export'), cells().length, seen('events').checkVisibility()]"),
           ["verified 3 open", 3, True], "a verdict after other panels")

    expect_nothing_below(page)
    return "%d changes" % count


def change_while_read(changed):
    """What is being read when a field changes is told no more, also if another panel was opened in between."""
    count = 0
    for panel, field in [("export", "commitment"), ("export", "export-file"), ("proof", "older"),
                         ("proof", "proof-file")]:
        for tabs in ([], ["two", panel]):
            changed.judge(panel)
            changed.page.run("seen('%s-form').requestSubmit(); %s; seen('%s').dispatchEvent(new Event('input', "
                             "{bubbles: true}))" % (
                                 panel, ", ".join("seen('tab-%s').click()" % tab for tab in tabs) or "0", field))
            time.sleep(0.3)
            changed.expect_clear(panel, "a change of %s while it is read" % field)
            count += 1
    return count


def expect_nothing_below(page):
    """No events are seen below a verdict that goes."""
    # The events of an export are never shown below the verdict of another one.
    page.run("window.below = [], new MutationObserver(() => below.push([seen('export-verdict').textContent, "
             "seen('events').hidden])).observe(seen('export-verdict'), {childList: true})")
    page.run("seen('export-form').requestSubmit(), until(() => below.some(([verdict]) => verdict) && "
             "!seen('events').hidden && seen('stop').disabled, 'events')")
    expect(page.run("below.filter(([verdict, hidden]) => !hidden)"), [], "events of before, below a new verdict")


def test_picture(browser):
    """What is given, what is computed and what is committed to are told apart by words and shapes; a node of one leaf
    is that leaf."""
    texts = [b"entry %d" % number for number in range(37)]
    leaves = [history.leaf_hash(text) for text in texts]
    roots = [word_of(count, history.root(leaves[:count])) for count in range(38)]
    page = opened(browser)
    page.run("seen('tab-proof').click()")
    page.run("window.boxes = () => [...document.querySelectorAll('#picture [role=listitem]')].map(box => ({words: "
             "[...box.querySelectorAll('text')].map(text => text.textContent),"
             " style: box.className.baseVal.split(' ')[0], corner: box.querySelector('rect').rx.baseVal.value, fill: "
             "getComputedStyle(box.querySelector('rect')).fill, top: box.querySelector('rect').y.baseVal.value}))")
    cases = [(member_proof(leaves, index, texts[index]), [roots[37]]) for index in (0, 32, 33, 35, 36)]
    cases += [(increment_proof(leaves, older), [roots[older], roots[37]]) for older in (1, 12, 32, 36, 37)]
    for parts, commitments in cases:
        found = page.call("checked", base64_of(proof_bytes(*parts)), *(commitments + [""])[:2])
        expect((found["verdict"], found["bad"], found["good"]), ("accepted", 0, 2 * len(commitments)),
               "a proof that is drawn")
        boxes = page.run("boxes()")
        expect_boxes(page, parts, commitments, boxes)
        expect_nodes_named(parts, boxes)
        expect_true("Square, shaded boxes are given in the proof; round ones are computed"
                    in page.run("seen('picture').textContent"), "the legend")
    return "%d pictures" % len(cases)


def boxes_of(boxes, word):
    return [box for box in boxes if box["words"][0] == word]


def expect_boxes(page, parts, commitments, boxes):
    """The boxes of each kind: how many there are, and their words, shapes and shades."""
    given, computed, held = (boxes_of(boxes, word) for word in ("given", "computed", "commitment"))
    expect(len(given) + len(computed) + len(held), len(boxes), "boxes without a word")
    # The first hash of a consistency proof is a node of both trees.
    expect(len(given), len(parts[3]) + len(commitments) - 1, "what is given in a picture")
    expect([(box["words"][1], box["words"][2][:8]) for box in held],
           [("count %d" % count_of(word), word.split(":")[1][:8]) for word in commitments],
           "the commitments in a picture")
    expect({(box["style"], box["corner"]) for box in given}, {("given", 0)}, "the shape of what is given")
    expect_true(all(box["style"] == "made" and box["corner"] > 0 for box in computed),
                "the shape of what is computed")
    expect_true(not {box["fill"] for box in given} & {box["fill"] for box in computed},
                "the shades of what is given and what is computed")
    bottom = max(box["top"] for box in boxes)
    for box in boxes:
        if box["top"] == bottom and parts[0] == 2:
            expect(box["words"][0], "given", "a box at the bottom of a consistency proof")
    expect(page.run("document.querySelectorAll('#picture .apart').length"), len(commitments),
           "what sets commitments apart")


def expect_nodes_named(parts, boxes):
    """Each node is named by its leaves."""
    names = [box["words"][1] for box in boxes_of(boxes, "given") + boxes_of(boxes, "computed")]
    for name in names:
        span = re.fullmatch(r"leaf \d+|leaves (\d+)-(\d+)", name)
        expect_true(span and (span[1] is None or int(span[1]) < int(span[2])), "the name of a node: " + name)
    if parts[:2] == [1, 33]:
        expect_true("leaf 36" in names, "the node of one leaf: %s" % names)


def dragged(page, path, seen):
    """A real path is dragged onto the page."""
    data = {"items": [], "files": [path], "dragOperationsMask": 1}
    for kind in ("dragEnter", "dragOver", "drop"):
        page.ask("Input.dispatchDragEvent", type=kind, x=100, y=300, data=data)
    page.wait(seen)
