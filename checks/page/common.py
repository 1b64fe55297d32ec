"""What the tests of the page share."""
import hashlib
import json
import os
import time

import history
from checks.page.browsers import Firefox, Page
from checks.page.drawn import (
    CLOSING, base64_of, commitment_of, entries_of, increment_proof, member_proof, proof_bytes, word_of)
from checks.page.files import PAGE
from checks.parts.files import write
from checks.parts.places import EXAMPLES
from checks.parts.program import SECONDS
from checks.parts.rooms import FIRST_KEY
from checks.parts.wrong import expect, expect_true
from model.chain import entry_keys


def opened(browser):
    """The page, in a tab of Chromium or in Firefox."""
    if isinstance(browser, Firefox):
        browser.open(PAGE)
        return browser
    return Page(browser, PAGE)


def prepared(browser, events):
    """A page on which the export of these events is verified."""
    page = opened(browser)
    entries = entries_of(FIRST_KEY, events)
    found = page.call("verified", base64_of(b"".join(entries)), FIRST_KEY.hex(), commitment_of(entries))
    expect(found["verdict"], "verified %d %s" % (len(events),
                                                 "closed" if events and events[-1][0] == CLOSING else "open"),
           "the prepared export")
    return page, found["rows"]


def text_or_hex(payload):
    try:
        return {"text": payload.decode()}
    except UnicodeDecodeError:
        return {"hex": payload.hex()}


def downloaded(browser, page, room, button, name):
    """The bytes that the page saves, as a browser would: into a file. It makes an empty one first, and then replaces
    it."""
    path = os.path.join(room, name)
    browser.ask("Browser.setDownloadBehavior", behavior="allow", downloadPath=room)
    page.run("seen('%s').click(), rest()" % button)
    end = time.time() + SECONDS
    while not os.path.exists(path) or os.path.getsize(path) == 0:
        expect_true(time.time() < end, "nothing was saved")
        time.sleep(0.05)
    with open(path, "rb") as file:
        data = file.read()
    os.remove(path)
    return data


def saved_lines(browser, page, room):
    return [json.loads(line) for line in downloaded(browser, page, room, "save",
                                                    "events.jsonl").decode("ascii").splitlines()]


def opened_report(browser, page, room, button="save-report"):
    """A saved report, opened in a page of its own."""
    path = os.path.join(room, "opened.html")
    data = downloaded(browser, page, room, button, "report.html")
    expect_true(FIRST_KEY.hex().encode() not in data.lower(), "the key is in a report")
    write(path, data)
    again = Page(browser, path)
    again.run("window.reported = () => [...document.querySelectorAll('tbody tr')].map(row => [...row.cells].map(cell "
              "=> cell.textContent.replace(/\\n$/, '')))")
    return again


def shown_panels(browser, width=900, height=700):
    """A page in which each panel shows something, and the steps that open each panel."""
    with open(os.path.join(EXAMPLES, "packages.log"), "rb") as file:
        lines = file.read().splitlines()[:23]
    events = [(1, line) for line in lines] + [(CLOSING, b"")]
    entries, receipt = entries_of(FIRST_KEY, events), entry_keys(FIRST_KEY, events)[5].hex()
    leaves = [history.leaf_hash(entry) for entry in entries]
    older, newer = (word_of(count, history.root(leaves[:count])) for count in (12, 24))
    page = Page(browser, PAGE, width, height)
    wrong = member_proof(leaves, 5, entries[5])
    wrong[3][1] = hashlib.sha256(b"another event").digest()
    damaged = bytearray(b"".join(entries))
    damaged[sum(map(len, entries[:9])) + 20] ^= 1

    def call(name, data, *words):
        page.call(name, base64_of(data), *words)
    return page, [
        ("wrong", lambda: page.run("seen('tab-export').click()") or call("verified", b"".join(entries), "0", "1")),
        ("verify", lambda: call("verified", b"".join(entries), FIRST_KEY.hex(), newer)),
        ("event", lambda: page.run("document.querySelectorAll('#rows button')[11].click(), rest()")),
        ("refused", lambda: call("verified", bytes(damaged), FIRST_KEY.hex(), newer)),
        ("proof", lambda: page.run("seen('tab-proof').click()")
         or call("checked", proof_bytes(*increment_proof(leaves, 12)), older, newer)),
        ("failed", lambda: call("checked", proof_bytes(*wrong), newer, "")),
        ("receipt", lambda: call("checked", proof_bytes(*member_proof(leaves, 5, entries[5])), newer, "", receipt)),
        ("two", lambda: page.run("seen('tab-two').click(), seen('one').value = '%s', seen('other').value = '%s', "
                                 "pressed('two')" % (older, newer))),
    ]
