"""Exports, proofs and tails have the verdicts that the auditor's programs and the model give."""
import calendar
import hashlib
import json
import os
import re
import shutil
import time

import history
import read_export
from checks.page.browsers import Firefox
from checks.page.changes import test_picture
from checks.page.common import opened
from checks.page.drawn import (
    CLOSING, Draw, base64_of, entries_of, export_case, proof_case, read_on_cases, state_after, word_of)
from checks.page.events import test_pages, test_searches
from checks.page.expected import count_of, export_verdict, keep, proof_verdict, row_of, tail_verdict, written_verdicts
from checks.parts.program import SECONDS
from checks.parts.rooms import FIRST_KEY
from checks.parts.wrong import expect, expect_true, short


def test_exports(browser, numbers, kept):
    page = opened(browser)
    said = "Ready: SHA-256, HMAC and ChaCha20 give the published results, and WebCrypto's"
    expect_true(page.run("seen('state').textContent").startswith(said), "the page compares its hashes")
    written = written_verdicts("export")
    seen = set()
    for number in numbers:
        export, key, claimed = export_case(number)
        wanted, events = export_verdict(export, key, claimed)
        expect(wanted, written[number], "export %d, what is written" % number)
        found = page.call("verified", base64_of(export), key.hex(), claimed)
        keep(kept, "export", number, export, [key.hex(), claimed], found["verdict"])
        expect(found["verdict"], wanted, "export %d" % number)
        expect(found["rows"], [row_of(at, *event) for at, event in enumerate(events[:50])],
               "rows of export %d" % number)
        expect(found["uncommitted"], bool(events) and not wanted.startswith("verified"),
               "the mark of export %d" % number)
        expect_bound(found, export, {"Commitment": claimed, "Read with": "a first key, which isn't shown"},
                     "export %d" % number)
        expect(found["style"], "good" if wanted.startswith("verified") else "bad", "the style of export %d" % number)
        expect_true(found["headline"] and found["meaning"].strip(), "export %d has no meaning" % number)
        seen.add(re.sub("[0-9]+", "", wanted, count=1) if wanted.startswith("v") else wanted.split(": ")[1])
    expect(seen, {"verified  open", "verified  closed", "40 Short", "41 BadLength", "42 BadLink", "43 BadMac",
                  "44 WrongCommitment", "46 BadClose"}, "the verdicts that came")
    return "%d exports" % len(numbers)


def expect_bound(found, data, inputs, what):
    """The verdict names the file, its bytes, their hash, what it was judged under, and when."""
    found = dict(found["inputs"])
    checked = time.strptime(found.pop("Checked"), "%Y-%m-%d %H:%M:%S UTC")
    expect_true(abs(calendar.timegm(checked) - time.time()) < SECONDS, "the time of " + what)
    expect_true(found.pop("File") in ("events.export", "a.proof"), "the file of " + what)
    expect(found, {"Bytes": str(len(data)), "SHA-256": hashlib.sha256(data).hexdigest(), **inputs},
           "the inputs of " + what)


def test_proofs(browser, numbers, kept):
    page = opened(browser)
    page.run("seen('tab-proof').click()")
    written = written_verdicts("proof")
    seen = set()
    for number in numbers:
        data, commitments = proof_case(number)
        wanted = proof_verdict(data, commitments)
        expect(wanted, written[number], "proof %d, what is written" % number)
        found = page.call("checked", base64_of(data), *(commitments + [""])[:2])
        keep(kept, "proof", number, data, commitments, found["verdict"])
        if len(commitments) == 2 and data[:1] == b"\2" and count_of(commitments[0]) > count_of(commitments[1]):
            # The page exchanges them.
            commitments = commitments[::-1]
            wanted = proof_verdict(data, commitments)
        expect(found["verdict"], wanted, "proof %d" % number)
        if wanted.endswith("accepted"):
            expect_bound(found, data, dict(zip(["Commitment"]
                                               if len(commitments) == 1 else ["Older commitment", "Newer commitment"],
                                               commitments)), "proof %d" % number)
        expect_true(found["headline"] and found["meaning"].strip(), "proof %d has no meaning" % number)
        if wanted == "accepted":
            # Each root, and the commitment that has it.
            expect((found["bad"], found["good"]), (0, 2 * len(commitments)), "marks of proof %d" % number)
        elif found["picture"]:
            expect_true(found["bad"] > 0, "proof %d has no mark" % number)
        seen.add(wanted)
    expect(seen, {"accepted", "not accepted", "32 BadProof", "bad argument"}, "the verdicts that came")
    return "%d proofs" % len(numbers)


def test_firefox(exports, proofs, tails):
    """What needs nothing of Chromium's protocol, in Firefox, if it is there."""
    path = os.environ.get("FIREFOX") or shutil.which("firefox") or shutil.which("firefox-esr")
    if path is None:
        return "left out: Firefox"
    firefox = Firefox(path)
    try:
        done = [test(firefox, numbers, None) for test,
                numbers in ((test_exports, exports), (test_proofs, proofs), (test_states, tails))]
        done += [test(firefox) for test in (test_pages, test_searches, test_picture)]
    finally:
        firefox.close()
    return "Firefox: " + ", ".join(done)


STATED = [(1, b"one"), (7, b"two"), (2, b"three"), (7, b"four"), (CLOSING, b"")]


def test_states(browser, numbers, kept):
    """A tail is verified from a state, which is typed in or dropped; from another one, or a damaged one, it isn't."""
    entries = entries_of(FIRST_KEY, STATED)
    leaves = [history.leaf_hash(entry) for entry in entries]
    roots = [word_of(count, history.root(leaves[:count])) for count in range(6)]
    states = [state_after(entries, cut) for cut in range(6)]
    page = opened(browser)

    def verify(begun, state, claimed=roots[5]):
        return page.call("verified", base64_of(b"".join(entries[begun:])), " ".join(state.split()), claimed)

    for cut, state in enumerate(states):
        expect_read_on(page, verify(cut, state), cut)
    expect_states_judged(entries, leaves, roots, states, verify)
    drop = "dropOn('export', new File([%s], 'day.state'), new File(['%s\\n'], 'commitment'), fileOf('%s', 'tail.export'))" % (
        json.dumps(states[3]), roots[5], base64_of(b"".join(entries[3:])))
    expect(page.run(drop), "day.state is taken as the state. commitment is taken as the commitment. tail.export is "
                           "taken as the export.", "a drop with a state")
    expect(page.call("pressed", "export")["verdict"], "verified 5 closed", "what was dropped")
    expect_tails_judged(numbers, kept, page)
    return "states and %d tails" % len(numbers)


def expect_read_on(page, found, cut):
    """The events after a state, with their numbers in the log."""
    expect(found["verdict"], "verified 5 closed", "the entries after %d" % cut)
    expect(found["rows"], [row_of(at, *STATED[at]) for at in range(cut, 5)], "rows after %d" % cut)
    expect(found["inputs"]["Read with"],
           "a state after %d entr%s, which isn't shown" % (cut, "y" if cut == 1 else "ies"), "what was read with")
    if 0 < cut < 5:
        expect(page.run("seen('shown').textContent"),
               "Events %d to 4 of the %d after the state, numbered from 0" % (cut, 5 - cut),
               "the caption after a state")


def tell_state(found, verdict, word):
    expect(found["verdict"], verdict, "a state")
    expect_true(word in found["headline"] + found["meaning"], "%s has no '%s': %s" % (verdict, word, short(found)))


def expect_states_judged(entries, leaves, roots, states, verify):
    """What is said with states of other counts, of `read`, changed and cut off."""
    first = read_export.FIRST._replace(key=FIRST_KEY)
    tell_state(verify(3, states[3]), "verified 5 closed",
               "Genuine and complete after the first 3: 2 events; the log is closed")
    read_on = read_export.read_on(b"".join(entries[:3]), first,
                                  (3, history.root(leaves[:3])))[1].text((4, history.root(leaves[:4]))).decode()
    tell_state(verify(3, read_on), "verified 5 closed", "after the first 3")
    tell_state(verify(3, states[2]), "entry 2: 42 BadLink", "doesn't begin after the state")
    tell_state(verify(3, FIRST_KEY.hex()), "entry 0: 42 BadLink", "needs their state")
    tell_state(verify(0, states[3]), "entry 3: 42 BadLink", "doesn't begin after the state")
    tell_state(verify(4, states[5]), "entry 5: 46 BadClose", "bytes follow")
    tell_state(verify(3, states[3], roots[2]), "bad argument", "the commitment is older")
    tell_state(verify(3, states[3], roots[4]), "entry 5: 44 WrongCommitment", "The commitment counts 4")
    for wrong in (states[3].replace("open", "closed"), states[3].replace("count 3", "count 5"), states[3][:-9],
                  states[3] + "x", states[3].upper().replace("AUDIT-STATE", "audit-state")):
        tell_state(verify(3, wrong), "bad argument", "The state was changed or cut off.")


def expect_tails_judged(numbers, kept, page):
    """Tails that are drawn have the verdicts of the auditor's programs and the model."""
    written, seen = written_verdicts("tail"), set()
    for number in numbers:
        tail, state, claimed = read_on_cases(Draw("tail", number))
        wanted, events = "bad argument", []
        begun = read_export.State.read(state.encode())[0]
        if count_of(claimed) >= begun.count:
            wanted, events = tail_verdict(tail, begun, claimed)
        expect(wanted, written[number], "tail %d, what is written" % number)
        found = page.call("verified", base64_of(tail), " ".join(state.split()), claimed)
        keep(kept, "tail", number, tail, [state, claimed], found["verdict"])
        expect(found["verdict"], wanted, "tail %d" % number)
        expect(found["rows"], [row_of(at, *event) for at, event in enumerate(events[:50], begun.count)],
               "rows of tail %d" % number)
        seen.add(wanted.split()[0] if wanted.startswith("v") else wanted.split(": ")[-1])
    expect_true(seen >= {"verified", "42 BadLink", "44 WrongCommitment", "40 Short"},
                "the verdicts that came: %s" % sorted(seen))
