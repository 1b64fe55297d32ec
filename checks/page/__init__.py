"""Opens auditor/verify.html in a headless Chromium, and drops files on it.

usage: bin/check page [--long] [--million] [--keep FOLDER] [--shots FOLDER] [TEST ..]
       bin/check page --policy

Without Chromium it is left out. Expected results are computed by auditor/read_export.py and check_proof.py, which share
no code with the page, and are recorded in auditor/page.verdicts, which an independent model of the formats wrote. 40
exports, 60 proofs and 30 tails are judged; with --long 700, 700 and 200, of which over 600 are refused, and all also in
Firefox, if it is there. --million also verifies an export of a million events (200 MB in a temporary folder), and
prints its figures. --keep writes the cases and the page's verdicts to a folder, and --shots the pictures of docs. TEST
chooses tests by name: hostile payloads, wrong inputs, changed fields, searches, the proof of an event, entries under
the keys of receipts, stops, prints (no key in a PDF's text, all events there), reports that are opened again,
connections, keyboard, contrast, small windows, entries that end where the page stops reading.

--policy writes the hashes of the page's script and style into its policy. Run it after each edit of the page.

The browser is the one named by CHROMIUM, or chromium, or google-chrome; Firefox the one named by FIREFOX, or firefox,
or firefox-esr.
"""
import os
import tempfile
import time

from checks.page import (
    changes, disclosed, events, files, hostile, links, looks, million, receipts, reports, taking, verdicts)
from checks.page.browsers import Browser, chromium
from checks.parts.wrong import LeftOut, Usage, told


def options_of(words):
    """The options by name, and the tests that are chosen."""
    options = {"--long": False, "--million": False, "--policy": False, "--keep": None, "--shots": None}
    chosen, words = [], list(words)
    while words:
        word = words.pop(0)
        if not word.startswith("--"):
            chosen.append(word)
        elif word not in options or (options[word] is None and not words):
            raise Usage
        else:
            options[word] = words.pop(0) if options[word] is None else True
    return options, chosen


def tests_of(browser, room, options):
    """The tests by name."""
    sizes = (700, 700, 200) if options["--long"] else (40, 60, 30)
    exports, proofs, tails = map(range, sizes)
    tests = {
        "file": lambda: files.test_file(),
        "exports": lambda: verdicts.test_exports(browser, exports, options["--keep"]),
        "proofs": lambda: verdicts.test_proofs(browser, proofs, options["--keep"]),
        "links": lambda: links.test_links(browser),
        "states": lambda: verdicts.test_states(browser, tails, options["--keep"]),
        "hostile": lambda: hostile.test_hostile(browser, room), "pages": lambda: events.test_pages(browser),
        "searches": lambda: events.test_searches(browser), "events": lambda: events.test_events(browser, room),
        "parts": lambda: million.test_parts(browser, room), "refused": lambda: hostile.test_refused(browser, room),
        "connections": lambda: hostile.test_connections(browser, room),
        "receipts": lambda: receipts.test_receipts(browser, room),
        "disclosed": lambda: disclosed.test_disclosed(browser, room),
        "reports": lambda: reports.test_reports(browser, room), "stops": lambda: reports.test_stops(browser, room),
        "taking": lambda: taking.test_taking(browser, room), "words": lambda: taking.test_words(browser, room),
        "changes": lambda: changes.test_changes(browser, room), "picture": lambda: changes.test_picture(browser),
        "looks": lambda: looks.test_looks(browser), "without-scripts": lambda: looks.test_without_scripts(browser),
        "keys": lambda: looks.test_keys(browser),
    }
    if options["--long"]:
        tests["firefox"] = lambda: verdicts.test_firefox(exports, proofs, tails)
    if options["--million"]:
        tests["million"] = lambda: million.test_million(browser, room)
    if options["--shots"]:
        tests["shots"] = lambda: looks.take_shots(browser, options["--shots"])
    return tests


def passes(test, name, browser, is_told):
    """Runs a test, and prints what it found to be wrong, or if it `is_told` what it did."""
    browser.close_pages()
    start = time.time()
    try:
        done = test()
    except Exception as found:
        print("%s: %s" % (name, told(found)), flush=True)
        return False
    if is_told:
        print("%s (%.1f s)" % (done, time.time() - start), flush=True)
    return True


def main(words):
    options, chosen = options_of(words)
    if options["--policy"]:
        files.write_policy()
        return 0
    path = chromium()
    if path is None:
        raise LeftOut("there is no Chromium")
    for folder in filter(None, (options["--keep"], options["--shots"])):
        os.makedirs(folder, exist_ok=True)
    with tempfile.TemporaryDirectory() as room:
        browser = Browser(path)
        tests = tests_of(browser, room, options)
        is_told = options["--long"] or options["--million"]
        try:
            if not set(chosen) <= set(tests):
                raise Usage("tests: " + " ".join(tests))
            return 0 if all([passes(tests[name], name, browser, is_told) for name in chosen or tests]) else 1
        finally:
            browser.close()
