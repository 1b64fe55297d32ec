"""Reports that are printed, saved and opened again, and verifications that are stopped."""
import base64
import os
import re
import unicodedata
import zlib

from checks.page.browsers import Page
from checks.page.common import opened_report, prepared, saved_lines, shown_panels
from checks.page.files import PAGE
from checks.page.million import make_million
from checks.parts.rooms import FIRST_KEY
from checks.parts.wrong import expect, expect_true, short


def pdf_text(data):
    """The text of each page of a PDF as Chromium writes it: fonts that map to Unicode, and strings in hex digits."""
    objects = {int(number): body for number, body in re.findall(rb"(\d+) 0 obj\n(.*?)\nendobj", data, re.DOTALL)}

    def stream(number):
        head, body = objects[int(number)].split(b"stream\n", 1)
        body = body.rsplit(b"\nendstream", 1)[0]
        return zlib.decompress(body) if b"FlateDecode" in head else body

    def letters(number):
        """What the codes of a font are."""
        found = {}
        text = stream(re.search(rb"/ToUnicode (\d+)", objects[int(number)])[1])
        for part in re.findall(rb"beginbfchar(.*?)endbfchar", text, re.DOTALL):
            for code, letter in re.findall(rb"<(\w+)> <(\w+)>", part):
                found[int(code, 16)] = bytes.fromhex(letter.decode()).decode("utf-16-be")
        for part in re.findall(rb"beginbfrange(.*?)endbfrange", text, re.DOTALL):
            for first, last, letter in re.findall(rb"<(\w+)> <(\w+)> <(\w+)>", part):
                for code in range(int(first, 16), int(last, 16) + 1):
                    found[code] = chr(int(letter, 16) + code - int(first, 16))
        return found
    pages = []
    for body in objects.values():
        if not re.search(rb"/Type /Page\b", body):
            continue
        fonts = {name: letters(number) for name, number in re.findall(rb"/(F\d+) (\d+) 0 R", body)}
        text, font = [], {}
        for name, digits in re.findall(rb"/(F\d+) [\d.]+ Tf|<([0-9A-Fa-f]+)> ?(?:Tj|-?\d)",
                                       stream(re.search(rb"/Contents (\d+)", body)[1])):
            if name:
                font = fonts[name]
            for at in range(0, len(digits), 4):
                text.append(font.get(int(digits[at:at + 4], 16), ""))
        pages.append("".join(text))
    return pages


def printed(page):
    return pdf_text(base64.b64decode(page.ask("Page.printToPDF", printBackground=True, preferCSSPageSize=True)["data"]))


def bare(text):
    """Without white space, which a PDF needn't have, and ligatures, which it may have."""
    return re.sub(r"\s", "", unicodedata.normalize("NFKC", text))


def test_reports(browser, room):
    """Prints and saved reports have the verdict, its inputs and all events, or those that were searched; and never the
    key."""
    events = [(number % 3, b"event %d of a report" % number) for number in range(333)]
    page, _ = prepared(browser, events)
    page.ask("Emulation.setFocusEmulationEnabled", enabled=True)
    page.run("window.prints = 0, window.print = () => prints++")
    inputs = page.run("saidBy('export')")["inputs"]
    said = ["Genuine and complete: 333 events; the log is open", "verified 333 open"] + list(inputs.values())

    def lines_of(numbers):
        return [events[at][1].decode() for at in numbers]

    expect_part_printed(page, said + lines_of(range(50)))
    page.run("seen('print').click(), rest()")
    page.wait("prints === 1")
    for scheme in ("light", "dark"):
        expect_all_printed(page, scheme, said + lines_of(range(333)))
    page.scheme("light")
    expect(page.run("seen('first').disabled"), False, "back to pages after a print")
    page.run("seen('first').click(), rest()")
    expect(page.run("cells().length"), 50, "pages after a print")

    expect_report_whole(browser, room, events, page, inputs, said, expect_in, lines_of)

    expect_found_reported(browser, room, page, said, expect_in, lines_of)

    # A long payload is printed whole.
    page, _ = prepared(browser, [(1, b"begin" + b" word" * 400 + b" end")])
    page.run("window.prints = 0, window.print = () => prints++, seen('print').click(), rest()")
    page.wait("prints === 1")
    expect_in("".join(printed(page)), ["begin" + " word" * 400 + " end"], "a print of a long payload")

    expect_panels_printed(browser, room, expect_in)
    return "prints and reports"


def expect_in(text, wanted, what):
    """A text has these words, and not the key."""
    for words in wanted:
        expect_true(bare(words) in bare(text), "%s isn't in %s" % (short(words), what))
    expect_true(FIRST_KEY.hex()[:16] not in bare(text).lower(), "the key is in " + what)


def expect_part_printed(page, wanted):
    """What is printed before all events are shown says so, and the key can't be read on the screen either."""
    for focus in ("key", "commitment"):
        page.run("seen('%s').focus()" % focus)
        expect(page.run("getComputedStyle(seen('key')).webkitTextSecurity"), "disc",
               "the key on the screen, with the focus on " + focus)
        text = "".join(printed(page))
        expect_in(text, wanted + ["These are 50 of 333 events"], "a print of a part, with the focus on " + focus)
        expect_true(bare("event 50 of a report") not in bare(text), "a print of a part has all")


def expect_all_printed(page, scheme, wanted):
    """A print of all events, with numbers of pages, on white."""
    page.scheme(scheme)
    pages = printed(page)
    expect_in("".join(pages), wanted, "a print of all")
    expect_true("These are" not in "".join(pages), "a print of all says that it isn't")
    for number, text in enumerate(pages):
        expect_true(bare("%d / %d" % (number + 1, len(pages))) in bare(text),
                    "page %d of a print has no number" % (number + 1))
    page.ask("Emulation.setEmulatedMedia", media="print",
             features=[{"name": "prefers-color-scheme", "value": scheme}])
    expect(page.run("[getComputedStyle(document.body).backgroundColor, seen('export-form').checkVisibility(), "
                    "seen('print').checkVisibility()]"),
           ["rgb(255, 255, 255)", False, False], "a print in " + scheme)
    page.ask("Emulation.setEmulatedMedia", media="")


def expect_report_whole(browser, room, events, page, inputs, said, expect_in, lines_of):
    """A saved report, and saved lines, of all events."""
    again = opened_report(browser, page, room)
    expect(again.run("reported()"), [[str(at), str(kind), str(len(payload)), payload.decode()] for at,
                                     (kind, payload) in enumerate(events)], "the events of a report")
    expect_in(again.run("document.body.innerText"), said, "a report")
    policy = again.run("document.querySelector('meta[http-equiv]').content")
    expect(re.sub("sha256-[^']*", "HASH", policy),
           "default-src 'none'; style-src 'HASH'; form-action 'none'; base-uri 'none'", "a report's policy")
    expect(again.run("[document.scripts.length, document.forms.length, document.querySelectorAll('input, button, "
                     "a').length, getComputedStyle(document.querySelector('.headline')).fontWeight]"),
           [0, 0, 0, "700"], "what a report has")
    pages = printed(again)
    expect_in("".join(pages), said + lines_of(range(333)), "a print of a report")
    lines = saved_lines(browser, page, room)
    expect({INPUT_NAMES[name]: str(value) for name, value in lines[0].items() if name in INPUT_NAMES}, inputs,
           "the inputs in the first line")
    expect([lines[0][name] for name in ("verdict", "under_commitment", "events", "number")],
           ["verified 333 open", True, "all", 333], "the first line")
    expect(lines[1:], [{"index": at, "kind": kind, "text": payload.decode()} for at,
                       (kind, payload) in enumerate(events)], "the lines of all events")


def expect_found_reported(browser, room, page, said, expect_in, lines_of):
    """Prints and reports of what was found alone."""
    wanted = [at for at in range(333) if at % 3 == 1 and "7" in str(at)]
    page.run("seen('filter-text').value = '7', seen('filter-kinds').value = '1', seen('filter-form').requestSubmit(), "
             "rest()")
    page.run("seen('print').click(), rest()")
    page.wait("prints === 2")
    text = "".join(printed(page))
    expect_in(text, said + lines_of(wanted), "a print of what was found")
    expect_true(bare("event 1 of a report") not in bare(text), "a print of what was found has all")
    again = opened_report(browser, page, room)
    expect([int(row[0]) for row in again.run("reported()")], wanted, "a report of what was found")
    expect(again.run("document.querySelector('caption').textContent"),
           '%d of 333 events, with the text "7", of the kinds 1, numbered from 0' % len(wanted),
           "the caption of a report")
    lines = saved_lines(browser, page, room)
    expect((lines[0]["events"], [line["index"] for line in lines[1:]]), ('with the text "7", of the kinds 1', wanted),
           "lines of what was found")

    page.run("seen('filter-text').value = 'none has this', seen('filter-kinds').value = '', "
             "seen('filter-form').requestSubmit(), rest()")
    page.run("rest()")
    again = opened_report(browser, page, room)
    expect(again.run("[document.querySelector('caption').textContent, reported().length]"),
           ['0 of 333 events, with the text "none has this", numbered from 0', 0], "a report of nothing found")
    expect([line["number"] for line in saved_lines(browser, page, room)], [0], "lines of nothing found")


def expect_panels_printed(browser, room, expect_in):
    """Each panel is printed, without a key."""
    # The other panels: their verdicts with what they are about, and a proof's picture.
    page, steps = shown_panels(browser)
    for name, step in steps:
        if name in ("proof", "two"):
            step()
            said = page.run("saidBy('%s')" % name)
            wanted = [said["headline"]] + list(said["inputs"].values())
            again = opened_report(browser, page, room, "save-%s-report" % name)
            expect_in(again.run("document.body.innerText"), wanted, "the report of " + name)
            expect(again.run("document.querySelectorAll('svg .good').length"), 4 if name == "proof" else 0,
                   "the picture in a report")
            expect_in("".join(printed(page)), wanted, "a print of " + name)


INPUT_NAMES = {"file": "File", "size": "Bytes", "sha256": "SHA-256", "begun": "Read with", "commitment": "Commitment",
               "checked": "Checked"}


# What is disabled while something is under way, and a start that is stopped once it goes on.
STOPPED = """
window.disabled = () => [...document.querySelectorAll('#events :is(button, input), #export-report button')]
    .every(control => control.disabled) && !seen('stop').disabled;
window.stopped = async start => {
  seen('progress').value = 0;
  start();
  const isDisabled = disabled();
  await until(() => seen('progress').value > 0 || seen('stop').disabled, 'progress');
  const isOver = seen('stop').disabled;
  seen('stop').click();
  await rest();
  return [isDisabled, isOver];
}"""


def test_stops(browser, room, number=60000):
    """Stop ends a search and leaves the rest, ends a verification without a verdict; what is being done is said, with
    the time that is left."""
    path = os.path.join(room, "many.export")
    claimed = make_million(path, number)
    page = Page(browser, PAGE)
    page.set_file("#export-file", path)
    page.run("seen('key').value = '%s', seen('commitment').value = '%s'" % (FIRST_KEY.hex(), claimed))
    # A clock that is fast, so that the time that is left is said.
    page.run("window.clock = Date.now, Date.now = () => 40 * clock(), window.heard = [], window.steps = [], 1")
    page.run("new MutationObserver(() => heard.push(seen('announced').textContent)).observe(seen('announced'), "
             "{childList: true})")
    page.run("new MutationObserver(() => steps.push([seen('progress-text').textContent, seen('verify').disabled, "
             "seen('stop').disabled])).observe(seen('progress-text'), {childList: true})")
    page.run(STOPPED)
    expect(page.run("stopped(() => seen('export-form').requestSubmit())"), [True, False],
           "a verification that is to be stopped")
    expect(page.run("[seen('export-note').textContent, seen('export-verdict').textContent, seen('stop').disabled, "
                    "seen('verify').disabled]"),
           ["Stopped: there is no verdict.", "", True, False], "a verification that is stopped")
    said = page.call("pressed", "export")
    expect(said["verdict"], "verified %d open" % number, "a verification after one that was stopped")
    expect_progress_said(page)
    expect_searches_stopped(page)
    page.run("seen('unfilter').click(), rest()")
    page.run("rest()")
    expect(page.run("[seen('print').disabled, seen('print-hint').checkVisibility()]"), [True, True],
           "printing too many events")
    os.remove(path)
    return "4 stops"


def expect_progress_said(page):
    """What is being done was said, with the time that is left, and not each step was announced."""
    words = page.run("[steps.map(([words]) => words).find(words => words.includes('left')) || '', heard.find(words => "
                     "words.includes('left')) || '']")
    for word in words:
        expect_true(re.fullmatch(r"Verifying: [\d,]+ events, \d+ %, about \d+ s left", word),
                    "the progress isn't said: %s" % words)
    expect_true(page.run("steps.every(([, verify, stop]) => verify && !stop)"), "what is disabled while it verifies")
    expect_true(page.run("seen('announced').matches('[role=status]') && heard.length < steps.length"),
                "each step is announced")


def expect_searches_stopped(page):
    """A search, a report and lines are stopped, and leave the rest."""
    page.run("seen('next').click(), rest()")
    before = page.run("[cells(), seen('shown').textContent, saidBy('export')]")
    for what, start in [("a search", "seen('filter-text').value = 'none has this', seen('filter-form').requestSubmit()"), ("a report", "seen('save-report').click()"), ("lines", "seen('save').click()")]:
        expect(page.run("stopped(() => { %s })" % start), [True, False],
               "what is disabled, and if all is over, in " + what)
        expect(page.run("[cells(), seen('shown').textContent, saidBy('export')]"), before,
               "what is left after %s is stopped" % what)
    page.run("seen('filter-text').value = '', seen('filter-numbers').value = '7', seen('filter-form').requestSubmit(), "
             "rest()")
    page.run("rest()")
    expect(page.run("cells().map(([number]) => number)"), ["7"], "a search after one that was stopped")
