"""Hostile payloads, wrong inputs, and that no connection is opened."""
import http.server
import os
import re
import threading
import time

from checks.page.browsers import Page
from checks.page.common import opened_report, prepared, saved_lines, text_or_hex
from checks.page.drawn import Draw, base64_of, commitment_of, entries_of, flipped, word_of
from checks.page.expected import cut, row_of
from checks.page.files import PAGE
from checks.parts.files import write
from checks.parts.rooms import FIRST_KEY
from checks.parts.wrong import Wrong, expect, expect_true, short

# Payloads that would do harm if they were interpreted as markup or text direction, and how the page must show them.
HOSTILE = [
    (b"<script>window.hurt = 1</script>", "<script>window.hurt = 1</script>"),
    (b"<img src=x onerror='window.hurt = 1'>", "<img src=x onerror='window.hurt = 1'>"),
    (b"</td></tr></table><svg onload=window.hurt=1>", "</td></tr></table><svg onload=window.hurt=1>"),
    (b"&lt;b&gt; ${window.hurt = 1} {{7*7}} javascript:hurt()",
     "&lt;b&gt; ${window.hurt = 1} {{7*7}} javascript:hurt()"),
    (bytes(range(32)) + b"\x7f", "".join({9: "\\t", 10: "\\n", 13: "\\r"}.get(byte, "\\u%04x" % byte)
                                         for byte in range(32)) + "\\u007f"),
    ("\u0080\u0085\u009b31m".encode(), "\\u0080\\u0085\\u009b31m"),
    ("user\u202eexe.txt\u202c \u2066a\u2069 \u200e\u200f\u061c".encode(),
     "user\\u202eexe.txt\\u202c \\u2066a\\u2069 \\u200e\\u200f\\u061c"),
    ("a\u200bb\u200dc\u2060d\ufeffe\u00adf\u034fg\ufe0f".encode(),
     "a\\u200bb\\u200dc\\u2060d\\ufeffe\\u00adf\\u034fg\\ufe0f"),
    ("\ufeffbom \u00a0\u3000\u2028\u2029\u2800\u3164".encode(),
     "\\ufeffbom \\u00a0\\u3000\\u2028\\u2029\\u2800\\u3164"),
    ("\U000e0041\U000e007f\U0001f600".encode(), "\\u{e0041}\\u{e007f}\U0001f600"),
    (rb"\u202e \n is not a mark", "\\\\u202e \\\\n is not a mark"),
    ("\u05d0\u05d1\u05d2 123".encode(), "\u05d0\u05d1\u05d2 123"),
    (b"\xed\xa0\x80", "hex:eda080"),
    (b"\xc0\x80", "hex:c080"),
    (b"ab\xff", "hex:6162ff"),
    (b"hex:6162", "hex:6162"),
    (b"", ""),
    (b"<" * 32696, "<" * 32696),
    (("a" + "\u0301" * 16347).encode(), "a" + "\u0301" * 16347),
    (bytes(range(128, 256)) * 255, "hex:" + (bytes(range(128, 256)) * 255).hex()),
]
# None of these may be shown: control characters, direction marks, and characters without width.
UNSEEN = re.compile("[\x00-\x1f\x7f-\xa0\xad\u034f\u061c\u200b-\u200f\u2028-\u202f\u2060-\u206f\u2800\u3000\u3164"
                    "\ufe0f\ufeff\U000e0000-\U000e0fff]")


def test_hostile(browser, room):
    events = [(number, payload) for number, (payload, _) in enumerate(HOSTILE)]
    page, rows = prepared(browser, events)
    time.sleep(0.2)
    expect([row[3] for row in rows], [cut(written) for _, written in HOSTILE], "hostile payloads")
    for row in rows:
        expect_true(not UNSEEN.search("".join(row)), "a character is left in " + short(row[3]))
    left = ("[window.hurt, document.scripts.length, document.querySelectorAll('td:last-child *:not(button)').length, "
            "document.querySelectorAll('img, iframe, #rows svg').length]")
    expect(page.run(left), [None, 1, 0, 0], "what markup left")
    page.run("document.querySelector('#rows td:last-child button').click()")
    expect(page.run("cells()[17][3]"), "<" * 32696, "the whole payload")
    expect(page.run("document.activeElement.localName"), "td", "focus after all is shown")
    page.run("document.querySelector('#rows button').click(), rest()")
    expect(page.run("[window.hurt, document.querySelectorAll('#event-parts dd *').length]"), [None, 0],
           "what markup left in an event's view")
    again = opened_report(browser, page, room)
    expect(again.run(left), [None, 0, 0, 0], "what markup left in a report")
    expect(again.run("reported()"), [[str(number), str(number), str(len(payload)), written] for number,
                                     (payload, written) in enumerate(HOSTILE)], "a report of hostile payloads")
    page.run("seen('as-hex').click(), rest()")
    expect([row[3][:300] for row in page.run("cells()")], [payload.hex()[:300] for payload, _ in HOSTILE],
           "payloads as hex digits")
    expect(saved_lines(browser, page, room)[1:],
           [{"index": number, "kind": number, "hex": payload.hex()} for number, payload in events],
           "saved as hex digits")
    page.run("seen('as-hex').click(), rest()")
    lines = [{"index": number, "kind": number, **text_or_hex(payload)} for number, payload in events]
    expect(saved_lines(browser, page, room)[1:], lines, "saved as text")
    expect(page.run("dropOn('export', new File(['x'], '<b>\\u202e.txt'))"), "<b>\\u202e.txt is taken as the export.",
           "a hostile name")
    return "%d hostile payloads" % len(HOSTILE)


def test_refused(browser, room):
    """The entries before a fault are shown and saved as under no commitment, and have no proof."""
    events = [(1, b"one"), (7, b"two"), (2, b"three"), (7, b"four")]
    entries = entries_of(FIRST_KEY, events)
    broken = b"".join(entries[:2]) + flipped(Draw("refused"), entries[2]) + entries[3]
    page = Page(browser, PAGE)
    for data, claimed, number, line in [(broken, commitment_of(entries), 2, None),
                                        (b"".join(entries), word_of(4, bytes(32)), 4, "entry 4: 44 WrongCommitment"),
                                        (b"".join(entries[:3]), commitment_of(entries), 3,
                                         "entry 3: 44 WrongCommitment")]:
        said = page.call("verified", base64_of(data), FIRST_KEY.hex(), claimed)
        expect_true(said["verdict"].startswith("entry %d: " % number) and line in (None, said["verdict"]),
                    "a refusal: " + said["verdict"])
        expect_uncommitted(browser, page, room, said, events[:number])
    said = page.call("verified", base64_of(b"".join(entries)), FIRST_KEY.hex(), commitment_of(entries))
    expect(said["uncommitted"], False, "the mark after a verdict that is good")
    expect_verdict_alone_reported(browser, page, room, entries)
    page.run("seen('commitment').value = '%s'" % word_of(0, bytes(32)))
    expect(page.call("pressed", "export")["verdict"], "entry 0: 45 ReadFault", "a file that is gone, as an empty log")
    page.run("seen('key').value = ''")
    page.call("pressed", "export")
    expect(page.run("seen('export-report').checkVisibility()"), False, "a report of nothing")
    return "5 refused exports"


def expect_uncommitted(browser, page, room, said, events):
    """These events are shown, saved and reported as under no commitment."""
    expect((said["rows"], said["uncommitted"], said["style"]),
           ([row_of(at, *event) for at, event in enumerate(events)], True, "bad"), "the entries before a fault")
    expect_true("under no commitment" in page.run("seen('uncommitted').textContent"), "the mark's words")
    page.run("document.querySelector('#rows button').click(), rest()")
    expect(page.run("[seen('event-proof').disabled, seen('event-picture').checkVisibility()]"), [True, False],
           "the proof of an entry under no commitment")
    lines = saved_lines(browser, page, room)
    expect((lines[0]["verdict"], lines[0]["under_commitment"]), (said["verdict"], False),
           "the first line of a refused export")
    expect([line["text"].encode() for line in lines[1:]], [payload for _, payload in events],
           "the lines of a refused export")
    again = opened_report(browser, page, room)
    expect_true("under no commitment" in again.run("document.body.innerText")
                and len(again.run("reported()")) == len(events), "a report of a refused export")


def expect_verdict_alone_reported(browser, page, room, entries):
    """An export that is refused at its first entry, or can't be read, has a report of the verdict alone."""
    gone = os.path.join(room, "events.export")
    for what, verdict in [("damage", "entry 0: 42 BadLink"), ("a file that is gone", "entry 0: 45 ReadFault")]:
        write(gone, b"".join(entries[1:]))
        page.set_file("#export-file", gone)
        if verdict.endswith("ReadFault"):
            os.remove(gone)
        said = page.call("pressed", "export")
        seen = page.run("[seen('events').checkVisibility(), seen('export-report').checkVisibility()]")
        expect((said["verdict"], seen), (verdict, [False, True]), "after " + what)
        expect([line["verdict"] for line in saved_lines(browser, page, room)], [verdict], "lines after " + what)
        again = opened_report(browser, page, room)
        expect_true(said["headline"] in again.run("document.body.innerText")
                    and again.run("document.querySelectorAll('table').length") == 0, "a report after " + what)


ATTEMPTS = r"""
window.refused = 0;
document.addEventListener("securitypolicyviolation", () => refused++);
window.attempt = async url => {
  const make = (name, values, where = document.body) => where.append(Object.assign(document.createElement(name), values));
  const work = `fetch("${url}worker").catch(() => 0); try { importScripts("${url}import") } catch {} new WebSocket("${url}ws".replace("http", "ws"));`;
  for (const deed of [
    () => fetch(url + "fetch", {mode: "no-cors"}).catch(() => 0),
    () => { const request = new XMLHttpRequest(); request.open("POST", url + "xhr"); request.send("x"); },
    () => new WebSocket(url.replace("http", "ws") + "socket"),
    () => new EventSource(url + "events"),
    () => navigator.sendBeacon(url + "beacon", "x"),
    () => new Worker(URL.createObjectURL(new Blob([work]))),
    () => new Worker(url + "worker.js"),
    () => import(url + "module.js").catch(() => 0),
    () => make("img", {src: url + "img"}),
    () => make("script", {src: url + "script"}),
    () => make("link", {rel: "stylesheet", href: url + "style"}, document.head),
    () => make("link", {rel: "prefetch", href: url + "prefetch"}, document.head),
    () => make("iframe", {src: url + "frame"}),
    () => make("video", {src: url + "video"}),
    () => make("object", {data: url + "object"}),
    () => make("style", {textContent: `body { background: url("${url}css") }`}, document.head),
    () => { document.body.style.backgroundImage = `url("${url}inline")`; },
    () => make("script", {textContent: `new Image().src = "${url}inserted"`}),
    () => { make("form", {action: url + "form", method: "post", id: "sent"}); document.getElementById("sent").submit(); },
  ]) {
    try { await deed(); } catch { }
  }
  await new Promise(resolve => setTimeout(resolve, 1500));
};
"""


def test_connections(browser, room):
    """The policy blocks every connection that a script in the page tries; without the policy the same ones succeed."""
    asked = []

    class Server(http.server.BaseHTTPRequestHandler):
        def do_GET(self):
            asked.append(self.path)
            self.send_response(204)
            self.end_headers()
        do_POST = do_GET

        def log_message(self, *words):
            pass
    server = http.server.ThreadingHTTPServer(("127.0.0.1", 0), Server)
    threading.Thread(target=server.serve_forever, daemon=True).start()
    address = "http://127.0.0.1:%d/" % server.server_port
    try:
        page = Page(browser, PAGE)
        page.run(ATTEMPTS)
        page.call("attempt", address)
        expect(asked, [], "connections that left the page")
        refused = page.run("refused")
        expect_true(refused >= 10, "the policy refused %d connections only" % refused)
        with open(PAGE, encoding="ascii") as file:
            bare = re.sub("<meta http-equiv=[^\n]*\n", "", file.read(), count=1)
        path = os.path.join(room, "bare.html")
        with open(path, "w", encoding="ascii") as file:
            file.write(bare)
        page = Page(browser, path)
        page.run(ATTEMPTS)
        try:
            page.call("attempt", address)
        except Wrong:
            pass  # the form was submitted, and the page is gone
        expect_true(len(set(asked)) >= 10, "without the policy only these connections arrive: %s" % sorted(set(asked)))
    finally:
        server.shutdown()
    return "%d connections refused" % refused
