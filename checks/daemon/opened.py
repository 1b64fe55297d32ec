"""The receipts of a run that `audit send` keeps, one for each event: the key opens the event's inclusion proof to what
was sent, as the program, auditor/check_proof.py and the page say."""
import contextlib
import io
import itertools
import re

import check_proof
from checks.daemon.common import OWN, Daemon, sectors_for, sources_at
from checks.daemon.receipts import appending_others
from checks.page.browsers import Browser, Page, chromium
from checks.page.drawn import base64_of
from checks.page.files import PAGE
from checks.page.receipts import expect_read
from checks.parts.clients import in_process
from checks.parts.files import read
from checks.parts.frames import MAX_PLACED
from checks.parts.scenes import scene
from checks.parts.wrong import LeftOut, expect
from read_export import event_line

# Lines of a run, some of which are texts that aren't bound to their keys, or no texts.
TEXTS = (b"", b"a", b"fifteen bytes..", b"sixteen bytes ok", b"paid 250.00 EUR by order %d, approved by two",
         b"\0\xff\r \x1b[2J", "caf\u00e9 \u202e twice, and a tab\t, %d".encode(), b"x" * 1000)


def lines_of(count):
    """So many lines of each text, and one of the longest."""
    drawn = itertools.islice(itertools.cycle(TEXTS), count - 1)
    return [text.replace(b"%d", b"%d" % number) for number, text in enumerate(drawn)] + [b"l" * MAX_PLACED]


class Receipts:
    """A run beside a client with events of another kind: the log's commitment, and of each event its index, its
    payload, the key of its receipt, and its inclusion proof in a file."""

    def __init__(self, room, count):
        store, payloads = room.store("store", sectors=sectors_for(100_000)), lines_of(count)
        words, (path,) = sources_at(room, OWN)
        daemon = Daemon(room, store, *words)
        with in_process(appending_others, daemon.socket):
            room.done("send", path, "--text", str(OWN), "--placed", "--receipts", room.path("receipts"),
                      given=b"".join(payload + b"\n" for payload in payloads))
        head, root = room.done("ask", path, "commitment").split()[1:]
        self.commitment = b"%s:%s" % (head, root)
        keys = re.findall(rb"^key (\d+) ([0-9a-f]{64})$", read(room.path("receipts")), re.MULTILINE)
        expect(len(keys), count, "the receipts of a run")
        self.each = [(int(index), payload, key.decode(), room.path("proof%d" % int(index)))
                     for (index, key), payload in zip(keys, payloads)]
        for index, _, _, proof in self.each:
            room.done("ask", path, "member", str(index), head.decode(), proof)
        self.commitment = self.commitment.decode()
        daemon.stopped_well()


def said_by_auditor(*words):
    """Status, output and messages of auditor/check_proof.py."""
    output, messages = io.StringIO(), io.StringIO()
    with contextlib.redirect_stdout(output), contextlib.redirect_stderr(messages):
        status = check_proof.main(list(words))
    return status, output.getvalue().encode(), messages.getvalue().encode().replace(b"check_proof: ", b"audit: ")


@scene
def receipts_are_opened_by_two_programs(room):
    """The program and the auditor's print each event of a run, and warn of the same texts."""
    receipts = Receipts(room, room.tries(41))
    for index, payload, key, proof in receipts.each:
        warning = b"audit: %s\n" % (check_proof.UNBOUND % 16).encode() if 0 < len(payload) < 16 else b""
        wanted = 0, event_line(index, OWN, payload).encode() + b"\n", warning
        words = proof, receipts.commitment, "--key", key
        expect(room.whole("check", *words), wanted, "what the program says of receipt %d" % index)
        expect(said_by_auditor(*words), wanted, "what check_proof.py says of receipt %d" % index)


@scene
def receipts_are_opened_on_the_page(room):
    """The auditor's page shows each event of a run, and says of the same texts that they aren't bound to their keys."""
    path = chromium()
    if path is None:
        raise LeftOut("there is no Chromium")
    receipts = Receipts(room, room.tries(25))
    browser = Browser(path)
    try:
        page = Page(browser, PAGE)
        page.run("seen('tab-proof').click()")
        for index, payload, key, proof in receipts.each:
            said = page.call("checked", base64_of(read(proof)), receipts.commitment, "", key)
            expect_read(said, payload, "what the page says of receipt %d" % index)
    finally:
        browser.close()
