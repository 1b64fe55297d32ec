"""A million events, and entries that end where a part of the file does."""
import hashlib
import hmac
import os
import re
import time

import history
from checks.page.browsers import Page
from checks.page.drawn import word_of
from checks.page.files import PAGE
from checks.parts.rooms import FIRST_KEY
from checks.parts.wrong import expect, expect_true


def make_million(path, number):
    """An export of that many events with ciphers of 128 bytes, whatever their payloads are: no keystream is needed to
    seal them."""
    pattern = hashlib.sha256(b"cipher").digest() * 4
    return make_export(path, (at.to_bytes(8, "big") + pattern[8:] for at in range(number)))


def make_export(path, ciphers):
    """An export with these ciphers, and its commitment."""
    key, link, leaves = FIRST_KEY, bytes(32), []
    with open(path, "wb") as file:
        for at, cipher in enumerate(ciphers):
            kind = (at % 5).to_bytes(4, "big")
            link = hashlib.sha256(link + cipher + kind).digest()
            entry = kind + len(cipher).to_bytes(4, "big") + cipher + link + hmac.digest(key, link, "sha256")
            file.write(entry)
            leaves.append(hashlib.sha256(b"\0" + entry).digest())
            key = hashlib.sha256(b"Increment Hash" + key).digest()
    return word_of(len(leaves), history.root(leaves))


WEBCRYPTO = r"""
(async number => {
  const event = new Uint8Array(201), key = event.slice(0, 32), hash = {name: "HMAC", hash: "SHA-256"}, start = performance.now();
  for (let i = 0; i < number; i++) {
    await crypto.subtle.digest("SHA-256", event.subarray(0, 164));
    await crypto.subtle.sign("HMAC", await crypto.subtle.importKey("raw", key, hash, false, ["sign"]), key);
    await crypto.subtle.digest("SHA-256", event.subarray(0, 46));
    await crypto.subtle.digest("SHA-256", event);
    await crypto.subtle.digest("SHA-256", event.subarray(0, 65));
  }
  return number / (performance.now() - start) * 1000;
})(2000)
"""


def renderers(browser):
    """Resident memory in MB and processor seconds of the browser's pages, by process."""
    found = {}
    for name in os.listdir("/proc"):
        try:
            with open("/proc/%s/cmdline" % name) as file:
                words = file.read()
            if not name.isdigit() or browser.home not in words or "--type=renderer" not in words:
                continue
            with open("/proc/%s/status" % name) as file:
                status = file.read()
            with open("/proc/%s/stat" % name) as file:
                fields = file.read().rsplit(")", 1)[1].split()
        except (OSError, ValueError):
            continue
        ticks = os.sysconf("SC_CLK_TCK")
        found[name] = (int(re.search(r"VmHWM:\s+(\d+)", status)[1]) / 1024, (int(fields[11]) + int(fields[12])) / ticks)
    return found


def test_million(browser, room, number=1000000):
    path = os.path.join(room, "million.export")
    claimed = make_million(path, number)
    page = Page(browser, PAGE)
    idle, other = renderers(browser), page.run(WEBCRYPTO)
    page.set_file("#export-file", path)
    page.run("seen('key').value = '%s', seen('commitment').value = '%s'" % (FIRST_KEY.hex(), claimed))
    page.run("window.longest = 0; window.before = performance.now(); setInterval(() => { const now = "
             "performance.now(); longest = Math.max(longest, now - before); before = now; }, 10); 1")
    # A verification that is stopped, and one that is started twice.
    page.run("seen('export-form').requestSubmit()")
    page.wait("seen('progress').value > 0")
    page.run("seen('stop').click()")
    page.wait("seen('export-note').textContent.startsWith('Stopped')")
    page.run("seen('export-form').requestSubmit(), seen('export-form').requestSubmit()")
    page.wait("seen('progress').value > 0.01 && !seen('work').hidden && !seen('export-verdict').textContent")
    before, start = renderers(browser), time.time()
    page.run("seen('export-form').requestSubmit()")
    page.wait("seen('progress').value < 0.01")
    seen = set()
    while page.run("seen('events').hidden && !seen('export-verdict').textContent"):
        seen.add(page.run("seen('progress').value"))
        time.sleep(0.25)
    seconds, after = time.time() - start, renderers(browser)
    expect(page.run("lineOfPanel('export')"), "verified %d open" % number, "a million events")
    with open(path, "rb") as file:
        expect(page.run("saidBy('export').inputs['SHA-256']"), hashlib.file_digest(file, "sha256").hexdigest(),
               "the hash of a million events")
    expect_true(len(seen) > 5, "the progress bar stood still")
    # The page's own process, and no spare one that started meanwhile, is the one that worked.
    used, grown = max((after[name][1] - before[name][1], after[name][0] - idle[name][0]) for name in after
                      if name in idle and name in before)
    page.run("rest()")
    page.run("seen('last').click(), rest()")
    expect(page.run("cells().length ? cells()[49][0] : ''"), str(number - 1), "the last event")
    return ("%d events in %.1f s, %d a second; %.1f s of processor, %d a second; %d MB more; the page waited %d ms at most; "
            "WebCrypto, one by one: %d events a second") % (
        number, seconds, number / seconds, used, number / used, grown, page.run("longest"), other)


def test_parts(browser, room):
    """The page reads 2^20 bytes at a time. Entries end there, at the end of a block of 64 bytes or inside of one, or
    leave so few bytes that the next one's length isn't among them. What follows is whole, or cut off."""
    page, count = Page(browser, PAGE), 0
    for left in (0, 1, 8, 63, 72):
        for tail, cut in (([], 0), ([72, 73], 0), ([72], 67)):
            judge_parts(page, os.path.join(room, "parts%d.export" % count), left, tail, cut)
            count += 1
    return "%d exports whose entries end at parts of the file" % count


def judge_parts(page, path, left, tail, cut):
    longest = 32768
    sizes = [longest] * 31 + [longest - left] + [longest] * 32 + tail
    claimed = make_export(path, (bytes([at & 255]) * (size - 72) for at, size in enumerate(sizes)))
    os.truncate(path, os.path.getsize(path) - cut)
    page.set_file("#export-file", path)
    page.run("seen('key').value = '%s', seen('commitment').value = '%s'" % (FIRST_KEY.hex(), claimed))
    page.run("pressed('export')")
    what = "an export with %d bytes before a part's end, and then %s without %d bytes" % (left, tail, cut)
    expect(page.run("lineOfPanel('export')"), "entry 64: 40 Short" if cut else "verified %d open" % len(sizes), what)
    with open(path, "rb") as file:
        expect(page.run("saidBy('export').inputs['SHA-256']"), hashlib.file_digest(file, "sha256").hexdigest(),
               "the hash of " + what)
    page.run("seen('last').click(), rest()")
    expect(page.run("cells().at(-1)[0]"), str(len(sizes) - bool(cut) - 1), "the last event of " + what)
