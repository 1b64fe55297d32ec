"""The page as a file: its size, its parts, and the hashes of its policy."""
import base64
import hashlib
import os
import re

from checks.parts.places import AUDITOR
from checks.parts.wrong import expect, expect_true

PAGE = os.path.join(AUDITOR, "verify.html")
VERDICTS = os.path.join(AUDITOR, "page.verdicts")
MAX_BYTES = 100000
FORBIDDEN = re.compile(r"https?:|\bsrc=|\bhref=|<link|<iframe|@import|url\(|innerHTML|outerHTML|insertAdjacent"
                       r"|document\.write")


def hash_of(text):
    return "sha256-" + base64.b64encode(hashlib.sha256(text.encode()).digest()).decode()


def parts_of(page):
    """The contents of the page's one style and one script."""
    style, = re.findall("^<style>(.*?)^</style>", page, re.DOTALL | re.MULTILINE)
    script, = re.findall('^<script id="program">(.*?)^</script>', page, re.DOTALL | re.MULTILINE)
    return style, script


def write_policy():
    with open(PAGE, encoding="ascii") as file:
        page = file.read()
    style, script = parts_of(page)
    page = re.sub("script-src '[^']*'", lambda _: "script-src '%s'" % hash_of(script), page, count=1)
    page = re.sub("style-src '[^']*'", lambda _: "style-src '%s'" % hash_of(style), page, count=1)
    with open(PAGE, "w", encoding="ascii") as file:
        file.write(page)


def test_file():
    """The page's size and its policy; and that it refers to nothing outside."""
    with open(PAGE, encoding="ascii") as file:
        page = file.read()
    expect_true(len(page) <= MAX_BYTES, "verify.html has %d bytes, more than %d" % (len(page), MAX_BYTES))
    style, script = parts_of(page)
    policy = re.search('<meta http-equiv="Content-Security-Policy" content="([^"]*)">', page)[1].split("; ")
    expect(policy, ["default-src 'none'", "script-src '%s'" % hash_of(script), "worker-src blob:",
                    "style-src '%s'" % hash_of(style),
                    "connect-src 'none'", "form-action 'none'", "base-uri 'none'"],
           "the policy (bin/check page --policy writes it)")
    found = FORBIDDEN.findall(page.replace("http://www.w3.org/2000/svg", ""))
    expect(found, [], "what the page may not have")
