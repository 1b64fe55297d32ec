"""No document claims more than holds: each claim that was found too strong and is made again is printed, with what
holds.

usage: bin/check claims [FOLDER]

FOLDER is the top of a checkout; without it, this one.
"""
import glob
import os
import re

from checks.parts.files import read_text
from checks.parts.places import TOP
from checks.parts.wrong import Usage

# Claims as regular expressions, and what holds instead.
CLAIMS = {
    "(finds|has|holds) only the current key": "file systems, snapshots and flash may keep what was overwritten",
    "(proves and tests|checks) everything": "bin/check leaves attacks/ out",
    "reads in half an hour": "it took its readers longer",
    r"Everything before \*?Only tested\*? is proved": "sentences between the proved ones are only tested",
    "unless it is the store itself": "no output replaces any store",
    "go on with `?tail": "what was stored without an answer is then in the log twice",
}


def text_of(page):
    """A page as one line, since a claim may be broken anywhere, without roff's marks."""
    text = re.sub(r"\\f[A-Z]", "", read_text(page)).replace("\\-", "-")
    return " ".join(re.sub(r"(?m)^\.[BIR]* ", "", text).split())


def pages(top):
    names = ["README.md", "CONTRIBUTING.md", *sorted(glob.glob("docs/*.md", root_dir=top)), "docs/audit.1"]
    return [name for name in names if os.path.exists(os.path.join(top, name))]


def main(words):
    if len(words) > 1:
        raise Usage
    top, found = (words or [TOP])[0], False
    for page in pages(top):
        text = text_of(os.path.join(top, page))
        for claim, truth in CLAIMS.items():
            if re.search(claim, text):
                print("%s: '%s', but %s" % (page, claim, truth))
                found = True
    return 1 if found else 0
