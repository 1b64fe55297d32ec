"""Every edit of must-fail/ and attacks/ can be applied: the text of each line `old:` is exactly once in the file that
the line `file:` before it names, and its line `new:` has another. After `file:` no line is anything else but a comment,
since rt reads no other: a text of two lines would lose its second one. bin/attack alone would show it for those of
attacks/.

usage: bin/check edits
"""
import functools
import glob
import os

from checks.parts.files import read_text
from checks.parts.places import CRATES, TOP
from checks.parts.wrong import Usage


COMMENTS = "#", "--", "//"


@functools.lru_cache(maxsize=None)
def contents(path):
    return read_text(path) if os.path.exists(path) else ""


def faults(edit):
    file, text, old = None, "", None
    # The crate is the folder below crates/ or attacks/.
    crate = os.path.relpath(edit, TOP).split(os.sep)[1]
    for line in read_text(edit).splitlines():
        if line.startswith("file: "):
            file = os.path.join(CRATES, crate, line[6:])
            text = contents(file)
        elif line.startswith("old: "):
            old = line[5:]
            if text.count(old) != 1:
                yield "%d times in %s: %s" % (text.count(old), os.path.relpath(file or TOP, TOP), old)
                old = None
        elif line.startswith("new:"):
            if old == line[5:]:
                yield "it changes nothing: %s" % old
            text, old = text.replace(old, line[5:]) if old is not None else text, None
        elif file is not None and line.strip() and not line.startswith(COMMENTS):
            yield "a line that isn't read: %s" % line
    if file is None:
        yield "no file"


def main(words):
    if words:
        raise Usage
    patterns = os.path.join(CRATES, "*", "must-fail", "*.edit"), os.path.join(TOP, "attacks", "*", "*.edit")
    edits = sorted(edit for pattern in patterns for edit in glob.glob(pattern))
    found = ["%s: %s" % (os.path.relpath(edit, TOP), fault) for edit in edits for fault in faults(edit)]
    print("".join(line + "\n" for line in found), end="")
    return 1 if found else 0
