"""Every word has one meaning: the specs of two crates don't define the same name. And specs have definitions: only
files of laws, named so, call a tactic.

usage: bin/check words
"""
import glob
import os
import re

from checks.parts.files import read_text
from checks.parts.places import CRATES, TOP
from checks.parts.wrong import Usage

# A definition starts its line. In a module with parameters it is indented, and has a keyword, unlike a member.
DEFINITION = re.compile(r"(?:(?:abbrev |unfoldable )?pub |\s+(?:abbrev |unfoldable )pub |\s+pub (?=record |data ))"
                        r"(?:record |data )?(\S+)")


TACTIC = re.compile(r"(?<![\w-])(?:omega|simp|grind|cc)(?= )")


def lines_of_specs():
    """Each line of the specs of all crates: its crate, its file and number, and its text."""
    for path in sorted(glob.glob(os.path.join(CRATES, "*", "specs", "**", "*.antt"), recursive=True)):
        crate = os.path.relpath(path, CRATES).split(os.sep)[0]
        for number, line in enumerate(read_text(path).splitlines(), 1):
            yield crate, "%s:%d" % (os.path.relpath(path, TOP), number), line


def faults():
    homes = {}
    for crate, place, line in lines_of_specs():
        if not line.strip().startswith("--") and TACTIC.search(line) and "Laws.antt:" not in place:
            yield "%s calls a tactic, as files of laws may" % place
        name = DEFINITION.match(line)
        if name and name[1] not in ("use", "mod"):
            home, first = homes.setdefault(name[1], (crate, place))
            if home != crate:
                yield "%s: %s and %s" % (name[1], first, place)


def main(words):
    if words:
        raise Usage
    found = list(faults())
    print("".join(line + "\n" for line in found), end="")
    return 1 if found else 0
