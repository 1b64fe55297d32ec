"""The README.md of each crate has 15 to 30 lines, names each file of src/, and names nothing that isn't there.

usage: bin/check rooms [CRATE ..]

A name in backquotes is a file of the crate or of attacks/, a crate, a check, or a word of its sources or specs.
"""
import os
import re

from checks.parts.files import read_text
from checks.parts.places import CRATES, TOP
from checks.parts.wrong import Usage
from checks.table import BENCHES, CHECKS


def uses():
    """Each crate, with the libraries that it uses."""
    lines = [line for line in read_text(os.path.join(TOP, "crates.txt")).splitlines() if ":" in line and line[0] != "#"]
    return {name.split()[0]: libraries.split() for name, libraries in (line.split(":") for line in lines)}


def sources(folder):
    """The paths of the crate's files, relative to it."""
    found = []
    for top in "src", "specs", "proofs", "must-fail":
        for root, _, names in os.walk(os.path.join(folder, top)):
            found += [os.path.relpath(os.path.join(root, name), folder) for name in names]
    return found


def faults_of_form(crate, text):
    lines = text.splitlines()
    if lines[:1] != ["# " + crate]:
        yield "doesn't begin with the crate's name"
    if not 15 <= len(lines) <= 30:
        yield "has %d lines, and not 15 to 30" % len(lines)
    yield from ("line %d is longer than 120" % number for number, line in enumerate(lines, 1) if len(line) > 120)


def is_there(name, folder, words):
    """Whether a name is a check, a file or a word."""
    for command, entries in ("bin/check ", CHECKS), ("bin/bench ", BENCHES):
        if name.startswith(command):
            return name.split()[1] in entries
    if "/" in name or name.endswith((".rt", ".antt", ".edit")):
        places = [os.path.join(folder, name), os.path.join(folder, "src", name), os.path.join(TOP, name)]
        return any(os.path.exists(place) for place in places)
    return set(re.findall(r"\w+", name)) <= words


def faults(crate, crates):
    folder = os.path.join(CRATES, crate)
    path = os.path.join(folder, "README.md")
    if not os.path.exists(path):
        yield "is missing"
        return
    text, files = read_text(path), sources(folder)
    yield from faults_of_form(crate, text)
    for name in files:
        is_named = "`%s`" % name in text or "`%s`" % name[4:] in text
        if name.startswith("src/") and name != "src/lib.rt" and not is_named:
            yield "doesn't name " + name
    words = {word for name in files if name.startswith(("src/", "specs/"))
             for word in re.findall(r"\w+", read_text(os.path.join(folder, name)))}
    for name in re.findall(r"`([^`]+)`", text):
        if name not in crates[crate] and name not in crates and not is_there(name, folder, words):
            yield "names %s, which isn't there" % name


def main(words):
    crates = uses()
    if not set(words) <= set(crates):
        raise Usage
    found = ["crates/%s/README.md %s" % (crate, fault) for crate in words or crates for fault in faults(crate, crates)]
    print("".join(line + "\n" for line in found), end="")
    return 1 if found else 0
