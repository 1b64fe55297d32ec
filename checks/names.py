"""Each name between backticks in the documents about the code is in the code.

usage: bin/check names [PAGE ..]

The pages are those of docs/ about the code, and PROMISES.md of each crate, unless others are given. A crate must have
a folder in crates/, a function of the library for C be in the code. A path must exist, relative to the top or to a
crate's folder. Each word of any other name must be in the code, outside of comments, or name an edit. `bin/check NAME`
and `bin/bench NAME` must be in their lists. Other names with a space, and code blocks, are ignored. What isn't there is
printed with its page and line.
"""
import glob
import os
import re

from checks.parts.places import TOP
from checks.table import BENCHES, CHECKS

PAGES = ["docs/%s.md" % name for name in (
    "guarantees", "statement", "architecture", "comparison", "controls", "sizing")]
PAGES += ["crates/README.md"]
PAGES += sorted(os.path.relpath(path, TOP) for path in glob.glob(os.path.join(TOP, "crates", "*", "PROMISES.md")))
# What begins a comment, by the folder.
SOURCES = {
    ("crates/*/src/**/*.rt", "crates/*/specs/**/*.antt"): re.compile(r"^ *(//|--)"),
    ("crates/**/*.edit", "attacks/**/*.edit"): None,
    ("bin/*", "checks/**/*", "tools/*", "packaging/**/*", "auditor/*", "examples/*"): re.compile(r"^ *#"),
}
WORD = re.compile(r"[A-Za-z0-9_]+", re.ASCII)


def lines_of(path):
    with open(path, encoding="utf-8", errors="replace") as file:
        return file.read().splitlines()


def words_of_code():
    """The words of the code, and of the names of edits."""
    found = set()
    for patterns, comment in SOURCES.items():
        for path in (path for pattern in patterns for path in glob.glob(os.path.join(TOP, pattern), recursive=True)):
            if not os.path.isfile(path) or "/out/" in path or "/__pycache__/" in path:
                continue
            if path.endswith(".edit"):
                found.update(WORD.findall(os.path.basename(path)))
            for line in lines_of(path):
                if not comment or not comment.match(line):
                    found.update(WORD.findall(line))
    return found


def names_in(page):
    """The places and names of a page; an empty name for a backtick without a partner on its line."""
    is_fenced = False
    for number, line in enumerate(lines_of(os.path.join(TOP, page)), 1):
        if re.match(" *```", line):
            is_fenced = not is_fenced
        elif not is_fenced:
            place, parts = "%s:%d" % (page, number), line.split("`")
            if len(parts) % 2 == 0:
                yield place, ""
            for name in parts[1:-1:2]:
                yield place, name


def is_there(name, words):
    for command, entries in ("bin/check", CHECKS), ("bin/bench", BENCHES):
        if name.startswith(command + " "):
            return name.split()[1].startswith("-") or name.split()[1] in entries
    if " " in name:
        return True
    if re.fullmatch("audit_[a-z0-9_]*", name):
        # A crate, or a function of the library for C.
        return os.path.isdir(os.path.join(TOP, "crates", name)) or name.startswith("audit_store_") and name in words
    if os.path.exists(os.path.join(TOP, name)):
        return True
    if "/" in name and not re.match("audit_.*[^a-z0-9_]", name):
        return bool(glob.glob(os.path.join(TOP, "crates", "*", glob.escape(name))))
    return set(WORD.findall(name)) <= words


def main(words):
    code = words_of_code()
    missing = sorted({"%s %s" % (place, name or "a backtick without a partner on its line")
                      for page in words or PAGES for place,
                      name in names_in(page) if not name or not is_there(name, code)})
    print("".join(line + "\n" for line in missing), end="")
    return 1 if missing else 0
