"""crates/README.md has the crates as lists, by floor, in the order of crates.txt. In parentheses are the crates
that each uses directly, without those that these already use; then the title of its doc comment (up to a full stop, a
comma or a colon).

usage: bin/check crates-table [--write | --print]

Without an option it says how the page differs. --write puts the lists between the markers of the page, --print prints
them.
"""
import difflib
import os
import re
import textwrap

from checks.parts.files import read_text, write
from checks.parts.places import CRATES, TOP
from checks.parts.wrong import Usage, Wrong

PAGE = os.path.join(CRATES, "README.md")
BEGIN = "<!-- Printed by bin/check crates-table. -->\n"
END = "<!-- The end of what bin/check crates-table prints. -->\n"
WIDTH = 118


def title_of(crate):
    """The first sentence of a crate's doc comment."""
    paths = [os.path.join(CRATES, crate, "src", name) for name in ("lib.rt", "main.rt")]
    lines = []
    for line in read_text(next(path for path in paths if os.path.exists(path))).splitlines():
        if not re.match(r"//! *\S", line):
            break
        lines.append(line[3:].strip())
    return re.split(r"[.,:](?: |$)", " ".join(lines) + " ")[0].strip()


def floors():
    """Each floor: its name, what it is, and its crates with what they use."""
    found = []
    for line in read_text(os.path.join(TOP, "crates.txt")).splitlines():
        if line.startswith("## "):
            found.append([*re.split(": *", line[3:], maxsplit=1), []])
        elif ":" in line and not line.startswith("#"):
            crate, libraries = line.split(":")
            found[-1][2].append((crate.split()[0], libraries.split()))
    return found


def item(crate, libraries):
    """An item, with line breaks before it gets too wide."""
    list_of = " (%s)" % ", ".join("`%s`" % name for name in libraries) if libraries else ""
    text = "- `%s`%s: %s" % (crate, list_of, title_of(crate))
    return "".join(line + "\n" for line in textwrap.wrap(text, WIDTH, subsequent_indent="  ", break_long_words=False,
                                                         break_on_hyphens=False))


def table():
    text, below = "", {}
    for number, (name, what, crates) in enumerate(floors()):
        text += "%s**%s**: %s.\n\n" % ("\n" if number else "", name, what)
        for crate, libraries in crates:
            # A crate indirectly uses the libraries of its libraries.
            indirect = {lower for library in libraries for lower in below.get(library, ())}
            below[crate] = indirect | set(libraries)
            text += item(crate, [library for library in libraries if library in below and library not in indirect])
    return text


def rewritten(page):
    """The page, with the lists between the markers."""
    if page.count(BEGIN) != 1 or page.count(END) != 1:
        raise Wrong("crates/README.md hasn't each of the two markers once")
    return page[:page.index(BEGIN)] + BEGIN + table() + page[page.index(END):]


def main(words):
    if words == ["--print"]:
        print(table(), end="")
        return 0
    page = read_text(PAGE)
    new = rewritten(page)
    if words == ["--write"]:
        write(PAGE, new.encode())
        return 0
    if words:
        raise Usage
    if page != new:
        lines = [line for line in difflib.ndiff(page.splitlines(), new.splitlines()) if line[:1] in "-+"]
        print("\n".join(lines))
        print("crates/README.md has other lists than crates.txt: run bin/check crates-table --write")
    return 0 if page == new else 1
