"""docs/statement.md names only definitions that the functions of its code block cite, and states how many lines there
are: at most 700, contracts included, and 130 definitions. All five promises have at most 2,600 lines.

usage: bin/check statement
"""
import re
import subprocess
import sys

from checks.parts.places import at_top
from checks.parts.wrong import Usage, expect, expect_true

LINES, DEFINITIONS = 700, 130
ALL_LINES = 2600


def counts_of(word):
    """How many lines of contracts and of definitions are printed with this word, and how many definitions."""
    ended = subprocess.run([sys.executable, at_top("bin", "statement"), word], stdout=subprocess.PIPE,
                           stderr=subprocess.PIPE)
    expect((ended.returncode, ended.stderr), (0, b""), "bin/statement " + word)
    return tuple(map(int, re.findall(r"\d+", ended.stdout.decode().splitlines()[-1])))


def main(words):
    if words:
        raise Usage
    contracts, lines, definitions = counts_of("--page")
    expect_true(contracts + lines <= LINES and definitions <= DEFINITIONS,
                "the statement has %d lines of %d definitions, and not at most %d of %d"
                % (contracts + lines, definitions, LINES, DEFINITIONS))
    contracts, lines, _ = counts_of("--counts")
    expect_true(contracts + lines <= ALL_LINES,
                "the five promises have %d lines, and not at most %d" % (contracts + lines, ALL_LINES))
    return 0
