"""The kit with which the program is proved is the one that it names: `--version` ends with the logic of `rt version`.

usage: bin/check version EXECUTABLE
"""
import subprocess

from checks.parts.program import done
from checks.parts.scenes import program_of
from checks.parts.tools import needs
from checks.parts.wrong import expect_true


def main(words):
    program_of(words)
    needs("rt")
    logic = subprocess.run(["rt", "version"], check=True, stdout=subprocess.PIPE).stdout.split()[-1]
    named = done("--version").strip()
    expect_true(named.endswith(b" logic " + logic), "the program names %r, and not the logic %r" % (named, logic))
    return 0
