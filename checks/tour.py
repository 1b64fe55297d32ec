"""Runs the tour with an executable, and says how it differs from examples/tour.txt: commands and outputs must be the same,
in the same order, except for digests. Then the auditor's programs are compared with the executable on the files that
the tour left.

usage: bin/check tour EXECUTABLE
"""
import difflib
import os
import re
import subprocess

from checks import auditor
from checks.parts import program
from checks.parts.files import folder_of_its_own, read_text
from checks.parts.places import EXAMPLES
from checks.parts.scenes import program_of
from checks.parts.wrong import expect, expect_true

TOUR = os.path.join(EXAMPLES, "tour")


def run(*words):
    return subprocess.run([TOUR, "-p", program.PATH, *words], stdin=subprocess.DEVNULL, stdout=subprocess.PIPE,
                          stderr=subprocess.STDOUT, timeout=program.SECONDS)


def expect_name_escaped():
    said = run(b"no\x1b[2J\xe2\x80\xae").stdout
    expect(said, b"examples/tour: no\\x1b[2J\\u202e isn't a readable log of 8 lines or more\n", "the name of a log")


def steps_in(text):
    """The lines of commands and outputs, with a word for each digest."""
    lines = [line for line in text.splitlines() if line and not line.startswith("#")]
    return [re.sub("[0-9a-f]{64}", "ROOT", line) for line in lines]


def document():
    """The steps as the transcript has them."""
    return steps_in(read_text(os.path.join(EXAMPLES, "tour.txt")))


def expect_documented():
    printed = run("-d", "tour", os.path.join(EXAMPLES, "packages.log"))
    text = printed.stdout.decode(errors="replace")
    expect(printed.returncode, 0, "the tour's status: .. %s" % " ".join(text.splitlines()[-3:]))
    # Its last line sums up the results.
    differences = [line for line in difflib.ndiff(document(), steps_in(text)[:-1]) if line[:1] in "-+"]
    expect_true(not differences, "examples/tour.txt and the tour differ: %s" % "\n".join(differences[:3]))


def main(words):
    program_of(words)
    with folder_of_its_own("tour-"):
        expect_name_escaped()
        expect_documented()
        return auditor.compare_folder("tour")
