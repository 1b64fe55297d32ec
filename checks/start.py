"""Starts an executable under difficult conditions. With less and less memory, until it can't be loaded at all, it must
do its work or report the lack of memory. A program path that isn't text must not be a fault.

usage: bin/check start EXECUTABLE
"""
import os
import shutil

from checks.parts import program
from checks.parts.files import folder_of_its_own
from checks.parts.limits import MOST, with_limit
from checks.parts.scenes import program_of
from checks.parts.wrong import expect, expect_true

KEY_LINE = b"key %064d\n" % 0
ANSWER = 0, b"commit 0 %064d\n" % 0, b""
STEP = 4


def expect_started(found, what):
    """It did its work, or said that memory is refused."""
    if found[0] == 4:
        expect(found[2], b"audit: 12 Memory\n", "the messages " + what)
    else:
        expect(found, ANSWER, "a start " + what)


def main(words):
    program_of(words)
    refused, limit = 0, MOST
    while limit > 0:
        found = with_limit(limit, "replay", data=KEY_LINE)
        # The loader can't load the program.
        if found[0] == 127:
            break
        expect_started(found, "with %d KiB" % limit)
        refused += found[0] == 4
        limit -= STEP
    expect_true(refused > 0, "no start was refused memory, down to %d KiB" % limit)
    with folder_of_its_own("start-") as folder:
        strange = os.path.join(os.fsencode(folder), b"au\xffdit")
        shutil.copy(program.PATH, strange)
        expect_started(program.whole("replay", data=KEY_LINE, path=strange), "by a path that is no text")
    return 0
