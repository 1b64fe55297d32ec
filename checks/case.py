"""Runs an executable on one case, and says how the results differ from the expected ones.

usage: bin/check case EXECUTABLE CASE

A case is a folder with `args` (one word a line), `stdin`, and the expected `stdout`, `stderr` and `status`. Each of
these three is compared if it exists. If a text comes partly from the argument parser, `stdout.lines` and `stderr.lines`
contain our parts of it, each of which must occur in some line. A case of several command lines has a `script` instead
of `args` and `stdin`. It is run in an empty folder with the executable as $audit and the repository's examples as
$examples.
"""
import os
import subprocess

from checks.parts import program
from checks.parts.files import folder_of_its_own, read
from checks.parts.places import EXAMPLES
from checks.parts.scenes import program_of
from checks.parts.wrong import Usage, Wrong, expect_true, short


def results_of(case):
    """What the case prints, and its status as a line."""
    script = os.path.join(case, "script")
    if os.path.exists(script):
        environment = dict(os.environ, audit=program.PATH, examples=EXAMPLES)
        ended = subprocess.run(["sh", script], stdin=subprocess.DEVNULL, capture_output=True, env=environment,
                               timeout=program.SECONDS)
        status, out, err = ended.returncode, ended.stdout, ended.stderr
    else:
        words = read(os.path.join(case, "args")).split(b"\n")[:-1]
        status, out, err = program.whole(*words, data=read(os.path.join(case, "stdin")))
    return {"stdout": out, "stderr": err, "status": b"%d\n" % (status if status >= 0 else 128 - status)}


def main(words):
    case, = map(os.path.abspath, program_of(words, 1)) if len(words) == 2 else [None]
    if case is None:
        raise Usage
    expect_true(os.path.isdir(case), "there is no such case: " + case)
    with folder_of_its_own("case-"):
        found = results_of(case)
    for part, text in found.items():
        wanted, lines = os.path.join(case, part), os.path.join(case, part + ".lines")
        if os.path.exists(wanted) and read(wanted) != text:
            raise Wrong("%s: %s, and not %s" % (part, short(text), short(read(wanted))))
        for line in read(lines).splitlines() if os.path.exists(lines) else []:
            expect_true(any(line in row for row in text.splitlines()), "%s lacks %r: %s" % (part, line, short(text)))
    return 0
