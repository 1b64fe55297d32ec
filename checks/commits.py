"""The messages of the commits that came after this check did: each subject begins with the part that changed (`Store:
..`) and has at most 100 characters, and a body follows after an empty line (CONTRIBUTING.md, "The commit message").

usage: bin/check commits

It is left out where there is no history to read.
"""
import re
import subprocess

from checks.parts.places import TOP
from checks.parts.wrong import LeftOut, Usage

BEFORE = "d6aa6b35ebb2"


def git(*words):
    return subprocess.run(["git", "-C", TOP, *words], stdout=subprocess.PIPE, stderr=subprocess.DEVNULL)


def faults(commit, subject, body):
    if not re.match("[A-Z][A-Za-z ]*: .", subject):
        yield "%s: its subject names no part: %s" % (commit, subject)
    if len(subject) > 100:
        yield "%s: its subject has %d characters: %s" % (commit, len(subject), subject)
    if not body.strip():
        yield "%s: no body: %s" % (commit, subject)


def main(words):
    if words:
        raise Usage
    if git("merge-base", "--is-ancestor", BEFORE, "HEAD").returncode:
        raise LeftOut("the history isn't here")
    log = git("log", "--no-merges", "--format=%h%x09%s%x09%b%x1e", BEFORE + "..HEAD").stdout.decode(errors="replace")
    found = [fault for message in log.split("\x1e") if message.strip()
             for fault in faults(*message.lstrip("\n").split("\t", 2))]
    print("".join(fault + "\n" for fault in found), end="")
    return 1 if found else 0
