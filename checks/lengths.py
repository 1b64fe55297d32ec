"""What is to be read is short: the pages have at most 20,000 words in all, each function in Python at most 40 lines.

usage: bin/check lengths

Pages are the documents at the top and in docs/, tables and code blocks included, but for records: CHANGELOG.md and
docs/DECISIONS.md. Functions are those of all files in Python that git knows, programs without an ending too; their
decorators count.
"""
import ast
import glob
import os
import subprocess

from checks.parts.files import read, read_text
from checks.parts.places import TOP, at_top
from checks.parts.wrong import Usage

WORDS, LINES = 20000, 40
RECORDS = "CHANGELOG.md", os.path.join("docs", "DECISIONS.md")


def pages():
    found = glob.glob("*.md", root_dir=TOP) + glob.glob(os.path.join("docs", "*.md"), root_dir=TOP)
    return sorted(page for page in found if page not in RECORDS)


def faults_of_pages():
    words = {page: len(read_text(at_top(page)).split()) for page in pages()}
    if sum(words.values()) > WORDS:
        yield "the pages have %d words, and not at most %d: say each thing once" % (sum(words.values()), WORDS)
        yield from ("%6d %s" % (count, page) for page, count in sorted(words.items(), key=lambda item: -item[1]))


def programs():
    """The files in Python; without git, those that it would know are all that there are."""
    listed = subprocess.run(["git", "ls-files"], cwd=TOP, stdout=subprocess.PIPE, stderr=subprocess.DEVNULL)
    names = listed.stdout.decode().splitlines() or [
        os.path.relpath(os.path.join(folder, name), TOP) for folder, _, found in os.walk(TOP) for name in found
        if "/out" not in folder and "/.git" not in folder]
    for name in sorted(names):
        if os.path.isfile(at_top(name)) and (name.endswith(".py") or is_program(read(at_top(name)))):
            yield name


def is_program(data):
    """Whether a file without an ending is in Python, by its first line."""
    first = data.partition(b"\n")[0]
    return first.startswith(b"#!") and b"python" in first


def faults_of_functions(name):
    for node in ast.walk(ast.parse(read(at_top(name)), name)):
        if isinstance(node, (ast.FunctionDef, ast.AsyncFunctionDef)):
            begun = min([node.lineno] + [each.lineno for each in node.decorator_list])
            lines = node.end_lineno - begun + 1
            if lines > LINES:
                yield "%s:%d: %s has %d lines, and not at most %d" % (name, begun, node.name, lines, LINES)


def main(words):
    if words:
        raise Usage
    found = list(faults_of_pages()) + [fault for name in programs() for fault in faults_of_functions(name)]
    print("".join(line + "\n" for line in found), end="")
    return 1 if found else 0
