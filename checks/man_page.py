"""groff formats the man page docs/audit.1, and has nothing to say of it.

usage: bin/check man-page
"""
import os
import subprocess

from checks.parts.places import DOCS
from checks.parts.tools import needs
from checks.parts.wrong import Usage, expect


def main(words):
    if words:
        raise Usage
    needs("groff")
    ended = subprocess.run(["groff", "-man", "-ww", "-z", os.path.join(DOCS, "audit.1")], capture_output=True)
    expect((ended.returncode, ended.stdout + ended.stderr), (0, b""), "what groff says of docs/audit.1")
    return 0
