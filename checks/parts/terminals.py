"""Terminals, and what programs print there."""
import contextlib
import os
import pty
import subprocess
import threading
import tty

from checks.parts import program
from checks.parts.wrong import expect


def read_to_end(descriptor):
    """All that comes from a descriptor. A terminal whose other end is closed is a fault."""
    pieces = []
    with contextlib.suppress(OSError):
        while True:
            piece = os.read(descriptor, 4096)
            if not piece:
                break
            pieces.append(piece)
    return b"".join(pieces)


def read_beside(ours, theirs):
    """Closes the other end, and reads what comes from this one in a thread: the pieces, and the thread."""
    os.close(theirs)
    pieces = []

    def read_all():
        pieces.append(read_to_end(ours))
        os.close(ours)

    reader = threading.Thread(target=read_all)
    reader.start()
    return pieces, reader


def printed_on_terminal(*words):
    """What a command prints to a terminal as its standard output."""
    ours, theirs = pty.openpty()
    try:
        tty.setraw(theirs)
        begun = subprocess.Popen([program.PATH, *words], stdin=subprocess.DEVNULL, stdout=theirs,
                                 stderr=subprocess.DEVNULL)
        os.close(theirs)
        found = read_to_end(ours)
        expect(begun.wait(program.SECONDS), 0, " ".join(words))
        return found
    finally:
        os.close(ours)


def said_on_terminal(executable, folder, *words):
    """Status, output and messages of a command whose standard error is a terminal."""
    ours, theirs = pty.openpty()
    try:
        begun = subprocess.Popen([executable, *words], stdin=subprocess.DEVNULL, stdout=subprocess.PIPE, stderr=theirs,
                                 cwd=folder)
        os.close(theirs)
        output, _ = begun.communicate(timeout=program.SECONDS)
        return begun.returncode, output, read_to_end(ours)
    finally:
        os.close(ours)
