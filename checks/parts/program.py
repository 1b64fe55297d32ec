"""The program under test: its command lines, and what they answer. Status, standard output and standard error of a
command are compared as a triple."""
import os
import re
import subprocess

from checks.parts.wrong import Wrong, expect, expect_true

# How long a command may take.
SECONDS = 120
BAD_ARGUMENT = (2, b"", b"audit: bad argument\n")
FILE_EXISTS = (1, b"", b"audit: file exists\n")
FILE_FAULT = (3, b"", b"audit: file fault\n")
IN_USE = (3, b"", b"audit: store in use\n")
BAD_REPLY = (1, b"", b"audit: bad reply\n")
ENDED = (3, b"", b"audit: connection ended\n")
TOO_LATE = (3, b"", b"audit: no reply in time\n")
NOT_ACCEPTED = (1, b"not accepted\n", b"")
STORE_REPLACED = b"audit: store replaced\n"
# The commands that name the cause of these messages in a last line, also without a terminal.
EXPLAINED = ("ask", "send", "watch", "read", "stop", "serve", "daemon", "loop", "rotate")
CAUSED = [IN_USE[2], FILE_FAULT[2], FILE_EXISTS[2], BAD_ARGUMENT[2], ENDED[2], TOO_LATE[2], b"audit: 14 BadSize\n",
          b"audit: 8 NoSuchVersion\n", b"audit: 16 NotAllowed\n"]

# The executable, and whether the long form of the check was asked for.
PATH = None
LONG = False


def use(path, is_long=False):
    """From now on this is the program under test."""
    global PATH, LONG
    PATH, LONG = os.path.abspath(path), is_long
    if not os.access(PATH, os.X_OK) or os.path.isdir(PATH):
        raise Wrong("there is no such executable: " + path)
    # An executable that bin/try compiled must reuse released stack and heap memory, as any other program does.
    # Otherwise the sanitizer keeps it aside, to find uses after release.
    os.environ["ASAN_OPTIONS"] = ("detect_stack_use_after_return=0:quarantine_size_mb=0:"
                                  "thread_local_quarantine_size_kb=0")
    # What the program makes must not depend on who runs this.
    os.umask(0o022)


def is_unproved():
    """Whether it was compiled by bin/try."""
    return "/out/try/" in PATH


def is_by_rattle():
    """Whether it was compiled by the toolchain's own compiler."""
    return PATH.endswith(".by-rattle")


def whole(*words, data=b"", stdout=subprocess.PIPE, path=None, seconds=SECONDS, **how):
    """Status, standard output and standard error of a command line."""
    done = subprocess.run([path or PATH, *words], input=data, stdout=stdout, stderr=subprocess.PIPE, timeout=seconds,
                          **how)
    return done.returncode, done.stdout or b"", done.stderr


def without_cause(words, messages):
    """The messages of a command, without the line that names the cause if it always has to be there."""
    lines = messages.splitlines(keepends=True)
    if words[0] not in EXPLAINED or "--explain" in words or not lines or lines[0] not in CAUSED:
        return messages
    has_cause = len(lines) > 1 and re.match(b"audit: .+: ..+\n", lines[-1])
    expect_true(has_cause, "%s: no cause: %r" % (" ".join(words), messages))
    return b"".join(lines[:-1])


def run(*words, **how):
    """The same without the line that names a cause and always has to be there."""
    status, out, err = whole(*words, **how)
    return status, out, without_cause(words, err)


def done_with(messages, *words, **how):
    """What a command prints that ends well with these messages."""
    status, out, err = run(*words, **how)
    expect((status, err), (0, messages), " ".join(words))
    return out


def done(*words, **how):
    """What a command prints that ends well without a message."""
    return done_with(b"", *words, **how)
