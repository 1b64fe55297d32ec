"""Verifies an export, from a file and from a pipe, discloses events of it, searches its store with the first key, and
serves a session over lines, with less and less memory until the executable can't be loaded. Then it asks a store of more
than 2^20 events, with little more than its index takes.

usage: bin/check memory EXECUTABLE

Each answer must be the same as with enough memory, or the refusal of memory, alone or with the number of valid entries:
the last event is long, so that its entry asks for more than those before it. A refused session must leave no socket.
The large store is left out for an executable of the toolchain's own compiler or of bin/try, whose SHA-256 is ten times
slower.
"""
import os
import re
import subprocess
import tempfile

from checks.parts import program
from checks.parts.daemons import commitment_of
from checks.parts.files import folder_of_its_own, read, write
from checks.parts.limits import downwards, with_limit
from checks.parts.logs import event_lines
from checks.parts.places import KEY
from checks.parts.program import done
from checks.parts.rooms import with_data_limit
from checks.parts.scenes import program_of
from checks.parts.wrong import expect, expect_true

COUNT = 2001
STEP = 8
REFUSED = rb"audit: (entry [0-9]+: )?12 Memory\n"
# A million events take 78 bytes each: KiB of heap for a question, and for one more event.
LARGE, ASKING, APPENDING = 1048579, 90000, 260000
# What is asked of the commitment of an empty store, and answered.
QUESTIONS = 700


def expect_answer(found, wanted, what):
    """It is the answer, or the refusal of memory. Returns the status."""
    if found[0] == 4:
        expect_true(re.fullmatch(REFUSED, found[2]), "the messages %s: %r" % (what, found[2]))
    else:
        expect(found, (0, wanted, b""), "the answer " + what)
    return found[0]


def verify_with_less():
    done("format", "store", "2200", KEY)
    done("append", "store", data=event_lines([b"hi"] * (COUNT - 1)) + b"event 1 %064000d\n" % 0)
    commitment, export = commitment_of("store"), "export"
    done("export", "store", export)
    wanted = done("verify", export, KEY, commitment)
    expect(wanted.splitlines()[-1], b"verified %d open" % COUNT, "the verification with enough memory")
    data = read(export)

    def verify(limit):
        status = expect_answer(with_limit(limit, "verify", export, KEY, commitment), wanted, "with %d KiB" % limit)
        piped = with_pipe(limit, data, "verify", "/dev/stdin", KEY, commitment)
        expect_answer(piped, wanted, "from a pipe, with %d KiB" % limit)
        return status

    downwards(verify, STEP, "verification")


def with_pipe(limit, data, *words):
    """A command whose input is a pipe, of which it may not read all."""
    with subprocess.Popen([program.PATH, *words], stdin=subprocess.PIPE, stdout=subprocess.PIPE, stderr=subprocess.PIPE,
                          preexec_fn=with_data_limit(limit)) as process:
        out, err = process.communicate(data, timeout=program.SECONDS)
    return process.returncode, out, err


def disclose_with_less():
    """A disclosure of the same export is whole, or not there, and shows the long event or nothing after a refusal."""
    words = "disclose", "export", KEY, commitment_of("store"), "chosen"
    events = "--events", "0,%d" % (COUNT - 1)
    made = done(*words, *events)
    text = read("chosen")
    wanted = done("verify", "export", "chosen", words[3], "--disclosed")

    def disclose(limit):
        if os.path.exists("chosen"):
            os.remove("chosen")
        status = expect_answer(with_limit(limit, *words, *events), made, "of `disclose` with %d KiB" % limit)
        expect(read("chosen") if os.path.exists("chosen") else None, text if status == 0 else None, "the disclosure")
        return status

    def show(limit):
        return expect_answer(with_limit(limit, "verify", "export", "kept", words[3], "--disclosed"), wanted,
                             "of `verify --disclosed` with %d KiB" % limit)

    write("kept", text)
    downwards(disclose, STEP, "disclosure")
    downwards(show, STEP, "reading of a disclosure")


def search_with_less():
    """What is found of the same store is written whole, or OUT stays as it was."""
    done("prove", "store", "member", str(COUNT - 1), str(COUNT), "proof")
    words = "salvage", "store", KEY, "found", "--under", commitment_of("store"), "--proof", "proof"
    line, text = done(*words), read("found")
    expect(line, b"salvaged %d unbound 0 missing 0 unread 0 shown 1 counted\n" % COUNT, "a search with enough memory")

    def search(limit):
        write("found", b"old")
        status = expect_answer(with_limit(limit, *words), line, "of `salvage` with %d KiB" % limit)
        expect(read("found"), text if status == 0 else b"old", "what is found with %d KiB" % limit)
        return status

    downwards(search, STEP, "search")


def serve_with_less():
    """One line has many requests for the commitment of an empty store, and each gets its reply."""
    done("format", "none", "64", KEY)
    lines = "".join("000502%08x" % tag for tag in range(QUESTIONS)).encode() + b"\n"
    wanted = "".join("002d82%08x%080d\n" % (tag, 0) for tag in range(QUESTIONS)).encode()

    def serve(limit):
        what = "of a session with %d KiB" % limit
        status = expect_answer(with_limit(limit, "loop", "none", "socket", data=lines), wanted, what)
        expect_true(not os.path.exists("socket"),
                    "the socket's file is still there after a session with %d KiB" % limit)
        return status

    downwards(serve, STEP, "session")


def ask_large(store):
    """A store of a million events is asked, and appended to, with little more than its index takes."""
    done("format", store, str(LARGE + 3), KEY)
    done("append", store, data=b"event 1 -\n" * LARGE, seconds=600)
    expect(commitment_of(store).split(":")[0], str(LARGE), "the events that are appended")
    for words in (["show", store], ["prove", store, "member", "1048576", str(LARGE), "proof"],
                  ["prove", store, "increment", "1048575", str(LARGE), "proof"], ["export", store, "/dev/null"]):
        found = with_limit(ASKING, *words, seconds=600)
        expect((found[0], found[2]), (0, b""), "with a million events and 90 MB: " + " ".join(words))
    found = with_limit(APPENDING, "append", store, data=b"event 1 -\n", seconds=600)
    expect((found[0], found[2]), (0, b""), "an append after a million events")


def main(words):
    program_of(words)
    with folder_of_its_own("memory-"):
        verify_with_less()
        disclose_with_less()
        search_with_less()
        serve_with_less()
        if program.is_by_rattle() or program.is_unproved():
            return 0
        # In memory, if there is such a folder: the store is no test of syncs.
        place = "/dev/shm" if os.access("/dev/shm", os.W_OK) else "."
        with tempfile.TemporaryDirectory(dir=place) as large:
            ask_large(os.path.join(large, "store"))
    return 0
