"""Standard streams that are closed, full, or that nobody reads."""
import contextlib
import os
import pty
import subprocess

from checks.parts.clients import Client
from checks.parts.logs import event_lines, payloads_of
from checks.parts.processes import forget
from checks.parts.program import FILE_FAULT, SECONDS
from checks.parts.rooms import FIRST_KEY, in_child
from checks.parts.scenes import scene
from checks.parts.terminals import said_on_terminal
from checks.parts.waiting import is_listening, wait_until
from checks.parts.wrong import Wrong, expect, expect_true


@scene
def closed_streams_harm_no_store(room):
    """Each command with standard streams closed: none of them becomes a descriptor of a store."""
    payloads = payloads_of("before", 5)
    base = room.store("base", payloads)
    count, root = room.commitment(base)
    commitment = "%d:%s" % (count, root)
    room.done("prove", base, "member", "3", str(count), room.path("proof"))
    room.done("export", base, room.path("export"))
    commands = commands_on_stores(room, count, commitment)
    for name, words, given in commands:
        for closed in [(0,), (1,), (2,), (0, 1, 2)]:
            what = "%s with %s closed" % (name, ", ".join(map(str, closed)))
            store = room.copy(base, "store")
            for path in ["new", "socket", "made"]:
                with contextlib.suppress(FileNotFoundError):
                    os.remove(room.path(path))
            words = [{"STORE": store, "STORE2": room.path("new")}.get(word, word) for word in words]
            begun = room.start(name, *words, stdin=subprocess.PIPE, preexec_fn=in_child(closed))
            if name == "serve":
                wait_until(lambda: is_listening(room.path("socket")) or begun.poll() is not None, what)
                if begun.poll() is None:
                    Client(room.path("socket")).end()
            try:
                output, messages = begun.communicate(given, timeout=SECONDS)
            except subprocess.TimeoutExpired:
                raise Wrong("%s: it doesn't end" % what)
            forget(begun)
            if name == "replay" and 0 in closed:
                # There is no key line.
                wanted = b"" if 2 in closed else b"audit: line 1: bad key line\n"
                expect((begun.returncode, messages), (1, wanted), what)
                continue
            expect_missing_stream_alone(name, closed, what, begun, output, messages)
            if name == "format":
                expect(room.run("show", room.path("new"))[0::2], (0, b""), what)
                expect(room.commitment(room.path("new")), (0, "0" * 64), what)
                continue
            expect_store_unharmed(room, payloads, name, closed, what, store)


def commands_on_stores(room, count, commitment):
    """Each command, with its words and input."""
    new_line = event_lines([b"after"])
    commitment_line = b"00050200000007\n"
    commands = [
        ("replay", [], b"key " + FIRST_KEY.hex().encode() + b"\n"),
        ("format", ["STORE2", "64", room.key_file], b""),
        ("append", ["STORE"], new_line),
        ("close", ["STORE"], b""),
        ("show", ["STORE"], b""),
        ("prove", ["STORE", "member", "3", str(count), room.path("made")], b""),
        ("check", [room.path("proof"), commitment], b""),
        ("export", ["STORE", room.path("made")], b""),
        ("verify", [room.path("export"), room.key_file, commitment], b""),
        ("serve", ["STORE", room.path("socket"), "1"], b""),
        ("loop", ["STORE", room.path("socket")], commitment_line),
    ]
    return commands


def expect_store_unharmed(room, payloads, name, closed, what, store):
    """The store after a command has its events, and what the command appended."""
    found = room.run("show", store)
    expect(found[0::2], (0, b""), "show after " + what)
    after = room.payloads(store)
    wanted = {"append": [] if 0 in closed else [b"after"], "close": [b""]}.get(name, [])
    expect(after, payloads + wanted, "the store after " + what)


def expect_missing_stream_alone(name, closed, what, begun, output, messages):
    """A missing stream may be a file fault, but nothing else may be wrong."""
    # A missing stream may be a file fault, but nothing else may be wrong.
    expect_true(begun.returncode in ((0,) if closed == (0,) else (0, 3)),
                "%s: status %d %r" % (what, begun.returncode, messages))
    expect_true(messages in (b"", b"audit: file fault\n"), "%s: %r" % (what, messages))
    expect_true(2 not in closed or messages == b"", what)
    if closed == (0,):
        expect_true(output != b"" or name == "append" or name == "loop", "%s: no output" % what)


@scene
def faults_of_the_output_are_told(room):
    """Output that can't be printed is a file fault, and ends an append."""
    store = room.store("store", payloads_of("output", 5), sectors=100)
    count, root = room.commitment(store)
    room.done("prove", store, "member", "3", str(count), room.path("proof"))
    with open("/dev/full", "wb") as full:
        wrong = "%d:%s" % (count, "0" * 64)
        expect(room.run("check", room.path("proof"), wrong, stdout=full), FILE_FAULT,
               "check of a proof that isn't accepted >/dev/full")
        expect(room.run("check", room.path("proof"), "%d:%s" % (count, root), stdout=full), FILE_FAULT,
               "check >/dev/full")
        for words in [("show", store), ("show", "--read-only", store), ("export", store, room.path("made")),
                      ("export", store, "-")]:
            expect(room.run(*words, stdout=full), FILE_FAULT, "%s >/dev/full" % words[0])
        expect(room.run("append", store, given=event_lines([b"one"]), stdout=full), FILE_FAULT, "append >/dev/full")
        # The first batch fits, and the second doesn't; it isn't tried once the line of the first can't be printed.
        held = room.commitment(store)[0]
        found = room.run("append", store, given=event_lines(payloads_of("many", 120)), stdout=full)
        expect(found, FILE_FAULT, "append of too much >/dev/full")
        expect(room.commitment(store)[0], held + 64, "the events after the first batch")
        expect(room.run("replay", given=b"key %s\nevent 1 00\nevent 1\n" % FIRST_KEY.hex().encode(), stdout=full)[0::2],
               (1, b"audit: line 3: bad event line\n"), "a replay that is refused prints nothing else")
        expect(room.run("close", store, stdout=full), FILE_FAULT, "close >/dev/full")


@scene
def readers_of_answers_may_go(room):
    """A command that only answers says nothing if the reader of its output has gone, as with `| head -1`; one that
    changes something reports it."""
    store = room.store("store", payloads_of("a long payload", 3000), sectors=4000)
    commitment = room.commitment_word(store)
    export = room.path("export")
    room.done("export", store, export)
    room.done("prove", store, "member", "0", "2", room.path("proof"))
    replay = b"key %s\n" % FIRST_KEY.hex().encode() + event_lines(payloads_of("replayed", 2000))

    def without_reader(*words, given=b"", terminal=False):
        ours, theirs = os.pipe()
        os.close(ours)
        try:
            return room.run(*words, given=given, stdout=theirs)
        finally:
            os.close(theirs)

    for words in [("verify", export, room.key_file, commitment),
                  ("verify", export, room.key_file, commitment, "--text"), ("show", store), ("export", store, "-"),
                  ("prove", store, "member", "0", "2", "-"), ("check", room.path("proof"), "2:" + "0" * 64),
                  ("--help",), ("verify", "--help"), ("--version",)]:
        expect(without_reader(*words), (3, b"", b""), "%s without a reader" % words[0])
    expect(without_reader("verify", export, room.key_file, commitment, "--explain"), (3, b"", b""),
           "verify --explain without a reader")
    expect(without_reader("replay", given=replay), (3, b"", b""), "replay without a reader")
    expect(without_reader("append", store, given=event_lines([b"one more"])), FILE_FAULT, "append without a reader")
    expect(without_reader("close", store), FILE_FAULT, "close without a reader")
    # What is wrong otherwise is said.
    expect(without_reader("verify", export, room.key_file, "1:" + "0" * 64)[::2],
           (1, b"audit: entry 3000: 44 WrongCommitment\n"), "verify of another commitment")


@scene
def a_bare_name_says_what_it_waits_for(room):
    """Without words the program waits for a replay, and says so on a terminal."""
    hint = b"audit: waiting for a replay on standard input; 'audit --help' prints the commands\n"

    def said(*words, terminals):
        ours, theirs = pty.openpty()
        try:
            given = theirs if "input" in terminals else subprocess.DEVNULL
            messages = theirs if "messages" in terminals else subprocess.PIPE
            begun = subprocess.Popen([room.executable, *words], stdin=given, stdout=subprocess.PIPE, stderr=messages,
                                     cwd=room.folder)
            os.close(theirs)
            if "input" in terminals:
                os.write(ours, b"\x04")
            _, others = begun.communicate(timeout=SECONDS)
            found = others or b""
            with contextlib.suppress(OSError):
                while "messages" in terminals:
                    found += os.read(ours, 4096)
            return hint in found.replace(b"\r\n", b"\n")
        finally:
            os.close(ours)

    expect(said(terminals=("input", "messages")), True, "audit on a terminal")
    for words, terminals in [((), ("messages",)), ((), ("input",)), (("replay",), ("input", "messages"))]:
        expect(said(*words, terminals=terminals), False, "audit %s with %s" % (words, terminals))
    found = said_on_terminal(room.executable, room.folder, b"show", b"\xff")
    expect((found[0], found[2].replace(b"\r", b"")),
           (2, b"audit: bad argument\naudit: a word of the command line isn't UTF-8\n"), "a word that is no text")
