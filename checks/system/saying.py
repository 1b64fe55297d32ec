"""Causes of faults, wrong words, and warnings."""
import os
import subprocess

from checks.parts.clients import Client
from checks.parts.files import read, write
from checks.parts.logs import payloads_of
from checks.parts.program import BAD_ARGUMENT, EXPLAINED, FILE_FAULT, SECONDS
from checks.parts.rooms import FIRST_KEY, NOBODY, in_child, outcome
from checks.parts.scenes import scene
from checks.parts.terminals import said_on_terminal
from checks.parts.wrong import expect, expect_true
from checks.system.common import shared_copy
from model.disk import SECTOR


@scene
def causes_are_explained(room):
    """With --explain, or on a terminal, a second line names the path and the cause; otherwise there is one line."""
    store = room.store("store", payloads_of("explained", 3))
    write(room.path("file"), b"x")
    write(room.path("odd"), bytes(700))
    expect_explained_if_asked(room, store)
    expect_servers_explain(room, store)
    # If nothing is wrong nothing is printed.
    expect(room.run("show", "--explain", store)[0::2], (0, b""), "show --explain")
    numbers_outside_are_named(room, store)
    found = room.run("show", "--explain", room.path("odd"))
    expect((found[0], found[2].split(b"\n")[0]), (3, b"audit: file fault"), "show --explain of a file of 700 bytes")
    expect_forbidden_explained(room, store)


def expect_explained_if_asked(room, store):
    """With --explain, and on a terminal."""
    missing = room.path("missing")
    cases = [
        (("show", missing), missing, "no such file"),
        (("append", missing), missing, "no such file"),
        (("show", "--read-only", missing), missing, "no such file"),
        (("show", room.folder), room.folder, "directory"),
        (("format", room.path("new"), "16", missing), missing, "no such file"),
        (("format", room.path("no/new"), "16", room.key_file), room.path("no/new"), "no such file"),
        (("export", store, room.path("no/export")), room.path("no/export"), "no such file"),
        (("verify", missing, room.key_file, "1:" + "0" * 64), missing, "no such file"),
        (("check", missing, "1:" + "0" * 64), missing, "no such file"),
        (("serve", store, room.path("file"), "1"), room.path("file"), "use"),
        (("show", room.path("file/store")), room.path("file/store"), "not a directory"),
    ]
    for words, path, cause in cases:
        what = " ".join(words[:2])
        expect(room.run(*words), FILE_FAULT, what)
        found = room.run(words[0], "--explain", *words[1:])
        expect_explained(found, path, cause, "%s --explain" % what)
        expect_explained(said_on_terminal(room.executable, room.folder, *words), path, cause, "%s on a terminal" % what)
        expect(room.whole(*words), found if words[0] in EXPLAINED else FILE_FAULT, "%s without --explain" % what)


def expect_servers_explain(room, store):
    """Whatever serves or rotates explains in any case."""
    missing = room.path("missing")
    for words, path, cause in [
            (("daemon", missing, room.path("socket")), missing, "no such file"),
            (("loop", missing, room.path("socket")), missing, "no such file"),
            (("daemon", store, room.path("file")), room.path("file"), "in use"),
            (("stop", room.path("socket")), room.path("socket"), "no such file"),
            (("rotate", missing, room.path("new"), "16", room.key_file), missing, "no such file"),
            (("rotate", store, room.path("new"), "16", missing), missing, "no such file"),
            (("daemon", room.path("odd"), room.path("socket")), room.path("odd"), "no multiple of 512"),
            (("ask", missing, "commitment"), missing, "no such file"), (("send", missing), missing, "no such file"),
            (("watch", missing, room.path("state")), missing, "no such file")]:
        expect_explained(room.whole(*words), path, cause, " ".join(words[:2]))


def expect_forbidden_explained(room, store):
    """A store that may not be read."""
    if os.geteuid() == 0:
        executable = shared_copy(room)
        os.chmod(store, 0o600)
        done = subprocess.run([executable, "show", "--explain", store], stdout=subprocess.PIPE, stderr=subprocess.PIPE,
                              timeout=SECONDS,
                              stdin=subprocess.DEVNULL, cwd="/", preexec_fn=in_child(user=NOBODY))
        expect_explained((done.returncode, done.stdout, done.stderr), store, "permission denied",
                         "show --explain as another user")


def numbers_outside_are_named(room, store):
    """Of the store of three events."""
    refused = b"audit: 8 NoSuchVersion\n"
    for words, cause in [
            ("member 9 3", "INDEX 9 is too large for COUNT 3"), ("member 0 4", "COUNT 4 is too large"),
            ("member 3 3", "INDEX 3 is too large for COUNT 3"),
            ("member 9 9", "COUNT 9 is too large"), ("increment 1 4", "NEWER 4 is too large"),
            ("increment 3 2", "OLDER 3 is larger than NEWER 2"),
            ("increment 0 2", "OLDER 0 has no proof")]:
        line = b"audit: %s: the log has 3 entries\n" % cause.encode()
        expect(room.run("prove", store, *words.split(), room.path("made"), "--explain"), (1, b"", refused + line),
               "prove %s --explain" % words)
        expect(room.run("prove", store, *words.split(), room.path("made")), (1, b"", refused), "prove %s" % words)


@scene
def wrong_words_are_named(room):
    """Below a bad argument a line says which word is wrong, and what form it should have."""
    store = room.store("store", payloads_of("named", 2), sectors=64)
    commitment = "%d:%s" % room.commitment(store)
    room.done("export", store, room.path("export"))
    room.done("prove", store, "increment", "1", "2", room.path("proof"))
    room.done("prove", store, "member", "0", "2", room.path("member"))
    write_key_files(room)
    expect_words_named(room, wrong_sizes(room) + wrong_keys(room, store, commitment)
                       + wrong_commitments(room, commitment) + wrong_numbers(room, store) + wrong_sockets(room, store))
    line = b"audit: 2: SECTORS %s\n" % SECTORS_FORM.encode()
    expect(room.run("format", room.path("new"), "2", room.key_file, "--explain"),
           (1, b"", b"audit: 14 BadSize\n" + line), "format of 2 sectors")
    expect_true(not os.path.exists(room.path("new")), "a wrong word makes a file")


# Command lines with a wrong word, and what is said of it.
SECTORS_FORM = "is a number from 3 to 16777216, in decimal digits"
NUMBER_FORM = "is a number below 2^64, in decimal digits"


def wrong_sizes(room):
    """Numbers of sectors, and a mode."""
    new = room.path("new")
    return [
        (("format", new, "131,072", room.key_file), "131,072: SECTORS %s: a comma at byte 4" % SECTORS_FORM),
        (("format", new, "", room.key_file), "the empty word: SECTORS %s" % SECTORS_FORM),
        (("format", new, "12345678901234567890123", room.key_file),
         "12345678901234567890123: SECTORS %s" % SECTORS_FORM),
        (("format", new, "8", room.key_file, "--mode", "680"), "680: --mode is 600 to 677, in octal digits"),
    ]


def wrong_keys(room, store, commitment):
    """Files that aren't a key's."""
    new, export, key = room.path("new"), room.path("export"), "aren't 64 hex digits"
    return [
        (("format", new, "8", room.path("cr")),
         "%s: 65 bytes that %s: a carriage return at byte 65" % (room.path("cr"), key)),
        (("format", new, "8", room.path("short")), "%s: 63 bytes that %s" % (room.path("short"), key)),
        (("format", new, "8", room.path("g")), "%s: 64 bytes that %s: no hex digit at byte 64" % (room.path("g"), key)),
        (("format", new, "8", room.path("empty")), "%s: 0 bytes that %s" % (room.path("empty"), key)),
        (("format", new, "8", room.path("one")),
         "%s: 1 byte that isn't 64 hex digits: no hex digit at byte 1" % room.path("one")),
        (("format", new, "8", room.path("twice")),
         "%s: 65 bytes that %s: a line feed at byte 65" % (room.path("twice"), key)),
        (("format", new, "8", room.path("raw")),
         "%s: 32 bytes that %s: no hex digit at byte 1" % (room.path("raw"), key)),
        (("verify", export, room.path("bom"), commitment),
         "%s: 67 bytes that %s: a byte that isn't ASCII at byte 1" % (room.path("bom"), key)),
        (("verify", export, room.path("long"), commitment), "%s: 16777217 bytes that %s" % (room.path("long"), key)),
        (("verify", export, store, "x"), "%s: 32768 bytes that %s: no hex digit at byte " % (store, key)),
        (("rotate", store, new, "8", room.path("cr")),
         "%s: 65 bytes that %s: a carriage return at byte 65" % (room.path("cr"), key)),
    ]


def wrong_commitments(room, commitment):
    """Commitments, and proofs under too few or too many of them."""
    export, proof, member = room.path("export"), room.path("proof"), room.path("member")
    form = "is COUNT:ROOT, a number and 64 hex digits"
    return [
        (("verify", export, room.key_file, "2"), "2: COMMIT %s: it has no colon" % form),
        (("verify", export, room.key_file, commitment[:-1]),
         "%s: COMMIT %s: its root has 63 bytes" % (commitment[:-1], form)),
        (("verify", export, room.key_file, commitment + "\r"),
         "%s\\x0d: COMMIT %s: a carriage return at byte 67" % (commitment, form)),
        (("check", proof, "x" + commitment), "x%s: OLDER %s: no digit at byte 1" % (commitment, form)),
        (("check", proof, commitment, "2:"), "2:: NEWER %s: its root has 0 bytes" % form),
        (("check", proof, commitment), "%s: a consistency proof, which is checked under two commitments, OLDER and "
                                       "NEWER" % proof),
        (("check", member, commitment, commitment),
         "%s: an inclusion proof, which is checked under one commitment" % member),
    ]


def wrong_numbers(room, store):
    """Kinds, indices, counts, and options of commands on a store."""
    new = room.path("new")
    return [
        (("prove", store, "members", "1", "2", new), "members: KIND is member or increment"),
        (("prove", store, "member", "1.", "2", new), "1.: INDEX %s: no digit at byte 2" % NUMBER_FORM),
        (("prove", store, "increment", "1", "0x2", new), "0x2: NEWER %s: no digit at byte 2" % NUMBER_FORM),
        (("append", store, "--text", "4294967295"),
         "4294967295: --text is a number from 0 to 4294967294, in at most 10 decimal digits"),
        (("append", store, "--text", "1", "--follow", "--long", "cur"), "cur: --long is refuse or cut"),
        (("append", store, "--follow", "--long", "cut"), "cut: --long is refuse, or with --text cut"),
        (("append", store, "--expect", "2 "), "2 : --expect %s: a space at byte 2" % NUMBER_FORM),
        (("append", store, "--reserve", "x"), "x: --reserve %s: no digit at byte 1" % NUMBER_FORM),
    ]


def wrong_sockets(room, store):
    """Sockets, and options of what serves."""
    socket = room.path("socket")
    return [
        (("serve", store, socket, "1", "--sessions", "17"),
         "17: --sessions is a number from 1 to 16, in decimal digits"),
        (("serve", store, "s" * 108, "1"), "%s: SOCKET is a path of 1 to 107 bytes: it has 108" % ("s" * 108)),
        (("daemon", store, "s" * 103), "%s: SOCKET is a path of 1 to 102 bytes: it has 103" % ("s" * 103)),
        (("stop", "s" * 103), "%s: SOCKET is a path of 1 to 102 bytes: it has 103" % ("s" * 103)),
        (("daemon", store, socket, "--reader", "s" * 108),
         "%s: --reader is a path of 1 to 107 bytes: it has 108" % ("s" * 108)),
        (("daemon", store, ""), "the empty word: SOCKET is a path of 1 to 102 bytes"),
        (("daemon", store, socket, "--idle", "1m"), "1m: --idle %s: no digit at byte 2" % NUMBER_FORM),
        (("daemon", store, socket, "--backlog", "67108865"),
         "67108865: --backlog is a number from 0 to 67108864, in decimal digits"),
        (("daemon", store, socket, "--socket-mode", "0999"), "0999: --socket-mode is 600 to 677, in octal digits"),
    ]


def write_key_files(room):
    """Key files of wrong forms."""
    digits = FIRST_KEY.hex().encode()
    for name, data in [("cr", digits + b"\r\n"), ("short", digits[:-1]), ("g", digits[:-1] + b"g\n"), ("empty", b""),
                       ("one", b"-"), ("twice", digits + b"\n\n"),
                       ("raw", bytes(32)), ("bom", b"\xef\xbb\xbf" + digits), ("long", b"0" * (17 << 20))]:
        write(room.path(name), data)


def expect_words_named(room, cases):
    """The line of each, with --explain and without."""
    for words, cause in cases:
        what = " ".join(words)[:200]
        # A bad key file may be followed by a byte of the store, which is random.
        status, output, messages = room.run(*words, "--explain")
        first, _, second = messages.partition(b"\n")
        expect((status, output, first + b"\n"), BAD_ARGUMENT, what)
        expect_true(second.decode().startswith("audit: " + cause) and second.endswith(b"\n"),
                    "%s: %r, and not %r" % (what, second, cause))
        if words[0] in EXPLAINED:
            expect(room.whole(*words), (2, b"", messages), what)
        else:
            expect(room.whole(*words), BAD_ARGUMENT, what)


@scene
def files_of_another_kind_are_named(room):
    """A store in the place of an export, an export in the place of a proof, and the like; and commitments in the wrong
    order."""
    store = room.store("store", payloads_of("kinds", 2), sectors=64)
    other = room.store("other", sectors=64)
    commitment = room.commitment_word(store)
    export, proof = room.path("export"), room.path("proof")
    room.done("export", store, export)
    room.done("prove", store, "increment", "1", "2", proof)
    write(room.path("padded"), read(export) + bytes(-len(read(export)) % SECTOR))
    later = "1:" + "0" * 64
    for words, status, first, cause in kinds_in_wrong_places(room, store, other, commitment):
        found = room.run(*words, "--explain")
        lines = found[2].decode().splitlines()
        expect((found[0], found[1], lines[0][:7 + len(first)], lines[1:2]),
               (status, b"", "audit: " + first, ["audit: " + cause]), " ".join(words[:3]))
        expect(room.run(*words), (status, b"", found[2].split(b"\n")[0] + b"\n"),
               "%s without --explain" % " ".join(words[:3]))
    swapped = b"audit: OLDER counts 2 and NEWER 1: the older commitment comes first\n"
    expect(room.run("check", proof, commitment, later, "--explain"), (1, b"not accepted\n", swapped),
           "commitments in the wrong order")
    expect(room.run("check", proof, commitment, later), (1, b"not accepted\n", b""), "the same without --explain")
    expect(room.run("check", proof, later, commitment, "--explain"), (1, b"not accepted\n", b""),
           "commitments in their order")


def kinds_in_wrong_places(room, store, other, commitment):
    """Command lines with a file of another kind, with the status, the first message and the cause."""
    export, proof = room.path("export"), room.path("proof")
    is_store = "a store, which 'export' and 'prove' read"
    is_export, is_proof = "an export, which 'verify' reads", "a proof, which 'check' reads"
    return [
        (("verify", store, room.key_file, commitment), 1, "entry 0: 41 BadLength", "%s: %s" % (store, is_store)),
        (("verify", proof, room.key_file, commitment), 1, "entry 0: ", "%s: %s" % (proof, is_proof)),
        (("check", export, commitment), 1, "32 BadProof", "%s: %s" % (export, is_export)),
        (("check", store, commitment), 1, "32 BadProof", "%s: %s" % (store, is_store)),
        (("show", export), 3, "file fault", "%s: %s" % (export, is_export)),
        (("append", proof), 3, "file fault", "%s: %s" % (proof, is_proof)),
        (("show", room.path("padded")), 1, "1 NotAStore", "%s: %s" % (room.path("padded"), is_export)),
        (("export", store, store), 1, "file exists", "%s: OUT is the store" % store),
        (("prove", store, "member", "0", "2", store), 1, "file exists", "%s: OUT is the store" % store),
        (("export", store, other), 1, "file exists", "%s: OUT is a store" % other),
        (("format", other, "16", room.key_file), 1, "file exists",
         "%s: it is there, and --in-place would format it" % other),
        (("format", other, "16", room.key_file, "--in-place"), 1, "file exists",
         "%s: its first MiB isn't zeros, and --erase would overwrite it" % other),
    ]


@scene
def warnings_are_about_keys(room):
    """That others can reach a key is said of what was read as a key file or as a store with a key, and of nothing
    else."""
    store = room.store("store", payloads_of("warned", 2), sectors=64)
    room.done("export", store, room.path("export"))
    closed = room.copy(store, "closed")
    room.done("close", closed)
    write(room.path("text"), b"no key")
    write(room.path("zeros"), bytes(64 * SECTOR))
    for name in ["store", "closed", "text", "zeros", "export", "key"]:
        os.chmod(room.path(name), 0o644)
    for words, wanted in words_that_warn(room, store) + words_that_do_not_warn(room, store, closed):
        expect(warned_of_keys(room, *words), wanted, "warnings of %s" % " ".join(words))
    # Without --explain there are none, also of commands that name causes.
    write(room.path("next"), b"%064x\n" % 5)
    os.chmod(room.path("next"), 0o644)
    expect(room.whole("rotate", store, room.path("none"), "16", room.path("next"))[2], b"", "rotate without --explain")


def warned_of_keys(room, *words):
    """The files of which it is said that they hold a key that others can reach."""
    lines = room.run(*words, "--explain")[2].decode().splitlines()
    return [line.split(": ")[1] for line in lines
            if line.endswith(": holds a key, and others can reach it (mode 644)")]


def words_that_warn(room, store):
    text, new, key, commitment = room.path("text"), room.path("new"), room.key_file, room.commitment_word(store)
    return [
        (("show", store), [store]), (("show", store, "--header"), [store]), (("append", store), [store]),
        (("export", store, room.path("e")), [store]),
        (("verify", room.path("export"), key, commitment), [key]), (("format", new, "16", key), [key]),
        (("rotate", text, room.path("none"), "16", key), [key]),
        (("daemon", store, room.path("no/socket")), [store]),
    ]


def words_that_do_not_warn(room, store, closed):
    text, new, key, commitment = room.path("text"), room.path("new"), room.key_file, room.commitment_word(store)
    return [
        (("show", text), []), (("show", room.path("zeros")), []), (("show", room.path("export")), []),
        (("append", text), []), (("close", text), []),
        (("show", closed), []), (("show", closed, "--header"), []), (("export", closed, room.path("e")), []),
        (("append", closed), []),
        (("verify", room.path("export"), text, commitment), []),
        (("verify", room.path("export"), room.path("export"), commitment), []),
        (("format", room.path("n"), "16", text), []), (("format", room.path("n"), "1", key), []),
        (("format", room.path("n"), "16", room.path("zeros")), []),
        (("rotate", text, room.path("none"), "16", text), []), (("export", text, new), []),
        (("prove", text, "member", "0", "1", new), []),
        (("daemon", text, room.path("s")), []), (("serve", text, room.path("s"), "1"), []),
        (("loop", text, room.path("s")), []),
        (("check", store, commitment), []), (("check", text, commitment), []), (("show", "/etc/passwd"), []),
    ]


def expect_explained(found, path, cause, what):
    lines = found[2].decode(errors="replace").replace("\r\n", "\n").split("\n")
    expect((found[0], found[1], lines[0]), (3, b"", "audit: file fault"), what)
    expect_true(len(lines) == 3 and lines[2] == "" and lines[1].startswith("audit: %s: " % path)
                and cause in lines[1].lower(),
                "%s: %r, and not 'audit: %s: .. %s ..'" % (what, lines[1:], path, cause))


@scene
def keys_and_words_are_judged_in_turn(room):
    """Key files that are far too long, and several words that are wrong at once."""
    store = room.store("store", payloads_of("judged", 3))
    commitment = room.commitment_word(store)
    room.done("export", store, room.path("export"))
    write(room.path("long"), b"0" * (17 << 20))
    write(room.path("bad"), b"no key")
    for key in ["long", "bad"]:
        expect(room.run("verify", room.path("export"), room.path(key), commitment), BAD_ARGUMENT,
               "verify with a key file that is %s" % key)
        expect(room.run("format", room.path("new"), "16", room.path(key)), BAD_ARGUMENT,
               "format with a key file that is %s" % key)
    expect_true(not os.path.exists(room.path("new")), "format makes a file for no key")
    expect(room.run("verify", room.path("export"), room.path("bad"), "no commitment"), BAD_ARGUMENT,
           "verify, all wrong")
    expect(room.run("verify", room.path("export"), room.path("none"), "no commitment"), FILE_FAULT,
           "verify with no key file and a bad commitment")
    server = room.serve(store, room.path("socket"))
    client = Client(room.path("socket"))
    expect(client.append(b"one session"), (3, 4), "an append")
    client.end()
    expect(outcome(server)[0::2], (0, b""), "a server without --sessions")
