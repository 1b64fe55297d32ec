"""`audit read`: a log is read on, from honest servers and from others, by states of any kind."""
import fcntl
import hashlib
import os
import subprocess

from checks.client.common import KEY, alarm, expect_alarms, lines, numbered, store
from checks.parts import program
from checks.parts.daemons import Daemon, commitment_of
from checks.parts.files import read, temporary_names, write
from checks.parts.frames import commitment_reply, entry_reply, increment_reply, read_request
from checks.parts.liars import JOIN, NEWEST, Server, honest, scripted
from checks.parts.logs import Log, entries_of, increment, root
from checks.parts.program import BAD_REPLY, TOO_LATE, done, done_with, run, whole
from checks.parts.scenes import scene
from checks.parts.wrong import expect


def exported(count):
    """The entries of a store of so many events, and the lines that `verify` prints of them, in each form."""
    done("append", "store", data=lines(count))
    done("export", "store", "export")
    word = commitment_of("store")
    forms = {form: done_with(b"audit: verified %d open\n" % count if form else b"", "verify", "export", "key", word,
                             *form)
             for form in ((), ("--text",), ("--text", "--numbers"), ("--json",))}
    return entries_of(read("export")), forms


def state_lines(path):
    return dict(line.split(b" ") for line in read(path).splitlines() if not line.startswith(b"node"))


READ = "read", "daemon.sock", "state"


@scene
def scene_reading_on():
    """A log is read on as `verify` verifies it: all of it with the first key, then what is new. A look with nothing new
    is one question. The state is its owner's alone, and has the newest commitment."""
    store()
    texts, forms = exported(30)
    last = forms[()].splitlines(True)[-1]
    with Daemon("store"):
        expect(whole(*READ)[0], 3, "a state that isn't there")
        expect(done(*READ, "--first", "key"), forms[()], "all events")
        expect(os.stat("state").st_mode & 0o7777, 0o600, "the mode of the state")
        expect(state_lines("state")[b"newest"], b"30", "the newest commitment")
        kept = read("state")
        expect(done(*READ), last, "nothing new")
        expect((read("state"), os.path.exists("state.lock")), (kept, False), "the state after nothing new")
        done("send", "daemon.sock", data=lines(40, 30))
        done("ask", "daemon.sock", "export", "all")
        newest = done("ask", "daemon.sock", "commitment").split()
        word = (newest[1] + b":" + newest[2]).decode()
        write("none", b"")
        expect_new_read(forms, kept, word)
        expect_keys_kept(word)
        expect_state_saved(word, newest)
        done("watch", "daemon.sock", "witness")
        expect(done(*READ, "--under", "witness"), b"verified 70 open\n", "under a witness")
    expect_one_question(newest)


def expect_new_read(forms, kept, word):
    """What is new is read in each form as `verify` prints it."""
    for form in forms:
        write("state", kept)
        said = b"audit: verified 70 open\n" if form else b""
        for more in (), ("--kind", "1,4"):
            wanted = done_with(said, "verify", "all", "key", word, *form, "--from", "30", *more)
            write("state", kept)
            expect(done_with(said, *READ, *form, *more), wanted, "what is new, %r" % (form + more,))


def expect_state_saved(word, newest):
    """The state is that of `verify --save`, with the newest commitment, and each goes on from the other's."""
    open("made before", "w").close()
    done("verify", "all", "key", word, "--save", "made before")
    done("verify", "all", "key", word, "--save", "saved")
    expect(done("verify", "none", "saved", word, "--save", "saved"), b"verified 70 open\n",
           "a state that replaces itself")
    saved = read("saved").splitlines(True)
    marked = saved[:-1] + [b"newest 70\n", b"root %s\n" % newest[2]]
    sum = hashlib.sha256(b"".join(marked)).hexdigest().encode()
    expect(read("state"), b"".join(marked) + b"sha256 %s\n" % sum, "the state after all")
    expect(done("read", "daemon.sock", "saved"), b"verified 70 open\n", "the state of a verification")


def expect_one_question(newest):
    """A look with nothing new is one question."""
    asked = []

    def counting(stream):
        while True:
            kind, tag, rest = read_request(stream)
            asked.append(kind)
            stream.sendall(commitment_reply(tag, int(newest[1]), bytes.fromhex(newest[2].decode())))

    with Server("own.sock", counting):
        expect(done("read", "own.sock", "state"), b"verified 70 open\n", "nothing new, of another")
    expect(asked, [2], "what is asked where nothing is new")


def expect_keys_kept(word):
    """No state replaces a key or an export."""
    os.chmod("key", 0o600)
    os.link("key", "same key")
    write("another key", b"%064x\n" % 7)
    none = "a file that has no state"
    for out, why in ("key", none), ("same key", none), ("another key", none), ("all", "EXPORT"):
        found = whole("verify", "all", "key", word, "--save", out, "--explain")
        said = "audit: file exists\naudit: %s: STATE is %s\n" % (out, why)
        expect((found[0], found[2]), (1, said.encode()), "a state in the place of %s" % out)
    expect((read("key"), read("same key")), (KEY.encode(), KEY.encode()), "the first key")
    expect(read("another key"), b"%064x\n" % 7, "the first key of another log")


class Told(Log):
    """A log of these entries."""

    def __init__(self, texts):
        self.texts = texts


@scene
def scene_reading_from_liars():
    """What a server may say to a reader instead of the truth: nothing of it is printed, and the state stays."""
    store()
    texts, _ = exported(30)
    with Daemon("store"):
        done("read", "daemon.sock", "state", "--first", "key")
        done("watch", "daemon.sock", "witness")
    kept = read("state")
    done("append", "store", data=lines(10, 30))
    done("export", "store", "export")
    texts = entries_of(read("export"))
    held = "30:" + root(texts, 30).hex()

    def changed(place, by):
        return texts[:place] + [by(texts[place])] + texts[place + 1:]

    turned = lambda text: text[:8] + bytes((text[8] ^ 1,)) + text[9:]
    unsealed = lambda text: text[:-1] + bytes((text[-1] ^ 1,))
    other = Told(changed(3, turned))
    given = lambda log: "%d:%s" % (len(log.texts), root(log.texts, len(log.texts)).hex())
    newest = commitment_reply(NEWEST, *Told(texts).commitment())
    join = increment_reply(JOIN, increment(texts, 30, 40))

    def entries(*places):
        return b"".join(entry_reply(4 + place, texts[place]) for place in places)

    shorter, another = Told(texts[:29]), Told(changed(3, turned)[:30])
    lies = [
        ("a shorter log", honest(shorter), (b"shorter", given(shorter))),
        ("another log", honest(another), (b"other root", given(another))),
        ("another past", honest(other), (b"not accepted", given(other))),
        ("an entry that was changed", honest(Told(changed(33, turned))), (1, b"audit: entry 33: 42 BadLink\n")),
        ("an entry that was sealed anew", honest(Told(changed(33, unsealed))), (1, b"audit: entry 33: 43 BadMac\n")),
        ("silence after the commitment", scripted(newest), (3, TOO_LATE[2])),
        ("another reply than an entry", scripted(newest, join, newest), BAD_REPLY[0::2]),
        ("a count that no log has", scripted(commitment_reply(NEWEST, 1 << 63, bytes(32))), None),
    ]
    expect_liars_found(kept, held, lies)
    expect_forgotten_told(texts, kept, changed, turned, given)


def expect_liars_found(kept, held, lies):
    """Nothing of a lie is printed, the state stays, and what contradicts it is kept."""
    for number, (what, serve, wanted) in enumerate(lies):
        path, name = "lie%d.sock" % number, "state%d" % number
        write(name, kept)
        with Server(path, serve):
            status, out, err = run("read", path, name, "--json", "--timeout", "2")
        expect((out, read(name)), (b"", kept), what + ": what is printed and kept")
        if wanted is None:
            expect(status in (1, 3), True, what)
        elif isinstance(wanted[0], bytes):
            word, of = wanted
            said = b"audit: %s\n" % word + alarm(word, held, of, name, path)[2]
            expect((status, err), (1, said), what)
            expect_alarms(name + ".alarm", (word, held, of))
        else:
            expect((status, err), wanted, what)


def expect_forgotten_told(texts, kept, changed, turned, given):
    """A witness saw more than the reader, and the server forgot it: what is kept is the witness's and the server's."""
    # A witness saw more than the reader, and the server forgot it: what is kept is the witness's and the server's.
    seen = "40:" + root(texts, 40).hex()
    with open("ahead", "w") as file:
        file.write(seen + "\n")
    forgotten, turned_late = Told(texts[:35]), Told(changed(35, turned))
    for path, log, word in ("old.sock", forgotten, b"shorter"), ("other.sock", turned_late, b"other root"):
        with Server(path, honest(log)):
            status, out, err = run("read", path, "state", "--under", "ahead")
        said = b"audit: %s\n" % word + alarm(word, seen, given(log), "state or ahead",
                                             path)[2].replace(b"state or ahead.alarm", b"state.alarm")
        expect((status, out, err, read("state")), (1, b"", said, kept), "a log that a witness saw otherwise: %r" % word)
    expect_alarms("state.alarm", (b"shorter", seen, given(forgotten)), (b"other root", seen, given(turned_late)))
    with open("empty", "w"):
        pass
    expect(run("read", "old.sock", "state", "--under", "empty")[0] != 0, True, "a witness that saw nothing")


@scene
def scene_reading_states():
    """A state that was changed, cut off or isn't one is a bad argument; one that another reader has is waited for."""
    store()
    done("append", "store", data=lines(5))
    with Daemon("store"):
        done("read", "daemon.sock", "state", "--first", "key")
        kept = read("state")
        for what, text in [("cut", kept[:-1]), ("changed", kept.replace(b"newest 5", b"newest 4")),
                           ("a key", read("key")), ("nothing", b""),
                           ("with a line less", b"".join(kept.splitlines(True)[:-3] + kept.splitlines(True)[-2:]))]:
            write("state", text)
            found = run("read", "daemon.sock", "state", "--first", "key")
            expect((found, read("state")), ((2, b"", b"audit: bad argument\n"), text), what)
        write("state", kept)
        with open("state.lock", "w") as lock:
            fcntl.flock(lock, fcntl.LOCK_EX)
            found = run("read", "daemon.sock", "state", "--timeout", "1")
            expect(found, (3, b"", b"audit: state in use\n"), "a state that another reader has")
        expect(done("read", "daemon.sock", "state"), b"verified 5 open\n", "after it")
        expect(run("read", "daemon.sock", "state", "--kind", "1,")[0], 2, "no kinds")
        expect(run("read", "daemon.sock", "store")[0], 2, "a store in the place of a state")
        done("send", "daemon.sock", data=lines(5))
        with open("store", "rb") as file:
            before = file.read()
        os.rename("state", "as it was")
        os.symlink("as it was", "state")
        found = done_with(b"audit: verified 10 open\n", "read", "daemon.sock", "state", "--text")
        expect(found.count(b"\n"), 5, "a link to a state")
        expect((os.path.islink("state"), read("store")), (True, before), "the link")


@scene
def scene_reading_files():
    """A log without an entry leaves a state; what a killed run left is removed; a line that was cut off is ended; what
    would wait isn't opened; and a wrong word is named, not the state."""
    store()
    with Daemon("store"):
        words = "read", "daemon.sock", "state"
        expect(done(*words, "--first", "key"), b"verified 0 open\n", "a log without an entry")
        expect(state_lines("state")[b"count"], b"0", "the state of a log without an entry")
        done("send", "daemon.sock", data=numbered(3))
        for left in "state.0.tmp", "state.3.tmp":
            write(left, read("state"))
        expect_cut_lines_ended(words)
        os.mkfifo("pipe")
        for found in whole("read", "daemon.sock", "pipe", "--explain"), whole(*words, "--under", "pipe", "--explain"):
            expect(found, (3, b"", b"audit: file fault\naudit: pipe: it is no regular file\n"),
                   "a pipe in the place of a file")
        os.remove("pipe.lock") if os.path.exists("pipe.lock") else None
        os.mkdir("held.lock")
        os.rename("state", "held")
        found = whole("read", "daemon.sock", "held", "--explain")
        expect(found, (3, b"", b"audit: file fault\naudit: held.lock: it is no regular file\n"),
               "a folder in the place of a lock")
        os.rename("held", "state")
        for name, word in ("--every", "0"), ("--timeout", "x"), ("--kind", "1,"):
            found = whole(*words, name, word, "--explain")
            expect((found[0], found[1], found[2].split(b": ")[1:3]), (2, b"", [b"bad argument\naudit", word.encode()]),
                   "a wrong word of " + name)
        expect(whole(*words, "--json", "--numbers")[0], 2, "numbers with JSON")
        expect(whole("verify", "all", "key", "0:" + 64 * "0", "--json", "--numbers")[0], 2,
               "numbers with JSON, of an export")


def expect_cut_lines_ended(words):
    """A line that was cut off is ended, and what a killed run left is removed."""
    for end in b"{\"index\":0,\"ki", b"{\"ind\0\0\0":
        with open("out", "wb") as out:
            out.write(end)
        with open("out", "ab") as out:
            kept = read("state")
            found = subprocess.run([program.PATH, *words, "--json"], stdout=out, stderr=subprocess.PIPE,
                                   timeout=program.SECONDS)
        write("state", kept)
        expect((found.returncode, read("out").split(b"\n")[0], read("out").count(b"\n")), (0, end, 4),
               "a line that was cut off")
    expect(temporary_names(), [], "what a killed run left")
