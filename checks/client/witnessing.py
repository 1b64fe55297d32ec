"""`audit watch`: a witness of logs that grow, and of logs that are another than they were."""
import fcntl
import os
import re
import subprocess

from checks.client.common import DATE, ODD, SHOWN, alarm, expect_alarms, run_silenced, run_soon, store
from checks.parts import program
from checks.parts.files import read, write
from checks.parts.frames import commitment_reply, increment_reply, refusal
from checks.parts.liars import JOIN, NEWEST, Server, cut, honest, scripted
from checks.parts.logs import Log, increment
from checks.parts.program import BAD_REPLY, ENDED, TOO_LATE, done, run
from checks.parts.scenes import scene
from checks.parts.wrong import expect
from read_export import sha256


@scene
def scene_watching():
    """A witness of a log that grows, and of logs that are another than it was."""
    log = Log(0)
    with Server("own.sock", honest(log)):
        expect(done("watch", "own.sock", "state"), b"began %s\n" % log.word().encode(), "an empty log")
        seen = [log.word()]
        for count in 1, 5, 5, 64, 65:
            log.texts = Log(count).texts
            is_new = log.word() != seen[-1]
            wanted = b"grew %s\n" % log.word().encode() if is_new else b"same\n"
            expect(done("watch", "own.sock", "state"), wanted, "%d entries" % count)
            seen += [log.word()] if is_new else []
        kept = "".join(word + "\n" for word in seen).encode()
        expect(read("state"), kept, "STATE")
        os.chmod("state", 0o640)
        for words, wanted in (
            (["watch", "own.sock", "bad"], (1, b"", b"audit: line 2: bad commitment line\n")),
            (["watch", "own.sock", "short"], (0, b"grew %s\n" % log.word().encode(), b"")),
        ):
            write(words[2], Log(2).word().encode() + (b"\n1:ax" if words[2] == "bad" else b""))
            expect(run(*words), wanted, "STATE " + words[2])
        expect(read("short"), b"%s\n%s\n" % (Log(2).word().encode(), log.word().encode()),
               "a last line without its end")
    truth = expect_other_logs_refused(kept)
    with Server("own.sock", honest(truth)):
        expect(done("watch", "own.sock", "state"), b"grew %s\n" % truth.word().encode(), "the same log, grown")
        os.mkdir("folder")
        os.symlink("../state", "folder/link")
        expect(done("watch", "own.sock", "folder/link"), b"same\n", "STATE by a link")
    expect(os.stat("state").st_mode & 0o777, 0o640, "the permissions of STATE")
    expect(read("state"), kept + truth.word().encode() + b"\n", "STATE at last")


def expect_other_logs_refused(kept):
    """What isn't the log that was seen changes no STATE, and is kept beside it."""
    other, longer = Log(65, b"other"), Log(90, b"other")
    truth = Log(90)
    newest = commitment_reply(NEWEST, *truth.commitment())
    held = Log(65).word()
    for what, serve, wanted in (
        ("a log rolled back", honest(Log(64)), alarm(b"shorter", held, Log(64).word())),
        ("another root", honest(other), alarm(b"other root", held, other.word())),
        ("another log, grown", honest(longer), alarm(b"not accepted", held, longer.word())),
        ("an increment from another count", scripted(newest, increment_reply(JOIN, increment(truth.texts, 64, 90))),
         alarm(b"not accepted", held, truth.word())),
        ("no increment", scripted(newest), TOO_LATE),
        ("a refused increment", scripted(newest, refusal(JOIN, 8)), (1, b"", b"audit: 8 NoSuchVersion\n")),
        ("another reply", scripted(newest, newest), BAD_REPLY),
        ("an answer that never comes", scripted(), TOO_LATE),
        ("an answer that is cut", cut(newest[:9]), ENDED),
    ):
        with Server("own.sock", serve):
            expect(run_silenced(wanted, "watch", "own.sock", "state"), wanted, what)
        expect(read("state"), kept, "STATE after " + what)
    alarms = [(b"shorter", held, Log(64).word()), (b"other root", held, other.word()),
              (b"not accepted", held, longer.word()),
              (b"not accepted", held, truth.word())]
    expect_alarms("state.alarm", *alarms)
    expect(os.stat("state.alarm").st_mode & 0o777, 0o600, "the permissions of STATE.alarm")
    return truth


@scene
def scene_alarms():
    """What contradicts a witness is kept beside STATE, after what is there, also after a line that was cut off. If it
    can't be kept, the alarm says so. A quiet witness prints its first commitment and its alarms."""
    log = Log(5)
    with Server("own.sock", honest(log)):
        expect(done("watch", "own.sock", "state", "--quiet"), b"began %s\n" % log.word().encode(), "a quiet beginning")
        expect(done("watch", "own.sock", "state", "--quiet"), b"", "the same, quietly")
        log.texts = Log(9).texts
        expect(done("watch", "own.sock", "state", "--quiet"), b"", "a log that grew, quietly")
        held, log.texts = log.word(), Log(7).texts
        given = log.word()
        expect(run("watch", "own.sock", "state", "--quiet"), alarm(b"shorter", held, given), "a quiet alarm")
        expect(done("ask", "own.sock", "commitment"), b"commit %s\n" % given.replace(":", " ").encode(),
               "what is asked")
        with open("state.alarm", "ab") as file:
            file.write(b"Fri, 27 No")
        expect(run("watch", "own.sock", "state"), alarm(b"shorter", held, given), "an alarm after one that was cut off")
        found = read("state.alarm").split(b"\n")
        expect((len(found), found[1], found[3]), (4, b"Fri, 27 No", b""), "STATE.alarm")
        os.remove("state.alarm")
        run("watch", "own.sock", "state")
        expect_alarms("state.alarm", (b"shorter", held, given))
        os.remove("state.alarm")
        for path, make in (("a folder", os.mkdir), ("a pipe", os.mkfifo)):
            make("state.alarm")
            status, out, err = run("watch", "own.sock", "state")
            wanted = alarm(b"shorter", held, given)[2].splitlines()[0], b"audit: state.alarm can't be written"
            expect((status, out, tuple(err.splitlines())), (1, b"shorter\n", wanted), path)
            (os.rmdir if make is os.mkdir else os.remove)("state.alarm")
        os.rename("state", ODD)
        status, out, err = run("watch", "own.sock", ODD)
        expect((status, out, err.count(b"\n"), err.count(SHOWN)), (1, b"shorter\n", 2, 2), "an odd name")
        expect_alarms(ODD + ".alarm", (b"shorter", held, given))
    expect(read(ODD).splitlines()[-1], held.encode(), "STATE after all alarms")


@scene
def scene_one_state():
    """Two witnesses with one STATE at once: each line that one of them prints is in STATE, and each is joined to the
    next."""
    log = Log(0)
    printed = []
    with Server("own.sock", honest(log)):
        for count in range(300):
            log.texts = Log(count).texts
            looks = [subprocess.Popen([program.PATH, "watch", "own.sock", "state"], stdout=subprocess.PIPE,
                                      stderr=subprocess.PIPE)
                     for _ in range(2)]
            for look in looks:
                out, err = look.communicate(timeout=program.SECONDS)
                expect((look.returncode, err), (0, b""), "a look at %d entries" % count)
                printed.append(out)
    grown = [line.split()[1] for line in printed if line != b"same\n"]
    expect(len(grown), 300, "how many looks saw more")
    expect(read("state"), b"".join(word + b"\n" for word in grown), "STATE")
    with Server("own.sock", honest(log)), open("state") as file:
        fcntl.flock(file, fcntl.LOCK_EX)
        expect(run_soon("watch", "own.sock", "state"), (3, b"", b"audit: witness file in use\n"),
               "a STATE that is in use")


@scene
def scene_state():
    """STATE of any size, cut off anywhere in its last line, and what isn't one."""
    log = Log(90)
    lines = [("%d:%s\n" % (place, sha256(b"%d" % place).hex())).encode() for place in range(230000)]
    older, newest = log.word(70).encode() + b"\n", log.word().encode() + b"\n"
    with Server("own.sock", honest(log)):
        for words, text, wanted in (
            ("a line over 16 MiB", b"".join(lines) + older, (0, b"grew " + newest, b"")),
            ("no line feed", b"".join(lines) + older[:-1], (0, b"grew " + newest, b"")),
            ("a bad line far before the end", b"x\n" + b"".join(lines) + older, (0, b"grew " + newest, b"")),
            ("a bad line near the end", b"".join(lines[:2000]) + b"1:ab\n" + older,
             (1, b"", b"audit: line 2001: bad commitment line\n")),
            ("a bad last line", b"".join(lines[:2000]) + b"1:ax", (1, b"", b"audit: line 2001: bad commitment line\n")),
            ("no line at all", bytes(1 << 17), (1, b"", b"audit: line 1: bad commitment line\n")),
        ):
            write("state", text)
            expect(run("watch", "own.sock", "state"), wanted, words)
            feed = b"" if text.endswith(b"\n") else b"\n"
            expect(read("state") == text + (feed + newest if wanted[0] == 0 else b""), True, "STATE with " + words)
        for size in range(1, len(newest) - 1):
            write("state", older + newest[:size])
            expect(run("watch", "own.sock", "state"), (0, b"grew " + newest, b""), "%d bytes of a line" % size)
            expect(read("state"), older + newest, "STATE after %d bytes of a line" % size)
        store(64)
        before = read("store")
        expect(run("watch", "own.sock", "store")[0], 1, "a store as STATE")
        expect(read("store"), before, "the store")
        os.mkfifo("pipe")
        os.mkdir("folder")
        for path in "pipe", "folder", "/dev/null":
            expect(run("watch", "own.sock", path), (3, b"", b"audit: file fault\n"), path)


@scene
def scene_watching_on():
    """A witness that looks again prints a line a change, goes on without a server, and stops at a log rolled back."""
    log = Log(3)
    server = Server("own.sock", honest(log))
    watch = subprocess.Popen([program.PATH, "watch", "own.sock", "state", "--every", "1"],
                             stdout=subprocess.PIPE, stderr=subprocess.PIPE)
    try:
        with server:
            expect(watch.stdout.readline(), b"began %s\n" % log.word().encode(), "the first look")
            log.texts = Log(9).texts
            expect(watch.stdout.readline(), b"grew %s\n" % log.word().encode(), "a grown log")
        messages = [watch.stderr.readline() for _ in range(2)]
        # A look may have come while the server went.
        if messages[0] == ENDED[2]:
            expect(re.fullmatch(b"audit: own.sock: connection ended, " + DATE + b"\n", messages[1]) is not None, True,
                   "%r" % messages)
            messages = [watch.stderr.readline() for _ in range(2)]
        expect(messages[0], b"audit: file fault\n", "no server")
        expect(re.fullmatch(b"audit: own.sock: (entity not found|connection refused), " + DATE + b"\n",
                            messages[1]) is not None, True,
               "the name, the cause and the date: %r" % messages[1])
        log.texts = Log(12).texts
        held = log.word()
        with Server("own.sock", honest(log)):
            expect(watch.stdout.readline(), b"grew %s\n" % held.encode(), "a log that grew meanwhile")
            message = watch.stderr.readline()
            expect(re.fullmatch(b"audit: own.sock: answers again, " + DATE + b"\n", message) is not None, True,
                   "a server that is back: %r" % message)
            log.texts = Log(7).texts
            wanted = alarm(b"shorter", held, log.word())
            expect(watch.communicate(timeout=program.SECONDS), wanted[1:], "a log rolled back")
        expect(watch.returncode, 1, "its status")
    finally:
        watch.kill()
        watch.wait()
