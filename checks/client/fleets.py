"""tools/fleet: one witness of several stores."""
import contextlib
import os
import re
import shutil
import subprocess

from checks.client.common import ODD, SHOWN, alarm, lines, store
from checks.client.git_witnesses import put_file
from checks.parts import program
from checks.parts.daemons import Serving
from checks.parts.files import read
from checks.parts.liars import Server, honest
from checks.parts.logs import Log
from checks.parts.places import tool
from checks.parts.program import done
from checks.parts.repositories import bare, git, repository
from checks.parts.scenes import scene
from checks.parts.tools import needs
from checks.parts.wrong import expect


@scene
def scene_fleet_lists():
    """What a list of stores may be, and a push that fails: nothing of it hides a log rolled back, or that nothing was
    seen."""
    needs("git")
    repository("states", "fleet")

    def look(text, executable=None):
        put_file("list", text)
        found = subprocess.run([tool("fleet"), executable or program.PATH, "list", "states"], capture_output=True,
                               timeout=program.SECONDS)
        rows = [row.split(None, 3) for row in found.stdout.splitlines()]
        return found.returncode, [(row[0], row[1], row[3]) for row in rows[1:]], found.stderr

    log = Log(5)
    with Server("own.sock", honest(log)):
        expect(look(b""), (3, [], b"fleet: LIST names no store\n"), "an empty list")
        expect(look(b"\n\n"), (3, [], b"fleet: LIST names no store\n"), "a list of empty lines")
        expect(look(b"a own.sock\nb own.sock"), (0, [(b"a", b"5", b"began"), (b"b", b"5", b"began")], b""),
               "no line feed at the end")
        found = look(b"a own.sock\n", os.path.abspath("no program"))
        expect((found[0], found[1]), (3, [(b"a", b"5", b"no look, status 127")]), "no program")
        expect(look(b"a own.sock\nc\n"), (3, [(b"a", b"5", b"same"), (b"c", b"-", b"no socket")], b""), "no socket")
        expect(look(b"a own.sock\na no.sock\n../b own.sock\n"),
               (3, [(b"a", b"5", b"same"), (b"a", b"-", b"two of this name"), (b"../b", b"-", b"bad name")], b""),
               "bad names")
        odd = os.fsencode(ODD.replace("\n", ""))
        expect(look(odd + b" own.sock\n"), (0, [(SHOWN.replace(b"\\x0a", b""), b"5", b"began")], b""), "an odd name")
        expect_failed_pushes_told(look, log)


def expect_failed_pushes_told(look, log):
    """A push or a commit that fails, and a log that is another at the same time."""
    put_file("remote", b"")
    git("states", "remote", "add", "origin", "../remote")
    found = look(b"a own.sock\n")
    expect((found[:2], found[2].startswith(b"fleet: the commitments couldn't be pushed\n")),
           ((3, [(b"a", b"5", b"same")]), True), "a push that fails")
    log.texts = Log(2).texts
    found = look(b"a own.sock\n")
    said = alarm(b"shorter", Log(5).word(), log.word(),
                 "states/a.state")[2] + b"fleet: the commitments couldn't be pushed\n"
    expect((found[:2], found[2].startswith(said)), ((1, [(b"a", b"5", b"shorter")]), True),
           "a log rolled back, and a push that fails")
    expect(git("states", "show", "main:a.state.alarm"), read("states/a.state.alarm"), "the alarm, committed")
    git("states", "remote", "remove", "origin")
    put_file("states/.git/index.lock", b"")
    log.texts = Log(6, b"other").texts
    found = look(b"a own.sock\nd own.sock\n")
    said = alarm(b"not accepted", Log(5).word(), log.word(), "states/a.state")[2]
    expect((found[:2], found[2].startswith(said + b"fleet: the commitments couldn't be committed\n")),
           ((1, [(b"a", b"5", b"not accepted"), (b"d", b"6", b"began")]), True),
           "a past rewritten, and a commit that fails")
    os.remove("states/.git/index.lock")
    expect(look(b"d own.sock\n"), (0, [(b"d", b"6", b"same")], b""), "what wasn't committed")
    expect(git("states", "show", "main:d.state"), read("states/d.state"), "what is committed then")


@scene
def scene_fleet():
    """One witness of three stores: all honest, then one that doesn't answer, then one that was rolled back."""
    needs("git")
    bare("remote")
    repository("states", "fleet")
    git("states", "remote", "add", "origin", "../remote")
    names = ["east", "north", "west"]
    with open("list", "w") as file:
        file.write("".join("%s %s.sock\n" % (name, name) for name in names))
    make_stores(names)
    with serving(names):
        expect(look_at_all(), (0, [("east", "0", "began"), ("north", "1", "began"), ("west", "2", "began")], b""),
               "the first look")
        done("send", "north.sock", data=lines(4))
        expect(look_at_all(), (0, [("east", "0", "same"), ("north", "5", "grew"), ("west", "2", "same")], b""),
               "the second look")
    names.pop()
    with serving(names):
        expect(look_at_all(), (3, [("east", "0", "same"), ("north", "5", "same"), ("west", "2", "file fault")], b""),
               "a daemon that is away")
    names.append("west")
    os.rename("north.old", "north")
    with serving(names):
        status, rows, said = look_at_all()
        expect((status, rows), (1, [("east", "0", "same"), ("north", "5", "shorter"), ("west", "2", "same")]),
               "a log rolled back")
        expect(re.fullmatch(b"audit: north.sock: shorter: states/north.state holds 5:[0-9a-f]{64}, the server gave "
                            b"1:[0-9a-f]{64}\n"
                            b"audit: kept in states/north.state.alarm\n", said) is not None, True,
               "what is said of it: %r" % said)
    expect_pushed()


def look_at_all():
    """A look of `fleet` at the stores of the list: its status, its rows without the ages, and what it says."""
    found = subprocess.run([tool("fleet"), program.PATH, "list", "states"], capture_output=True,
                           timeout=program.SECONDS)
    rows = [row.split(None, 3) for row in found.stdout.decode().splitlines()]
    expect(rows[0], ["store", "events", "age", "found"], "the head of the table")
    return found.returncode, [(row[0], row[1], row[3]) for row in rows[1:]], found.stderr


def serving(names):
    """Servers of these stores."""
    stack = contextlib.ExitStack()
    for name in names:
        stack.enter_context(Serving(name, name + ".sock"))
    return stack


def expect_pushed():
    """The newest commitment and the alarm are at the remote."""
    kept = subprocess.run(["git", "--git-dir", "remote", "show", "main:north.state.alarm"], capture_output=True,
                          check=True)
    expect(kept.stdout, read("states/north.state.alarm"), "the alarm that was pushed")
    pushed = subprocess.run(["git", "--git-dir", "remote", "show", "main:north.state"], capture_output=True, check=True)
    expect(pushed.stdout, read("states/north.state"), "what was pushed")


def make_stores(names):
    """A store for each name, and a copy of each before it grows."""
    for place, name in enumerate(names):
        store()
        os.rename("store", name)
        with Serving(name, "fill.sock"):
            done("send", "fill.sock", data=lines(place))
        shutil.copy(name, name + ".old")
