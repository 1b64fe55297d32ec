"""tools/witness-git, with peers and remotes of any kind."""
import contextlib
import os
import shutil
import signal
import subprocess

from checks.client.common import ODD, SHOWN, alarm, lines, store
from checks.parts import program
from checks.parts.daemons import Serving
from checks.parts.files import read, write
from checks.parts.liars import Server, honest
from checks.parts.logs import Log
from checks.parts.places import tool
from checks.parts.program import done
from checks.parts.repositories import bare, clones, git, repository
from checks.parts.scenes import scene
from checks.parts.tools import needs
from checks.parts.wrong import expect


@scene
def scene_witness_git():
    """Two witnesses with one remote: of an honest store, of one that was rolled back, and of one written anew."""
    needs("git")
    witness = tool("witness-git")
    clones("first", "second")

    def look(name):
        found = subprocess.run([witness, program.PATH, "serve.sock", name, name], capture_output=True,
                               timeout=program.SECONDS)
        first, *rest = found.stdout.split(b"\n")
        return found.returncode, first.split(b" ")[0], rest[:-1], found.stderr

    store()
    with Serving("store"):
        done("send", "serve.sock", data=lines(5))
        expect(look("first"), (0, b"began", [], b""), "the first witness")
        done("send", "serve.sock", data=lines(5, 5))
        shutil.copy("store", "rolled_back")
        expect(look("second"), (0, b"began", [b"agrees with first"], b""), "the second witness")
        done("send", "serve.sock", data=lines(5, 10))
        expect(look("first"), (0, b"grew", [b"agrees with second"], b""), "a log that grew")
        expect(look("first"), (0, b"same", [b"agrees with second"], b""), "the same log")
    os.rename("store", "honest")
    os.rename("rolled_back", "store")
    with Serving("store"):
        expect(look("first")[:2], (1, b"shorter"), "a log rolled back")
        expect(look("second"), (1, b"same", [b"disagrees with first"],
                                b"audit: 8 NoSuchVersion\naudit: NEWER 15 is too large: the log has 10 entries\n"),
               "what the other knows of it")
    os.remove("store")
    store()
    with Serving("store"):
        done("send", "serve.sock", data=lines(20, 100))
        expect(look("first")[:2], (1, b"not"), "a log written anew with the first key")
        expect(look("second")[:2], (1, b"not"), "the same for the other")


def witness_look(name, executable=None):
    """The status of a run of witness-git, what the watch found, the lines after it, and the messages."""
    witness = tool("witness-git")
    found = subprocess.run([witness, executable or program.PATH, "own.sock", name, name], capture_output=True,
                           timeout=program.SECONDS)
    first, *rest = found.stdout.split(b"\n")
    return found.returncode, first.split(b" ")[0], rest[:-1], found.stderr


def push_as(peer, change):
    """What somebody who can push does to the branch."""
    git(peer, "fetch", "--quiet", "origin", "main")
    git(peer, "reset", "--quiet", "--hard", "FETCH_HEAD")
    change()
    git(peer, "add", "--all")
    git(peer, "commit", "--quiet", "-m", "a change")
    git(peer, "push", "--quiet", "origin", "HEAD:main")


def put_file(path, text):
    with contextlib.suppress(FileNotFoundError):
        os.remove(path)
    write(path, text)


def put_link(path, target):
    os.remove(path)
    os.symlink(target, path)


@scene
def scene_witness_git_peers():
    """A peer that deletes, links, cuts or makes up a STATE, its own or this witness's, is an alarm until it is
    undone."""
    needs("git")
    clones("first", "peer")
    log = Log(9)
    kept = log.word(5).encode() + b"\n" + log.word(7).encode() + b"\n"
    own = log.word().encode() + b"\n"
    with Server("own.sock", honest(log)):
        expect(witness_look("first"), (0, b"began", [], b""), "a first look")
        push_as("peer", lambda: put_file("peer/second.state", kept))
        expect(witness_look("first"), (0, b"same", [b"agrees with second"], b""), "a peer")
        lost, bad = [b"lost lines of second"], [b"bad lines of second"]
        expect_peer_alarms(log, kept, own, lost, bad)
        for what, change, wanted in (
            ("deleted", lambda: os.remove("peer/first.state"), b"lost lines of first"),
            ("replaced", lambda: put_file("peer/first.state", log.word(3).encode() + b"\n"), b"lost lines of first"),
            ("continued", lambda: put_file("peer/first.state", own + Log(12, b"x").word().encode() + b"\n"),
             b"lost lines of first"),
            ("linked", lambda: put_link("peer/first.state", "/etc/passwd"), b"bad lines of first"),
        ):
            push_as("peer", change)
            expect(witness_look("first"), (1, b"same", [wanted, b"agrees with second"], b""), "its own STATE, " + what)
            expect(witness_look("first"), (0, b"same", [b"agrees with second"], b""), "its own STATE, restored")
            expect(git("remote", "show", "main:first.state"), own, "its STATE at the remote, " + what)
        push_as("peer", lambda: put_file(os.fsencode("peer/" + ODD + ".state"), b"0:x\n"))
        expect(witness_look("first"), (1, b"same", [b"bad lines of " + SHOWN, b"agrees with second"], b""),
               "an odd name")
        push_as("peer", lambda: put_file(os.fsencode("peer/" + ODD + ".state"), kept))
        expect(witness_look("first"), (0, b"same", [b"agrees with " + SHOWN, b"agrees with second"], b""),
               "an odd name that agrees")
        push_as("peer", lambda: os.remove("peer/first.state"))
    with Server("own.sock", honest(Log(4))):
        found = witness_look("first")
        name = "%s/first/.git/witness-git/first.state" % os.path.realpath(".")
        expect((found[:2], found[3]), ((1, b"shorter"), alarm(b"shorter", Log(9).word(), Log(4).word(), name)[2]),
               "a log rolled back, and the STATE deleted")


def expect_peer_alarms(log, kept, own, lost, bad):
    """What a peer does to its own STATE is an alarm until it is undone."""
    for what, change, wanted in (
        ("a deletion", lambda: os.remove("peer/second.state"), lost),
        ("other lines", lambda: put_file("peer/second.state", kept[:-2] + b"x\n"), bad),
        ("a line cut off", lambda: put_file("peer/second.state", log.word(5).encode() + b"\n"), lost),
        ("another past", lambda: put_file("peer/second.state",
                                          Log(5, b"x").word().encode() + b"\n" + log.word(7).encode() + b"\n"),
         lost),
        ("no line", lambda: put_file("peer/second.state", b""), bad),
        ("a line without its end", lambda: put_file("peer/second.state", kept[:-1]), bad),
        ("0 and anything", lambda: put_file("peer/second.state", kept + b"0:anything\n"), bad),
        ("0 and a root", lambda: put_file("peer/second.state", kept + b"0:" + b"1" * 64 + b"\n"), bad),
        ("a number that is too large", lambda: put_file("peer/second.state", kept + b"9" * 30 + own[1:]), bad),
        ("a link", lambda: put_link("peer/second.state", "first.state"), bad),
    ):
        push_as("peer", change)
        for turn in ("first", "second") if what == "a deletion" else ("first",):
            found = witness_look("first")
            expect((found[:2], [line for line in found[2] if line in lost + bad], found[3]),
                   ((1, b"same"), wanted, b""),
                   "%s, the %s look" % (what, turn))
        push_as("peer", lambda: put_file("peer/second.state", kept))
        expect(witness_look("first"), (0, b"same", [b"agrees with second"], b""), what + " undone")


@scene
def scene_witness_git_stops():
    """A run that is killed after its look, and one without its remote: the next run commits what was seen."""
    needs("git")
    clones("first")
    log = Log(3)
    with open("killed", "w") as file:
        file.write('#!/bin/sh\n"%s" "$@"\nkill -KILL $PPID\n' % program.PATH)
    os.chmod("killed", 0o755)
    with Server("own.sock", honest(log)):
        expect(witness_look("first"), (0, b"began", [], b""), "a first look")
        log.texts = Log(5).texts
        found = witness_look("first", os.path.abspath("killed"))
        expect(found[:2], (-signal.SIGKILL, b"grew"), "a look that is killed")
        expect(witness_look("first"), (0, b"same", [], b""), "the next look")
        expect(git("remote", "show", "main:first.state").splitlines(), [log.word(count).encode() for count in (3, 5)],
               "what was seen")
        os.rename("remote", "away")
        log.texts = Log(8).texts
        found = witness_look("first")
        expect((found[:3], b"witness-git: the commitments of others couldn't be fetched\n" in found[3]),
               ((3, b"grew", []), True), "no remote")
        os.rename("away", "remote")
        expect(witness_look("first"), (0, b"same", [], b""), "the remote again")
        expect(git("remote", "show", "main:first.state").splitlines()[-1], log.word().encode(),
               "what was seen meanwhile")
        shutil.rmtree("remote")
        bare("remote")
        expect(witness_look("first"), (1, b"same", [b"lost lines of first"], b""), "an empty remote")
    repository("alone", "me")
    with Server("own.sock", honest(log)):
        expect(witness_look("alone"), (0, b"began", [], b""), "a repository without a remote")
        log.texts = Log(9).texts
        expect(witness_look("alone"), (0, b"grew", [], b""), "the same, of a log that grew")
    expect(git("alone", "show", "main:alone.state"), read("alone/alone.state"), "the worktree")
    expect(git("alone", "status", "--porcelain"), b"", "the worktree's changes")
