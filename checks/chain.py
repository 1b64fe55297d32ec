"""Verifies logs that continue each other by tools/verify-chain, and chains that aren't whole.

usage: bin/check chain EXECUTABLE [SCENE ..]
"""
import os
import shutil
import subprocess
import sys

from checks.parts import program
from checks.parts.daemons import commitment_of
from checks.parts.files import read, write
from checks.parts.logs import event_line
from checks.parts.places import tool
from checks.parts.program import done
from checks.parts.scenes import play_all, scene, scenes_in, words_of
from checks.parts.wrong import expect

# Three logs: how many events each gets, beside the closing one and the commitment with which a later one begins.
EVENTS = {"first": 2, "second": 0, "third": 3}
COUNTS = {"first": 3, "second": 2, "third": 4}


def verify(commitment, *form, folder="logs", path=None):
    """Status, standard output and standard error of a run."""
    words = [tool("verify-chain"), folder, commitment, *form]
    ended = subprocess.run(words, stdin=subprocess.DEVNULL, capture_output=True, timeout=program.SECONDS,
                           env=dict(os.environ, AUDIT=path or program.PATH))
    return ended.returncode, ended.stdout, ended.stderr


def export(name):
    done("export", name, "logs/%s.export" % name)


def make_chain():
    """Makes the logs and their exports, and returns the last commitment of each."""
    os.mkdir("logs")
    before, commitments = None, {}
    for number, (name, events) in enumerate(EVENTS.items()):
        write("logs/%s.key" % name, b"%064d\n" % number)
        if before:
            done("rotate", before, name, "64", "logs/%s.key" % name)
        else:
            done("format", name, "64", "logs/%s.key" % name)
        done("append", name, data=b"".join(event_line(b"%s %d" % (name.encode(), at)) for at in range(events)))
        before = name
    for name in EVENTS:
        export(name)
        commitments[name] = commitment_of(name)
    return commitments


def line_of(name, commitments, state):
    return "log %s %s %s\n" % (name, commitments[name].replace(":", " "), state)


def lines_of(commitments):
    return [line_of("first", commitments, "closed"), line_of("second", commitments, "closed"),
            line_of("third", commitments, "open")]


def end_of(state):
    return "chain 3 %d %s\n" % (sum(COUNTS.values()), state)


def expect_broken(found, said, what):
    """A chain that isn't whole: nothing is printed, and this is said."""
    expect(found, (1, b"", b"verify-chain: " + said + b"\n"), what)


@scene
def scene_whole():
    """The logs are printed from the first to the newest, with their events on request."""
    commitments = make_chain()
    expect(verify(commitments["third"]), (0, "".join([*lines_of(commitments), end_of("open")]).encode(), b""),
           "a whole chain")
    for form in "--text", "--json":
        events = [program.whole("verify", "logs/%s.export" % name, "logs/%s.key" % name, commitments[name], form)[1]
                  for name in EVENTS]
        said = "".join([*lines_of(commitments), end_of("open")]).encode()
        expect(verify(commitments["third"], form), (0, b"".join(events), said), "a whole chain with " + form)
    done("close", "third")
    export("third")
    commitments["third"] = commitment_of("third")
    wanted = (line_of("third", commitments, "closed") + "chain 3 %d closed\n" % (sum(COUNTS.values()) + 1)).encode()
    status, output, _ = verify(commitments["third"])
    expect((status, output[-len(wanted):]), (0, wanted), "a chain whose newest log is closed")


@scene
def scene_parts():
    """An earlier commitment is that of an earlier chain. An export of another log is named, and one without a key."""
    commitments = make_chain()
    os.mkdir("logs/folder.export.d")
    done("format", "other", "8", "logs/first.key")
    export("other")
    write("logs/o\033[31m.export", read("logs/other.export"))
    shutil.copy("logs/first.key", "logs/other.key")
    wanted = (line_of("first", commitments, "closed") + line_of("second", commitments, "closed")
              + "chain 2 %d closed\n" % (COUNTS["first"] + COUNTS["second"])).encode()
    expect(verify(commitments["second"]),
           (0, wanted, b"verify-chain: o\\x1b[31m has no key\nverify-chain: other isn't in the chain\n"
                       b"verify-chain: third isn't in the chain\n"), "an earlier chain")


@scene
def scene_missing():
    """A log that is missing, of another first key, changed or cut breaks the chain, wherever it is."""
    commitments = make_chain()
    second = read("logs/second.export")
    of_second = b"no export of %s, the log before third" % commitments["second"].encode()
    os.remove("logs/second.export")
    expect_broken(verify(commitments["third"]), of_second, "a chain without its second log")
    for cut in second[:-1], second + b"\0", second[:4] + b"\xff" + second[5:]:
        write("logs/second.export", cut)
        expect_broken(verify(commitments["third"]),
                      b"second: the export ends within an entry\nverify-chain: " + of_second, "a cut second log")
    write("logs/second.export", b"")
    expect_broken(verify(commitments["third"]), of_second, "a second log that is empty")
    write("logs/second.export", second[:80] + bytes([second[80] ^ 1]) + second[81:])
    expect_broken(verify(commitments["third"]), of_second + b"; second: entry 0: 42 BadLink", "a changed second log")
    write("logs/second.export", second)
    shutil.copy("logs/first.key", "logs/second.key")
    expect_broken(verify(commitments["third"]), of_second + b"; second: entry 0: 43 BadMac", "a second log's key")
    wrong = "%d:%064d" % (COUNTS["third"], 7)
    expect_broken(verify(wrong), b"no export of %s; third: entry 4: 44 WrongCommitment" % wrong.encode(),
                  "another commitment")


@scene
def scene_continued():
    """A log that goes on after what continues it was begun isn't a part of a chain."""
    os.mkdir("logs")
    for name in "old", "new":
        write("logs/%s.key" % name, b"%064d\n" % (name == "old"))
        done("format", name, "8", "logs/%s.key" % name)
    done("append", "old", data=event_line(b"before"))
    done("append", "new", data=event_line(commitment_of("old").encode(), 0))
    export("old")
    export("new")
    expect_broken(verify(commitment_of("new")), b"old isn't closed, and new continues it", "a log that isn't closed")


@scene
def scene_texts():
    """A source's first event that looks like a commitment, or is longer than one, is no more than that."""
    os.mkdir("logs")
    texts = [(b"1" * 5001 + b":" + b"0" * 64, False), (b"123456789:" + b"0" * 64, False),
             (b"12345678:" + b"f" * 64, True), (b"7:" + b"F" * 64, False)]
    for number, (text, is_link) in enumerate(texts):
        name = "log%d" % number
        write("logs/%s.key" % name, b"%064d\n" % number)
        done("format", name, "32", "logs/%s.key" % name)
        done("append", name, data=event_line(text, 0))
        export(name)
        if is_link:
            expect_broken(verify(commitment_of(name)), b"no export of %s, the log before %s" % (text, name.encode()),
                          "a source's commitment")
        else:
            expect(verify(commitment_of(name))[0], 0, "a first event of %d bytes" % len(text))
        os.remove("logs/%s.export" % name)


@scene
def scene_words():
    """Wrong words have status 2, and files that can't be read 3."""
    commitments = make_chain()
    usage = b"usage: verify-chain FOLDER COMMIT [--text | --json]\n"
    for words in (["logs", "3"], ["logs", commitments["third"], "--text", "--json"],
                  ["logs", commitments["third"], "more"], ["logs", "0:" + "0" * 64]):
        ended = subprocess.run([tool("verify-chain"), *words], capture_output=True)
        expect((ended.returncode, ended.stdout, ended.stderr), (2, b"", usage), " ".join(words))
    for how in {"folder": "none"}, {"path": "/nowhere/audit"}:
        status, output, said = verify(commitments["third"], **how)
        expect((status, output, said[:14]), (3, b"", b"verify-chain: "), "what isn't there: %s" % said)


SCENES = scenes_in(sys.modules[__name__])


def main(words):
    _, names = words_of(words, SCENES, options=())
    return play_all(SCENES, names)
