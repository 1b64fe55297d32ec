"""Stores whose first key is sealed to an auditor by tools/format-sealed, with the real `age` and `gpg`, and by commands
that fail.

usage: bin/check sealing EXECUTABLE [SCENE ..]

What needs age or gpg is left out where it is missing.
"""
import glob
import os
import subprocess
import sys

from checks.parts import program
from checks.parts.daemons import commitment_of, events_in
from checks.parts.files import mode_of, read, write
from checks.parts.logs import event_line
from checks.parts.places import tool
from checks.parts.program import done
from checks.parts.rooms import in_child
from checks.parts.scenes import play_all, scene, scenes_in, words_of
from checks.parts.tools import call, needs
from checks.parts.wrong import expect, expect_true

PAYLOADS = [b"one", b"two"]
USAGE = b"usage: format-sealed FILE SECTORS OUT COMMAND [WORD ..]\n"


def make(*words, path=None, **how):
    """Status, standard output and standard error of a run."""
    ended = subprocess.run([tool("format-sealed"), *words], stdin=subprocess.DEVNULL, capture_output=True,
                           timeout=program.SECONDS, env=dict(os.environ, AUDIT=path or program.PATH), **how)
    return ended.returncode, ended.stdout, ended.stderr


def expect_made(out, *command):
    expect(make("store", "64", out, *command), (0, b"formatted 64\n", b""), "a store with a sealed key")
    expect(mode_of(out), 0o600, "the mode of a sealed key")


def expect_opened(key):
    """The key that the auditor unsealed is the store's first one, and isn't kept here once an event is appended."""
    expect((len(key), key[-1:]), (65, b"\n"), "an unsealed key")
    done("append", "store", data=b"".join(map(event_line, PAYLOADS)))
    done("export", "store", "export")
    for name in glob.glob("**", recursive=True):
        if os.path.isfile(name):
            text = read(name)
            expect_true(key.strip() not in text and bytes.fromhex(key.decode()) not in text, name + " has the key")
    write("auditors.key", key)
    expect([payload for _, payload in events_in("export", "auditors.key", commitment_of("store"))], PAYLOADS,
           "the events under the unsealed key")


@scene
def sealed_by_age():
    """An auditor's identity of age opens the key."""
    needs("age", "age-keygen")
    said = subprocess.run(["age-keygen", "-o", "identity"], capture_output=True, check=True).stderr.decode()
    recipient = said.split("Public key: ")[1].strip()
    expect_made("key.age", "age", "-r", recipient)
    expect_opened(call("age", "-d", "-i", "identity", "key.age"))


@scene
def sealed_by_gpg():
    """An auditor's key of GnuPG opens the key."""
    needs("gpg")
    os.mkdir("home", 0o700)
    gpg = ["gpg", "--homedir", os.path.abspath("home"), "--batch", "--quiet"]
    call(*gpg, "--pinentry-mode", "loopback", "--passphrase", "", "--quick-generate-key", "auditor@example.com",
         "default", "default", "never")
    try:
        expect_made("key.gpg", *gpg, "--trust-model", "always", "--encrypt", "--recipient", "auditor@example.com")
        expect_opened(call(*gpg, "--decrypt", "key.gpg"))
    finally:
        subprocess.run(["gpgconf", "--homedir", os.path.abspath("home"), "--kill", "all"], check=False)


def expect_none_made(words, status, said, *kept, **how):
    """No store is made, nor a file, but for those that were there."""
    before = {name: os.path.islink(name) or read(name) for name in kept}
    expect(make(*words, **how), (status, b"", said), " ".join(words))
    expect(sorted(os.listdir()), sorted(kept), "what is left of: " + " ".join(words))
    for name, text in before.items():
        expect(os.path.islink(name) or read(name), text, name)


@scene
def unsealed_keys_are_not_used():
    """A command that fails, says nothing or gives the key away makes no store."""
    head = "store", "64", "out"
    expect_none_made((*head, "false"), 1, b"format-sealed: false ended with status 1\n")
    expect_none_made((*head, "sh", "-c", "cat >/dev/null; echo half; exit 3"), 1,
                     b"format-sealed: sh ended with status 3\n")
    for command in ("true",), ("cat",), ("tr", "a-f", "A-F"), ("sed", "s/^/key: /"):
        expect_none_made((*head, *command), 1, b"format-sealed: %s doesn't seal the key\n" % command[0].encode())
    expect_none_made((*head, "no\x1b[2J"), 3, b"format-sealed: no\\x1b[2J: No such file or directory\n")


@scene
def nothing_is_replaced():
    """Neither OUT nor FILE is, and the key of a store that isn't made is removed again."""
    write("there", b"kept")
    os.symlink("nowhere", "link")
    for out in "there", "link":
        expect_none_made(("store", "64", out, "rev"), 1, b"format-sealed: %s exists\n" % out.encode(), "there", "link")
    expect_none_made(("there", "64", "out", "rev"), 1, b"audit: file exists\n", "there", "link")
    expect_none_made(("store", "2", "out", "rev"), 1, b"audit: 14 BadSize\n", "there", "link")
    expect_none_made(("store", "64", "none/out", "rev"), 3,
                     b"format-sealed: none/out: No such file or directory\n", "there", "link")
    expect_none_made(("store", "64", "out", "rev"), 3, b"format-sealed: /none: No such file or directory\n", "there",
                     "link", path="/none")
    expect_none_made(("store", "64", "out", "rev"), 3, b"format-sealed: out: File too large\n", "there", "link",
                     preexec_fn=in_child(file_size=10))


@scene
def a_store_keeps_its_key():
    """The sealed key stays if the store was made, though its maker couldn't say so."""
    with open("/dev/full", "wb") as full:
        ended = subprocess.run([tool("format-sealed"), "store", "64", "out", "rev"], stdin=subprocess.DEVNULL,
                               stdout=full, stderr=subprocess.PIPE, timeout=program.SECONDS,
                               env=dict(os.environ, AUDIT=program.PATH))
    said = b"format-sealed: store is there, and out has its key"
    expect((ended.returncode, ended.stderr.splitlines()[-1]), (3, said), "a standard output that is full")
    expect_opened(read("out").strip()[::-1] + b"\n")


@scene
def sealed_for_a_file():
    """GnuPG seals for a key in a file, which no ring has and nobody signed."""
    needs("gpg")
    homes = [os.path.abspath(name) for name in ("auditors", "ours")]
    for home in homes:
        os.mkdir(home, 0o700)
    auditors, ours = (["gpg", "--homedir", home, "--batch", "--quiet"] for home in homes)
    call(*auditors, "--pinentry-mode", "loopback", "--passphrase", "", "--quick-generate-key", "auditor@example.com",
         "default", "default", "never")
    try:
        write("auditor.asc", call(*auditors, "--armor", "--export", "auditor@example.com"))
        expect_made("key.gpg", *ours, "--encrypt", "--recipient-file", "auditor.asc")
        expect_opened(call(*auditors, "--decrypt", "key.gpg"))
    finally:
        for home in homes:
            subprocess.run(["gpgconf", "--homedir", home, "--kill", "all"], check=False)


@scene
def no_core_files():
    """The programs that get the key leave no core file."""
    expect_made("out", "sh", "-c", "cat >/dev/null; ulimit -H -c")
    expect(read("out"), b"0\n", "the limit of core files")


@scene
def wrong_words():
    for words in (), ("store", "64", "out"), ("--other", "64", "out", "rev"):
        expect_none_made(words, 2, USAGE)


SCENES = scenes_in(sys.modules[__name__])


def main(words):
    _, names = words_of(words, SCENES, options=())
    return play_all(SCENES, names)
