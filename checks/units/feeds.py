"""The units of feeds and forwards."""
import json
import os
import re
import time

from checks.parts.files import read_text
from checks.parts.places import DOCS
from checks.parts.scenes import scene
from checks.parts.waiting import wait_for
from checks.parts.wrong import expect_true
from checks.units.machine import look


def say(machine, text):
    machine.good("systemd-cat", "--identifier=said", "echo", text)


@scene
def scene_journal(machine):
    """The feed of the journal goes on by itself after its daemon was stopped, and no message is missing."""
    machine.make_store("journal", 60000)
    machine.start("audit-daemon@journal")
    machine.write("/etc/default/audit-journal", "JOURNAL=SYSLOG_IDENTIFIER=said\n")
    say(machine, "first")
    machine.start("audit-journal@journal")

    def has(text):
        return machine.count("journal") is not None and any(text in payload for payload in machine.payloads("journal"))
    wait_for(lambda: has(b'"first"'), "the first message")
    machine.stop("audit-daemon@journal")
    say(machine, "meanwhile")
    time.sleep(8)
    expect_true(machine.property("audit-daemon@journal", "ActiveState") == "inactive",
                "a feed starts a daemon that was stopped")
    machine.start("audit-daemon@journal")
    say(machine, "last")
    wait_for(lambda: has(b'"meanwhile"') and has(b'"last"'), "a message after the daemon was stopped", 20)
    machine.stop("audit-journal@journal", "audit-daemon@journal")


@scene
def scene_tail(machine):
    """The feed of a file begins with its first line, and goes on by itself after its daemon was stopped, also where the
    file is rotated: no line is missing."""
    machine.make_store("tail")
    machine.write("/etc/default/audit-tail", "LOG=/var/log/some.log\nKIND=7\n")
    machine.good("sh", "-c", "echo old >/var/log/some.log; chgrp adm /var/log/some.log; chmod 640 /var/log/some.log")
    machine.start("audit-daemon@tail")
    machine.start("audit-tail@tail")

    def write(text):
        machine.good("sh", "-c", 'echo "$0" >>/var/log/some.log', text)

    def comes(*texts):
        wait_for(lambda: machine.count("tail") is not None and set(texts) <= set(machine.payloads("tail")),
                 "a line of %r" % (texts,), 20)
    write("one")
    comes(b"old", b"one")
    machine.stop("audit-daemon@tail")
    for number in range(8):
        write("meanwhile %d" % number)
        time.sleep(1)
    machine.good("sh", "-c", "mv /var/log/some.log /var/log/some.log.1; touch /var/log/some.log; chgrp adm "
                             "/var/log/some.log; "
                 "chmod 640 /var/log/some.log")
    write("new")
    machine.start("audit-daemon@tail")
    comes(*[b"meanwhile %d" % number for number in range(8)], b"new")
    machine.stop("audit-tail@tail", "audit-daemon@tail")


def block_of_operations(word):
    """The code block of docs/operations.md in which a word is, as a file."""
    blocks = re.findall(r"(?:^      .*\n|^\n)+", read_text(os.path.join(DOCS, "operations.md")), re.M)
    block, = (found for found in blocks if word in found)
    return "".join(line[6:] + "\n" for line in block.strip("\n").splitlines())


@scene
def scene_bound(machine):
    """Feeds whose kinds are bound, as the document has them: whatever is killed, each line of a file and each message
    is there once, in order."""
    machine.make_store("some", 60000)
    machine.write("/etc/systemd/system/audit-daemon@some.service.d/feed.conf", block_of_operations("mkdir -p feed"))
    options = block_of_operations("JOURNAL_SOCKET=").replace("/var/log/audit/audit.log", "/var/log/bound.log")
    machine.write("/etc/default/audit-some", options + "JOURNAL=SYSLOG_IDENTIFIER=bound\n")
    machine.good("sh", "-c", 'echo line 0 >"$0"; chgrp adm "$0"; chmod 640 "$0"', "/var/log/bound.log")
    machine.good("systemctl", "daemon-reload")
    units = "audit-daemon@some", "audit-journal@some", "audit-tail@some"
    for unit in units:
        machine.start(unit)
    lines = 1
    for unit in units * 2:
        machine.good("sh", "-c", "for i in $(seq %d %d); do echo line $i >>/var/log/bound.log; "
                     "echo message $i | systemd-cat --identifier=bound; done" % (lines, lines + 19))
        lines += 20
        machine.good("systemctl", "kill", "--kill-who=all", "--signal=KILL", unit)
    wait_for(lambda: machine.count("some") == 2 * lines - 1, "the last line", 60)
    found = machine.payloads("some")
    held = [payload for payload in found if not payload.startswith(b"{")]
    expect_true(held == [b"line %d" % number for number in range(lines)], "the lines of a file: %r .." % held[:30])
    told = [json.loads(payload)["MESSAGE"] for payload in found if payload.startswith(b"{")]
    expect_true(told == ["message %d" % number for number in range(1, lines)], "the messages: %r .." % told[:30])
    machine.stop(*reversed(units))


# A program in place of ssh: it forwards the socket of its -L, as far as this machine has both ends.
FORWARDS = """#!/usr/bin/env python3
import os, select, socket, sys
here, there = sys.argv[sys.argv.index("-L") + 1].split(":")
assert sys.argv[-2:] == ["--", "a@b"] and "ExitOnForwardFailure=yes" in sys.argv and "BatchMode=yes" in sys.argv
if "StreamLocalBindUnlink=yes" in sys.argv and os.path.lexists(here):
    os.remove(here)
listener = socket.socket(socket.AF_UNIX)
listener.bind(here)
listener.listen()
while True:
    near, _ = listener.accept()
    far = socket.socket(socket.AF_UNIX)
    far.connect(there)
    pair = {near: far, far: near}
    while pair:
        for one in select.select(list(pair), [], [])[0]:
            data = one.recv(65536)
            if not data:
                pair = {}
                break
            pair[one].sendall(data)
"""


@scene
def scene_forward(machine):
    """A witness looks through a forward, which is made again when it ends; ssh takes the words that its unit gives
    it."""
    machine.make_store("far")
    machine.start("audit-daemon@far")
    machine.write("/etc/default/audit-near", "LOGGER=a@b\nREMOTE=/run/audit-far/readers/socket\n")
    machine.start("audit-forward@far")
    expect_true(machine.property("audit-forward@far", "ActiveState") == "inactive",
                "a forward takes the socket of a daemon")
    expect_true(machine.count("far") == 0, "a forward stops a daemon")
    unit = machine.out("systemctl", "cat", "audit-forward@near").decode()
    words = next(line for line in unit.splitlines() if line.startswith("ExecStart=/usr/bin/ssh ")).split()[1:]
    words = [word.replace("%i", "near").replace("${REMOTE}", "/run/far") for word in words
             if word not in ("$SSH", "--", "${LOGGER}")]
    if machine.run("test", "-x", "/usr/bin/ssh").returncode == 0:
        machine.good("ssh", "-G", *words, "a@b")
    machine.write("/usr/bin/ssh", FORWARDS)
    machine.good("chmod", "755", "/usr/bin/ssh")
    # The program in place of ssh reaches the other daemon only in its group.
    machine.write("/etc/systemd/system/audit-forward@near.service.d/group.conf",
                  "[Service]\nSupplementaryGroups=audit-readers\n")
    machine.good("systemctl", "daemon-reload")
    machine.start("audit-forward@near")
    wait_for(lambda: machine.count("near") == 0, "an answer through a forward", 10)
    expect_true(look(machine, "near") == 0, "a witness through a forward")
    machine.good("systemctl", "kill", "--signal=KILL", "audit-forward@near")
    wait_for(lambda: machine.count("near") is None, "the end of a forward", 10)
    machine.append("far", "one")
    wait_for(lambda: machine.count("near") == 1, "an answer through a forward that was killed", 20)
    expect_true(look(machine, "near") == 0, "a witness through a forward that was killed")
    machine.stop("audit-forward@near", "audit-daemon@far")
