"""The units of witnesses, metrics and failover."""
import time

from checks.parts.scenes import scene
from checks.parts.waiting import wait_for
from checks.parts.wrong import LeftOut, expect_true
from checks.units.machine import SECONDS, alarm_is, look


@scene
def scene_witness(machine):
    """A witness that finds another past, or no daemon, raises its alarm."""
    machine.make_store("seen")
    machine.start("audit-daemon@seen")
    machine.append("seen", "one")
    machine.good("cp", "-p", "/var/lib/audit/seen.store", "/var/lib/audit/seen.old")
    machine.append("seen", "two")
    expect_true((look(machine, "seen"), look(machine, "seen")) == (0, 0), "a witness of a log as it was")
    expect_true(machine.messages("audit-alarm-seen") == b"", "an alarm without a cause")
    machine.stop("audit-daemon@seen")
    expect_true(look(machine, "seen") != 0, "a witness without a daemon")
    wait_for(lambda: alarm_is(machine, "watch", "seen", "warning", 3, b"no answer from audit store seen, or"),
             "a warning", 10)
    machine.good("mv", "/var/lib/audit/seen.old", "/var/lib/audit/seen.store")
    machine.start("audit-daemon@seen")
    expect_true(look(machine, "seen") != 0, "a witness of a log that was rolled back")
    wait_for(lambda: alarm_is(machine, "watch", "seen", "alert", 1, b"the past of audit store seen may differ"),
             "an alarm", 10)
    machine.stop("audit-daemon@seen")
    machine.write("/etc/default/audit-worded", "WATCH=--timeout 0\n")
    expect_true(look(machine, "worded") != 0, "a witness with a bad word")
    wait_for(lambda: alarm_is(machine, "watch", "worded", "warning", 2, b"a word, a key or a state"),
             "a warning of a bad word", 10)


# The script of a machine's device, which is a file here.
DEVICE = """#!/bin/sh
echo "$1" >>/run/moved.words
case $1 in
run) exec systemctl start --wait audit-daemon@moved ;;
look) echo alive | audit send /run/audit-moved/writers/socket --text 7 --timeout 5 >/dev/null ;;
drop) systemctl stop audit-daemon@moved ;;
esac
"""


@scene
def scene_failover(machine):
    """A daemon runs while its machine has the lease of an etcd, and no longer, also where what keeps the lease hangs or
    ends."""
    if machine.run("sh", "-c", "command -v etcd").returncode != 0:
        raise LeftOut("there is no etcd")
    machine.make_store("moved")
    machine.write("/etc/default/audit-moved", "ENDPOINTS=http://127.0.0.1:2379\n")
    machine.write("/etc/audit/moved.device", DEVICE)
    machine.good("sh", "-c", "chmod 755 /etc/audit/moved.device && mkdir -p "
                             "/etc/systemd/system/audit-daemon@moved.service.d && "
                 "cp /usr/share/audit/failover.conf /etc/systemd/system/audit-daemon@moved.service.d && systemctl "
                 "daemon-reload")
    machine.good("systemd-run", "--quiet", "--unit=leases", "etcd", "--data-dir", "/tmp/leases")

    def serves():
        wait_for(lambda: (machine.count("moved") or 0) > 0, "a look's event")
        return machine.property("audit-daemon@moved", "MainPID")

    def is_gone(daemon):
        return machine.property("audit-daemon@moved", "MainPID") != daemon
    machine.start("audit-failover@moved")
    daemon = serves()
    machine.good("systemctl", "kill", "--signal=STOP", "leases")
    wait_for(lambda: is_gone(daemon), "the end of a daemon without a lease", 20)
    machine.good("systemctl", "kill", "--signal=CONT", "leases")
    for signal_name in "STOP", "KILL":
        daemon = serves()
        machine.good("systemctl", "kill", "--kill-who=main", "--signal=" + signal_name, "audit-failover@moved")
        wait_for(lambda: is_gone(daemon), "the end of a daemon after SIG%s of what keeps its lease" % signal_name, 20)
    serves()
    machine.stop("audit-failover@moved")
    expect_true(machine.property("audit-daemon@moved", "ActiveState") != "active",
                "a daemon goes on without what keeps its lease")
    words = [word for word in machine.good("cat", "/run/moved.words").decode().split() if word != "look"]
    expect_true(words[:5] == ["take", "run", "drop", "take", "run"], "the words for the device are %s" % words)
    left = machine.good("env", "ETCDCTL_API=3", "sh", "-c",
                        "command -v etcdctl >/dev/null || exit 0; etcdctl get audit/moved")
    expect_true(left == b"", "a machine that was stopped keeps its lease")
    machine.stop("leases")


@scene
def scene_metrics(machine):
    """The timer's unit writes what a running store has and what its witness found, for everyone to read."""
    machine.make_store("measured")
    machine.start("audit-daemon@measured")
    machine.append("measured", "one")
    machine.write("/etc/default/audit-measured", "METRICS=measured=/var/lib/audit/measured.store "
                  "--witness measured=/var/lib/audit-watch-status/measured\n")
    expect_true(look(machine, "measured") == 0, "a witness's look")

    def has(*lines):
        machine.good("systemctl", "start", "audit-metrics@measured")
        found = machine.good("setpriv", "--reuid=nobody", "--clear-groups", "cat",
                             "/var/lib/audit-metrics/measured.prom").decode().splitlines()
        expect_true(set(lines) <= set(found), "the metrics are %s" % found)
        return [int(line.split()[1]) for line in found if line.startswith("audit_witness_status_timestamp_seconds{")][0]
    store, witness = '{store="measured"} %d', '{witness="measured"} %d'
    ended = has("audit_store_events" + store % 1, "audit_store_free_sectors" + store % 1997,
                "audit_store_look_status" + store % 0,
                "audit_witness_status" + witness % 0)
    expect_true(0 <= time.time() - ended < SECONDS, "a witness ended at %d" % ended)
    machine.stop("audit-daemon@measured")
    expect_true(look(machine, "measured") != 0, "a witness's look without a daemon")
    has("audit_witness_status" + witness % 3, "audit_store_events" + store % 1)
    machine.write("/etc/default/audit-plain", "\n")
    machine.start("audit-metrics@plain.timer")
    plain = "/var/lib/audit-metrics/plain.prom"
    wait_for(lambda: b'audit_store_look_status{store="plain"} 3' in machine.out("cat", plain), "the timer's first look", 90)
    machine.stop("audit-metrics@plain.timer")


@scene
def scene_anchors(machine):
    """The units that keep signed notes and append marks, and their timers."""
    if not machine.out("sh", "-c", "command -v ssh-keygen"):
        raise LeftOut("there is no ssh-keygen")
    machine.make_store("anchored")
    machine.start("audit-daemon@anchored")
    machine.append("anchored", "one")
    machine.good("install", "-d", "-o", "audit", "-g", "audit", "-m", "700", "/var/lib/audit-anchor")
    machine.good("setpriv", "--reuid=audit", "--regid=audit", "--clear-groups", "ssh-keygen", "-q", "-t", "ed25519", "-N", "", "-f",
                 "/var/lib/audit-anchor/anchored.key")
    machine.good("systemctl", "start", "audit-anchor@anchored")
    note = machine.good("cat", "/var/lib/audit-anchor/anchored/00000001/note").decode()
    expect_true(note.startswith("audit-note 1\nname anchored\ncount 1\n"), "the note is %r" % note)
    machine.good("systemctl", "start", "audit-mark@anchored")
    machine.good("systemctl", "start", "audit-anchor@anchored")
    note = machine.good("cat", "/var/lib/audit-anchor/anchored/00000002/note").decode()
    expect_true("\ncount 2\n" in note, "the note after a mark is %r" % note)
    machine.start("audit-mark@anchored.timer")
    wait_for(lambda: machine.out("systemctl", "show", "--value", "--property=LastTriggerUSec", "audit-mark@anchored.timer").strip(),
             "the timer of the marks", 90)
    machine.stop("audit-mark@anchored.timer")
    machine.stop("audit-daemon@anchored")
    expect_true(machine.out("systemctl", "start", "audit-anchor@anchored") is not None, "an anchor without a daemon")
    expect_true(b"failed" in machine.out("systemctl", "is-failed", "audit-anchor@anchored"), "an anchor without a daemon is kept")
