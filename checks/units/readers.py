"""The unit of readers, also over a rotation."""
import json
import time

from checks.parts.files import read_text
from checks.parts.places import KEY
from checks.parts.scenes import scene
from checks.parts.waiting import wait_for
from checks.parts.wrong import expect_true
from checks.units.machine import alarm_is


@scene
def scene_reader(machine):
    """A reader prints the events of a log as lines of JSON, goes on after a kill and while the daemon is gone, and ends
    with an alarm at another past."""
    machine.write("/var/lib/audit/live.key", read_text(KEY))
    machine.good("sh", "-c", "chown audit: /var/lib/audit/live.key; chmod 600 /var/lib/audit/live.key")
    machine.write("/etc/default/audit-live", "READ=--first /var/lib/audit/live.key\n")
    machine.make_store("live")
    machine.start("audit-daemon@live")
    machine.append("live", "one")
    machine.good("cp", "-p", "/var/lib/audit/live.store", "/var/lib/audit/live.old")
    machine.start("audit-read@live")

    def has(index, text):
        line = b'{"index":%d,"kind":1,"text":"%s"}\n' % (index, text)
        return line in machine.out("cat", "/var/log/audit-read/live.json").splitlines(True)
    wait_for(lambda: has(0, b"one"), "an event of a reader", 20)
    machine.good("systemctl", "kill", "--signal=KILL", "audit-read@live")
    # As a loss of power in the middle of a line may leave it.
    machine.good("sh", "-c", "printf '{\"index\":1,\\000\\000' >>/var/log/audit-read/live.json")
    machine.append("live", "two")
    wait_for(lambda: has(1, b"two"), "an event after a kill, on a line of its own", 30)
    machine.stop("audit-daemon@live")
    time.sleep(6)
    machine.start("audit-daemon@live")
    machine.append("live", "three")
    wait_for(lambda: has(2, b"three"), "an event after the daemon was stopped", 30)
    expect_true(machine.messages("audit-alarm-live") == b"", "an alarm without a cause")
    machine.stop("audit-daemon@live")
    machine.good("mv", "/var/lib/audit/live.old", "/var/lib/audit/live.store")
    machine.start("audit-daemon@live")
    wait_for(lambda: alarm_is(machine, "read", "live", "alert", 1, b"the past of audit store live may differ"),
             "an alarm of a reader",
             20)
    expect_true(machine.property("audit-read@live", "ActiveState") == "failed", "a reader of another past goes on")
    machine.stop("audit-daemon@live")


@scene
def scene_rotated(machine):
    """A reader ends at a rotation, and a STATE of the new log's first key, made as docs/operations.md says, leads
    on."""
    machine.write("/var/lib/audit/turned.key", read_text(KEY))
    machine.good("sh", "-c", "chown audit: /var/lib/audit/turned.key; chmod 600 /var/lib/audit/turned.key")
    machine.write("/etc/default/audit-turned", "READ=--first /var/lib/audit/turned.key\n")
    machine.write("/kit/second.key", "5" * 64 + "\n")
    machine.make_store("turned")
    machine.start("audit-daemon@turned")
    machine.append("turned", "one")
    machine.start("audit-read@turned")
    output = "/var/log/audit-read/turned.json"
    wait_for(lambda: b'"text":"one"' in machine.out("cat", output), "an event of a reader", 20)
    machine.stop("audit-read@turned", "audit-daemon@turned")
    machine.good("sh", "-c", """cat /kit/second.key | runuser -u audit -- sh -ec 'cd /var/lib/audit
        cat | audit rotate turned.store next.store 2000 /dev/stdin
        mv -n turned.store turned-old.store && mv -n next.store turned.store
        sync .'""")
    machine.start("audit-daemon@turned")
    machine.start("audit-read@turned")
    wait_for(lambda: alarm_is(machine, "read", "turned", "alert", 1, b"the past of audit store turned may differ"),
             "an alarm", 20)
    machine.stop("audit-read@turned")
    machine.good("runuser", "-u", "audit", "--", "mv", "/var/lib/audit-read/turned", "/var/lib/audit-read/turned-old")
    machine.good("runuser", "-u", "audit", "--", "mv", output, output + ".old")
    machine.good("sh", "-c", """cat /kit/second.key | runuser -u audit -- sh -c 'umask 027
        cat | audit read /run/audit-turned/readers/socket /var/lib/audit-read/turned --first /dev/stdin --json \\
            >>/var/log/audit-read/turned.json'""")
    machine.start("audit-read@turned")
    machine.append("turned", "two")
    wait_for(lambda: b'{"index":1,"kind":1,"text":"two"}\n' in machine.out("cat", output), "an event after a rotation",
             20)
    expect_true(machine.out("stat", "-c", "%U %a", "/var/lib/audit-read/turned") == b"audit 600\n",
                "others can read a reader's state")
    commitment = json.loads(machine.out("head", "-n", "1", output))["text"]
    machine.good("audit", "export", "/var/lib/audit/turned-old.store", "/tmp/turned.export", "--from", "1")
    found = machine.run("audit", "verify", "/tmp/turned.export", "/var/lib/audit-read/turned-old", commitment, "--json")
    expect_true(found.stderr.startswith(b"audit: verified 2 closed\n"), "the end of a closed log: %r" % found.stderr)
    machine.stop("audit-read@turned", "audit-daemon@turned")
