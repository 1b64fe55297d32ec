"""The daemon's unit: users, starts, signals, options, devices."""
import time

from checks.parts.scenes import scene
from checks.parts.waiting import wait_for
from checks.parts.wrong import LeftOut, expect_true


@scene
def scene_package(machine):
    """The package makes users, groups and folder, and a second installation harms nothing."""
    found = machine.good("stat", "-c", "%U:%G %a", "/var/lib/audit")
    expect_true(found == b"audit:audit 700\n", "the folder of the stores is %r" % found)
    for name in "audit", "audit-feed":
        machine.good("id", name)
    for name in "audit-writers", "audit-readers":
        machine.good("getent", "group", name)
    machine.make_store("kept")
    machine.install()
    machine.start("audit-daemon@kept")
    expect_true(machine.count("kept") == 0, "a store isn't served after a second installation")
    machine.stop("audit-daemon@kept")


@scene
def scene_rights(machine):
    """The members of each group reach their socket, also after a daemon was started again, and nobody else reaches
    any."""
    machine.make_store("rights")
    machine.start("audit-daemon@rights")
    for turn in range(2):
        for group in "audit-writers", "audit-readers", "nogroup":
            for socket in "writers", "readers":
                done = machine.run("setpriv", "--reuid=nobody", "--regid=nogroup", "--groups=" + group, "audit", "ask",
                                   "/run/audit-rights/%s/socket" % socket, "commitment")
                expect_true(done.returncode == (0 if group == "audit-" + socket else 3),
                            "a member of %s at the socket of the %s: status %d"
                       % (group, socket, done.returncode))
        machine.run("systemctl", "restart", "audit-daemon@rights")
    said = machine.run("setpriv", "--reuid=nobody", "--regid=nogroup", "--groups=audit-writers", "audit", "stop",
                       "/run/audit-rights/writers/socket")
    expect_true(said.returncode == 3, "a writer stops the daemon")
    machine.stop("audit-daemon@rights")


@scene
def scene_ready(machine):
    """`systemctl start` returns once the daemon answers, and soon if it can't."""
    machine.make_store("ready")
    machine.write("/etc/systemd/system/audit-daemon@ready.service.d/slow.conf",
                  "[Service]\nExecStart=\nExecStart=/bin/sh -c 'sleep 2; exec audit daemon /var/lib/audit/ready.store "
                  "/run/audit-ready/writers/socket --reader /run/audit-ready/readers/socket --socket-mode 660'\n")
    machine.good("systemctl", "daemon-reload")
    machine.start("audit-daemon@ready")
    expect_true(machine.count("ready") == 0, "a daemon doesn't answer when its start is done")
    machine.stop("audit-daemon@ready")
    begun = time.time()
    done = machine.run("systemctl", "start", "audit-daemon@none")
    expect_true(done.returncode != 0, "the start of a daemon without a store is done")
    expect_true(time.time() - begun < 10,
                "the start of a daemon without a store takes %d seconds" % (time.time() - begun))
    wait_for(lambda: b"audit: file fault\n" in machine.messages("audit-none"), "the fault of a daemon without a store")
    expect_true(b"No such file or directory" in machine.messages("audit-none"), "the cause of the fault isn't told")
    machine.stop("audit-daemon@none")


@scene
def scene_away(machine):
    """A daemon whose store was away for a while is there again once it is back."""
    machine.make_store("away")
    machine.start("audit-daemon@away")
    machine.append("away", "before")
    machine.good("mv", "/var/lib/audit/away.store", "/var/lib/audit/elsewhere")
    machine.good("systemctl", "kill", "--kill-who=main", "--signal=KILL", "audit-daemon@away")
    time.sleep(14)
    machine.good("mv", "/var/lib/audit/elsewhere", "/var/lib/audit/away.store")
    wait_for(lambda: machine.count("away") == 1, "a daemon whose store is back", 10)
    expect_true(b"audit: file fault\n" in machine.messages("audit-away"), "it isn't told that the store is away")
    machine.stop("audit-daemon@away")


@scene
def scene_signals(machine):
    """Any signal ends a daemon, which loses nothing that it acknowledged, and is started again."""
    machine.make_store("killed")
    machine.start("audit-daemon@killed")
    for number, name in enumerate(("TERM", "INT", "HUP", "USR1", "USR2", "QUIT", "ALRM", "KILL")):
        machine.append("killed", "before " + name)
        before = machine.property("audit-daemon@killed", "MainPID")
        machine.good("systemctl", "kill", "--kill-who=main", "--signal=" + name, "audit-daemon@killed")
        wait_for(lambda: machine.property("audit-daemon@killed", "MainPID") not in (before, "0"),
                 "a daemon after SIG" + name, 10)
        wait_for(lambda: machine.count("killed") == number + 1, "the events of a daemon after SIG" + name, 10)
    machine.stop("audit-daemon@killed")


@scene
def scene_stop(machine):
    """After `audit stop` a daemon is started again, and after `systemctl stop` it isn't; both close its store."""
    machine.make_store("stopped")
    machine.start("audit-daemon@stopped")
    machine.append("stopped", "one")
    machine.good("audit", "stop", "/run/audit-stopped/writers/socket")
    wait_for(lambda: machine.property("audit-daemon@stopped", "ActiveState") == "active", "a daemon after `audit stop`",
             10)
    expect_true(machine.count("stopped") == 1, "the events of a daemon after `audit stop`")
    machine.stop("audit-daemon@stopped")
    time.sleep(2.5)
    expect_true(machine.property("audit-daemon@stopped", "ActiveState") == "inactive",
                "a daemon is there after `systemctl stop`")
    expect_true(machine.messages("audit-stopped").count(b"stopped 1 ") == 2,
                "a daemon that is stopped doesn't end as it should")


@scene
def scene_options(machine):
    """Words for a daemon and another store come from a file of its own."""
    machine.make_store("other")
    machine.write("/etc/default/audit-chosen", "STORE=/var/lib/audit/other.store\nOPTIONS=--allow-close --idle 5\n")
    machine.start("audit-daemon@chosen")
    expect_true(machine.good("audit", "ask", "/run/audit-chosen/writers/socket", "close").startswith(b"closed 1 "),
                "a close")
    machine.stop("audit-daemon@chosen")


@scene
def scene_device(machine):
    """A store on a block device, which its file of options names, and a file of systemd admits."""
    done = machine.run("sh", "-c", "truncate -s 1M /tmp/disk && losetup --find --show /tmp/disk")
    if done.returncode != 0:
        raise LeftOut("there is no loop device")
    device = done.stdout.decode().strip()
    try:
        machine.good("chown", "audit:audit", device, "/tmp/disk")
        machine.format("--in-place", device, "2000")
        machine.write("/etc/default/audit-disk", "STORE=%s\n" % device)
        expect_true(machine.run("systemctl", "start", "audit-daemon@disk").returncode != 0, "any device is admitted")
        machine.stop("audit-daemon@disk")
        machine.good("sh", "-c", "mkdir -p /etc/systemd/system/audit-daemon@disk.service.d && "
                     "cp /usr/share/audit/device.conf /etc/systemd/system/audit-daemon@disk.service.d && systemctl "
                     "daemon-reload")
        machine.start("audit-daemon@disk")
        machine.append("disk", "one")
        machine.stop("audit-daemon@disk")
    finally:
        machine.run("losetup", "--detach", device)
