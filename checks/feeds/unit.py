"""A daemon under its unit's user, groups, umask and limits."""
import os
import shlex
import shutil
import subprocess

from checks.parts import program
from checks.parts.configurations import configured
from checks.parts.places import KEY
from checks.parts.scenes import scene
from checks.parts.tools import needs, needs_root
from checks.parts.waiting import SECONDS
from checks.parts.wrong import expect_true

# Users and groups that need no entry: the daemon's, those of clients that write and read, and somebody else.
AUDIT, WRITERS, READERS, OTHER = 64001, 64002, 64003, 64004


def as_user(user, groups, *words):
    """Runs a command as a user with these groups alone."""
    return subprocess.run(["setpriv", "--reuid", str(user), "--regid", str(groups[0]), "--groups",
                           ",".join(str(group) for group in groups), "--no-new-privs", *words], capture_output=True,
                          timeout=SECONDS, stdin=subprocess.DEVNULL)


def unit_of(folder):
    """The settings of the daemon's unit for the store `some`, with this program, these folders and these groups."""
    text = configured("systemd/audit-daemon@.service")
    for there, here in (("%i", "some"), ("/usr/local/bin/audit", folder + "/audit"),
                        ("/var/lib/audit", folder + "/lib"),
                        ("/run/audit-some", folder + "/run"), ("=audit-some", "=run"), ("$$", "$"),
                        ("chgrp audit-writers", "chgrp %d" % WRITERS), ("chgrp audit-readers", "chgrp %d" % READERS)):
        text = text.replace(there, here)
    settings = {}
    for line in text.splitlines():
        if "=" in line and not line.startswith("#"):
            name, value = line.split("=", 1)
            settings.setdefault(name, []).append(value)
    return settings


def command_of(settings, name):
    """The words of a command, without options of the store's own."""
    command = settings[name][0].lstrip("-").replace("${STORE}", settings["Environment"][0].split("=", 1)[1])
    return shlex.split(command.replace(" $OPTIONS", ""))


def make_folders(settings):
    """Makes the folders as systemd does, and runs the unit's first command, as its user."""
    expect_true(settings["RuntimeDirectory"] == ["run"],
                "the unit has other folders: %r" % settings["RuntimeDirectory"])
    for name, mode in (("lib", "StateDirectoryMode"), ("run", "RuntimeDirectoryMode")):
        os.mkdir(name)
        os.chown(name, AUDIT, AUDIT)
        os.chmod(name, int(settings[mode][0], 8))
    expect_true(settings["SupplementaryGroups"] == ["audit-writers audit-readers"], "the unit's user has other groups")
    for command in settings["ExecStartPre"]:
        done = as_user(AUDIT, [AUDIT, WRITERS, READERS], *shlex.split(command))
        expect_true(done.returncode == 0, "%s: %r" % (command, done.stderr))
    for name, group in ("writers", WRITERS), ("readers", READERS):
        found = os.stat("run/" + name)
        expect_true((found.st_uid, found.st_gid, found.st_mode & 0o7777) == (AUDIT, group, 0o2750),
                    "the rights of run/" + name)


@scene
def scene_unit():
    """The daemon under its unit's user, umask and limits, and who may reach which of its sockets."""
    needs("setpriv", "prlimit")
    needs_root()
    folder = os.getcwd()
    os.chmod(folder, 0o755)
    settings = unit_of(folder)
    make_folders(settings)
    copy = os.path.join(folder, "audit")
    shutil.copy(program.PATH, copy)
    os.chmod(copy, 0o755)
    shutil.copy(KEY, "key")
    done = as_user(AUDIT, [AUDIT], copy, "format", "lib/some.store", "1000", "key")
    expect_true(done.returncode == 0, "format: %r" % done.stderr)
    mask = int(settings["UMask"][0], 8)
    daemon = subprocess.Popen(["setpriv", "--reuid", str(AUDIT), "--regid", str(AUDIT), "--groups",
                               "%d,%d" % (WRITERS, READERS),
                               "--no-new-privs", "prlimit", "--core=" + settings["LimitCORE"][0],
                               *command_of(settings, "ExecStart")],
                              stdout=subprocess.PIPE, preexec_fn=lambda: os.umask(mask))
    try:
        expect_true(daemon.stdout.readline().startswith(b"ready 0 "), "the daemon doesn't start under the unit's rules")
        expect_rights(copy)
        done = as_user(AUDIT, [AUDIT], *command_of(settings, "ExecStop"))
        expect_true(done.returncode == 0, "stop: %r" % done.stderr)
        expect_true(daemon.wait(SECONDS) == 0, "the daemon ends with another status")
    finally:
        daemon.kill()
        daemon.communicate()


def expect_rights(copy):
    """Each group reaches its socket alone, nobody else reaches any, and no client stops the daemon or reads the
    store."""
    sockets = {"writers": WRITERS, "readers": READERS}
    for name, own in sockets.items():
        for user in WRITERS, READERS, OTHER:
            done = as_user(user, [user], copy, "ask", "run/%s/socket" % name, "commitment")
            wanted = 0 if user == own else 3
            expect_true(done.returncode == wanted, "%d at the %s' socket: status %d" % (user, name, done.returncode))
    for user in WRITERS, READERS, OTHER:
        expect_true(as_user(user, [user], copy, "stop", "run/writers/socket").returncode == 3,
                    "%d stops the daemon" % user)
        expect_true(as_user(user, [user], "cat", "lib/some.store").returncode != 0, "%d reads the store" % user)
