"""The systemd units, and the Debian package."""
import os
import re
import subprocess
import tarfile

from checks.install.common import expect_files, install, run, wanted_below
from checks.parts import program
from checks.parts.files import mode_of, read, read_text, write
from checks.parts.program import done
from checks.parts.scenes import scene
from checks.parts.tools import call, needs
from checks.parts.wrong import expect, expect_true

CHROOTLESS = "--force-depends", "--force-not-root", "--force-script-chrootless"


@scene
def scene_units():
    """The units, with the installed program where they say, are right and guarded."""
    needs("systemd-analyze")
    live = os.path.abspath("live")
    install(live)
    for name in sorted(os.listdir(live + "/lib/systemd/system")):
        copy = os.path.abspath(name.replace("@", "@some"))
        text = read_text(os.path.join(live, "lib/systemd/system", name))
        write(copy, text.encode())
        said = subprocess.run(["systemd-analyze", "--man=no", "verify", copy], capture_output=True)
        expect(said.returncode, 0, "%s: %r" % (name, said.stdout + said.stderr))
        if name.endswith(".service"):
            expect_guarded(copy, name, text)


def expect_guarded(copy, name, text):
    # What attaches a device runs as root, in the mounts of the machine.
    limit = 91 if name.startswith("audit-failover@") else 29
    words = ["systemd-analyze", "--no-pager", "security", "--offline=true", "--threshold=%d" % limit, copy]
    said = subprocess.run(words, capture_output=True)
    expect(said.returncode, 0, "%s: %s" % (name, (said.stdout + said.stderr).splitlines()[-1:]))
    for setting in "MemoryMax=", "SyslogIdentifier=audit-":
        expect_true("\n" + setting in text, "%s has no %s" % (name, setting))
    if "\nRestart=always\n" in text:
        expect_true("\nStartLimitIntervalSec=0\n" in text, "%s isn't started again for ever" % name)
    expect_true(not re.search(r"(?m)^Exec[A-Za-z]*=[-@:]*[+!]", text), "%s runs a command as root" % name)


def made_package():
    """Made under a narrow umask, and where a link has its name."""
    os.mkdir("out")
    write("theirs", b"theirs\n")
    version = re.match(b"audit ([^,]*)", done("--version"))[1].decode()
    name = "audit-store_%s_amd64.deb" % version
    os.symlink(os.path.abspath("theirs"), "out/" + name)
    status, out, err = run("package", os.path.abspath("out"), program.PATH, umask=0o077)
    expect((status, err), (0, b""), "bin/package")
    expect(read("theirs"), b"theirs\n", "a file that a link named")
    expect((os.listdir("out"), os.path.islink("out/" + name), mode_of("out/" + name)), ([name], False, 0o644),
           "what bin/package left")
    expect(out.decode(), os.path.abspath("out/" + name) + "\n", "the path that bin/package prints")
    return os.path.abspath("out/" + name)


@scene
def scene_package():
    """The package has the files, belongs to root, names the C library that it needs, and is installed and removed."""
    needs("dpkg-deb")
    package = made_package()
    call("sh", "-c", 'dpkg-deb --fsys-tarfile "$0" >tree.tar', package)
    with tarfile.open("tree.tar") as tree:
        odd = [entry.name for entry in tree if (entry.uname, entry.gname) != ("root", "root")
               or entry.mode & 0o7777 not in ((0o755,) if entry.isdir() else (0o755, 0o644))]
    expect(odd, [], "files of the package with other owners or modes")
    call("dpkg-deb", "--extract", package, "unpacked")
    depends = call("dpkg-deb", "--field", package, "Depends").decode()
    expect_true(re.match(r"libc6 \(>= 2\.[0-9]", depends), "the package depends on any C library: " + depends)
    call("dpkg-deb", "--control", package, "control")
    expect_true(os.access("control/postinst", os.X_OK), "the package makes no users")
    expect_files("unpacked", wanted_below("usr/"), "in the package")
    installed = program.whole("--version", path=os.path.abspath("unpacked/usr/bin/audit"))
    expect(installed, program.whole("--version"), "the program of the package")
    install_by_dpkg(package)


def install_by_dpkg(package):
    """Into a root folder of its own, with a record of its own."""
    if os.geteuid() != 0:
        return
    needs("dpkg")
    for folder in "info", "updates":
        os.makedirs("root/var/lib/dpkg/" + folder)
    write("root/var/lib/dpkg/status", b"")
    root, log = "--root=" + os.path.abspath("root"), "--log=" + os.path.abspath("log")
    call("dpkg", root, *CHROOTLESS, log, "--install", package)
    expect_true(os.access("root/usr/bin/audit", os.X_OK), "dpkg installed no program")
    call("dpkg", root, *CHROOTLESS[1:], log, "--remove", "audit-store")
    expect_true(not os.path.exists("root/usr/bin/audit"), "dpkg left the program")
