"""Installing in a folder and removing again: files, modes, links and prefixes."""
import glob
import os
import re
import shutil
import subprocess

from checks.install.common import expect_files, files_below, install, run, wanted_below
from checks.parts import program
from checks.parts.files import mode_of, read, read_text, write
from checks.parts.places import TOOLS
from checks.parts.scenes import scene
from checks.parts.wrong import expect, expect_true

PREFIX = "/opt/jengushal"


def expect_installed_runs(installed):
    """The program, the tools and the man page name each other where they are."""
    audit = os.path.join(installed, "bin/audit")
    expect(program.whole("--version", path=audit), program.whole("--version"), "the installed program's version")
    units = os.path.join(installed, "lib/systemd/system")
    expect_true("\nExecStart=/opt/jengushal/bin/audit " in read_text(units + "/audit-daemon@.service"),
                "the unit names another program")
    named = [read_text(os.path.join(units, unit)) for unit in os.listdir(units)]
    rsyslog = read_text(os.path.join(installed, "share/audit/rsyslog.conf"))
    expect_true(not any("/usr/local" in text for text in [*named, rsyslog]), "a unit or rsyslog.conf names /usr/local")
    sender = " AUDIT=/opt/jengushal/bin/audit /opt/jengushal/share/audit/send-confirming "
    expect_true(sender in rsyslog, "the configuration of rsyslog names another program")
    os.mkdir("states")
    ended = subprocess.run([os.path.join(installed, "share/audit/fleet"), audit, "/dev/null", "states"],
                           capture_output=True)
    expect(ended.returncode, 3, "the installed fleet: %r" % ended.stderr)
    subprocess.run([os.path.join(installed, "share/audit/metrics"), os.path.abspath("out.prom"), "some=none"],
                   capture_output=True, env=dict(os.environ, AUDIT=audit))
    expect_true('\naudit_store_look_status{store="some"} 3\n' in read_text("out.prom"),
                "the installed metrics can't run")


def expect_documents_there(installed):
    """The documents that the man page names are there."""
    page = read_text(os.path.join(installed, "share/man/man1/audit.1"))
    folder = re.search(r"(?m)^\.IR (.*/share/doc/audit\\-store) \.$", page)
    expect(folder and folder[1].replace("\\", ""), PREFIX + "/share/doc/audit-store", "the documents of the man page")
    for document in re.findall(r"(?m)^\.I (docs/.*\.md)$", page):
        name = document.replace("\\", "")
        expect_true(os.path.exists(os.path.join(installed, "share/doc/audit-store", name)),
                    "the man page names %s, which isn't installed" % name)


@scene
def scene_folder():
    """What is installed is whole, runs from there, is replaced while it runs, and is removed without a trace."""
    os.mkdir("kept")
    write("kept/other", b"other\n")
    others = {"other": "%o" % mode_of("kept/other")}
    install(PREFIX, destdir=os.path.abspath("kept"))
    wanted = {**others, **wanted_below(PREFIX[1:] + "/")}
    expect_files("kept", wanted, "after bin/install")
    installed = os.path.abspath("kept") + PREFIX
    expect_installed_runs(installed)
    expect_documents_there(installed)
    # A second installation replaces the first, also while the program runs.
    install(PREFIX, destdir=os.path.abspath("kept"))
    expect_files("kept", wanted, "after bin/install twice")
    expect(run("install", "--remove", PREFIX, destdir=os.path.abspath("kept"))[0], 0, "bin/install --remove")
    expect_files("kept", others, "after bin/install --remove")
    for folder in "share/audit", "share/doc/audit-store":
        expect_true(not os.path.exists(os.path.join(installed, folder)), "bin/install --remove left " + folder)
    expect(run("install", "relative")[0], 2, "the status for a relative PREFIX")


@scene
def scene_modes():
    """Modes under a narrow umask and a wide one, of folders too."""
    for mask in 0o077, 0o000:
        folder = os.path.abspath("%03o" % mask)
        install(PREFIX, destdir=folder, umask=mask)
        expect_files(folder, wanted_below(PREFIX[1:] + "/"), "with the umask %03o" % mask)
        other = [place for place, _, _ in os.walk(folder) if place != folder and mode_of(place) != 0o755]
        expect(other, [], "folders of another mode with the umask %03o" % mask)


@scene
def scene_links():
    """Links that wait for root: none is written through, and those in place of a target are replaced."""
    destdir = os.path.abspath("linked")
    linked = destdir + "/opt"
    for folder in "bin", "share/man/man1", "lib/systemd/system":
        os.makedirs(os.path.join(linked, folder))
    os.mkdir("folder")
    write("theirs", b"theirs\n")
    for target in "bin/audit", "share/man/man1/audit.1", "lib/systemd/system/audit-watch@.timer":
        os.symlink(os.path.abspath("theirs"), os.path.join(linked, target + ".new"))
    os.symlink(os.path.abspath("theirs"), linked + "/bin/audit")
    os.symlink(os.path.abspath("folder"), linked + "/share/man/man1/audit.1")
    install("/opt", destdir=destdir)
    expect(read("theirs"), b"theirs\n", "a file that a link named")
    expect(os.listdir("folder"), [], "a folder that a link named")
    for target in "bin/audit", "share/man/man1/audit.1":
        expect_true(not os.path.islink(os.path.join(linked, target)), "a link is installed as " + target)
    shutil.rmtree(linked + "/share/audit")
    os.symlink(os.path.abspath("folder"), linked + "/share/audit")
    write("folder/fleet", b"")
    for words in ["--program", program.PATH], ["--remove"]:
        expect(run("install", *words, "/opt", destdir=destdir)[0], 1,
               "%s over a link in place of share/audit" % words[0])
        expect(os.listdir("folder"), ["fleet"], "a folder that a link named after %s" % words[0])


@scene
def scene_prefixes():
    """PREFIX is named as it is, or refused, and printed with escapes."""
    odd, destdir = "/opt/a&b|c", os.path.abspath("odd")
    install(odd, destdir=destdir)
    unit = read_text(destdir + odd + "/lib/systemd/system/audit-daemon@.service")
    expect_true("ExecStart=/opt/a&b|c/bin/audit " in unit, "a unit doesn't name its PREFIX with & and |")
    expect(run("install", "--remove", odd, destdir=destdir)[0], 0, "the removal of a PREFIX with & and |")
    expect(files_below(destdir), {}, "files below a PREFIX with & and |")
    for odd in "/opt/a b", "/opt/a%b", '/opt/a"b', "/opt/a\\b", "/opt/../a", "/opt/$a":
        status, _, _ = run("install", "--program", program.PATH, odd, destdir=os.path.abspath("refused"))
        expect((status, os.path.exists("refused")), (2, False), "the PREFIX " + odd)
    status, _, said = run("install", b"x\x1b[2J\n\xc2\x85\xe2\x80\xae")
    expect(said, b"bin/install: PREFIX isn't an absolute path: x\\x1b[2J\\x0a\\u0085\\u202e\n", "how PREFIX is printed")


@scene
def scene_usages():
    """Each script of bin/ and each tool prints its usage, and does nothing else."""
    for name in "try", "audit", "check", "bench", "attack", "statement", "install", "package", "library":
        status, out, err = run(name, "--help")
        expect((status, err, b"usage: bin/" + name.encode() in out), (0, b"", True), "bin/%s --help" % name)
    for path in sorted(glob.glob(os.path.join(TOOLS, "*"))):
        name = os.path.basename(path)
        if os.access(path, os.X_OK):
            done = subprocess.run([path, "--help"], stdin=subprocess.DEVNULL, stdout=subprocess.PIPE,
                                  stderr=subprocess.PIPE, timeout=60)
            expect((done.returncode, done.stderr, b"usage: " + name.encode() in done.stdout), (0, b"", True),
                   "%s --help" % name)
