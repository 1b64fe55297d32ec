"""What is installed, and how."""
import glob
import os
import subprocess

from checks.parts import program
from checks.parts.files import mode_of
from checks.parts.places import AUDITOR, TOP, at_top
from checks.parts.wrong import expect

UNITS = """alarm@.service anchor@.service anchor@.timer daemon@.service failover@.service forward@.service journal@.service
mark@.service mark@.timer metrics@.service metrics@.timer read@.service rotate@.path rotate@.service rotate@.timer tail@.service
watch@.service watch@.timer""".split()
TOOLS = """witness-git fleet metrics journal-feed file-feed failover fence-ceph send-confirming into-sqlite verify-chain
format-sealed anchor anchor-check mark event-times rotate-log rotate-full audit-log""".split()
FILES = """rsyslog.conf rsyslog-read.conf rsyslog-collect.conf rsyslog-forward.conf stunnel-logger.conf
stunnel-host.conf device.conf failover.conf rbd.device rbd-exclusive.py feed.py anchors.py links.py shown.sh metrics.rules.yml""".split()
PROGRAMS = "bundle.py bundle_check.py check_proof.py disclosure.py history.py read_export.py state.py".split()


def run(name, *words, destdir=None, **how):
    """The status of a script of bin/, and what it says."""
    environment = dict(os.environ)
    if destdir is not None:
        environment["DESTDIR"] = destdir
    ended = subprocess.run([at_top("bin", name), *words], stdin=subprocess.DEVNULL, stdout=subprocess.PIPE,
                           stderr=subprocess.PIPE, env=environment, timeout=program.SECONDS, **how)
    return ended.returncode, ended.stdout, ended.stderr


def install(prefix, destdir=None, **how):
    status, out, err = run("install", "--program", program.PATH, prefix, destdir=destdir, **how)
    expect((status, out), (0, b""), "bin/install %s: %r" % (prefix, err))


def files_below(folder):
    """Each file below a folder, with its mode."""
    return {os.path.relpath(os.path.join(place, name), folder): "%o" % mode_of(os.path.join(place, name))
            for place, _, names in os.walk(folder) for name in names}


def wanted_below(prefix):
    """Each file that is installed, with its mode."""
    pages = ["README.md", "CHANGELOG.md", "SECURITY.md", "examples/tour.txt"]
    pages += glob.glob("docs/*.md", root_dir=TOP) + glob.glob("docs/*.png", root_dir=TOP)
    found = {"bin/audit": "755", "share/man/man1/audit.1": "644", "share/bash-completion/completions/audit": "644",
             "lib/sysusers.d/audit.conf": "644", "share/audit/auditor/page.verdicts": "644",
             "share/audit/auditor/verify.html": "644"}
    found.update({"lib/systemd/system/audit-" + unit: "644" for unit in UNITS})
    found.update({"share/audit/" + name: "755" for name in TOOLS})
    found.update({"share/audit/" + name: "644" for name in FILES})
    found.update({"share/audit/auditor/" + name: "755" if os.access(os.path.join(AUDITOR, name), os.X_OK) else "644"
                  for name in PROGRAMS})
    found.update({"share/doc/audit-store/" + page: "644" for page in pages})
    return {prefix + name: mode for name, mode in found.items()}


def expect_files(folder, wanted, what):
    found = files_below(folder)
    differences = sorted(set(found.items()) ^ set(wanted.items()))
    expect(differences, [], "other files " + what)
