"""The configurations of packaging/, with what is here in the place of what they name."""
import os

from checks.parts.files import read_text
from checks.parts.places import PACKAGING, tool
from checks.parts.wrong import expect_true


def configured(path, *changes):
    """A configuration with these changes, each of which has to be in it."""
    text = read_text(os.path.join(PACKAGING, path))
    for there, here in changes:
        expect_true(there in text, "packaging/%s doesn't name %s" % (path, there))
        text = text.replace(there, here)
    return text


def sending(wrapper, socket):
    """The changes by which rsyslog/audit.conf sends to this socket by this program."""
    return (("AUDIT=/usr/local/bin/audit", "AUDIT=%s PATH=%s" % (wrapper, os.environ["PATH"])),
            ("/usr/local/share/audit/send-confirming", tool("send-confirming")),
            ("/run/audit-some/writers/socket", socket))
