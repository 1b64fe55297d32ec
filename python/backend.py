"""Builds the wheel of the package, as PEP 517 asks, by the standard library alone: a zip with the modules and their
metadata. The same sources make the same bytes.

usage: python3 backend.py FOLDER
"""
import base64
import hashlib
import os
import re
import sys
import zipfile

HERE = os.path.dirname(os.path.abspath(__file__))
PACKAGE = "audit_store"
# The earliest date that a zip can have.
DATE = (1980, 1, 1, 0, 0, 0)


def read(*names):
    with open(os.path.join(HERE, *names), "rb") as file:
        return file.read()


def field(name):
    """A field of the project, as pyproject.toml has it."""
    return re.search('^%s = "(.*)"$' % name, read("pyproject.toml").decode(), re.M)[1]


def metadata():
    lines = ["Metadata-Version: 2.1", "Name: " + field("name"), "Version: " + field("version"),
             "Summary: " + field("description"), "Requires-Python: " + field("requires-python"),
             "Description-Content-Type: text/markdown", "", read("README.md").decode()]
    return "\n".join(lines).encode()


def files():
    """The names in the wheel, with their contents."""
    info = "%s-%s.dist-info" % (PACKAGE, field("version"))
    found = {"%s/%s" % (PACKAGE, name): read(PACKAGE, name) for name in sorted(os.listdir(os.path.join(HERE, PACKAGE)))
             if name.endswith((".py", ".typed"))}
    found[info + "/METADATA"] = metadata()
    found[info + "/WHEEL"] = b"Wheel-Version: 1.0\nGenerator: backend\nRoot-Is-Purelib: true\nTag: py3-none-any\n"
    rows = ["%s,sha256=%s,%d" % (name, base64.urlsafe_b64encode(hashlib.sha256(data).digest()).rstrip(b"=").decode(),
                                 len(data)) for name, data in found.items()]
    found[info + "/RECORD"] = "\n".join([*rows, info + "/RECORD,,", ""]).encode()
    return found


def build_wheel(wheel_directory, config_settings=None, metadata_directory=None):
    name = "%s-%s-py3-none-any.whl" % (PACKAGE, field("version"))
    with zipfile.ZipFile(os.path.join(wheel_directory, name), "w", zipfile.ZIP_DEFLATED) as wheel:
        for place, data in files().items():
            entry = zipfile.ZipInfo(place, DATE)
            entry.external_attr, entry.compress_type = 0o644 << 16, zipfile.ZIP_DEFLATED
            wheel.writestr(entry, data)
    return name


if __name__ == "__main__":
    if len(sys.argv) != 2:
        sys.exit(__doc__)
    print(os.path.join(sys.argv[1], build_wheel(sys.argv[1])))
