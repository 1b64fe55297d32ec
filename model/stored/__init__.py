"""The values that are stored in tests, and the texts that they are or are the SHA-256 of. Each file of the repository has a
list here, in the order in which its values stand there."""
import glob
import os
import re

from model import TOP
from model.stored import cases, disk, formats, program, rehearsal, store, verify

FILES = {**disk.FILES, **formats.FILES, **program.FILES, **rehearsal.FILES, **store.FILES, **verify.FILES, **cases.FILES}

# Where values may be stored.
PLACES = ["crates/*/src/**/*.rt", "crates/*/stdout", "cases/*/script", "cases/*/sectors", "cases/*/stdout", "cases/*/stderr",
          "cases/*/stdout.lines", "cases/*/stderr.lines"]


def short_name(file):
    """A file's name in the names of its values: `store/many` for crates/audit_test_store/src/store/many.rt."""
    crate, path = re.fullmatch(r"(?:crates/audit_(?:test|tool)_)?([^/]+)/(?:src/)?(.*?)(?:\.rt)?", file).groups()
    return path if path.startswith(crate + "/") else crate + "/" + path


def values_of(file):
    return list(FILES[file]())


def named():
    """Each value with its name and its file, and after it those whose digests it is of."""
    for file in sorted(FILES):
        for value in values_of(file):
            for each in (value, *value.parts):
                yield short_name(file) + "/" + each.case, file, each


def scanned_files():
    """The files in which values may be stored."""
    found = set()
    for place in PLACES:
        found.update(glob.glob(os.path.join(TOP, place), recursive=True))
    return sorted(os.path.relpath(path, TOP) for path in found)
