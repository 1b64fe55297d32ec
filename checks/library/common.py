"""The library under test, and the package over it."""
import contextlib
import ctypes
import os
import shutil
import subprocess
import sys
import tempfile

from checks.parts import program
from checks.parts.places import CRATES, at_top
from checks.parts.wrong import LeftOut, Wrong

ARCHIVE = os.path.join(CRATES, "audit_c", "out", "libaudit_c.a")
FOLDER = None


def newest_source():
    """When a file of the crate changed last."""
    folder = os.path.join(CRATES, "audit_c")
    return max(os.path.getmtime(os.path.join(root, name)) for top in ("src", "specs", "proofs")
               for root, _, names in os.walk(os.path.join(folder, top)) for name in names)


@contextlib.contextmanager
def use_library():
    """Links the library into a folder of its own, and makes the package importable."""
    global FOLDER
    given = os.environ.get("AUDIT_STORE_LIBRARY")
    FOLDER = tempfile.mkdtemp(prefix="library-")
    try:
        if given:
            for name in os.listdir(os.path.dirname(os.path.abspath(given))):
                shutil.copy(os.path.join(os.path.dirname(os.path.abspath(given)), name), FOLDER)
        else:
            is_built = os.path.exists(ARCHIVE) and os.path.getmtime(ARCHIVE) >= newest_source()
            if not is_built and shutil.which("rt") is None:
                raise LeftOut("there is no proved archive, and no `rt` to make one")
            done = subprocess.run([at_top("bin", "library"), FOLDER, *([ARCHIVE] if is_built else [])],
                                  capture_output=True, text=True)
            if done.returncode == 77:
                raise LeftOut("there is no C compiler")
            if done.returncode:
                raise Wrong("bin/library: " + done.stderr)
        os.environ["AUDIT_STORE_LIBRARY"] = os.path.join(FOLDER, "libauditstore.so.1")
        os.environ["PYTHONPATH"] = at_top("python")
        sys.path.insert(0, at_top("python"))
        yield
    finally:
        shutil.rmtree(FOLDER, ignore_errors=True)
        if given is None:
            os.environ.pop("AUDIT_STORE_LIBRARY", None)


def sectors():
    """How many sectors a store of a scene with kills has: enough for all that is sent meanwhile."""
    return 1 << 21 if program.LONG else 1 << 15


def commitment_of(log):
    """The commitment to a log of the model."""
    from audit_store import Commitment
    from history import root
    return Commitment(len(log.leaves), root(log.leaves))


def read_in_pieces(pieces, first_key, commitment):
    """The verdict of the library on bytes that come in these pieces, in the terms of the model, and the events."""
    from audit_store import _library as names
    from audit_store.checking import given
    library, verifier, event = names.library, names.Verifier(), names.GivenEvent()
    payload = ctypes.create_string_buffer(names.PAYLOAD_MAX)
    library.verify_first(first_key, verifier)
    events = []
    for piece in pieces:
        while True:
            held = ctypes.create_string_buffer(piece, len(piece) or 1)
            answer = library.verify_feed(verifier, held, len(piece), event, payload, names.PAYLOAD_MAX)
            if answer != names.OK:
                break
            events.append((event.kind, payload.raw[:event.size]))
            if event.index != len(events) - 1:
                raise Wrong("event %d is handed out as %d" % (len(events) - 1, event.index))
            piece = piece[event.taken:]
        if answer != names.MORE:
            again = library.verify_feed(verifier, held, 0, event, payload, names.PAYLOAD_MAX)
            end = library.verify_end(verifier, given(commitment))
            if (again, end) != (answer, answer):
                raise Wrong("the fault %d is followed by %d and %d" % (answer, again, end))
            return (answer, verifier.count, False), events
    answer = library.verify_end(verifier, given(commitment))
    return (answer, verifier.count, answer == 0 and verifier.closed == 1), events
