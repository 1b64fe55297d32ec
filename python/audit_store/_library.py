"""libauditstore.so.1, as `library/audit_store.h` declares it."""
import ctypes
import ctypes.util
import os
from ctypes import POINTER, c_char_p, c_size_t, c_uint8, c_uint32, c_uint64, c_void_p

LIBRARY_VERSION = 1

OK, NOT_ACCEPTED, MORE, MISUSED, MALFORMED, BAD_PROOF = 0, 1, 2, 3, 20, 32
# The causes of a verification, by their numbers.
CAUSES = {40: "Short", 41: "BadLength", 42: "BadLink", 43: "BadMac", 44: "WrongCommitment", 46: "BadClose"}
PAYLOAD_MAX, PLACED_PAYLOAD_MAX, ENTRY_MAX, REQUEST_MAX = 32696, 32688, 32768, 32707
CLOSING = 0xffffffff
ACKNOWLEDGEMENT, COMMITMENT, INCLUSION, CONSISTENCY, ENTRY, STATE = 0x81, 0x82, 0x83, 0x84, 0x85, 0x87
PLACE, PLACED, REFUSED = 0x88, 0x89, 0xff
# Where the name of its log begins in a note.
NOTE_NAME = 18
# Where the key of a placed append's acknowledgement is in its frame.
KEY_AT = 55


class GivenCommitment(ctypes.Structure):
    _fields_ = [("count", c_uint64), ("root", c_uint8 * 32)]


class GivenNote(ctypes.Structure):
    _fields_ = [("commitment", GivenCommitment), ("name_size", c_size_t)]


class Verifier(ctypes.Structure):
    _fields_ = [("key", c_uint8 * 32), ("link", c_uint8 * 32), ("nodes", c_uint8 * 32 * 25), ("count", c_uint64),
                ("closed", c_uint32), ("fault", c_uint32), ("held", c_size_t), ("bytes", c_uint8 * ENTRY_MAX)]


class GivenEvent(ctypes.Structure):
    _fields_ = [("taken", c_size_t), ("size", c_size_t), ("index", c_uint64), ("kind", c_uint32)]


class Reply(ctypes.Structure):
    _fields_ = [("size", c_size_t), ("kind", c_uint32), ("tag", c_uint32), ("index", c_uint64), ("count", c_uint64),
                ("root", c_uint8 * 32), ("end", c_uint64), ("sectors", c_uint64), ("generation", c_uint64),
                ("version", c_uint32), ("closed", c_uint32), ("code", c_uint32), ("hashes", c_uint32)]


# The result and the parameters of each function.
BYTES = [c_char_p, c_size_t]
# A commitment that a function reads, in its struct's bytes: they cross in half the time that a struct takes.
READ_COMMITMENT = c_char_p
BUFFER = [c_void_p, c_size_t]
FUNCTIONS = {
    "read_commitment": (c_uint32, BYTES + [POINTER(GivenCommitment)]),
    "read_note": (c_uint32, BYTES + [POINTER(GivenNote)]),
    "check_inclusion": (c_uint32, BYTES + [READ_COMMITMENT]),
    "check_consistency": (c_uint32, BYTES + 2 * [READ_COMMITMENT]),
    "open_inclusion": (c_uint32, BYTES + [READ_COMMITMENT, c_char_p, POINTER(GivenEvent)] + BUFFER),
    "verify_first": (None, [c_char_p, POINTER(Verifier)]),
    "verify_state": (c_uint32, BYTES + [POINTER(Verifier)]),
    "verify_feed": (c_uint32, [POINTER(Verifier)] + BUFFER + [POINTER(GivenEvent)] + BUFFER),
    "verify_end": (c_uint32, [POINTER(Verifier), READ_COMMITMENT]),
    "write_append": (c_size_t, [c_uint32, c_uint32] + BYTES + BUFFER),
    "write_commitment": (c_size_t, [c_uint32] + BUFFER),
    "write_inclusion": (c_size_t, [c_uint32, c_uint64, c_uint64] + BUFFER),
    "write_consistency": (c_size_t, [c_uint32, c_uint64, c_uint64] + BUFFER),
    "write_entry": (c_size_t, [c_uint32, c_uint64] + BUFFER),
    "write_close": (c_size_t, [c_uint32] + BUFFER),
    "write_state": (c_size_t, [c_uint32] + BUFFER),
    "write_place": (c_size_t, [c_uint32, c_uint32] + BUFFER),
    "write_placed_append": (c_size_t, [c_uint32, c_uint32, c_uint64] + BYTES + BUFFER),
    "read_reply": (c_uint32, BUFFER + [POINTER(Reply)]),
}


def _path() -> str:
    """Where the library is: AUDIT_STORE_LIBRARY in the environment, or where the loader finds it."""
    return os.environ.get("AUDIT_STORE_LIBRARY") or "libauditstore.so.1"


class _Functions:
    def __init__(self, path: str) -> None:
        library = ctypes.CDLL(path)
        for name, (result, parameters) in FUNCTIONS.items():
            function = getattr(library, "audit_store_" + name)
            function.restype, function.argtypes = result, parameters
            setattr(self, name, function)


library = _Functions(_path())
