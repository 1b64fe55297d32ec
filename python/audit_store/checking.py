"""Commitments, and proofs that are judged under them."""
import struct
from ctypes import byref
from typing import NamedTuple, Optional

from audit_store._library import BAD_PROOF, NOTE_NAME, OK, GivenCommitment, GivenNote, library

# A commitment as the library reads it: the bytes of its struct.
_GIVEN = struct.Struct("=Q32s")


class BadProof(ValueError):
    """The bytes are no proof, or one that takes another number of commitments."""


class Commitment(NamedTuple):
    """What a log commits to: its number of entries, and the root of the history tree over them.

    >>> empty = Commitment.parse("0:" + 64 * "0")
    >>> empty.count, str(empty) == "0:" + 64 * "0"
    (0, True)
    """

    count: int
    root: bytes

    @classmethod
    def parse(cls, word: str) -> "Commitment":
        """Reads COUNT:ROOT. A ValueError says that it is none."""
        found, spelt = GivenCommitment(), word.encode("utf-8", "replace")
        if library.read_commitment(spelt, len(spelt), byref(found)) != OK:
            raise ValueError("not a commitment: %r" % (word,))
        return cls(found.count, bytes(found.root))

    def __str__(self) -> str:
        return "%d:%s" % (self.count, self.root.hex())


class Note(NamedTuple):
    """A commitment with the name of its log, as `audit note` writes it: one text alone is that of a note. Who signed it
    is for others to check.

    >>> text = b"audit-note 1\\nname some.example/log\\ncount 0\\nroot " + 64 * b"0" + b"\\n"
    >>> Note.parse(text).name, Note.parse(text).commitment.count
    ('some.example/log', 0)
    """

    name: str
    commitment: Commitment

    @classmethod
    def parse(cls, text: bytes) -> "Note":
        """Reads the text of a note. A ValueError says that it is none."""
        found = GivenNote()
        if library.read_note(text, len(text), byref(found)) != OK:
            raise ValueError("the text is not that of a note")
        name = text[NOTE_NAME:NOTE_NAME + found.name_size].decode("ascii")
        return cls(name, Commitment(found.commitment.count, bytes(found.commitment.root)))


def given(commitment: Commitment) -> bytes:
    """A commitment as the library reads it."""
    if not 0 <= commitment.count < 1 << 64 or len(commitment.root) != 32:
        raise ValueError("not a commitment: %r" % (commitment,))
    return _GIVEN.pack(*commitment)


def check(proof: bytes, commitment: Commitment, newer: Optional[Commitment] = None) -> bool:
    """Whether a proof is accepted, as `audit check` judges it: an inclusion proof under one commitment, a consistency
    proof under an older and a newer one. The proof has to be of their counts. `BadProof` if the bytes are no such
    proof.

    >>> check(b"", Commitment(0, bytes(32)))
    Traceback (most recent call last):
    audit_store.checking.BadProof: not an inclusion proof
    """
    if newer is None:
        answer = library.check_inclusion(proof, len(proof), given(commitment))
        if answer == BAD_PROOF:
            raise BadProof("not an inclusion proof")
    else:
        answer = library.check_consistency(proof, len(proof), given(commitment), given(newer))
        if answer == BAD_PROOF:
            raise BadProof("not a consistency proof")
    return bool(answer == OK)
