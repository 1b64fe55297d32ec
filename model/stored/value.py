"""A stored value: its name, and the text that it is or is the SHA-256 of."""
from typing import Callable, NamedTuple

from read_export import sha256


class Value(NamedTuple):
    case: str
    make: Callable
    # Whether the SHA-256 of the text is stored, instead of the text itself.
    is_digest: bool = False
    # Whether making the text takes many seconds.
    is_long: bool = False
    # Where a value is from that wasn't made by the model first.
    outside: str = ""
    # Why the model doesn't make it.
    not_made: str = ""
    # If its text is digests, one after another, the values that are these.
    parts: tuple = ()
    # Whether it is such a part, which no file has.
    is_part: bool = False

    def stored(self):
        """The hex digits that the file should have."""
        text = self.make()
        return (sha256(text) if self.is_digest else text).hex()


def text(case, make, is_long=False):
    """A value that is the text itself."""
    return Value(case, make, is_long=is_long)


def digest(case, make, is_long=False):
    """A value that is the SHA-256 of a text."""
    return Value(case, make, True, is_long)


def digest_of_digests(case, *parts):
    """The SHA-256 of the digests of several texts, which are pairs of a name and what makes the text."""
    values = tuple(Value("%s/%s" % (case, name), make, True, is_part=True) for name, make in parts)
    return Value(case, lambda: b"".join(sha256(value.make()) for value in values), True, parts=values)


def outside(case, make, source):
    """A value that was published elsewhere, and that is made here too."""
    return Value(case, make, outside=source)


def not_made(case, reason):
    """A value that the model doesn't make, for this reason."""
    return Value(case, lambda: b"", not_made=reason)
