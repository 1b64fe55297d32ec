"""How a check says what is wrong, and what it leaves out."""
import traceback

# The status of a check that was left out as a whole.
LEFT_OUT = 77


class Wrong(Exception):
    """A result that differs from the expected one."""


class LeftOut(Exception):
    """What is needed for a check or a scene, and isn't there."""


class Usage(Exception):
    """Words that a check doesn't take."""


def short(value, most=400):
    """A value as it is printed, in ASCII."""
    text = ascii(value)
    return text if len(text) < most else text[:most] + ".."


def expect(found, wanted, what):
    if found != wanted:
        raise Wrong("%s: %s, and not %s" % (what, short(found), short(wanted)))


def expect_true(holds, what, wrong=Wrong):
    if not holds:
        raise wrong(what)


def told(fault):
    """What is printed of an exception that ended a scene: of one that no check raises by itself also the place."""
    if isinstance(fault, Wrong):
        return str(fault)
    place = traceback.extract_tb(fault.__traceback__)[-1]
    return "%s, in %s of %s, line %d" % (short(fault), place.name, place.filename, place.lineno)
