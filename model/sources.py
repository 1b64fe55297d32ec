"""Where tests have their expected values: every long row of hex digits in a file, and every long list of bytes."""
import os
import re

from model import TOP

# A value has at least this many bytes. What is shorter is a part of an input, or is there to be read.
LEAST = 20
LEAST_IN_LISTS = 32

# In a text over several lines of a source, the end of a line and the space before the next one.
CONTINUED = re.compile(r"\\\n\s*")
DIGITS = re.compile(r"(?<![0-9A-Za-z_])[0-9a-f]{%d,}(?![0-9A-Za-z_])" % (2 * LEAST))
LISTED = re.compile(r"\[((?:\s*0x[0-9a-f]{2},?)+)\s*\]")
NUMBER = re.compile(r"EXPECTED: u64 = 0x([0-9a-f_]+);")


def places(text):
    """Pairs of a place in the text and the digits of the value there."""
    for match in DIGITS.finditer(text):
        # One digit repeated is the root of no entry, a key of zeros or a payload.
        if len(set(match[0])) > 1:
            yield match.start(), match[0]
    for match in LISTED.finditer(text):
        digits = "".join(re.findall("0x(..)", match[1]))
        if len(digits) >= 2 * LEAST_IN_LISTS:
            yield match.start(), digits
    for match in NUMBER.finditer(text):
        yield match.start(), match[1].replace("_", "")


def read(file):
    with open(os.path.join(TOP, file), "rb") as opened:
        return opened.read()


def values_in(file):
    """The values of a file of the repository as hex digits, in their order."""
    text = read(file).decode(errors="replace")
    if file.endswith(".rt"):
        text = CONTINUED.sub("", text)
    return [digits for _, digits in sorted(places(text))]
