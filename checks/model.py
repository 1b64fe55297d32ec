"""Compares the values that tests and cases expect with those of the independent model in model/.

usage: bin/check model [--long] [FILE ..]
       bin/check model --text NAME ..
       bin/check model --list

Each row of 40 hex digits or more, and each list of 32 bytes or more, in the sources of crates, in the stored output of
programs and in cases/ must be the model's, in the order of the lists in model/stored. What differs, is missing or isn't
known is printed; the last line counts the values. Only FILEs are looked at, if there are any. The values of a few texts
that take long are left out without --long, which takes more than half an hour. It is also checked that the model's
roots and proofs are those of the auditor's programs.

--text prints the text that a stored value is, or is the SHA-256 of, in hex digits, on a line of its own: `bin/check
model --text NAME | xxd -r -p | sha256sum` makes the digest again. A text that is itself digests, as that of a store's
whole state is, has names for their texts too: NAME/answers and NAME/image.

--list prints for each value its name, whether a digest or the text itself is stored, and the file that has it, with
tabs between them; `part` is one of the texts behind a text of digests. `long` is added if a text takes more than ten
seconds, the source of a value from outside, or why the model doesn't make one. The names are those of files and of the
cases in them.
"""
import signal
import sys

from checks.parts.wrong import Usage
from model import agreement
from model.sources import values_in
from model.stored import FILES, named, scanned_files, values_of


class Count:
    """How many values are as they should be, and the lines about the others."""

    def __init__(self, long):
        self.long = long
        self.passed = self.failed = self.left_out = self.not_made = 0

    def fail(self, line):
        self.failed += 1
        print(line)

    def compare(self, file, value, found):
        if value.not_made:
            self.not_made += 1
        elif value.is_long and not self.long:
            self.left_out += 1
        elif value.stored() == found:
            self.passed += 1
        else:
            self.fail("%s: %s is %s, and not the model's %s" % (file, value.case, short(found), short(value.stored())))

    def check_file(self, file):
        """The values of a file are those of its list, no more and no fewer."""
        found, values = values_in(file), values_of(file)
        for value, digits in zip(values, found):
            self.compare(file, value, digits)
        for digits in found[len(values):]:
            self.fail("%s: %s is in no list of the model" % (file, short(digits)))
        for value in values[len(found):]:
            self.fail("%s: %s isn't there" % (file, value.case))

    def check_unlisted(self, file):
        """A file without a list has no value."""
        for digits in values_in(file):
            self.fail("%s: %s is in no list of the model" % (file, short(digits)))

    def line(self):
        line = "%d passed, %d failed" % (self.passed, self.failed)
        line += ", %d take long and were left out" % self.left_out if self.left_out else ""
        return line + (", %d the model doesn't make" % self.not_made if self.not_made else "")


def short(digits):
    """Digits as they are printed: a long row by its ends."""
    return digits if len(digits) <= 64 else "%s..%s (%d digits)" % (digits[:24], digits[-24:], len(digits))


def compare(files, is_long):
    count = Count(is_long)
    for file in files or sorted({*scanned_files(), *FILES}):
        if file in FILES:
            count.check_file(file)
        else:
            count.check_unlisted(file)
    for name, holds in [] if files else agreement.results():
        if holds:
            count.passed += 1
        else:
            count.fail("model/agreement.py: " + name)
    print(count.line())
    return 1 if count.failed else 0


def line_of(name, file, value):
    """The line of a value in the list."""
    form = "part" if value.is_part else "digest" if value.is_digest else "text"
    words = [name, form, file, "long" if value.is_long else "", value.outside, value.not_made]
    return "\t".join(word for word in words if word)


def print_texts(names):
    values = {name: value for name, _, value in named()}
    for name in names:
        if name not in values:
            print("model: %s: no value has this name; --list prints the names" % name, file=sys.stderr)
            return 2
        if values[name].not_made:
            print("model: %s: %s" % (name, values[name].not_made), file=sys.stderr)
            return 1
        print(values[name].make().hex())
    return 0


def main(words):
    if words[:1] in (["--text"], ["--list"]):
        # A reader of the list may stop early.
        signal.signal(signal.SIGPIPE, signal.SIG_DFL)
    if words[:1] == ["--text"] and words[1:]:
        return print_texts(words[1:])
    if words == ["--list"]:
        for name, file, value in named():
            print(line_of(name, file, value))
        return 0
    files = [word for word in words if word != "--long"]
    if any(word.startswith("-") for word in files):
        raise Usage
    return compare(files, "--long" in words)
