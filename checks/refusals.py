"""Each refusal and each message in the tables of docs/refusals.md is brought about by a case or a test, which PLACES
names here, and all of these have a row.

usage: bin/check refusals
"""
import os
import re

from checks.parts import program
from checks.parts.files import read
from checks.parts.places import DOCS, TOP
from checks.parts.wrong import Usage
from checks.table import files_of

# Where each number's name, and each message, is brought about.
STORE_TESTS = "crates/audit_test_store/src/store/"
PLACES = {
    "NotAStore": ["cases/refused_stores"],
    "DamagedHeader": ["cases/refused_stores"],
    "HeadersDisagree": ["cases/refused_stores"],
    "DamagedLog": ["cases/refused_stores"],
    "BatchTooLarge": [STORE_TESTS + "appends.rt"],
    "Full": ["cases/reserve"],
    "NoSuchVersion": ["cases/refused_stores"],
    "Worn": [STORE_TESTS + "appends.rt"],
    "Broken": [STORE_TESTS + "faults.rt"],
    "Device": [STORE_TESTS + "faults.rt"],
    "Memory": ["bin/check memory"],
    "Closed": ["cases/close"],
    "BadSize": ["cases/refused_formats"],
    "ReservedKind": [STORE_TESTS + "closing.rt"],
    "NotAllowed": ["bin/check client", "bin/check daemon"],
    "NotCounted": ["bin/check system", "bin/check placed"],
    "BadProof": ["cases/checked_proofs", "cases/opened_proofs", "cases/checked_links"],
    "Short": ["cases/verified_exports"],
    "BadLength": ["cases/verified_exports"],
    "BadLink": ["cases/verified_exports", "cases/verified_further"],
    "BadMac": ["cases/verified_exports"],
    "WrongCommitment": ["cases/verified_exports"],
    "ReadFault": ["cases/verified_exports"],
    "BadClose": ["cases/verified_exports"],
    "bad argument": ["cases/rotation", "cases/verified_further", "cases/refused_sources", "cases/notes"],
    "file exists": ["cases/rotation"],
    "file fault": ["cases/refused_stores"],
    "store in use": ["bin/check system"],
    "store replaced": ["bin/check daemon", "bin/check system"],
    "input too long": ["cases/refused_lines"],
    "count is <n>": ["cases/lines_as_they_come"],
    "other link": ["bin/check system"],
    "too many kinds": ["bin/check system"],
    # No log has 2^64 events of a kind: the contract says when.
    "too many events of a kind": ["crates/audit_join"],
    "other log": ["bin/check daemon"],
    "held <count>:<root>, the store has <count>:<root>": ["bin/check daemon"],
    "line <n>: ..": ["cases/refused_lines"],
    "salvaged <count> <root> damaged <count>": ["bin/check system"],
    "salvaged <n> unbound <n> missing <n> unread <n> shown <n> counted": ["cases/searched_stores"],
    "not accepted": ["cases/checked_proofs"],
    "not accepted: old half": ["cases/checked_links"],
    "not accepted: new half": ["cases/checked_links"],
    "shorter": ["bin/check client"],
    "other root": ["bin/check client"],
    "state in use": ["bin/check client"],
    "witness file in use": ["bin/check client"],
    "not linked: old half": ["bin/check rotating"],
    "not linked: new half": ["bin/check rotating"],
    "bad reply": ["bin/check client"],
    "connection ended": ["bin/check client"],
    "no reply in time": ["bin/check client"],
    "<n> lines from line <m> are not acknowledged": ["bin/check client"],
    "1 line .. is ..": ["bin/check client"],
}


def files_at(place):
    """The files of a case, of a crate, or of a check."""
    if place.startswith("bin/check "):
        return files_of(place.removeprefix("bin/check "))
    path = os.path.join(TOP, place)
    if not os.path.isdir(path):
        return [path] if os.path.exists(path) else []
    return [os.path.join(folder, name) for folder, _, names in os.walk(path) for name in names]


def constants_of(message):
    """The names of what the checks share that has this message."""
    for name, value in vars(program).items():
        texts = value if isinstance(value, tuple) else [value]
        if name.isupper() and name not in ("PATH", "EXPLAINED") and any(
                isinstance(text, bytes) and message.encode() in text for text in texts):
            yield name


def lacks(place, words):
    """Whether no file at a place has a name, or the longest fixed piece of a message, or a constant that stands for it."""
    is_name = words[0].isupper()
    words = max(re.split(r"<[a-z]+>|\.\.", words), key=len)
    forms = [rb"\b%s\b" % re.escape(words.encode()) if is_name else re.escape(words.encode())]
    if place.startswith("bin/check "):
        names = [re.sub("(?<=[a-z])(?=[A-Z])", "_", words).upper()] if is_name else constants_of(words)
        forms += [rb"\b%s\b" % name.encode() for name in names]
    form = re.compile(b"|".join(forms))
    return not any(form.search(read(path)) for path in files_at(place))


def documented():
    """The names and messages of the page: those in the first column of its tables, but for the one without a name."""
    with open(os.path.join(DOCS, "refusals.md"), encoding="utf-8") as page:
        rows = [line.split("|")[1] for line in page.read().splitlines() if line.startswith("|")]
    return {name for row in rows for name in re.findall("`([^`]*)`", row)}


def main(words):
    if words:
        raise Usage
    names = documented()
    found = ["docs/refusals.md has no row of %s" % name for name in sorted(set(PLACES) - names)]
    found += ["no case or test of %s is known" % name for name in sorted(names - set(PLACES))]
    found += ["%s doesn't bring about %s" % (place, name) for name, places in PLACES.items() for place in places
              if lacks(place, name)]
    print("".join(line + "\n" for line in found), end="")
    return 1 if found else 0
