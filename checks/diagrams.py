"""What the documents draw, list and link to exists. What isn't there is printed.

usage: bin/check diagrams

A diagram follows a comment `bin/check diagrams: KIND`. In it a crate has to exist, a word with `()` has to be a
function, and one in CamelCase a type, a trait or a definition: of the crate to its right, if the line has one. The kind
`floors` has each crate of the first four floors of crates.txt once, on its floor, and `commit` the calls of a commit in
their order. In comparison.md and controls.md each peer and each control names something that can be found: a law, a
case, a file, a command of the man page with its options, or a section of a page. The times of sizing.md until a store
is full follow from the limits in the code. Each link of the documents and of the crates' pages leads to a file, and to
a heading if it names one.
"""
import glob
import os
import re

from checks.parts.places import TOP

DRAWN = ["docs/architecture.md", "crates/audit_store_commit/PROMISES.md"]
LISTED = ["docs/comparison.md", "docs/controls.md"]


def read(path):
    with open(os.path.join(TOP, path), encoding="utf-8") as file:
        return file.read()


def names_of(crate):
    """The functions of a crate, and its types, traits and definitions."""
    functions, types = set(), set()
    for path in glob.glob(os.path.join(TOP, "crates", crate, "src", "**", "*.rt"), recursive=True):
        text = read(path)
        functions.update(re.findall(r"\bfn (\w+)", text))
        types.update(re.findall(r"\b(?:struct|enum|trait|type) (\w+)", text))
    for path in glob.glob(os.path.join(TOP, "crates", crate, "specs", "**", "*.antt"), recursive=True):
        types.update(re.findall(r"\bpub (?:record |data )?(\w+)", read(path)))
    return functions, types


CODE = {crate: names_of(crate) for crate in os.listdir(os.path.join(TOP, "crates"))}
NAME = re.compile(r"(?P<crate>\baudit(?:_[a-z_]+)?\b)|(?P<owner>[A-Z]\w+)::(?P<method>\w+)\(\)"
                  r"|(?P<function>\w+)\(\)|(?P<type>\b[A-Z][a-z]+[A-Z]\w*)")


def floors():
    """The crates of each floor of crates.txt."""
    found = {}
    for line in read("crates.txt").splitlines():
        if line.startswith("## "):
            floor = found.setdefault(line[3:].split(":")[0], [])
        elif line and line[0] != "#":
            floor.append(line.split(":")[0].split()[0])
    return found


def diagrams(path):
    """Each diagram of a page: its kind, and its lines with their numbers."""
    lines = read(path).splitlines()
    for start, line in enumerate(lines):
        kind = re.fullmatch(r"<!-- bin/check diagrams: (\w+) -->", line)
        if kind:
            place = start + 2
            while place < len(lines) and (lines[place].startswith("    ") or not lines[place]):
                place += 1
            yield kind[1], [(number + 1, lines[number]) for number in range(start + 2, place)]


def wrong_names(line):
    """The names of a line that don't exist, each looked up in the crate to its right if there is one."""
    found = list(NAME.finditer(line))
    for place, name in enumerate(found):
        if name["crate"]:
            if name["crate"] not in CODE:
                yield name[0]
            continue
        crates = [later["crate"] for later in found[place + 1:] if later["crate"]][:1] or list(CODE)
        owner, function, kind = name["owner"], name["method"] or name["function"], name["type"]
        if not any((not function or function in CODE[crate][0])
                   and (not (owner or kind) or (owner or kind) in CODE[crate][1])
                   for crate in crates if crate in CODE):
            yield "%s of %s" % (name[0], crates[0] if len(crates) == 1 else "any crate")


def calls_of_a_commit():
    """The calls of `commit` on a device, in their order."""
    code = read("crates/audit_store_commit/src/committing.rt")
    bodies = [re.search(r"\bfn %s<.*?\n\{\n(.*?)\n\}\n" % name, code, re.S)[1]
              for name in ("publish_batch", "replace_header")]
    found = re.findall(r"\b(write_batch|write_header|sync)\(", "\n".join(bodies))
    return ["write_entry" if name == "write_batch" else name for name in found]


def faults_of_diagrams(path):
    count = 0
    for kind, lines in diagrams(path):
        count += 1
        for number, line in lines:
            yield from ("%s:%d: there is no %s" % (path, number, name) for name in wrong_names(line))
        if kind == "commit":
            drawn = [call[1] for call in (re.match(r"    (?:\d|n) .*?(\w+)\(\)", line) for _, line in lines) if call]
            if drawn != calls_of_a_commit():
                yield "%s: a commit makes the calls %s" % (path, " ".join(calls_of_a_commit()))
        if kind == "floors":
            drawn, floor = {}, None
            for number, line in lines:
                floor = (re.match(r"    ([A-Z][a-z]+)\b", line) or [None, floor])[1]
                drawn.setdefault(floor, []).extend(name["crate"] for name in NAME.finditer(line) if name["crate"])
            for name, crates in list(floors().items())[:4]:
                if sorted(drawn.get(name, [])) != sorted(crates):
                    others = sorted(set(crates) ^ set(drawn.get(name, [])))
                    yield "%s: the floor %s has %s" % (path, name, " ".join(others) or "a crate twice")
    if not count:
        yield path + " has no diagram"


def headings(path):
    """The anchors of a page, as they are made of its headings."""
    titles = re.findall(r"^#+ (.*)$", re.sub(r"(?ms)^```.*?^```$", "", read(path)), re.M)
    return {re.sub(r"[^\w\- ]", "", title.lower()).replace(" ", "-") for title in titles}


def is_place(path, target):
    """Whether a link of the page leads somewhere."""
    if re.match(r"https?:", target):
        return True
    name, _, anchor = target.partition("#")
    place = os.path.normpath(os.path.join(os.path.dirname(path), name)) if name else path
    return os.path.exists(os.path.join(TOP, place)) and (not anchor or anchor in headings(place))


def is_found(path, word):
    """Whether what a row names can be found: a command, a law, a call, a case or a file."""
    manual = re.sub(r"\\f[A-Z]|\\c", "", read("docs/audit.1")).replace("\\-", "-")
    command = re.match(r"audit ([a-z]+)\b", word)
    if command:
        options = re.findall(r"--[a-z-]+", word)
        is_command = re.search(r"^audit %s\b" % command[1], manual, re.M)
        return bool(is_command) and all(option in manual for option in options)
    if "/" in word:
        return bool(glob.glob(os.path.join(TOP, word)))
    parts = re.findall(r"\w+", word)
    return bool(parts) and all(any(part in functions or part in types for functions, types in CODE.values())
                               for part in parts if part != "laws")


def faults_of_rows(path):
    """Each row of a table (a control), or item `- Here: ..` of a list (a peer) with its further lines."""
    text = read(path)
    items = re.findall(r"^(- Here: .*\n(?:  .*\n)*)", text, re.M) + re.findall(r"^\|.*\n", text, re.M)[2:]
    if not items:
        yield path + " has no items"
    for item in items:
        words = [re.sub(r"\s+", " ", word) for word in re.findall(r"`([^`]+)`", item)]
        places = re.findall(r"\]\(([^)]+)\)", item)
        if not any(is_place(path, place) for place in places) and not any(is_found(path, word) for word in words):
            yield "%s: nothing that can be found is named by %s" % (path, item.split("\n")[0])
        yield from ("%s: %s can't be found" % (path, word) for word in words
                    if ("/" in word or word.startswith(("audit ", "laws::"))) and not is_found(path, word))


def faults_of_sizes(path):
    """The table of times until a store is full, by the limits in the code."""
    limits = read("crates/audit_log/src/header.rt")
    largest = 1 << int(re.search(r"MAX_SECTORS: u64 = 1 << (\d+)", limits)[1])
    headers = int(re.search(r"LOG_START: u64 = (\d+)", limits)[1])
    seconds = {"seconds": 1, "minutes": 60, "hours": 3600, "days": 86400}
    table = [line.strip("|").split("|") for line in read(path).splitlines() if line.startswith("|")]
    rows = [row for row in table if row[0].strip().replace(",", "").isdigit() and len(row) == 3
            and row[2].split()[-1] in seconds]
    for rate, *times in rows[:4]:
        for time, sectors in zip(times, (131072, largest)):
            value, unit = time.split()
            right = (sectors - headers - 1) / int(rate.replace(",", "")) / seconds[unit]
            if abs(float(value) - right) > max(0.06, right / 100):
                yield "%s: at %s events a second %d sectors last %.1f %s, and not %s" % (
                    path, rate, sectors, right, unit, time)
    if len(rows) < 4:
        yield path + " hasn't the times until a store is full"


def pages():
    found = glob.glob(os.path.join(TOP, "*.md")) + glob.glob(os.path.join(TOP, "docs", "*.md"))
    for place in "crates/*.md", "crates/*/*.md", "model/*.md":
        found += glob.glob(os.path.join(TOP, place))
    return sorted(os.path.relpath(path, TOP) for path in found)


def faults_of_links(path):
    for number, line in enumerate(read(path).splitlines(), 1):
        if not line.startswith("    "):
            yield from ("%s:%d: nothing is at %s" % (path, number, target)
                        for target in re.findall(r"\]\(([^)\s]+)\)", line) if not is_place(path, target))


def main(words):
    found = [fault for path in DRAWN for fault in faults_of_diagrams(path)]
    found += [fault for path in LISTED for fault in faults_of_rows(path)]
    found += faults_of_sizes("docs/sizing.md")
    found += [fault for path in pages() for fault in faults_of_links(path)]
    for fault in found:
        print(fault)
    return 1 if found else 0

