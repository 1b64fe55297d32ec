"""Puts the verified events of a log into SQLite by tools/into-sqlite, and those of the next day after them.

usage: bin/check siem EXECUTABLE [SCENE ..]

It needs sqlite3.
"""
import os
import shutil
import subprocess
import sys

from checks.parts import program
from checks.parts.daemons import commitment_of
from checks.parts.files import mode_of, read, write
from checks.parts.logs import event_line
from checks.parts.places import tool
from checks.parts.program import done
from checks.parts.scenes import play_all, scene, scenes_in, words_of
from checks.parts.tools import needs
from checks.parts.wrong import expect, expect_true

ROWS = """SELECT "index", kind, quote(text), quote(hex), json ->> '$.user' FROM events ORDER BY 1"""
FIRST_KEY, SECOND_KEY = b"%064d\n" % 0, b"%064d\n" % 1
# {"user":"ada"}, two bytes that are no text, and a text with a line feed, byte 31, a bar and quotes.
FIRST_DAY = event_line(b'{"user":"ada"}') + event_line(b"\xff\x00", 7) + event_line(b"a\n\x1f|\"x\";'")
FIRST_ROWS = b"0|1|'{\"user\":\"ada\"}'|NULL|ada\n1|7|NULL|'ff00'|\n2|1|'a\n\x1f|\"x\";'''|NULL|\n"
SECOND_ROWS = FIRST_ROWS + b"3|2|''|NULL|\n"
# A text with U+0000 is kept whole, as hex: "visible", NUL, "hidden"; NUL alone; and beside backslashes and percent
# signs, which the script turns into others on its way. A text that only looks like the escape, \u0000, stays a text.
ODD = [b"visible\0hidden", b"\0", b"%\\\0%0%1\\u0000%", rb"\u0000"]
THIRD_ROWS = SECOND_ROWS + (b"4|3|'hi'|NULL|\n5|4|NULL|'76697369626c650068696464656e'|\n6|4|NULL|'00'|\n"
                            b"7|4|NULL|'255c00253025315c753030303025'|\n8|4|'\\u0000'|NULL|\n")


def into(export, key="key", commitment=None, database="db", state="state"):
    """The status of a run, and what it says."""
    words = [tool("into-sqlite"), export, key, commitment or commitment_of("store"), database, state]
    ended = subprocess.run(words, stdin=subprocess.DEVNULL, stdout=subprocess.PIPE, stderr=subprocess.STDOUT,
                           env=dict(os.environ, AUDIT=program.PATH), timeout=program.SECONDS)
    return ended.returncode, ended.stdout


def expect_said(found, line, what):
    """A run that fails, and that says why in a line which begins so."""
    status, said = found
    expect_true(status != 0 and any(each.startswith(line) for each in said.splitlines()),
                "%s: %d %r" % (what, status, said))


def put(export, what):
    status, said = into(export)
    expect(status, 0, "%s: %r" % (what, said))


def sqlite(command):
    return subprocess.run(["sqlite3", "db", command], check=True, stdout=subprocess.PIPE).stdout


def expect_rows(wanted, what):
    expect(sqlite(ROWS), wanted, "the rows after " + what)


def export(lines, name, first):
    """Appends events, and exports those from an index on."""
    done("append", "store", data=lines)
    done("export", "store", name, "--from", str(first))


def two_days():
    write("key", FIRST_KEY)
    done("format", "store", "64", "key")
    export(FIRST_DAY, "day1", 0)
    put("day1", "the first day")
    expect_rows(FIRST_ROWS, "the first day")
    shutil.copy("state", "state.day1")
    export(event_line(b"", 2), "day2", 3)
    put("day2", "the second day")
    expect_rows(SECOND_ROWS, "the second day")
    shutil.copy("state", "state.day2")


@scene
def scene_days():
    """The events of a day after those of the other, also after a run that was cut off; texts that SQLite would cut are
    hex."""
    two_days()
    # A run that was cut off before its state stood is made again.
    shutil.copy("state.day1", "state")
    put("day2", "the second day again")
    expect_rows(SECOND_ROWS, "the second day again")
    expect_true(read("state") == read("state.day2"), "the state of the second day again is another")
    export(event_line(b"hi", 3) + b"".join(event_line(payload, 4) for payload in ODD), "day3", 4)
    put("day3", "the third day")
    expect_rows(THIRD_ROWS, "the third day")
    for file in "db", "state":
        expect(oct(mode_of(file)), "0o600", "the mode of " + file)


@scene
def scene_changes():
    """Of a changed tail nothing is put, and the state stays; a row that was changed is named, also after a NUL."""
    two_days()
    export(event_line(b"hi", 3) + event_line(ODD[0], 4), "day3", 4)
    right = read("day3")
    write("day3", right[:20] + b"x" + right[21:])
    expect_true(into("day3")[0] != 0, "a changed tail is put")
    expect_rows(SECOND_ROWS, "a changed tail")
    expect_true(read("state") == read("state.day2"), "a changed tail changed the state")
    expect_true(not os.path.exists("state.new"), "a state is left beside the other")
    write("day3", right)
    put("day3", "the third day")
    shutil.copy("state.day2", "state")
    sqlite("UPDATE events SET hex = '76697369626c6500' WHERE \"index\" = 5")
    status, said = into("day3")
    expect_said((status, said), b"into-sqlite: db has another event 5 than the log", "a changed row")
    expect_true(read("state") == read("state.day2"), "a changed row changed the state")


def second_log():
    os.rename("store", "store.first")
    write("key.second", SECOND_KEY)
    done("format", "store", "64", "key.second")
    export(event_line(b"new"), "second", 0)


@scene
def scene_other_logs():
    """A second log isn't put into one database, and has no state then."""
    two_days()
    second_log()
    os.rename("state", "state.first")
    status, said = into("second", "key.second")
    expect_said((status, said), b"into-sqlite: db has another event 0 than the log", "a second log")
    expect_true(not os.path.exists("state"), "a second log that isn't put has a state")
    expect_rows(SECOND_ROWS, "a second log")


@scene
def scene_files():
    """A file that is no state stays as it is: KEYFILE and STATE exchanged, a folder, and the place where the new state
    is made."""
    two_days()
    second_log()
    status, said = into("second", "state", database="db.second", state="key.second")
    expect_said((status, said), b"into-sqlite: key.second is no state", "a key as a state")
    expect(read("key.second"), SECOND_KEY, "a key in the place of a state")
    expect_true(not os.path.exists("db.second"), "a database is made without a state")
    os.mkdir("folder")
    expect_true(into("second", "key.second", database="db.second", state="folder")[0] != 0,
                "a folder is taken for a state")
    write("other.new", b"mine\n")
    expect_true(into("second", "key.second", database="db.second", state="other")[0] != 0,
                "a file beside STATE is replaced")
    expect(read("other.new"), b"mine\n", "a file beside STATE")
    status, said = into("second", "key.none", database="db.second", state="other.state")
    expect_true(status != 0 and b"key.none" in said, "a key that isn't there: %d %r" % (status, said))


SCENES = scenes_in(sys.modules[__name__])


def main(words):
    _, names = words_of(words, SCENES, options=())
    needs("sqlite3")
    return play_all(SCENES, names)
