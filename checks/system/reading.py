"""Stores that are only read, or whose headers are."""
import os
import re
import shutil
import subprocess
import sys

from checks.parts.files import read, write
from checks.parts.logs import payloads_of
from checks.parts.places import AUDITOR, CASES
from checks.parts.program import FILE_FAULT, SECONDS
from checks.parts.rooms import NOBODY, in_child
from checks.parts.scenes import scene
from checks.parts.wrong import expect, expect_true, short
from checks.system.common import active_header, shared_copy, unsettled
from model.disk import SECTOR


@scene
def read_only_changes_nothing(room):
    """Reading a store without writing gives the answers of an opening, and leaves every byte as it was."""
    data = unsettled(room)
    store, other = room.path("store"), room.path("other")
    write(store, data)
    write(other, data)
    shown = room.done("show", other)
    expect_true(read(other) != data, "an opening repairs nothing of the store that was made for it")
    expect(shown.split()[1], b"12", "the store that was made for it")
    room.done("export", other, room.path("export"))
    room.done("prove", other, "increment", "5", "12", room.path("proof"))
    if os.geteuid() == 0:
        executable, child = shared_copy(room), in_child(user=NOBODY)
    else:
        executable, child = room.executable, None
    os.chmod(store, 0o444)
    before = os.stat(store)
    folder = sorted(os.listdir(room.folder))

    def asked(*words):
        done = subprocess.run([executable, *words], stdin=subprocess.DEVNULL, stdout=subprocess.PIPE,
                              stderr=subprocess.PIPE,
                              timeout=SECONDS, cwd=room.folder, preexec_fn=child)
        return done.returncode, done.stdout, done.stderr

    for words, wanted in [(("show", "--read-only", store), shown),
                          (("export", "--read-only", store, "-"), read(room.path("export"))),
                          (("prove", "--read-only", store, "increment", "5", "12", "-"), read(room.path("proof")))]:
        expect(asked(*words), (0, wanted, b""), " ".join(words[:2]))
        expect_true(read(store) == data, "%s changes the store" % " ".join(words[:2]))
    after = os.stat(store)
    expect((after.st_mtime_ns, after.st_ctime_ns), (before.st_mtime_ns, before.st_ctime_ns),
           "the times of a store that was read")
    expect(sorted(os.listdir(room.folder)), folder, "the folder of a store that was read")
    expect(asked("show", store), FILE_FAULT, "show of a file that can't be written")
    if not shutil.which("strace"):
        return
    expect_only_reads_traced(room, store, shown)


def expect_only_reads_traced(room, store, shown):
    """What strace sees of `show --read-only`: no call that changes anything."""
    log = room.path("calls")
    calls = ("trace=open,openat,write,writev,pwrite64,pwritev,pwritev2,fsync,fdatasync,sync,syncfs,sync_file_range,"
             "ftruncate,truncate,rename,renameat,renameat2,unlink,unlinkat")
    traced = subprocess.run(["strace", "-f", "-e", calls, "-o", log, room.executable, "show", "--read-only", store],
                            stdin=subprocess.DEVNULL, stdout=subprocess.PIPE, stderr=subprocess.DEVNULL,
                            timeout=SECONDS)
    if not os.path.exists(log) or not read(log):
        return
    expect((traced.returncode, traced.stdout), (0, shown), "show --read-only under strace")
    for line in read(log).decode(errors="replace").splitlines():
        call = re.match(r"\d+\s+(\w+)\((\w+)?", line)
        if not call:
            continue
        name, first = call[1], call[2]
        if name in ("open", "openat"):
            is_wrong = store in line and not ("O_RDONLY" in line and "O_TRUNC" not in line)
        else:
            is_wrong = not (name in ("write", "writev") and first in ("1", "2"))
        expect_true(not is_wrong, "a call of show --read-only: %s" % short(line))


# The calls by which `show --header` learns what a file has; strace prints the descriptor's file after it.
CALLS_OF_A_LOOK = r"""(statx|newfstatat|fstat|stat)\(.*
openat\(.*, O_RDONLY(\|O_NOCTTY|\|O_CLOEXEC|\|O_NONBLOCK)*\)\s+= .*
lseek\(.*, 0, SEEK_END\)\s+= .*
pread64\(.*, 512, (0|512)\)\s+= .*
close\(.*""".splitlines()
LOOKS = 4


def first_version(room):
    """The store of format version 1 that the cases have."""
    data = bytearray(16 * SECTOR)
    for line in read(os.path.join(CASES, "store_of_version_1", "sectors")).splitlines():
        number, digits = line.split()
        content = bytes.fromhex(digits.decode())
        data[int(number) * SECTOR:int(number) * SECTOR + len(content)] = content
    write(room.path("first"), bytes(data))
    return room.path("first")


@scene
def headers_are_shown_alone(room):
    """`show --header` has the lines of `show`, and no key. It changes nothing, and judges the two headers alone."""
    filled = room.store("filled", payloads_of("header", 5), sectors=64)
    closed = room.copy(filled, "closed")
    room.done("close", closed)
    full = room.store("full", [b"x" * 440] * 6, sectors=8)
    for store in [room.store("empty", sectors=3), filled, closed, full, first_version(room)]:
        expect_header_alone(room, store)
    # Another header counts after an opening that repairs; the log isn't looked at.
    write(room.path("unsettled"), unsettled(room))
    shown = room.done("show", "--header", room.path("unsettled"))
    header = active_header(read(room.path("unsettled")))
    expect(shown.split()[1::2][:4], [b"12", b"sectors", b"end", b"generation"], "the header of an unsettled store")
    expect(shown.split()[8], b"%d" % header.generation, "the generation of an unsettled store")
    data = bytearray(read(filled))
    data[3 * SECTOR + 20] ^= 1
    write(room.path("damaged"), data)
    expect(room.run("show", room.path("damaged")), (1, b"", b"audit: 4 DamagedLog 1\n"), "show of a damaged log")
    expect(room.done("show", "--header", room.path("damaged")), room.done("show", filled),
           "the header of a damaged log")
    expect_headers_refused(room, read(filled), closed)
    expect(room.run("show", "--header", "--read-only", filled)[:2], (2, b""), "show --header --read-only")
    expect_only_headers_read(room, filled)


def expect_header_alone(room, store):
    """What a look shows of a store at rest, and that nothing shows that there was one."""
    os.utime(store, ns=(1, 1))
    before, status, names = read(store), os.stat(store), sorted(os.listdir(room.folder))
    shown = room.done("show", "--header", "--free", store)
    lines = room.done("show", "--header", store)
    expect_true(read(store) == before, "show --header changes %s" % store)
    after = os.stat(store)
    expect((after.st_mtime_ns, after.st_ctime_ns), (status.st_mtime_ns, status.st_ctime_ns), "the times of %s" % store)
    expect(sorted(os.listdir(room.folder)), names, "the folder of %s" % store)
    header = active_header(before)
    wanted = (header.count, header.root.hex(), header.sectors, header.end, header.generation, header.version,
              "closed" if header.closed else "open", header.sectors - header.end)
    wanted = "commit %d %s\nsectors %d end %d generation %d version %d state %s\nfree %d\n" % wanted
    expect(shown, wanted.encode(), "the header of %s" % store)
    expect(lines, shown[:shown.index(b"free ")], "the header of %s without --free" % store)
    for words in (["--read-only", "--free"], ["--free"]):
        expect(room.done("show", *words, store), shown, "show %s of %s" % (" ".join(words), store))
    for sector in before[:SECTOR], before[SECTOR:2 * SECTOR]:
        for secret in {sector[80:112], sector[112:144]} - {bytes(32)}:
            expect_true(secret not in shown and secret.hex().encode() not in shown,
                        "show --header prints the key or the link of %s" % store)


def expect_headers_refused(room, data, closed):
    """Headers that no store has, and files that are none, are refused as by an opening."""
    flipped = lambda *places: bytes(byte ^ (place in places) for place, byte in enumerate(data))
    other = read(room.store("other", payloads_of("other", 2), sectors=64))
    cases = [
        ("one damaged header", flipped(100), 1, "2 DamagedHeader"),
        ("the other damaged header", flipped(SECTOR + 100), 1, "2 DamagedHeader"),
        ("two damaged headers", flipped(100, SECTOR + 100), 1, "1 NotAStore"), ("no byte", b"", 1, "1 NotAStore"),
        ("one sector", data[:SECTOR], 1, "1 NotAStore"), ("two sectors", data[:2 * SECTOR], 1, "1 NotAStore"),
        ("half a store", data[:32 * SECTOR], 1, "3 HeadersDisagree"),
        ("a sector more", data + bytes(SECTOR), 1, "3 HeadersDisagree"),
        ("headers of two stores", other[:SECTOR] + data[SECTOR:], 1, "3 HeadersDisagree"),
        ("a closed store's header", read(closed)[:SECTOR] + data[SECTOR:], 1, None),
        ("zeros", bytes(64 * SECTOR), 1, "1 NotAStore"), ("100 bytes", data[:100], 3, "file fault"),
        ("a byte more", data + b"x", 3, "file fault"),
    ]
    for what, content, status, message in cases:
        write(room.path("wrong"), content)
        found = room.run("show", "--header", room.path("wrong"))
        expect(found, room.run("show", "--read-only", room.path("wrong")),
               "%s: show --header and show --read-only" % what)
        if message:
            expect(found, (status, b"", b"audit: %s\n" % message.encode()), "the header of %s" % what)
    expect(room.run("show", "--header", room.path("none")), FILE_FAULT, "the header of no file")
    if os.geteuid() == 0:
        done = subprocess.run([shared_copy(room), "show", "--header", room.path("filled")], capture_output=True,
                              timeout=SECONDS,
                              cwd=room.folder, preexec_fn=in_child(user=NOBODY))
        expect((done.returncode, done.stdout, done.stderr), FILE_FAULT, "the header of a file that may not be read")


def expect_only_headers_read(room, store):
    """What strace sees of the file: no write, no lock, and no read but of the two sectors. A header that is torn in
    three looks is read again, and in four it is refused."""
    if not shutil.which("strace"):
        return
    shown = room.done("show", store)
    for first, last, looks, wanted in [(0, 0, 1, (0, shown)), (1, 1, 2, (0, shown)), (1, 5, LOOKS, (0, shown)),
                                       (1, 7, LOOKS, (1, b""))]:
        torn = ["-e", "inject=pread64:poke_exit=@arg2=ff:when=%d..%d+2" % (first, last)] if first else []
        done = subprocess.run(["strace", "-f", "-P", store, *torn, "-o", room.path("calls"), room.executable, "show",
                               "--header", store],
                              stdin=subprocess.DEVNULL, stdout=subprocess.PIPE, stderr=subprocess.DEVNULL,
                              timeout=SECONDS)
        traced = read(room.path("calls")) if os.path.exists(room.path("calls")) else b""
        if not traced or torn and b"INJECTED" not in traced:
            return
        calls = [re.sub(r"^\d+\s+", "", line)
                 for line in read(room.path("calls")).decode(errors="replace").splitlines()]
        calls = [call for call in calls if not call.startswith("+++")]
        for call in calls:
            expect_true(any(re.fullmatch(form, call) for form in CALLS_OF_A_LOOK),
                        "a call of show --header: %s" % short(call))
        expect((done.returncode, done.stdout), wanted, "the header with torn reads %d to %d" % (first, last))
        expect(sum(call.startswith("openat(") for call in calls), looks,
               "looks with torn reads %d to %d" % (first, last))


@scene
def proofs_are_read_to_their_limit(room):
    """A file that is far longer than any proof is refused before all of it is read."""
    path = room.path("huge")
    with open(path, "wb") as file:
        file.write(b"\2")
        file.truncate(4 << 30)
    commitment = "1:" + "0" * 64
    expect(room.run("check", path, commitment), (1, b"", b"audit: 32 BadProof\n"), "check of a file of 4 GiB")
    words = [sys.executable, "-B", os.path.join(AUDITOR, "check_proof.py"), path, commitment]
    done = subprocess.run(words, stdout=subprocess.PIPE, stderr=subprocess.PIPE, timeout=SECONDS,
                          preexec_fn=in_child(memory=1 << 30))
    expect((done.returncode, done.stdout, done.stderr), (1, b"", b"check_proof: 32 BadProof\n"),
           "check_proof.py of a file of 4 GiB")
