"""The examples, compiled and run."""
import os
import shutil
import subprocess
import threading
import time

from checks.library import common
from checks.library.asked import FIRST_KEY, exported, liar
from checks.library.judged import events_of
from checks.library.placed import fed
from checks.parts import program
from checks.parts.daemons import FedDaemon
from checks.parts.files import read, write
from checks.parts.places import EXAMPLES, at_top
from checks.parts.scenes import scene
from checks.parts.wrong import LeftOut, Wrong, expect
from model.chain import ZERO_KEY, log_of


# The start of a frame that is longer than any reply's, which isn't known to be none before it is whole.
LONG_FRAME = b"\xff\xff\x82" + bytes(40000)


def compiled(name):
    """The path of an example in C, without warnings."""
    if shutil.which("cc") is None:
        raise LeftOut("there is no C compiler")
    done = subprocess.run(["cc", "-std=c99", "-D_POSIX_C_SOURCE=200809L", "-Wall", "-Wextra", "-Werror", "-pedantic",
                           "-O2", "-I" + at_top("library"), "-o", name,
                           os.path.join(EXAMPLES, "library", name + ".c"), "-L" + common.FOLDER, "-lauditstore",
                           "-Wl,-rpath," + common.FOLDER], capture_output=True, text=True)
    if done.returncode:
        raise Wrong(done.stderr)
    return os.path.abspath(name)


def logged(logger, path, lines, kind="7"):
    return subprocess.run([logger, path, kind, "proofs"], input=lines, capture_output=True, timeout=program.SECONDS)


@scene
def scene_logger_in_c():
    """The logger appends lines, and the program opens each receipt that it keeps as its line."""
    logger = compiled("logger")
    os.mkdir("proofs")
    daemon, path = fed()
    with daemon:
        # The program warns of a text of 1 to 15 bytes.
        lines = [b"a line of some length", b"a line of some other length", b"", b"and the last one of these"]
        done = logged(logger, path, b"\n".join(lines) + b"\n")
        expect((done.returncode, done.stderr), (0, b""), "the logger")
        for index, line in enumerate(done.stdout.decode().splitlines()):
            number, word, key = line.split()
            expect(int(number), index, "the index of a receipt")
            opened = program.done("check", "proofs/" + number, word, "--key", key, "--text")
            expect(opened, lines[index] + b"\n", "a receipt")
        expect(index, 3, "the last receipt")
        lines = b"a\0b\n" + b"x" * 32688 + b"\n\xff"
        done = logged(logger, path, lines)
        expect((done.returncode, done.stderr), (0, b""), "the logger with bytes of all kinds")
        from audit_store import verify
        found = [event.payload for event in verify(exported(daemon)[0], FIRST_KEY, exported(daemon)[1])]
        expect(found[4:], lines.split(b"\n"), "the events")
        for kind, data in (("7", b"x" * 32689), ("x", b"a"), ("4294967295", b"a"), ("-1", b"a"), ("", b"a"), ("8", b"a")):
            done = logged(logger, path, data, kind)
            expect((done.returncode, done.stdout, done.stderr.count(b"\n")), (1, b"", 1), "the kind %r" % kind)
        with open("/dev/full", "wb") as full:
            done = subprocess.run([logger, path, "7", "proofs"], input=b"a\n", stdout=full, stderr=subprocess.PIPE)
        expect((done.returncode, done.stderr), (1, b"logger: a receipt that can't be printed\n"), "a full output")
    with liar([LONG_FRAME]) as other:
        done = logged(logger, other, b"a\n")
    expect((done.returncode, done.stderr), (1, b"logger: a frame that is longer than any reply\n"), "a long frame")


@scene
def scene_logger_under_kills():
    """The daemon is killed under the logger: each line is in the log once and in order, and has a receipt or a dash."""
    logger = compiled("logger")
    os.mkdir("proofs")
    kills = 40 if program.LONG else 5
    daemon, path = fed()
    with daemon:
        lines = [b"line %d of some length" % number for number in range(60 * kills)]
        running = subprocess.Popen([logger, path, "7", "proofs"], stdin=subprocess.PIPE, stdout=subprocess.PIPE)
        printed = []
        feeder = threading.Thread(target=lambda: printed.append(running.communicate(b"\n".join(lines))[0]))
        feeder.start()
        for turn in range(kills):
            time.sleep(0.02 + 0.003 * (turn % 17))
            daemon.kill()
            daemon.start()
        feeder.join(10 * program.SECONDS)
        expect((running.returncode, len(printed)), (0, 1), "the logger")
        receipts = printed[0].decode().splitlines()
        expect(len(receipts), len(lines), "a line for each line")
        from audit_store import verify
        found = [event.payload for event in verify(exported(daemon)[0], FIRST_KEY, exported(daemon)[1])]
        expect(found, lines, "the events")
        for number in range(0, len(lines), 7):
            if receipts[number] != "-":
                index, word, key = receipts[number].split()
                opened = program.done("check", "proofs/" + index, word, "--key", key, "--text")
                expect(opened, lines[number] + b"\n", "a receipt")


@scene
def scene_verify_in_c():
    """The verifier in C prints the model's events in pieces of every size, also under valgrind; faults as the model."""
    verify = compiled("verify")
    log = log_of(events_of(30, True))
    word = "%d:%s" % (len(log.leaves), common.commitment_of(log).root.hex())
    wanted = "".join("event %d %d %s\n" % (index, kind, payload.hex() or "-")
                     for index, (kind, payload) in enumerate(log.events)) + "verified 31\n"
    write("key", ZERO_KEY.hex().encode() + b"\n")
    for size in (1, 7, 64, 1000, 65536):
        done = subprocess.run([verify, "key", word, str(size)], input=log.export, capture_output=True)
        expect((done.returncode, done.stdout.decode()), (0, wanted), "the verifier in pieces of %d bytes" % size)
    faults = [(log.export[:-1], b"entry 30: 40\n"), (log.export + b"x", b"entry 31: 46\n")]
    for export, message in faults:
        done = subprocess.run([verify, "key", word], input=export, capture_output=True)
        expect((done.returncode, done.stderr), (1, message), "the verifier")
    if shutil.which("valgrind") is None:
        raise LeftOut("there is no valgrind")
    for export, status in [(log.export, 0)] + [(export, 1) for export, _ in faults]:
        write("export", export)
        with open("export", "rb") as file:
            done = subprocess.run(["valgrind", "-q", "--error-exitcode=99", verify, "key", word, "11"],
                                  stdin=file, capture_output=True)
        expect((done.returncode, done.stderr if status == 0 else b""), (status, b""), "the verifier under valgrind")


@scene
def scene_shop_in_go():
    """The shop in Go hands out a proof that the program accepts."""
    if shutil.which("go") is None or shutil.which("cc") is None:
        raise LeftOut("there is no go")
    os.mkdir("shop")
    shutil.copy(os.path.join(EXAMPLES, "library", "order.go"), "shop")
    write("shop/go.mod", b"module shop\n")
    flags = "-L%s -Wl,-rpath,%s" % (common.FOLDER, common.FOLDER)
    environment = dict(os.environ, CGO_CFLAGS="-I" + at_top("library"), CGO_LDFLAGS=flags, GOFLAGS="-mod=mod",
                       GOCACHE=os.path.abspath("cache"), GOPATH=os.path.abspath("path"), CGO_ENABLED="1")
    done = subprocess.run(["go", "build", "-o", "order", "."], cwd="shop", env=environment, capture_output=True,
                          text=True)
    if done.returncode:
        raise Wrong(done.stderr)
    with FedDaemon(os.getcwd()) as daemon:
        done = subprocess.run(["shop/order", daemon.socket, "seven apples", "proof"], capture_output=True, text=True)
        expect((done.returncode, done.stderr), (0, ""), "the shop")
        index, word = done.stdout.split()
        expect(program.done("check", "proof", word), b"accepted\n", "the proof of an order")
        expect(read("proof")[-64 - len("seven apples") - 8:][:4], b"\0\0\0\7", "the kind of an order")
        export, commitment = exported(daemon)
        from audit_store import verify
        event, = verify(export, FIRST_KEY, commitment)
        expect((event.index, event.payload), (int(index), b"seven apples"), "the order in the log")
    with liar([LONG_FRAME]) as path:
        done = subprocess.run(["shop/order", path, "eight", "none"], capture_output=True, timeout=30)
    expect((done.returncode, b"too long for a reply" in done.stderr), (1, True), "a frame longer than any reply")
