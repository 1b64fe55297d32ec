"""What happens on a disk until its power is cut."""
import os
import subprocess
import threading
import time

from checks.parts import appenders, program
from checks.parts.frames import KIND
from checks.parts.logs import event_lines
from checks.parts.waiting import SECONDS
from checks.parts.wrong import Wrong, expect_true
from checks.power.disks import chance
from checks.power.logs import SECTORS, audit


def ends_by_itself(process, disk):
    """Once the power is off, the program ends with a fault of its device."""
    try:
        status = process.wait(SECONDS)
    except subprocess.TimeoutExpired:
        process.kill()
        raise Wrong("the program goes on without a disk")
    expect_true(status in (0, 3), "the program ends with status %d" % status)
    expect_true(status == 3 or not disk.is_cut(), "the program doesn't notice that its disk is gone")


def run_daemon(disk, log):
    """A daemon with 16 clients."""
    path = os.path.join(disk.folder, "socket")
    daemon = subprocess.Popen([program.PATH, "daemon", disk.file, path], stdout=subprocess.PIPE,
                              stderr=subprocess.DEVNULL)
    try:
        if daemon.stdout.readline().startswith(b"ready "):
            for client in appenders.started(path, "log %s cut %d" % (log.key, chance.getrandbits(32))):
                client.join()
                expect_true(client.fault is None, client.fault)
                for acknowledged in client.acknowledged:
                    log.acknowledge(*acknowledged)
        ends_by_itself(daemon, disk)
    finally:
        daemon.kill()
        daemon.communicate()


def payloads(count):
    """Different payloads of one sector, a few of more."""
    return [b"%032x" % chance.getrandbits(128) * chance.choice([1, 1, 1, 1, 1, 1, 20, 60]) for _ in range(count)]


def lines_of(found):
    return event_lines(found, KIND)


def take_acknowledgements(lines, log, sent):
    """Notes which events the lines of `append` acknowledge. They were sent in order, and nobody else appends."""
    begin = None
    for line in lines:
        word, first, count, root = line.split()
        expect_true(word == b"ack", "this line: %r" % line)
        begin = int(first) if begin is None else begin
        for index in range(int(first), int(count)):
            log.acknowledge(index, sent[index - begin], int(count), bytes.fromhex(root.decode()))


def run_follow(disk, log, store=None):
    """`append --follow` of lines that come in pieces."""
    append = subprocess.Popen([program.PATH, "append", store or disk.file, "--follow"], stdin=subprocess.PIPE,
                              stdout=subprocess.PIPE,
                              stderr=subprocess.DEVNULL)
    sent = payloads(chance.randrange(1, 80))

    def feed():
        at = 0
        try:
            with append.stdin as stdin:
                while at < len(sent):
                    piece = chance.choice([1, 2, 5, 30])
                    stdin.write(lines_of(sent[at:at + piece]))
                    stdin.flush()
                    time.sleep(chance.choice([0, 0, 0.002]))
                    at += piece
        except BrokenPipeError:
            pass

    feeder = threading.Thread(target=feed)
    feeder.start()
    try:
        take_acknowledgements(append.stdout, log, sent)
        ends_by_itself(append, disk)
    finally:
        append.kill()
        append.wait()
        feeder.join()
        append.stdout.close()


def run_append(disk, log):
    """`append` of lines that are all there."""
    sent = payloads(chance.randrange(1, 80))
    _, out, _ = audit("append", disk.file, data=lines_of(sent))
    take_acknowledgements(out.encode().splitlines(), log, sent)


def run_close(disk, log):
    run_append(disk, log)
    status, out, err = audit("close", disk.file)
    expect_true(status in (0, 3), "close: status %d, %s" % (status, err))
    log.is_closed = out.startswith("closed ")


def is_formatted(disk, log):
    """Formats the disk over what it has. Whether that was acknowledged."""
    _, out, _ = audit("format", "--in-place", "--erase", disk.file, str(SECTORS), log.key)
    return out == "formatted %d\n" % SECTORS
