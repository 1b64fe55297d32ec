"""`audit daemon` and `audit serve` of a store, and what their stores hold."""
import os
import signal
import subprocess

from checks.parts import program
from checks.parts.files import read
from checks.parts.places import KEY
from checks.parts.processes import forget, start
from checks.parts.program import done
from checks.parts.waiting import doing, is_readable, pressure, wait_listening, wait_while_growing
from checks.parts.wrong import Wrong, expect, expect_true, short


def commitment_in(lines):
    """The commitment that `show` or `ask commitment` prints, as a word."""
    line = next(line for line in lines.splitlines() if line.startswith(b"commit "))
    return b":".join(line.split()[1:3]).decode()


def commitment_of(store):
    return commitment_in(done("show", store))


def events_in(export, key, commitment):
    """The kinds and payloads of the events of an export, which is verified."""
    lines = [line.split() for line in done("verify", export, key, commitment).splitlines()]
    return [(int(line[2]), payload_of(line)) for line in lines if line[0] == b"event"]


def payload_of(words):
    """The payload of an event's line."""
    return bytes.fromhex(words[3].decode().replace("-", ""))


def payloads_in(export, commitment, key=KEY):
    return [payload for _, payload in events_in(export, key, commitment)]


def payloads_of_store(store, folder):
    """The payloads of the events of a store."""
    export = os.path.join(folder, "export")
    done("export", store, export)
    return payloads_in(export, commitment_of(store))


class Daemon:
    """A daemon that has said that it is ready. As a context it is killed at the end, if it wasn't stopped."""

    def __init__(self, store, path="daemon.sock", *words, **how):
        self.store, self.socket, self.words, self.how = store, path, words, how
        self.start()

    def start(self):
        how = {"stdout": subprocess.PIPE, **self.how}
        self.process = start([program.PATH, "daemon", self.store, self.socket, *self.words], **how)
        if not is_readable(self.process.stdout):
            raise Wrong("a daemon doesn't open its log: it %s; %s" % (doing(self.process), pressure()))
        self.ready = self.process.stdout.readline()
        if not self.ready.startswith(b"ready "):
            raise Wrong("a daemon doesn't start: %s" % short(self.end()))

    def __enter__(self):
        return self

    def __exit__(self, *_):
        self.kill()

    def end(self):
        """Waits for its end: the status, and what it said since it was ready."""
        output, messages = self.process.communicate(timeout=program.SECONDS)
        forget(self.process)
        return self.process.returncode, output, messages

    def kill(self, by=signal.SIGKILL):
        self.process.send_signal(by)
        return self.end()

    def stop(self):
        """Stops it, and returns its last line."""
        done("stop", self.socket)
        status, last, _ = self.end()
        expect(status, 0, "the end of a daemon")
        return last

    def commitment(self):
        return commitment_in(done("ask", self.socket, "commitment"))

    def count(self):
        return int(self.commitment().split(":")[0])

    def payloads(self, folder):
        """The payloads of its events, as an export that it gives and that is verified has them."""
        export = os.path.join(folder, "asked")
        while True:
            before = self.commitment()
            done("ask", self.socket, "export", export)
            if self.commitment() == before:
                return payloads_in(export, before)


class FedDaemon(Daemon):
    """A new store in a folder, and the daemon that serves it to feeds."""

    def __init__(self, folder, sectors=32768, options=(), **how):
        store = os.path.join(folder, "store")
        done("format", store, str(sectors), KEY)
        self.read_to, self.found = os.path.join(folder, "read-to"), []
        super().__init__(store, os.path.join(folder, "socket"), *options, **how)

    def read_on(self):
        """Reads the events that are new. Returns how many there are in all."""
        said = done("read", self.socket, self.read_to, "--first", KEY).splitlines()
        self.found += [payload_of(line.split()) for line in said if line.startswith(b"event ")]
        return len(self.found)

    def wait_for(self, holds, what):
        """Waits until its payloads are as wanted, as long as some come."""
        wait_while_growing(lambda: holds(self.found), self.read_on, what)


class Serving:
    """`audit serve` of a store, with rounds of one session, until it is killed or its rounds are over."""

    def __init__(self, store, path="serve.sock", rounds=1000000, words=(), **how):
        self.socket = path
        how = {"stdout": subprocess.DEVNULL, **how}
        # By its whole path, since other servers of that name may run in other folders.
        whole_path = os.path.abspath(path)
        self.process = start([program.PATH, "serve", store, whole_path, str(rounds), *words], **how)
        wait_listening(whole_path, self.process)
        expect_true(self.process.poll() is None, "serve ended with %s" % self.process.returncode)

    def __enter__(self):
        return self

    def __exit__(self, *_):
        self.kill()

    def kill(self):
        self.process.kill()
        return self.end()

    def end(self):
        output, messages = self.process.communicate(timeout=program.SECONDS)
        forget(self.process)
        return self.process.returncode, output, messages


def shared_memory_of(process):
    """KiB that a process alone has in memory, with its part of what is shared."""
    lines = read("/proc/%d/smaps_rollup" % process.pid).splitlines()
    return int(next(line for line in lines if line.startswith(b"Pss:")).split()[1])


def processor_seconds(process):
    """Seconds of processor time that a process took so far."""
    fields = read("/proc/%d/stat" % process.pid).rsplit(b")", 1)[1].split()
    return (int(fields[11]) + int(fields[12])) / os.sysconf("SC_CLK_TCK")
