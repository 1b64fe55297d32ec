"""A folder for one scene, with the program, stores and a key in it."""
import hashlib
import os
import resource
import shutil
import signal
import subprocess

from checks.parts import processes, program
from checks.parts.daemons import commitment_of, events_in
from checks.parts.files import write
from checks.parts.logs import event_lines
from checks.parts.program import without_cause
from checks.parts.waiting import wait_listening
from checks.parts.wrong import Wrong, expect, short

FIRST_KEY = hashlib.sha256(b"a first key").digest()
NOBODY = 65534


def in_child(closed=(), umask=None, user=None, file_size=None, memory=None):
    """What a child process does before it executes the program."""

    def prepare():
        if umask is not None:
            os.umask(umask)
        if file_size is not None:
            # A write past the limit is then an error instead of a signal.
            signal.signal(signal.SIGXFSZ, signal.SIG_IGN)
            resource.setrlimit(resource.RLIMIT_FSIZE, (file_size, file_size))
        if memory is not None:
            resource.setrlimit(resource.RLIMIT_AS, (memory, memory))
        if user is not None:
            os.setgroups([])
            os.setgid(user)
            os.setuid(user)
        for descriptor in closed:
            os.close(descriptor)

    return prepare


def with_data_limit(kilobytes):
    """In a child process: that many KiB of heap."""

    def prepare():
        resource.setrlimit(resource.RLIMIT_DATA, (kilobytes << 10, kilobytes << 10))

    return prepare


def ending():
    """In a child process: signals end it, though a shell's background and nohup ignore some of them."""
    for each in signal.SIGINT, signal.SIGHUP:
        signal.signal(each, signal.SIG_DFL)


def outcome(process):
    """How a process ends: its status, and what it said."""
    output, messages = process.communicate(timeout=program.SECONDS)
    return process.returncode, output, messages


class Room:
    """The folder is the working directory of what runs in it."""

    def __init__(self):
        self.executable, self.folder, self.is_long = program.PATH, os.getcwd(), program.LONG
        self.seconds = program.SECONDS
        self.key_file = self.path("key")
        write(self.key_file, FIRST_KEY.hex().encode())
        os.chmod(self.key_file, 0o600)
        self.started = processes.STARTED

    def path(self, name):
        return os.path.join(self.folder, name)

    def tries(self, few=10):
        return 100 if self.is_long else few

    def whole(self, *words, given=b"", stdout=subprocess.PIPE, **child):
        """Status, standard output and standard error of a command line."""
        return program.whole(*words, data=given, stdout=stdout, path=self.executable, seconds=self.seconds,
                             cwd=self.folder, preexec_fn=in_child(**child))

    def run(self, *words, **how):
        """The same without the line that is always there for a cause."""
        status, output, messages = self.whole(*words, **how)
        return status, output, without_cause(words, messages)

    def done(self, *words, **how):
        """The standard output of a command line that must succeed."""
        found = self.run(*words, **how)
        expect((found[0], found[2]), (0, b""), " ".join(words))
        return found[1]

    def start(self, *words, **how):
        how = {"stdin": subprocess.DEVNULL, "stdout": subprocess.PIPE, "stderr": subprocess.PIPE, **how}
        return processes.start([self.executable, *words], cwd=self.folder, **how)

    def end(self):
        """Ends the processes that were started."""
        processes.end_all()

    def store(self, name, payloads=(), sectors=200):
        """A new store of these events."""
        path = self.path(name)
        self.done("format", path, str(sectors), self.key_file)
        if payloads:
            self.done("append", path, given=event_lines(payloads))
        return path

    def copy(self, store, name):
        path = self.path(name)
        shutil.copyfile(store, path)
        return path

    def commitment_word(self, store):
        return commitment_of(store)

    def commitment(self, store):
        count, root = self.commitment_word(store).split(":")
        return int(count), root

    def events(self, store):
        """The kinds and payloads of a store's events, as an export of it is verified with the first key."""
        self.done("export", store, self.path("read.export"))
        return events_in(self.path("read.export"), self.key_file, self.commitment_word(store))

    def payloads(self, store):
        """The payloads of a store's events, which are verified."""
        return [payload for _, payload in self.events(store)]

    def serve(self, store, path, *words):
        """A server that listens."""
        server = self.start("serve", store, path, "1", *words)
        wait_listening(path, server)
        if server.poll() is not None:
            raise Wrong("a server doesn't start: %s" % short(outcome(server)))
        return server
