"""What the feeds share."""
import os
import random
import subprocess

from checks.parts import program
from checks.parts.daemons import FedDaemon, commitment_of, events_in
from checks.parts.files import read_text
from checks.parts.model_daemon import ModelDaemon
from checks.parts.places import KEY, tool
from checks.parts.processes import Service
from checks.parts.program import done

SMILE = "\U0001f600"
# The kind of what file-feed sends.
KIND = 7


class SourceDaemon(FedDaemon):
    """A new store and its daemon, with a socket for the events of one kind."""

    def __init__(self, folder, kind=KIND, sectors=32768):
        self.folder, self.kind, self.source = folder, kind, os.path.join(folder, "source")
        # It says how full its store is.
        super().__init__(folder, sectors, ["--writer", "%d:%s" % (kind, self.source)], stderr=subprocess.DEVNULL)

    def held(self):
        """The payloads of the kind's events, as an export that is verified has them. The daemon has ended."""
        return payloads_of_kind(self.store, self.kind, self.folder)


class ModelSource(ModelDaemon):
    """The same of the model."""

    def __init__(self, *words, kind=KIND):
        self.kind, self.source = kind, "source"
        super().__init__("store", "socket", "--writer", "%d:source" % kind, *words)

    def held(self):
        return self.payloads(self.kind)


def payloads_of_kind(store, kind, folder, key=KEY):
    export = os.path.join(folder, "export")
    done("export", store, export)
    return [payload for found, payload in events_in(export, key, commitment_of(store)) if found == kind]


class Feed:
    """A feed that is started again whenever it ends, as its unit does, and killed with all that it starts."""

    def __init__(self, name, *words, said="said", path=os.environ["PATH"]):
        self.messages = said
        again = 'while :; do "$@" 2>>%s; sleep 0.1; done' % said
        open(said, "w").close()
        self.service = Service("sh", "-c", again, "sh", tool(name), *words,
                               env=dict(os.environ, AUDIT=program.PATH, PATH=path))

    def kill(self):
        self.service.kill()

    def start(self):
        self.service.start()

    def said(self):
        """The lines on standard error, without those about a daemon that is gone."""
        gone = ": the connection ended", "Connection refused", "No such file or directory", "Connection reset by peer"
        return [line for line in read_text(self.messages).splitlines() if not line.endswith(gone)]


class Kills:
    """Kills of a feed, of its daemon and of both, at random."""

    def __init__(self, daemon, feed):
        self.victims, self.count = {"daemon": daemon, "feed": feed}, 0

    def maybe(self):
        """Kills something once in three times."""
        names = random.choice((["feed"], ["daemon"], ["feed", "daemon"], ["daemon", "feed"], *[[]] * 8))
        self.count += bool(names)
        for name in names:
            self.victims[name].kill()
        for name in random.sample(names, len(names)):
            self.victims[name].start()
