"""A server, its clients, and what happens to them."""
from random import Random

from checks.parts.wrong import expect, expect_true
from checks.placed.judged import watched
from checks.placed.sources import Careless, Source, Stranger
from model.disk import GENERATION_LIMIT, end_of, sectors_of
from model.session import CLOSED, FULL, DeviceFault

# Lengths of payloads: short ones, and such as take several sectors.
LENGTHS = (0, 1, 5, 20, 100, 440, 441, 1200)
# Steps of a run, and at most as many turns until each source is at its end.
STEPS, MOST_TURNS = 160, 500


class World:
    """A random run, which is the same for the same number."""

    def __init__(self, number, server_class):
        self.random, self.tag, self.connections = Random("placed %d" % number), 0, []
        random = self.random
        kinds = random.sample((0, 1, 7, 300, 4294967294), random.randrange(1, 4))
        self.lists = {kind: [b"%d " % place + bytes(random.choice(LENGTHS)) for place in range(random.randrange(3, 20))]
                      for kind in kinds}
        # A third of the stores fill up, and a fifth of them wear out.
        sectors = random.randrange(5, 60) if random.random() < 0.33 else 2000
        left = random.randrange(1, 20)
        worn = random.random() < 0.2
        self.server = watched(server_class)(
            self.lists, sectors, reserve=random.randrange(3), generation=GENERATION_LIMIT - 1 - 2 * left if worn else 2)
        self.sources = [Source(self, kind, payloads) for kind, payloads in self.lists.items()]
        # A second source of a kind has the same list.
        self.sources += [kind_of(self, *random.choice(list(self.lists.items())))
                         for kind_of in (Source, Careless) if random.random() < 0.4]
        self.clients = [*self.sources, Stranger(self, random.random() < 0.2)]

    def next_tag(self):
        self.tag += 1
        return self.tag

    def run(self):
        happenings = [self.act] * 10 + [self.read] * 10 + [self.flush] * 5
        happenings += [self.lose, self.kill_source, self.hang_up]
        happenings += [self.random.choice((self.kill_server, self.fail)) for _ in range(self.random.randrange(3))]
        for _ in range(STEPS):
            self.random.choice(happenings)()
        self.calm()

    def act(self):
        self.random.choice(self.clients).act()

    def read(self):
        """The server reads a piece of what is on its way, on any connection, old ones too."""
        if self.connections:
            connection = self.random.choice(self.connections)
            size = self.random.choice((1, 7, 40, 1000, 100000))
            piece, connection.on_the_way = connection.on_the_way[:size], connection.on_the_way[size:]
            self.guarded(self.server.feed, connection.session, piece)

    def flush(self):
        self.guarded(self.server.flush)

    def guarded(self, call, *words):
        """A step of the server, which a fault of its device ends."""
        try:
            call(*words)
        except DeviceFault:
            self.restart()

    def lose(self):
        """A client loses its connection."""
        self.random.choice(self.clients).lose()

    def kill_source(self):
        self.random.choice(self.sources).kill()

    def hang_up(self):
        """The server notices the end of a connection that a client has left, however much of it has arrived."""
        left = [each for each in self.connections if each not in [client.connection for client in self.clients]]
        if left:
            connection = self.random.choice(left)
            self.connections.remove(connection)
            self.server.end(connection.session)

    def kill_server(self):
        """The server is killed, maybe after a commit whose replies are lost."""
        if self.random.random() < 0.5:
            self.guarded(self.server.flush)
        self.restart()

    def fail(self):
        """The device fails in the next commit, before or after it is done."""
        self.server.fault = self.random.choice(("before", "after"))

    def restart(self):
        """A server that opens what the last one left. All connections are lost."""
        self.server, held = self.server.restarted(), self.server.log.events
        expect(self.server.log.events, held, "the events after a restart")
        self.server.expect_prefixes()
        for client in self.clients:
            client.lose()
        self.connections.clear()

    def calm(self):
        """Nothing happens any more: each source gets to the end of its list, or is refused for good."""
        self.server.fault, turns = None, 0
        self.each(lambda source: source.try_again())
        while turns < MOST_TURNS and not all(source.is_done() for source in self.sources):
            self.each(lambda source: source.act(some=False))
            self.deliver()
            turns += 1
        self.each(self.expect_whole)

    def each(self, call):
        for source in self.sources:
            call(source)

    def deliver(self):
        """All that is on its way arrives, and is answered."""
        for connection in self.connections:
            self.server.feed(connection.session, connection.on_the_way)
            connection.on_the_way = b""
        self.server.flush()

    def expect_whole(self, source):
        expect_true(source.is_done(), "a source never gets to the end of its list")
        server, held = self.server, self.server.events_of(source.kind)
        if isinstance(source, Careless) or len(held) == len(source.payloads) or server.is_worn():
            return
        expect_true(source.refused in (FULL, CLOSED),
                    "a source stops at %d of %d events" % (len(held), len(source.payloads)))
        if source.refused == FULL:
            needed = sectors_of(len(source.payloads[len(held)]))
            expect_true(end_of(server.log) + needed > server.sectors - server.reserve,
                        "an event that fits is refused as full")
