"""Those who append: sources that number their events, and one client beside them that does as it likes."""
from model import wire
from model.session import Rights
from model.wire import Request, request_frame


class Connection:
    """Bytes on their way to a session of the server, and replies on their way back."""

    def __init__(self, world, rights):
        self.world, self.requests = world, {}
        self.session, self.on_the_way, self.taken = world.server.session(rights, self.requests), b"", 0

    def send(self, *fields):
        request = Request(fields[0], self.world.next_tag(), *fields[1:])
        self.requests[request.tag] = request
        self.on_the_way += request_frame(request)

    def replies(self, some=True):
        """Whole replies that came, each with its request: all of them, or a few."""
        random, found = self.world.random, []
        while self.taken < self.session.seen and not (some and random.random() < 0.2):
            end = self.taken + 2 + int.from_bytes(self.session.output[self.taken:self.taken + 2], "big")
            body, self.taken = self.session.output[self.taken + 2:end], end
            found.append((self.requests[int.from_bytes(body[1:5], "big")], body))
        return found


class Client:
    """Whoever has a connection, or none."""

    def __init__(self, world, rights):
        self.world, self.rights, self.connection = world, rights, None

    def connect(self):
        self.connection = Connection(self.world, self.rights)
        self.world.connections.append(self.connection)

    def lose(self):
        """The connection is lost. What was sent on it may still arrive."""
        self.connection = None


class Source(Client):
    """A source with its list: it asks how many of its events are in the log and sends those that follow. Whatever it
    isn't sure of it sends again, at the place that it had."""

    def __init__(self, world, kind, payloads):
        super().__init__(world, Rights(only=kind, closes=False))
        self.kind, self.payloads, self.window = kind, payloads, world.random.choice((1, 2, 5, 30))
        self.kill()

    def kill(self):
        """It forgets all but its list."""
        self.lose()

    def lose(self):
        super().lose()
        # The next place; how many events are stored, as it was told; the last request that was sent before a place was
        # found wrong; a refusal.
        self.next, self.stored, self.since, self.refused = None, 0, 0, None

    def is_done(self):
        return self.stored == len(self.payloads) or self.refused is not None

    def act(self, some=True):
        if self.connection is None:
            self.connect()
            self.connection.send(wire.PLACE, (self.kind,))
        for request, body in self.connection.replies(some):
            self.hear(request, body)
        if self.next is not None and self.refused is None:
            self.send()

    def send(self):
        last = min(len(self.payloads), self.stored + self.window)
        for place in range(self.next, last):
            self.connection.send(wire.PLACED, (self.kind, place), self.payloads[place])
        self.next = max(self.next, last)

    def hear(self, request, body):
        if body[0] == wire.REFUSED:
            # A later one may fit, and then has the place of this one.
            self.refused = body[5]
        elif body[0] == wire.REPLY | wire.PLACED:
            self.stored = max(self.stored, request.numbers[1] + 1)
        else:
            self.hear_place(request, int.from_bytes(body[5:13], "big"))

    def hear_place(self, request, number):
        """All events below the number are stored. One that isn't is sent again, with those after it, once."""
        self.stored = max(self.stored, number)
        if self.next is None:
            self.next = number
        elif request.kind == wire.PLACED and number <= request.numbers[1] and request.tag > self.since:
            self.next, self.since = number, self.world.tag
        self.next = max(self.next, number)

    def try_again(self):
        """After a refusal, since there may be room for another event."""
        if self.refused is not None:
            self.lose()


class Careless(Source):
    """A source that sends its events at their places as it likes: again, late, or before they are due."""

    def act(self, some=True):
        if self.connection is None:
            self.connect()
        for _ in range(self.world.random.randrange(4)):
            place = self.world.random.randrange(len(self.payloads))
            self.connection.send(wire.PLACED, (self.kind, place), self.payloads[place])

    def is_done(self):
        return True


class Stranger(Client):
    """A client that appends events of kinds that aren't counted, also placed ones, asks, and may close the log."""

    KINDS = 500, 501

    def __init__(self, world, closes):
        super().__init__(world, Rights(but=frozenset(world.lists)))
        self.closes = closes

    def act(self, some=True):
        random = self.world.random
        if self.connection is None:
            self.connect()
        kind, payload = random.choice(self.KINDS), bytes(random.randrange(600))
        self.connection.send(*random.choice((
            (wire.APPEND, (kind,), payload), (wire.APPEND, (kind,), payload), (wire.PLACED, (kind, 0), payload),
            (wire.PLACE, (kind,)), (wire.PLACE, (random.choice(list(self.world.lists)),)))))
        if self.closes and random.random() < 0.02:
            self.connection.send(wire.CLOSE)

