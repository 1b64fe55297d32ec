"""Faults that are planted in the model: each must be noticed, or the runs would show nothing."""
from checks.placed.judged import key_of
from model.chain import keystream_key
from model.session import ADMITTED, DISPLACED, FULL, Server, occurrences


class Right(Server):
    """The model as it is."""

    def restarted(self):
        return type(self)(self.lists, self.sectors, events=self.log.events, generation=self.generation,
                          reserve=self.reserve)


class AllKindsCounted(Right):
    """A place is compared with the number of all events."""

    def number_of(self, kind, events):
        return len(self.log.events) + len(events)


class QueueNotCounted(Right):
    """A place is compared with the number in the log, without what was admitted since."""

    def number_of(self, kind, events):
        return super().number_of(kind, [])


class KeptCount(Right):
    """The numbers are kept in a table, in which what a commit lost stays."""

    def __init__(self, *words, **how):
        super().__init__(*words, **how)
        self.numbers = {kind: occurrences(kind, self.log.events) for kind in self.counted}

    def number_of(self, kind, events):
        return self.numbers[kind]

    def verdict(self, request, events):
        found = super().verdict(request, events)
        if found == ADMITTED and request.numbers and request.numbers[0] in self.numbers:
            self.numbers[request.numbers[0]] += 1
        return found


class CountKeptOverRestart(KeptCount):
    """The same table, which the next server is given after a fault of the device."""

    def restarted(self):
        again = super().restarted()
        again.numbers = self.numbers
        return again


class PlaceIgnored(Right):
    """A placed append is judged as any other."""

    def verdict(self, request, events):
        found = super().verdict(request, events)
        return ADMITTED if found == DISPLACED else found


class PastTaken(Right):
    """A place below the number is taken too."""

    def verdict(self, request, events):
        found = super().verdict(request, events)
        is_past = found == DISPLACED and request.numbers[1] < self.number_of(request.numbers[0], events)
        return ADMITTED if is_past else found


class FutureTaken(Right):
    """A place above the number is taken too."""

    def verdict(self, request, events):
        found = super().verdict(request, events)
        is_early = found == DISPLACED and request.numbers[1] > self.number_of(request.numbers[0], events)
        return ADMITTED if is_early else found


class FullPassedOver(Right):
    """After an event that is refused as full the next place is due."""

    def judged(self, requests):
        self.passed_over = []
        return super().judged(requests)

    def number_of(self, kind, events):
        return super().number_of(kind, events) + getattr(self, "passed_over", []).count(kind)

    def verdict(self, request, events):
        found = super().verdict(request, events)
        if found == FULL and request.numbers:
            self.passed_over.append(request.numbers[0])
        return found


class NumberBeforeBatch(Right):
    """A reply has the number from before its batch."""

    def flush(self):
        self.before = list(self.log.events)
        super().flush()

    def place_reply(self, request):
        log = self.log
        self.log = log._replace(events=self.before)
        try:
            return super().place_reply(request)
        finally:
            self.log = log


class NextKey(Right):
    """An acknowledgement has the key of the entry after its own."""

    def append_reply(self, request, verdict, sealed):
        kind = request.numbers[0] if request.numbers else 0
        others = ((index, keystream_key(key_of(index + 1), kind)) for index, _ in sealed)
        return super().append_reply(request, verdict, others)


FAULTS = (AllKindsCounted, QueueNotCounted, KeptCount, CountKeptOverRestart, PlaceIgnored, PastTaken, FutureTaken,
          FullPassedOver, NumberBeforeBatch, NextKey)
