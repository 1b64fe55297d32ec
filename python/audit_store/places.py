"""Events that are appended at their places, as all clients see them, without a socket."""
from typing import Callable, List, NamedTuple, Optional, Sequence

from audit_store.checking import Commitment


class Receipt(NamedTuple):
    """An event is in the log, at this index; this is a commitment to a log that has it; and under this key, which opens
    no other entry, its entry reads as the event: `open_proof` does so."""

    index: int
    commitment: Commitment
    key: bytes


class Place(NamedTuple):
    """How many events of a kind a log has, which is the place of the next one, and how many of all kinds."""

    number: int
    count: int


class Displaced(Exception):
    """The log has this number of events of the kind, fewer than the source has numbered or knew to be there. It lacks
    events, as a copy that was put back does, or it is another log."""

    def __init__(self, kind: int, number: int, wanted: int) -> None:
        self.kind, self.number, self.wanted = kind, number, wanted
        super().__init__("the log has %d events of kind %d, and event %d was to follow" % (number, kind, wanted))


class Callers(Exception):
    """What the caller's own function raised: nothing is tried again."""


class Placing:
    """Events that have the places from `first` on among those of their kind, and what is known of them. They are in the
    log up to `stored`. Of one whose acknowledgement was lost there is no receipt."""

    def __init__(self, events: Sequence[bytes], kind: int, first: int,
                 acknowledged: Optional[Callable[[int, Receipt], object]]) -> None:
        if not 0 <= first <= (1 << 64) - 1 - len(events):
            raise ValueError("not a place: %d" % first)
        self.events, self.kind, self.first = events, kind, first
        self.stored = 0
        self.receipts: List[Optional[Receipt]] = [None] * len(events)
        self._acknowledged = acknowledged

    def is_done(self) -> bool:
        return self.stored >= len(self.events)

    def begin(self, number: int) -> None:
        """The log has this many events of the kind: the source goes on from there."""
        if number < self.first + self.stored:
            raise Displaced(self.kind, number, self.first + self.stored)
        self.stored = max(self.stored, min(number - self.first, len(self.events)))

    def has_receipt(self, at: int, receipt: Receipt) -> None:
        self.receipts[at] = receipt
        self.stored = at + 1
        if self._acknowledged is not None:
            try:
                self._acknowledged(self.first + at, receipt)
            except BaseException as fault:
                raise Callers from fault

    def has_number(self, at: int, number: int) -> bool:
        """The answer to an event that wasn't appended: whether it is there already, from a connection that was lost."""
        if number <= self.first + at:
            return False
        self.stored = at + 1
        return True
