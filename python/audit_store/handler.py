"""A handler for `logging` that appends records to a store."""
import atexit
import logging
import os
import sys
import threading
import time
import traceback
import weakref
from collections import deque
from typing import Callable, Deque, List, Optional, Union

from audit_store._library import PAYLOAD_MAX
from audit_store.client import IN_FLIGHT, Acknowledgement, Client, Refused

# What happens to a record that comes when the queue is full.
POLICIES = ("block", "drop", "raise")


class Handler(logging.Handler):
    """Appends each record to the store of a daemon, from a thread of its own.

    `emit` puts the record into a queue of at most `capacity` events and returns. The thread appends them in order, up
    to 64 at a time. While the daemon isn't there it tries again, after `retry` seconds and then up to 64 times as long.
    An append that was cut off is sent again if its event isn't known to be in the log, so after a cut an event may be
    in the log twice; none is left out.

    When the queue is full, `full` decides: "block" waits for a place, up to `patience` seconds and then drops the
    record; "drop" drops it; "raise" raises `Full`. `dropped` counts the records that have no acknowledgement and are
    given up: those that found no place, that can't be formatted, that the store refused (`refused` is the last
    refusal), and that are left when `close` gives up.

    `flush` returns once all records before it are done with, or after `patience` seconds; it is true if all are on the
    disk, so never again once one was dropped. `acknowledged` is the number of events that are. At the exit of the
    process the queue is flushed, also in the children that `multiprocessing` forks; those of its fork server call
    `flush` themselves. A forked child has a queue and a connection of its own, both empty: what its parent had queued
    is the parent's.

        logging.getLogger().addHandler(Handler("/run/audit/log.sock", kind=3))
    """

    def __init__(self, path: str, kind: int = 1, capacity: int = 10000, full: str = "block", patience: float = 10.0,
                 retry: float = 0.05, level: int = logging.NOTSET,
                 acknowledge: Optional[Callable[[Acknowledgement], None]] = None) -> None:
        if full not in POLICIES:
            raise ValueError("full is one of %s" % ", ".join(POLICIES))
        super().__init__(level)
        self._path, self._kind, self._capacity, self._full = path, kind, capacity, full
        self._patience, self._retry, self._acknowledge = patience, retry, acknowledge
        self._begin()
        _HANDLERS.add(self)

    def _begin(self) -> None:
        """An empty queue, in the process that this is."""
        self._owner = os.getpid()
        self._queue: Deque[bytes] = deque()
        self._changed = threading.Condition()
        # How many events were queued, and how many of these are done with.
        self._queued = self._done = 0
        self.acknowledged = self.dropped = 0
        self.refused: Optional[Exception] = None
        self._is_closing = False
        self._thread: Optional[threading.Thread] = None

    def _after_fork(self) -> None:
        self.createLock()
        self._begin()

    # ---- For logging

    def emit(self, record: logging.LogRecord) -> None:
        try:
            self._put(self.payload(record))
        except Exception as fault:
            with self._changed:
                self.dropped += 1
            if isinstance(fault, Full):
                raise
            self.handleError(record)

    def payload(self, record: logging.LogRecord) -> bytes:
        """The payload of a record: its text by the formatter, in UTF-8, cut to the longest payload."""
        return self.format(record).encode("utf-8", "replace")[:PAYLOAD_MAX]

    def flush(self) -> bool:
        """Waits until all records so far are on the disk or dropped, never more than `patience` seconds. Whether all
        are on the disk."""
        deadline = time.monotonic() + self._patience
        with self._changed:
            wanted = self._queued
            while self._done < wanted and self._thread is not None and self._thread.is_alive():
                left = deadline - time.monotonic()
                if left <= 0:
                    break
                self._changed.wait(left)
            return self._done >= wanted and not self.dropped

    def close(self) -> None:
        """Flushes, and ends the thread. What isn't on the disk then is dropped."""
        _HANDLERS.discard(self)
        if self._owner == os.getpid():
            self.flush()
            with self._changed:
                self._is_closing = True
                self._changed.notify_all()
                thread = self._thread
            if thread is not None and thread is not threading.current_thread():
                thread.join(self._patience)
            with self._changed:
                self.dropped += len(self._queue)
                self._done += len(self._queue)
                self._queue.clear()
        super().close()

    def _flush_at_exit(self) -> None:
        self.flush()
        if self._done < self._queued:
            # `logging` flushes and closes all handlers next, which need not wait as long again.
            self._patience = 0.0

    # ---- The queue

    def _put(self, payload: bytes) -> None:
        deadline = time.monotonic() + self._patience
        with self._changed:
            if self._is_closing:
                self.dropped += 1
                return
            while self._queued - self._done >= self._capacity:
                if self._full == "raise":
                    raise Full("%d events wait for the store" % self._capacity)
                left = deadline - time.monotonic()
                if self._full == "drop" or left <= 0:
                    self.dropped += 1
                    return
                self._changed.wait(left)
            if self._thread is None:
                # If none can be started the next record tries again.
                thread = threading.Thread(target=self._work, name="audit_store.Handler", daemon=True)
                thread.start()
                self._thread = thread
            self._queue.append(payload)
            self._queued += 1
            self._changed.notify_all()

    def _next(self, most: int = 1024) -> List[bytes]:
        """The next events, which stay in the queue until they are done with; none if the handler closes."""
        with self._changed:
            while not self._queue and not self._is_closing:
                self._changed.wait()
            return [self._queue[place] for place in range(min(most, len(self._queue)))]

    def _heard(self, reply: Union[Acknowledgement, Refused]) -> None:
        """The reply to the event at the front of the queue."""
        if isinstance(reply, Refused):
            self.refused = reply
            self._pass(False)
            return
        self._pass(True)
        if self._acknowledge is not None:
            try:
                self._acknowledge(reply)
            except Exception:
                # The event is in the log, whatever its caller does with that.
                if logging.raiseExceptions:
                    traceback.print_exc()

    def _pass(self, is_acknowledged: bool) -> None:
        """The event at the front of the queue is done with."""
        with self._changed:
            self._queue.popleft()
            self._done += 1
            self.acknowledged += is_acknowledged
            self.dropped += not is_acknowledged
            self._changed.notify_all()

    def _work(self) -> None:
        """Appends events until the handler is closed."""
        with Client(self._path) as client:
            pause = self._retry
            while True:
                events = self._next()
                if not events:
                    return
                before = self._done
                try:
                    client.append_and_hear(events, self._kind, IN_FLIGHT, self._heard)
                except Refused:
                    pass
                except ValueError as wrong:
                    # All events before it were answered, and this one no log can have.
                    self.refused = wrong
                    self._pass(False)
                except Exception:
                    # The daemon isn't there, or went: what it didn't acknowledge is sent again.
                    pass
                if self._done > before:
                    pause = self._retry
                    continue
                with self._changed:
                    if self._is_closing:
                        return
                    self._changed.wait(pause)
                pause = min(2 * pause, 64 * self._retry)


class Full(Exception):
    """The queue is full, and the handler was made with full="raise"."""


_HANDLERS: "weakref.WeakSet[Handler]" = weakref.WeakSet()


def _flush_all() -> None:
    """At the exit of the process."""
    for handler in list(_HANDLERS):
        handler._flush_at_exit()


def _begin_again() -> None:
    """In a forked child. One of `multiprocessing` ends without what is registered for the exit, and forgets the
    finalizers that it has so far: those that are made after that it runs."""
    for handler in list(_HANDLERS):
        handler._after_fork()
    util = sys.modules.get("multiprocessing.util")
    if util is not None and len(_HANDLERS):
        util.register_after_fork(_flush_all, lambda flush: util.Finalize(None, flush, exitpriority=0))


atexit.register(_flush_all)
os.register_at_fork(after_in_child=_begin_again)
