"""A daemon whose store isn't where it was."""
import contextlib
import os
import time

from checks.daemon.common import Daemon
from checks.parts.clients import connected, index_in
from checks.parts.files import read, write
from checks.parts.frames import append_frame, reply_of, take
from checks.parts.logs import payloads_of
from checks.parts.scenes import scene
from checks.parts.wrong import expect, expect_true

# What a daemon says once its store isn't where it was.
REPLACED = b"audit: store replaced\n"


def removed(store):
    os.remove(store)


def renamed_over(store):
    copy = store + ".copy"
    write(copy, read(store))
    os.replace(copy, store)


def moved_away(store):
    os.rename(store, store + ".moved")


def truncated(store):
    os.truncate(store, os.stat(store).st_size - 512)


@scene
def a_store_out_of_place_ends_its_daemon(room):
    """Once FILE names another file, or none, or its length changed, no reply leaves after a second, and the end is a
    fault."""
    for number, harm in enumerate((removed, renamed_over, moved_away, truncated)):
        store = room.store("store%d" % number, payloads_of("before", 2))
        daemon = Daemon(room, store)
        harm(store)
        expect(room.run("stop", daemon.socket)[0], 3, "stop of a daemon whose store was %s" % harm.__name__)
        expect(daemon.end(), (3, b"", REPLACED), "a daemon whose store was %s" % harm.__name__)
        if os.path.lexists(store):
            os.remove(store)
        store = room.store("store%d" % number, payloads_of("before", 2))
        daemon = Daemon(room, store)
        client = connected(daemon.socket)
        client.sendall(append_frame(b"kept"))
        expect(index_in(reply_of(client)), 2, "an append")
        harm(store)
        time.sleep(1.1)
        with contextlib.suppress(ConnectionResetError, BrokenPipeError):
            client.sendall(append_frame(b"lost"))
            expect(take(client, 1), b"", "the reply after a store was %s" % harm.__name__)
        expect(daemon.end(), (3, b"", REPLACED), "a daemon whose store was %s" % harm.__name__)
        client.close()
        expect_true(not os.path.lexists(daemon.socket), "a daemon whose store was %s leaves its socket" % harm.__name__)
