"""Runs `audit daemon` with clients that behave well and clients that don't: how it begins and ends, who may do what,
that nobody waits for a client that is idle, half done, greedy or gone, and that what a client was told is in the store,
however the daemon ends. Replies to placed appends are the model's; sources and `send --receipts` are killed with the
daemon; each receipt of a run opens its event, as the program, the auditor's and the page say; a store that a
witness's file doesn't lead to isn't served; and one that is full ends its daemon, if that is asked for.

usage: bin/check daemon EXECUTABLE [--long] [SCENE ..]

Beside each bad client 15 others append, each with one append in flight: with --long none of these may wait 50 ms longer
than without the bad one, on a machine with nothing else to do. The short form may run beside other work, so it allows
five seconds: what waits for a bad client waits for ever. With --long the daemon and its sources are killed 200 times,
and a client asks for more than two million commitments.
"""
import signal

from checks.daemon import (
    bad_clients, extending, filling, lives, memory, opened, placed, places, receipts, replaced, rights, saying, sources, states)
from checks.parts.scenes import play_in_rooms, scenes_in, words_of

SCENES = scenes_in(states, saying, lives, rights, bad_clients, places, memory, replaced, sources, placed, receipts,
                   opened, extending, filling)


def main(words):
    _, names = words_of(words, SCENES)
    # A shell starts what it puts in the background with SIGINT ignored, and a daemon would inherit that.
    signal.signal(signal.SIGINT, signal.default_int_handler)
    return play_in_rooms(SCENES, names)
