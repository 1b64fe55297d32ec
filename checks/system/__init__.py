"""Tests how an executable of the program interacts with the operating system: closed standard streams, two programs at
one store, permissions, keys in memory, outputs that can't be written, block devices, sockets that a killed server left,
causes of faults, stores that are only read or whose headers are, and damaged stores.

usage: bin/check system EXECUTABLE [--long] [SCENE ..]

With --long races are tried 100 times, more damage is done, and a store grows past 4 GiB. What needs strace, a loop
device or another user is left out where these are missing. Expected results are those of the model.
"""
from checks.parts.scenes import play_in_rooms, scenes_in, words_of
from checks.system import (
    devices, disclosing, following, outputs, prepared, progress, reading, rights, rotating, salvaging, saying, sharing,
    streams)

SCENES = scenes_in(streams, sharing, following, rotating, prepared, rights, outputs, disclosing, devices, saying,
                   reading, salvaging, progress)


def main(words):
    _, names = words_of(words, SCENES)
    return play_in_rooms(SCENES, names)
