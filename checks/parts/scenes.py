"""Scenes: each tries one thing, in a folder of its own. A check has scenes in its modules, and plays all or those
named."""
import concurrent.futures
import contextlib
import functools
import io
import multiprocessing
import os
import sys
import time

from checks.parts import processes, program
from checks.parts.files import folder_of_its_own
from checks.parts.rooms import Room
from checks.parts.wrong import LEFT_OUT, LeftOut, Usage, told


def scene(function):
    """Marks a function as a scene; `scene_` before its name isn't part of the scene's."""
    function.is_scene = True
    return function


def scenes_in(*modules):
    """The scenes of these modules by name, in their order."""
    return {name.removeprefix("scene_"): found for module in modules for name, found in vars(module).items()
            if getattr(found, "is_scene", False) and found.__module__ == module.__name__}


def words_of(words, scenes, options=("--long",), short=None):
    """Takes the executable, which is from now on the program under test. Returns the options given, and the names of
    the scenes to play: where none is named all, or `short` without --long."""
    given = {word for word in words if word.startswith("-")}
    rest = [word for word in words if not word.startswith("-")]
    unknown = sorted(given - set(options)) + [name for name in rest[1:] if name not in scenes]
    if not rest or unknown:
        raise Usage("".join("unknown: %s\n" % word for word in unknown) + "scenes: " + " ".join(scenes))
    program.use(rest[0], "--long" in given)
    return given, rest[1:] or (list(scenes) if short is None or "--long" in given else short)


def play(name, call, *words):
    """Plays a scene in a folder of its own, and prints what is wrong. Returns its status."""
    begun = time.monotonic()
    with folder_of_its_own("check-%s-" % name[:20]):
        try:
            call(*words)
            status = 0
        except LeftOut as left_out:
            print("left out: %s: %s" % (name, left_out))
            status = LEFT_OUT
        except Exception as fault:
            print("%s: %s" % (name, told(fault)))
            status = 1
        finally:
            processes.end_all()
    if os.environ.get("TIMES"):
        print("%7.2f s  %s" % (time.monotonic() - begun, name), file=sys.stderr)
    return status


def status_of(statuses):
    """The status of a check: that of a scene that failed, and that nothing could be tested if no scene could be."""
    statuses = list(statuses)
    return 1 if 1 in statuses else min(statuses, default=0)


def play_all(scenes, names, *words):
    """Plays the named scenes one after the other."""
    statuses = []
    for name in names:
        statuses.append(play(name, scenes[name], *words))
        sys.stdout.flush()
    return status_of(statuses)


def play_heard(name):
    """Plays a scene in a process of its own: its status, and what it said."""
    heard = io.StringIO()
    with contextlib.redirect_stdout(heard):
        status = play(name, SIDE_BY_SIDE[name])
    return status, heard.getvalue()


# The scenes that are played side by side, which child processes inherit.
SIDE_BY_SIDE = {}


def play_side_by_side(scenes, names, at_once=4):
    """Plays several of the named scenes at a time, each in a process of its own, since most of them wait."""
    SIDE_BY_SIDE.update(scenes)
    with concurrent.futures.ProcessPoolExecutor(at_once, multiprocessing.get_context("fork")) as pool:
        played = list(pool.map(play_heard, names))
    sys.stdout.write("".join(said for _, said in played))
    return status_of(status for status, _ in played)


def play_in_rooms(scenes, names):
    """Plays the named scenes, each with a room."""
    return play_all({name: functools.partial(in_room, call) for name, call in scenes.items()}, names)


def in_room(call):
    call(Room())


def program_of(words, most=0):
    """Takes the executable of a check without scenes, and returns the other words, at most so many."""
    if not 1 <= len(words) <= 1 + most or any(word.startswith("-") for word in words):
        raise Usage
    program.use(words[0])
    return words[1:]
