"""Boots systemd on a machine of its own (namespaces over a copy of this one that is thrown away), installs the program
there, and puts its units into service as docs/operations.md says: starts, signals, options, feeds, forwards, alarms,
failover.

usage: bin/check units EXECUTABLE [SCENE ..]

Without root, systemd, or leave to mount all is left out.
"""
import functools
import shutil
import tempfile

from checks.parts import program
from checks.parts.scenes import play_all, scenes_in, words_of
from checks.parts.wrong import LeftOut, Wrong, told
from checks.units import daemons, feeds, readers, rotating, watching
from checks.units.machine import Machine

SCENES = scenes_in(daemons, feeds, watching, readers, rotating)


def on_machine(machine, call):
    """Plays a scene; where something is wrong the machine's last messages are told too."""
    try:
        call(machine)
    except LeftOut:
        raise
    except Exception as fault:
        journal = machine.out("journalctl", "--quiet", "--lines=12", "--output=short-iso-precise")
        lines = ["    " + line for line in journal.decode(errors="replace").splitlines()]
        raise Wrong("\n".join([told(fault), *lines])) from fault


def main(words):
    _, names = words_of(words, SCENES, options=())
    room = tempfile.mkdtemp(prefix="check-units-")
    machine = Machine(room, program.PATH)
    try:
        machine.begin()
        return play_all({name: functools.partial(on_machine, machine, call) for name, call in SCENES.items()}, names)
    finally:
        machine.end()
        shutil.rmtree(room, ignore_errors=True)
