"""A store that is a whole disk: sectors and blocks, disks that lie, and disks that tear."""
import os
import shutil

from checks.parts import program
from checks.parts.scenes import scene
from checks.parts.wrong import Wrong, expect_true
from checks.power.disks import Disk, Lost, chance
from checks.power.logs import SECTORS, Log, audit
from checks.power.runs import is_formatted, run_append, run_close, run_daemon, run_follow

MANY = 120


class Machine:
    """A machine that is started again after each cut, with one store, which is its whole disk."""

    def __init__(self, *options):
        self.options = options
        with open("image", "wb") as image:
            image.truncate(SECTORS * 512)
        self.log = None
        self.acknowledged = self.cached = self.torn = 0

    def run_until_cut(self):
        """Starts the machine and cuts its power. Returns the log whose store has to be there, if any."""
        if self.log is None and chance.random() < 0.8:
            self.format_uncut()
        disk = Disk("image", *self.options)
        try:
            disk.cut(chance.choice([chance.randrange(8), chance.randrange(30), chance.randrange(80)]))
            if self.log is None:
                log = Log()
                self.log = log if is_formatted(disk, log) else None
            if self.log is not None:
                chance.choice([run_daemon, run_daemon, run_follow, run_append, run_close])(disk, self.log)
        finally:
            found = disk.remove()
        self.cached, self.torn = self.cached + found[0], self.torn + found[1]
        return self.log

    def format_uncut(self):
        self.log = Log()
        status, _, err = audit("format", "--in-place", "--erase", "image", str(SECTORS), self.log.key, "--explain")
        expect_true(status == 0, "format: " + err)

    def check(self):
        shutil.copy("image", "looked")
        self.log.check("looked")
        # A new one before the store is full.
        if self.log.is_closed or len(self.log.held) > MANY:
            self.retire()

    def retire(self):
        self.acknowledged += len(self.log.acknowledged)
        os.remove(self.log.key)
        self.log = None


def cut_often(machine, cuts):
    for number in range(cuts):
        if machine.run_until_cut():
            try:
                machine.check()
            except Wrong as wrong:
                raise type(wrong)("cut %d: %s" % (number, wrong))
    if machine.log:
        machine.retire()


@scene
def scene_sectors():
    machine = Machine("unit=512")
    cuts = 300 if program.LONG else 20
    cut_often(machine, cuts)
    print("sectors: %d cuts, %d sectors in the cache then, %d acknowledged events: all there"
          % (cuts, machine.cached, machine.acknowledged))


@scene
def scene_blocks():
    machine = Machine("unit=4096")
    cuts = 100 if program.LONG else 8
    cut_often(machine, cuts)
    print("blocks: %d cuts, %d blocks of 4,096 bytes in the cache then, %d acknowledged events: all there"
          % (cuts, machine.cached, machine.acknowledged))


@scene
def scene_lies():
    machine = Machine("unit=512", "lies=1")
    cuts = 100
    try:
        cut_often(machine, cuts)
    except Lost as lost:
        print("lies: found out by %s" % lost)
        return
    raise Wrong("%d cuts of a disk that doesn't flush were not found out" % cuts)


@scene
def scene_torn():
    """Each store has one cut. Some store has to be lost, or the disk isn't as it says."""
    found = {"cut": 0, "torn": 0, "refused": 0, "events": 0, "lost": 0, "salvaged": 0}
    while found["cut"] < 100 and (program.LONG or not found["refused"]):
        tear_once(found)
    print("torn: {cut} cuts, {torn} of them tore a block; {refused} stores are refused, with {events} acknowledged "
          "events, of "
          "which a salvage has {salvaged}; of the others {lost} acknowledged events are gone".format(**found))
    expect_true(found["refused"], "torn blocks harm nothing")


def tear_once(found):
    machine = Machine("unit=4096", "torn=1")
    machine.format_uncut()
    machine.run_until_cut()
    if not machine.cached:
        return
    found["cut"] += 1
    found["torn"] += machine.torn > 0
    shutil.copy("image", "looked")
    acknowledged = len(machine.log.acknowledged)
    try:
        machine.log.check("looked")
    except Lost:
        expect_true(machine.torn > 0, "events are lost though no block is torn")
        status, out, _ = audit("show", "--read-only", "looked")
        found["refused" if status else "lost"] += 1 if status else acknowledged - int(out.split()[1])
        if status:
            found["events"] += acknowledged
            _, out, _ = audit("export", "looked", "export", "--salvage")
            found["salvaged"] += min(acknowledged, int(out.split()[1])) if out else 0
    os.remove(machine.log.key)
