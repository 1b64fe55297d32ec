"""Stores in a file system, which are rotated."""
import glob
import os
import shutil
import subprocess

from checks.parts import program
from checks.parts.scenes import scene
from checks.parts.tools import needs, needs_root
from checks.parts.wrong import Wrong, expect_true
from checks.power.disks import Disk, chance, system
from checks.power.logs import SECTORS, Log, audit
from checks.power.runs import run_follow


class FileSystem:
    """An ext4 in a file, which is mounted."""

    def __init__(self, file, place):
        self.place = place
        os.makedirs(place, exist_ok=True)
        self.device = system("losetup", "--find", "--show", file).strip()
        try:
            system("mount", "-t", "ext4", self.device, place)
        except OSError:
            system("losetup", "--detach", self.device)
            raise

    def remove(self):
        """Also where the disk is gone."""
        if subprocess.run(["umount", self.place], stderr=subprocess.DEVNULL).returncode:
            subprocess.run(["umount", "-l", self.place], stderr=subprocess.DEVNULL)
        system("losetup", "--detach", self.device)


class Rotations:
    """A machine with the logs of one store: some.store, and as in docs/operations.md next.store, which becomes
    some.store when that got the name of an old one."""

    def __init__(self):
        with open("image", "wb") as image:
            image.truncate(16 << 20)
        system("mkfs.ext4", "-q", "image")
        self.logs, self.next = [Log()], None
        self.cached = 0
        place = FileSystem("image", "mounted")
        try:
            status, _, err = audit("format", "mounted/some.store", str(SECTORS // 4), self.logs[0].key, "--explain")
            expect_true(status == 0, "format: " + err)
        finally:
            place.remove()

    def run_until_cut(self):
        disk = Disk("image", "unit=512")
        try:
            place = FileSystem(disk.file, "mounted")
            try:
                disk.cut(chance.choice([chance.randrange(40), chance.randrange(400)]))
                self.run(disk)
            finally:
                place.remove()
        finally:
            self.cached += disk.remove()[0]

    def run(self, disk):
        """Goes on where the last cut stopped it."""
        try:
            while not disk.is_cut():
                if self.next is None:
                    self.give_names()
                    run_follow(disk, self.logs[-1], "mounted/some.store")
                    self.next = Log()
                self.rotate()
        except OSError as fault:
            expect_true(disk.is_cut(), "the file system fails: %s" % fault)

    def give_names(self):
        if os.path.exists("mounted/next.store"):
            if os.path.exists("mounted/some.store"):
                for old in glob.glob("mounted/old*.store"):
                    os.remove(old)
                os.rename("mounted/some.store", "mounted/old%d.store" % len(self.logs))
            os.rename("mounted/next.store", "mounted/some.store")
        # Without this a cut can bring the old names back, also later.
        system("sync", "mounted")

    def rotate(self):
        """Rotates, or goes on with a rotation that a cut stopped."""
        status, out, err = audit("rotate", "mounted/some.store", "mounted/next.store", str(SECTORS // 4), self.next.key)
        expect_true(status in (0, 3), "rotate: status %d, %s" % (status, err))
        if status == 0:
            lines = [line.split() for line in out.splitlines()]
            expect_true([line[0] for line in lines] == ["closed", "formatted", "ack"], "rotate prints %r" % out)
            self.logs[-1].is_closed = True
            self.next.acknowledged[0] = "0", ":".join(lines[0][1:]).encode().hex()
            self.next.commitments[1] = bytes.fromhex(lines[2][3])
            self.logs, self.next = [*self.logs, self.next], None

    def check(self):
        """Looks into a copy of the disk, as a machine finds it that is started again."""
        shutil.copy("image", "looked.image")
        place = FileSystem("looked.image", "looked")
        try:
            current, previous = "looked/some.store", "looked/old%d.store" % len(self.logs)
            if self.next is None and os.path.exists("looked/next.store"):
                current = "looked/next.store"
                if os.path.exists("looked/some.store"):
                    previous = "looked/some.store"
            self.logs[-1].check(current)
            if len(self.logs) > 1:
                self.logs[-2].check(previous)
        finally:
            place.remove()


@scene
def scene_rotations():
    needs_root()
    needs("mkfs.ext4", "losetup", devices=["/dev/loop-control"])
    machine = Rotations()
    cuts = 100 if program.LONG else 4
    for number in range(cuts):
        machine.run_until_cut()
        try:
            machine.check()
        except Wrong as wrong:
            raise type(wrong)("cut %d: %s" % (number, wrong))
    print("rotations: %d cuts, %d sectors in the cache then, %d rotations, %d acknowledged events: all there"
          % (cuts, machine.cached, len(machine.logs) - 1, sum(len(log.acknowledged) for log in machine.logs)))
