"""Cuts the power of a disk under the program, at random calls, and looks each time whether all that was acknowledged is
there.

usage: bin/check power EXECUTABLE [--long] [SCENE ..]

--long cuts 600 times in all, otherwise it takes 20 seconds. The disk is disk.py of this folder, an nbdkit plugin, as
a file by nbdfuse: it keeps, drops or tears what wasn't flushed. Needed are nbdkit with Python, nbdfuse, fusermount3 and
FUSE (Debian's nbdkit, nbdkit-plugin-python, libnbd-bin and fuse3), and for `rotations` root, loop devices and ext4.

Scenes, each with a line of what was found:
sectors    a daemon with 16 clients, `append --follow`, `append`, `close` and `format`, on a disk that writes 512 bytes
whole
blocks     the same on a disk that writes 4,096 bytes whole
rotations  `append --follow` and `rotate` in an ext4 on a disk that writes 512 bytes whole
lies       a disk that doesn't flush has to be found out: else these checks show nothing
torn       a disk that tears blocks of 4,096 bytes: what is lost there is counted, and without --long the first loss
ends it
"""
import subprocess

from checks.parts.scenes import play_side_by_side, scenes_in, words_of
from checks.parts.tools import needs
from checks.parts.wrong import LeftOut
from checks.power import cuts, rotations

TOOLS = ["nbdkit", "nbdfuse", "fusermount3"]
SCENES = scenes_in(cuts, rotations)


def main(words):
    _, names = words_of(words, SCENES)
    needs(*TOOLS, devices=["/dev/fuse"])
    if subprocess.run(["nbdkit", "python", "--dump-plugin"], capture_output=True).returncode:
        raise LeftOut("there is no nbdkit-plugin-python")
    return play_side_by_side(SCENES, names)
