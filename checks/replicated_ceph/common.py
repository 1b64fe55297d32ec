"""What the scenes on Ceph share."""
import time

from checks.parts import program
from checks.parts.ceph import POOL
from checks.parts.places import tool
from checks.parts.waiting import SECONDS
from checks.parts.wrong import expect_true

CLIENTS = 3
# How many events each client sends while something happens, of how many the first acknowledged ones may bring it about,
# and how many are sent afterwards. FLOOD takes longer than a fence.
MANY, EARLY, FEW, FLOOD = 100, 60, 5, 3000
# How many takeovers a store sees; and the sizes of a store, of which the larger one's replica is the largest object of
# Ceph.
OF_A_STORE, SIZES = 10, [16384, 65536]
# A hang has ended when a killed connection has been noticed, and all that was acknowledged before it was read.
MOMENT = 0.3
# Debian's python3, whose modules nbdkit needs, is the first of this PATH.
PATH = "/usr/sbin:/usr/bin:/sbin:/bin"
acknowledged = {}        # each acknowledged payload, by its index
begun = time.monotonic()


def say(text):
    print("%6.1f s  %s" % (time.monotonic() - begun, text), flush=True)


def audit(*words, data=b""):
    status, out, err = program.whole(*words, data=data, seconds=SECONDS)
    return status, out.decode(), err.decode()


def good(*words):
    status, out, err = audit(*words)
    expect_true(status == 0, "audit %s: %s" % (" ".join(words), err))
    return out


def commitment(text):
    """COUNT:ROOT of what `show` or `ask commitment` printed."""
    return ":".join(next(line for line in text.splitlines() if line.startswith("commit ")).split()[1:])


def count(text):
    return int(commitment(text).split(":")[0])


class How:
    """The image; whether it is attached by qemu-storage-daemon, otherwise the plugin of nbdkit; and the size of the
    store."""
    image, qemu, plugin = POOL + "/store", False, tool("rbd-exclusive.py")
    sectors = None


how = How()
