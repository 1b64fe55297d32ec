"""Runs tools/failover on two machines of loopback over a real etcd of three members, with TLS, and a store on replicas
that fence.

usage: bin/check failover EXECUTABLE [--long] [--ceph] [SCENE ..]

The replicas are NBD servers behind a quorum, which take one connection and are started anew, at another address, by
whoever fences; with --ceph an image of Ceph. Sources send to whichever machine answers, and send again what wasn't
acknowledged; others have places: a `send --retry` and a file-feed at an address that moves with the device, and a
file-feed that asks the machines in turn. In the end every acknowledged event is at its index, and the list of each
source with places is there whole, once and in order. With --long every scene is played, some ten times, and the times
are printed. It needs Debian's etcd-server, openssl, fuse3 and nbdkit, qemu-utils and libnbd-bin; with
--ceph what `bin/check replicated-ceph` needs.
"""
import statistics

from checks.failover import devices, scenes
from checks.failover.etcd import Member
from checks.failover.site import Site
from checks.parts.files import folder_of_its_own
from checks.parts.scenes import scenes_in, words_of
from checks.parts.tools import needs
from checks.parts.waiting import pressure
from checks.parts.wrong import told

TOOLS = ["etcd", "openssl", "nbdkit", "nbdfuse", "fusermount3", "setpriv"]
SCENES = scenes_in(scenes)
# Those that are played without --long, and those that are played ten times with it.
SHORT = MEASURED = ["lost", "cut", "clock"]


def play(site, names):
    site.begin()
    for name in names:
        for _ in range(10 if site.is_long and name in MEASURED else 1):
            SCENES[name](site)
    site.check_log()
    if site.is_long:
        for what, times in site.times.items():
            print("%s: %d times, %.1f to %.1f s to the first acknowledgement, half within %.1f s"
                  % (what, len(times), min(times), max(times), statistics.median(times)))
        print("%d acknowledged events, each at its index" % sum(len(source.held) for source in site.sources))


def main(words):
    given, names = words_of(words, SCENES, ("--long", "--ceph"), SHORT)
    make_device = devices.Ceph if "--ceph" in given else devices.Nbd
    needs(*TOOLS, *make_device.tools, devices=["/dev/fuse"])
    site = None
    with folder_of_its_own("check-failover-"):
        try:
            site = Site(make_device, "--long" in given)
            play(site, names)
            return 0
        except Exception as wrong:
            print("failover: %s" % told(wrong))
            print("\n".join([pressure()] + ([site.device.state()] if site else [])))
            for machine in site.machines if site else []:
                lines = [line for _, line in machine.said[-6:]] + machine.messages()[-6:]
                print("\n".join("    %s: %s" % (machine.name, line) for line in lines))
            return 1
        finally:
            if site is not None:
                site.end()
            else:
                Member.end_all()
