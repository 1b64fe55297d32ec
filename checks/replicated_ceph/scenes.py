"""OSDs that are killed, and images that are refused."""
import random
import time

from checks.parts.ceph import OSDS
from checks.parts.waiting import SECONDS, wait_for
from checks.parts.wrong import expect_true
from checks.replicated_ceph.common import MANY, MOMENT, count, good, say
from checks.replicated_ceph.machines import Clients, Machine, counts_of_replicas


def kill_osds(cluster, machine, kills):
    """OSDs are killed under clients, and come back under them."""
    pauses, recoveries = [], []
    for _ in range(kills):
        lost, clients = random.randrange(OSDS), Clients(machine, MANY)
        clients.wait()
        cluster.kill(lost)
        clients.wait()
        cluster.start(lost)
        back = time.monotonic()
        held, pause = clients.end_with_all()
        cluster.wait_clean()
        pauses.append(pause)
        recoveries.append(time.monotonic() - back)
    say("%d kills of an OSD: %d acknowledged, longest pause %.1f s, healed %.1f s after it was back at the latest"
        % (kills, held, max(pauses), max(recoveries)))


def settled(clients):
    """How many events are acknowledged, once none has been for two seconds: those under way may come late."""
    time.sleep(MOMENT)
    before = -1
    while before != len(clients.acks()):
        before = len(clients.acks())
        time.sleep(2)
    return before


def lose_two_osds(cluster, machine):
    """Two OSDs are killed under clients: nothing is acknowledged until one is back, and then they go on."""
    first, second = random.sample(range(OSDS), 2)
    clients = Clients(machine, MANY)
    clients.wait()
    cluster.kill(first)
    cluster.kill(second)
    before = settled(clients)
    expect_true(before < clients.wanted, "events are acknowledged with one replica of three")
    cluster.start(first)
    back = time.monotonic()
    wait_for(lambda: len(clients.acks()) > before, "an acknowledgement with two replicas")
    pause = time.monotonic() - back
    clients.end_with_all()
    cluster.start(second)
    cluster.wait_clean()
    say("two OSDs away: nothing acknowledged; it went on %.1f s after one was started" % pause)


def read_replicas(cluster, machine):
    """One OSD is lost under clients, then everything: each replica by itself is a good store, before and after its
    recovery."""
    lost, clients = random.randrange(OSDS), Clients(machine, MANY)
    clients.wait()
    cluster.kill(lost)
    held, _ = clients.end_with_all()
    machine.lose()
    counts = counts_of_replicas(cluster)
    say("all OSDs are lost, osd.%d first: by themselves the replicas hold %s of %d acknowledged events"
        % (lost, counts, held))
    expect_true(all((counts[number] < held) == (number == lost) for number in range(OSDS)),
                "a replica holds too little")
    for number in range(OSDS):
        cluster.start(number)
    cluster.wait_clean()
    counts = counts_of_replicas(cluster)
    say("after Ceph's own recovery they hold %s" % counts)
    expect_true(min(counts) == max(counts) >= held, "the replicas aren't equal")


def refuse_second(first):
    second = Machine("refused")
    second.ask_for_image()
    expect_true(second.processes["client"].wait(SECONDS) != 0, "two machines have the image at a time")
    expect_true("error acquiring lock on image" in second.said(),
                "a second machine isn't refused for the lock: " + second.said())
    second.lose()
    expect_true(count(good("ask", first.socket, "commitment")) > 0, "a machine that was refused disturbs the first")
    say("a second machine is refused while the first has the image")


def check_blocklist(cluster):
    """No fenced client's entry ends soon, also where librbd made it anew while it took the lock."""
    soon = time.strftime("%Y", time.gmtime(time.time() + 5 * 365 * 24 * 3600))
    entries = cluster.ceph("osd", "blocklist", "ls")
    expect_true(entries and all(entry["until"] > soon for entry in entries), "a fence ends soon: %s" % entries)
