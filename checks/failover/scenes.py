"""What machines, networks, clocks and daemons may do."""
import contextlib
import http.client
import os
import random
import signal
import ssl
import time

from checks.failover.etcd import Member
from checks.failover.machines import LEASE, audit, read_messages
from checks.parts.scenes import scene
from checks.parts.waiting import SECONDS, is_alive, wait_for
from checks.parts.wrong import expect_true


@scene
def scene_lost(site):
    """A machine is lost: the other takes over after the lease."""
    holder, other = site.serving()
    since = time.monotonic()
    holder.lose()
    site.takes_over("a machine is lost", holder, other, since)
    holder.start()


@scene
def scene_cut(site):
    """The holder reaches no member of etcd any more: its daemon ends before the lease can, and the other machine takes
    over."""
    holder, other = site.serving()
    daemon, since = holder.daemon(), time.monotonic()
    holder.cut()
    wait_for(lambda: not is_alive(daemon), "the end of a daemon without a lease")
    ended = time.monotonic()
    expect_true(ended < since + LEASE, "a daemon ends %.1f s after its machine was cut off, with a lease of %d s"
                % (ended - since, LEASE))
    site.takes_over("its network to etcd is cut", holder, other, since)
    expect_true(other.when("this machine has the lease", since) > ended,
                "the lease was free before the daemon had ended")
    holder.cut(False)


@scene
def scene_clock(site):
    """The holder's clock and its network to etcd stop: its daemon goes on until the other machine fences it, then it
    ends."""
    holder, other = site.serving()
    daemon, since = holder.daemon(), time.monotonic()
    open(holder.path("clock-stops"), "w").close()
    holder.cut()
    site.takes_over("its clock and its network to etcd stop", holder, other, since)
    # With a clock its daemon would have been killed after three quarters of the lease.
    past = since + 0.75 * LEASE
    expect_true(any(when > past for source in site.sources for when, where in source.acks if where is holder),
                "a holder without a clock didn't go on: nothing was shown")
    wait_for(lambda: not is_alive(daemon), "the end of a fenced daemon")
    wait_for(lambda: "audit: 11 Device\n" in read_messages(holder.path("messages")), "the refusal of a fenced daemon")
    wait_for(lambda: holder.when("it gives the lease up: run ended with status 3", since),
             "the end of the holder's turn")
    os.remove(holder.path("clock-stops"))
    holder.cut(False)


@scene
def scene_frozen(site):
    """A whole machine stops, and goes on after the other one took over: it acknowledges nothing, and waits."""
    holder, other = site.serving()
    since = time.monotonic()
    holder.signal(signal.SIGSTOP)
    site.takes_over("a machine stands still", holder, other, since)
    continued = time.monotonic()
    holder.signal(signal.SIGCONT)
    wait_for(lambda: holder.when("waiting for the lease", continued), "the end of the holder's turn")


@scene
def scene_hung(site):
    """A daemon hangs, and its machine doesn't: no look succeeds, so the other machine takes over."""
    holder, other = site.serving()
    with contextlib.suppress(FileNotFoundError):
        os.remove(holder.path("looked"))
    wait_for(lambda: os.path.exists(holder.path("looked")), "a look that succeeds")
    since = time.monotonic()
    os.kill(holder.daemon(), signal.SIGSTOP)
    site.takes_over("a daemon hangs", holder, other, since)


@scene
def scene_told(site):
    """A machine is told to stop: the other one takes over at once."""
    holder, other = site.serving()
    since = time.monotonic()
    holder.process.terminate()
    expect_true(holder.process.wait(SECONDS) == 0, "failover doesn't end with status 0")
    site.takes_over("a machine is told to stop", holder, other, since)
    holder.lose()
    holder.start()


@scene
def scene_stopped(site):
    """A daemon is stopped by hand: the store moves to the other machine."""
    holder, other = site.serving()
    since = time.monotonic()
    audit("stop", holder.socket)
    site.takes_over("a daemon is stopped", holder, other, since)


@scene
def scene_removed(site):
    """The key is removed in etcd: the store moves, since the holder notices, or the other machine fences it first."""
    holder, _ = site.serving()
    since = time.monotonic()
    trusted = ssl.create_default_context(cafile="ca.pem")
    trusted.load_cert_chain("own.pem", "own.key")
    with contextlib.closing(http.client.HTTPSConnection("127.0.0.1", Member.all[0].port, context=trusted)) as member:
        member.request("POST", "/v3/kv/deleterange", '{"key": "c3RvcmU="}')
        expect_true(member.getresponse().read().endswith(b'"deleted":"1"}'), "the key isn't there to be removed")
    wait_for(lambda: holder.when("it gives the lease up", since), "the end of the holder's turn")
    site.serving()


@scene
def scene_refused(site):
    """A machine that can't attach the device gives the lease up, again and again, and serves once it can."""
    holder, other = site.serving()
    open(other.path("refuses"), "w").close()
    since = time.monotonic()
    holder.lose()
    wait_for(lambda: other.when("it gives the lease up: take ended with status 1", since), "the refusal")
    os.remove(other.path("refuses"))
    site.takes_over("the device is refused at first", holder, other, since)
    holder.start()


@scene
def scene_member(site):
    """One member of etcd is lost: nothing happens. A second one: nothing is acknowledged until it is back."""
    holder, _ = site.serving()
    daemon, lost = holder.daemon(), random.sample(Member.all, 2)
    lost[0].kill()
    time.sleep(2 * LEASE)
    expect_true(is_alive(daemon), "a daemon ends though two members of etcd are there")
    lost[1].kill()
    wait_for(lambda: not is_alive(daemon), "the end of a daemon without a lease")
    # Acknowledgements that were under way may be read late.
    time.sleep(1)
    before = site.count()
    time.sleep(2)
    expect_true(site.count() == before, "an event is acknowledged without a lease")
    for member in lost:
        member.start()
    site.serving()
