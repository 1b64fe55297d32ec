"""Hosts that have each a kind of their own, a source's socket and a port, which their certificate alone opens."""
import os
import random
import time

from checks.network.common import certified
from checks.network.stunnel import FedHost, Tunnel, stunnel, wait_for_last
from checks.parts import program
from checks.parts.certificates import Authority
from checks.parts.configurations import configured
from checks.parts.daemons import FedDaemon, commitment_of, events_in
from checks.parts.places import KEY
from checks.parts.program import done, whole
from checks.parts.scenes import scene
from checks.parts.tools import needs
from checks.parts.waiting import free_port, is_port_taken, wait_for
from checks.parts.wrong import expect

HOSTS = 4


def writers_section(own, name, port, path):
    """The section of a host in the configuration of the logger's stunnel, made from that of the writers."""
    text = configured(
        "stunnel/logger.conf", ("\n[writers]\n", "\n[%s]\n" % name), ("accept = 2516", "accept = 127.0.0.1:%d" % port),
        ("/run/audit-some/writers/socket", path),
        ("checkHost = host1.example\ncheckHost = host2.example", "checkHost = " + name), *own)
    return text[text.index("\n[%s]\n" % name):text.index("\n\n; For witnesses")]


class BoundLogger:
    """The machine of a daemon with a source's socket for each host: that of number n appends events of kind n."""

    def __init__(self, folder, authority, names):
        self.ports, paths = [free_port() for _ in names], [os.path.join(folder, name + ".source") for name in names]
        options = [word for number, path in enumerate(paths) for word in ("--writer", "%d:%s" % (number, path))]
        self.daemon = FedDaemon(folder, options=options)
        own = certified(authority, "logger.example")
        sections = [writers_section(own, *each) for each in zip(names, self.ports, paths)]
        self.tunnel = stunnel("logger", "foreground = yes\npid =\n" + "\n".join(sections) + "\n")
        wait_for(lambda: all(is_port_taken(port) for port in self.ports), "the logger's stunnel")


def kill_and_start(processes):
    for process in random.sample(processes, len(processes)):
        process.kill()
        process.start()
        time.sleep(random.uniform(0, 0.2))


@scene
def scene_bound():
    """Everything is killed between the hosts and the store: each host's lines are its kind's events, once and in order.
    A host can append nothing else, and reaches no other host's socket."""
    needs("stunnel4", "openssl")
    folder, authority = os.getcwd(), Authority("authority")
    names = ["host%d.example" % number for number in range(HOSTS)]
    logger = BoundLogger(folder, authority, names)
    hosts = [FedHost(folder, authority, number, port, program.PATH) for number, port in enumerate(logger.ports)]
    for _ in range(20 if program.LONG else 3):
        for host in hosts:
            host.write(random.randrange(50))
        time.sleep(random.uniform(0.2, 0.8))
        kill_and_start([logger.daemon, logger.tunnel, random.choice(hosts).tunnel.process, random.choice(hosts).feed])
    expect_foreign_refused(folder, authority, logger, hosts)
    for host in hosts:
        host.write(1)
    wait_for_last(logger.daemon, hosts)
    for host in hosts:
        host.feed.kill()
    logger.daemon.stop()
    expect_own_lists(logger.daemon.store, hosts)


def expect_own_lists(store, hosts):
    done("export", store, "export")
    held = events_in("export", KEY, commitment_of(store))
    for number, host in enumerate(hosts):
        found = [payload.decode() for kind, payload in held if kind == number]
        expect((len(found), found == host.wrote), (len(host.wrote), True), "the list of " + host.name)
    expect(len(held), sum(len(host.wrote) for host in hosts), "the number of events")


def expect_foreign_refused(folder, authority, logger, hosts):
    """By its own way a host can't append another one's kind, and its certificate doesn't open another one's port."""
    wait_for(lambda: whole("ask", hosts[0].tunnel.socket, "commitment")[0] == 0, "an answer through new processes")
    status, out, err = whole("send", hosts[0].tunnel.socket, "--text", "1", data=b"as host 1\n")
    expect((status, out, err.splitlines()[:1]), (1, b"", [b"audit: 16 NotAllowed"]), "an append of another's kind")
    wait_for(lambda: whole("ask", hosts[1].tunnel.socket, "commitment")[0] == 0, "an answer through new processes")
    stranger = Tunnel(folder, authority, "stranger", logger.ports[1], *certified(authority, hosts[0].name))
    status, out, _ = whole("ask", stranger.socket, "commitment", "--timeout", "10")
    expect((status, out), (3, b""), "a host at another host's port")
    stranger.process.kill()
