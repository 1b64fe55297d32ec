"""Hosts and witnesses that reach a daemon's sockets through stunnel."""
import os
import random
import time

from checks.network.common import certified
from checks.network.relp import Host
from checks.parts import program
from checks.parts.answers import expect_acknowledged_kept, kept_answers
from checks.parts.certificates import Authority
from checks.parts.configurations import configured
from checks.parts.daemons import FedDaemon
from checks.parts.places import tool
from checks.parts.processes import Service
from checks.parts.program import whole
from checks.parts.scenes import scene
from checks.parts.tools import needs
from checks.parts.waiting import free_port, is_port_taken, wait_for
from checks.parts.wrong import expect_true


def stunnel(name, text):
    """A real stunnel with this configuration. A killed one leaves its socket, which has to be removed first."""
    with open(name + ".conf", "w") as file:
        file.write(text)
    start = 'rm -f "$1.socket"; exec stunnel4 "$1.conf"'
    return Service("sh", "-c", start, "sh", os.path.abspath(name))


class Logger:
    """The machine of a daemon, with stunnel in front of both its sockets."""

    def __init__(self, folder, authority, hosts):
        self.daemon = FedDaemon(folder, options=["--reader", os.path.join(folder, "readers")])
        self.writers, self.readers = free_port(), free_port()
        names = "\n".join("checkHost = " + name for name in hosts)
        self.tunnel = stunnel("logger", configured(
            "stunnel/logger.conf", ("accept = 2516", "accept = 127.0.0.1:%d" % self.writers),
            ("accept = 2517", "accept = 127.0.0.1:%d" % self.readers),
            ("/run/audit-some/writers/socket", self.daemon.socket),
            ("/run/audit-some/readers/socket", os.path.join(folder, "readers")),
            ("checkHost = host1.example\ncheckHost = host2.example", names), *certified(authority, "logger.example")))
        wait_for(lambda: is_port_taken(self.writers) and is_port_taken(self.readers), "the logger's stunnel")


class Tunnel:
    """A socket of a host that leads to a port of the logger."""

    def __init__(self, folder, authority, name, port, *changes):
        self.socket = os.path.join(folder, name + ".socket")
        self.process = stunnel(name, configured(
            "stunnel/host.conf", ("/run/audit-tls/socket", self.socket), ("logger.example:2516", "127.0.0.1:%d" % port),
            *(changes or certified(authority, name))))
        wait_for(lambda: os.path.exists(self.socket), "the socket of " + name)


class FedHost:
    """A host whose log is sent by file-feed, which is started again whenever it ends, as its unit does."""

    def __init__(self, folder, authority, number, port, wrapper):
        self.name, self.log = "host%d.example" % number, os.path.join(folder, "host%d.log" % number)
        open(self.log, "w").close()
        self.tunnel = Tunnel(folder, authority, self.name, port)
        feed = 'while :; do AUDIT="$1" "$2" "$3" "$4.position" "$4" "$5"; sleep 0.2; done'
        self.feed = Service("sh", "-c", feed, "sh", wrapper, tool("file-feed"), self.tunnel.socket,
                            self.log, str(number))
        self.wrote = []

    write = Host.write


def expect_each_line(hosts, found):
    """Each line of each host is there, and if repetitions are left out these are the host's, in its order."""
    for host in hosts:
        own = [text for text in found if text.startswith(host.name + " ")]
        expect_true(list(dict.fromkeys(own)) == host.wrote,
                    "of %d lines of %s there are %d" % (len(host.wrote), host.name, len(set(own))))


@scene
def scene_stunnel():
    """Hosts with client certificates feed a daemon's socket through stunnel. The daemon, both stunnels and the feeds
    are killed: every line is there, and everything acknowledged is kept."""
    needs("stunnel4", "openssl")
    folder, authority = os.getcwd(), Authority("authority")
    names = ["host%d.example" % number for number in range(4)]
    logger = Logger(folder, authority, names)
    wrapper, answers = kept_answers(folder)
    hosts = [FedHost(folder, authority, number, logger.writers, wrapper) for number in range(len(names))]
    for _ in range(20 if program.LONG else 3):
        for host in hosts:
            host.write(25)
        time.sleep(random.uniform(0.2, 0.8))
        killed = [logger.daemon, logger.tunnel, random.choice(hosts).tunnel.process, random.choice(hosts).feed]
        for process in random.sample(killed, len(killed)):
            process.kill()
            process.start()
            time.sleep(random.uniform(0, 0.2))
    for host in hosts:
        host.write(1)
    wait_for_last(logger.daemon, hosts)
    for host in hosts:
        host.feed.kill()
    expect_each_line(hosts, [payload.decode() for payload in logger.daemon.payloads(folder)])
    logger.daemon.stop()
    expect_acknowledged_kept(logger.daemon.store, answers, folder)


def wait_for_last(daemon, hosts):
    last = {host.wrote[-1].encode() for host in hosts}
    daemon.wait_for(last.issubset, "the last line of each host")


def watch(socket_path):
    status, out, _ = whole("watch", socket_path, "state", "--timeout", "10")
    return status, out.split()[:1]


@scene
def scene_witness():
    """A witness looks through stunnel at the readers' socket, where nobody can append. Who has another certificate
    reaches neither socket."""
    needs("stunnel4", "openssl")
    folder, authority = os.getcwd(), Authority("authority")
    logger = Logger(folder, authority, ["host0.example"])
    writer = Tunnel(folder, authority, "host0.example", logger.writers)
    witness = Tunnel(folder, authority, "witness.example", logger.readers)
    for turn, wanted in enumerate((b"began", b"grew", b"grew")):
        status, out, err = whole("send", writer.socket, "--text", "1", data=b"line\n" * (turn + 1))
        expect_true((status, out.count(b"ack ")) == (0, turn + 1),
                    "send through stunnel: %d %r %r" % (status, out, err))
        expect_true(watch(witness.socket) == (0, [wanted]), "the witness doesn't see that the log " + wanted.decode())
        for process in logger.daemon, logger.tunnel, witness.process:
            process.kill()
            process.start()
        wait_for(lambda: whole("ask", witness.socket, "commitment")[0] == 0, "an answer through new processes")
        wait_for(lambda: whole("ask", writer.socket, "commitment")[0] == 0, "an answer through new processes")
    status, _, err = whole("send", witness.socket, "--text", "1", data=b"line\n")
    expect_true((status, b"16 NotAllowed" in err) == (1, True), "an append of a reader: %d %r" % (status, err))
    expect_strangers_kept_out(folder, authority, logger)


def expect_strangers_kept_out(folder, authority, logger):
    """Another name of this authority, the right name of another one, and nobody's certificate."""
    other = Authority("other")
    nobody = [("cert = /etc/audit-tls/own.pem\n", ""), ("key = /etc/audit-tls/own.key\n", ""),
              ("/etc/audit-tls/ca.pem", authority.root)]
    trusted = [("/etc/audit-tls/ca.pem", authority.root), *certified(other, "host0.example")[1:]]
    for number, changes in enumerate([certified(authority, "stranger.example"), trusted, nobody]):
        for port in logger.writers, logger.readers:
            stranger = Tunnel(folder, authority, "stranger%d-%d" % (number, port), port, *changes)
            status, out, _ = whole("ask", stranger.socket, "commitment", "--timeout", "10")
            expect_true((status, out) == (3, b""), "stranger %d is let in: %r" % (number, out))
            stranger.process.kill()
