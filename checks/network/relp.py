"""Hosts whose rsyslogd sends over RELP and TLS to a collector in front of a daemon."""
import glob
import os
import random
import subprocess
import time

from checks.network.common import HOSTS, certified
from checks.parts import program
from checks.parts.answers import expect_acknowledged_kept, kept_answers
from checks.parts.certificates import Authority
from checks.parts.configurations import configured, sending
from checks.parts.daemons import FedDaemon
from checks.parts.processes import Service
from checks.parts.scenes import scene
from checks.parts.tools import needs
from checks.parts.waiting import free_port, is_port_taken, wait_for
from checks.parts.wrong import LeftOut, expect_true

# After how many seconds hosts of which nothing came write another line.
BEAT = 5


def rsyslogd(folder, name, text):
    """A real rsyslogd with this configuration."""
    own = os.path.join(folder, name)
    os.makedirs(own + "/work")
    with open(own + "/rsyslog.conf", "w") as file:
        file.write('global(workDirectory="%s/work" localHostname="%s")\n%s' % (own, name, text))
    checked = subprocess.run(["rsyslogd", "-N1", "-f", own + "/rsyslog.conf"], capture_output=True)
    expect_true(checked.returncode == 0, "rsyslogd refuses the configuration of %s: %r" % (name, checked.stderr))
    return Service("rsyslogd", "-n", "-f", own + "/rsyslog.conf", "-i", own + "/pid")


def collector(folder, authority, daemon, port, wrapper):
    audit = configured("rsyslog/audit.conf", *sending(wrapper, daemon.socket))
    names = ", ".join('"host%d.example"' % number for number in range(HOSTS))
    collect = configured("rsyslog/collect.conf", ('"2514"', '"%d"' % port), ('"host1.example", "host2.example"', names),
                      *certified(authority, "collector.example"))
    return rsyslogd(folder, "collector", audit + collect)


def sender(folder, authority, name, port, log, *changes):
    """A host whose rsyslogd reads a log, and sends its lines to the collector."""
    forward = configured("rsyslog/forward.conf", ('target="collector.example"', 'target="127.0.0.1"'),
                         ('"2514"', '"%d"' % port),
                      *certified(authority, name), *changes)
    source = ('main_queue(queue.type="Disk" queue.filename="main" queue.checkpointInterval="1" '
              'queue.syncQueueFiles="on")\n'
              'module(load="imfile")\n'
              'input(type="imfile" file="%s" tag="some" facility="authpriv" persistStateInterval="1" '
              'freshStartTail="off")\n')
    log = os.path.join(folder, log)
    open(log, "w").close()
    return rsyslogd(folder, os.path.basename(log)[:-len(".log")], source % log + forward)


class Host:
    """A host with a log, and what it wrote there."""

    def __init__(self, folder, authority, number, port, *changes):
        self.name, self.log = "host%d.example" % number, os.path.join(folder, "host%d.log" % number)
        self.process = sender(folder, authority, self.name, port, self.log, *changes)
        self.wrote = []

    def write(self, count):
        with open(self.log, "a") as file:
            for _ in range(count):
                self.wrote.append("%s line %d" % (self.name, len(self.wrote)))
                file.write(self.wrote[-1] + "\n")


def texts_of(payloads):
    """What hosts wrote, of what rsyslog made of it."""
    return [payload.decode().split(" some ", 1)[1] for payload in payloads]


class Site:
    """Ten hosts and a collector in front of a daemon."""

    def __init__(self, folder):
        needs("rsyslogd", "openssl")
        if not glob.glob("/usr/lib/*/rsyslog/imrelp.so"):
            raise LeftOut("there is no rsyslog-relp")
        self.folder, self.port = os.path.abspath(folder), free_port()
        os.mkdir(self.folder)
        self.authority = Authority(self.folder + "/authority")
        self.daemon = FedDaemon(self.folder)
        self.wrapper, self.answers = kept_answers(self.folder)
        self.collector = collector(self.folder, self.authority, self.daemon, self.port, self.wrapper)
        wait_for(lambda: is_port_taken(self.port), "the collector")
        self.hosts = [Host(self.folder, self.authority, number, self.port) for number in range(HOSTS)]

    def write(self, count):
        for host in self.hosts:
            host.write(count)

    def two_hosts(self):
        return [host.process for host in self.hosts[:2]]

    def write_until_later_ones_come(self, counts):
        """Hosts write on until of each a line is in the store after as many. An rsyslogd that was killed may lose the
        first message that it takes afterwards, and may have one more in its queue than it counts: then the newest waits
        for the next."""
        wrote_at = time.monotonic()

        def came(found):
            nonlocal wrote_at
            texts = set(texts_of(found))
            away = [host for host, count in zip(self.hosts, counts) if texts.isdisjoint(host.wrote[count:])]
            if away and time.monotonic() > wrote_at + BEAT:
                wrote_at = time.monotonic()
                for host in away:
                    host.write(1)
            return not away

        for host in self.hosts:
            host.write(1)
        self.daemon.wait_for(came, "a later line of each host")

    def missing_lines(self):
        """What isn't in the store of what hosts wrote, though later lines are; and what was acknowledged is kept."""
        self.write(1)
        wrote = {line for host in self.hosts for line in host.wrote}
        self.write_until_later_ones_come([len(host.wrote) for host in self.hosts])
        self.daemon.read_on()
        found = set(texts_of(self.daemon.found))
        unknown = found.difference(*(host.wrote for host in self.hosts))
        expect_true(not unknown, "the store has lines that nobody wrote: %s" % sorted(unknown)[:3])
        for process in self.collector, *(host.process for host in self.hosts):
            process.kill()
        self.daemon.stop()
        expect_acknowledged_kept(self.daemon.store, self.answers, self.folder)
        return sorted(wrote - found), len(wrote)


@scene
def scene_relp():
    """Ten hosts send to a collector, whose daemon is killed: every line is in the store. Strangers are not let in."""
    site = Site("site")
    strangers = [sender(site.folder, Authority("other"), "host0.example", site.port, "stranger.log"),
                 sender(site.folder, site.authority, "another.example", site.port, "another.log")]
    for name in "stranger", "another":
        with open("site/%s.log" % name, "a") as file:
            file.write(name + "\n")
    for _ in range(20 if program.LONG else 3):
        site.write(8)
        time.sleep(random.uniform(0.2, 1.0))
        site.daemon.kill()
        time.sleep(random.uniform(0, 0.5))
        site.daemon.start()
    missing, count = site.missing_lines()
    expect_true(not missing, "%d lines of %d are missing: %s .." % (len(missing), count, missing[:3]))
    for stranger in strangers:
        stranger.kill()


def kill(*processes):
    """All are killed before any is started again."""
    for process in processes:
        process.kill()
    for process in processes:
        process.start()


def restart(*processes):
    for process in processes:
        process.restart()


def restart_without_collector(site):
    """Hosts stop while nobody answers them."""
    site.collector.kill()
    restart(*site.two_hosts())
    site.collector.start()


STOPS = {
    "kill of the collector": lambda site: kill(site.collector),
    "restart of the collector": lambda site: restart(site.collector),
    "kill of two hosts": lambda site: kill(*site.two_hosts()),
    "restart of two hosts": lambda site: restart(*site.two_hosts()),
    "restart of two hosts without the collector": restart_without_collector,
    "kill of the collector and its daemon": lambda site: kill(site.collector, site.daemon),
    "kill of these and two hosts": lambda site: kill(site.collector, site.daemon, *site.two_hosts()),
}


@scene
def scene_relp_stopped():
    """If an rsyslogd itself is killed or stopped, what was acknowledged is kept. What that had in hand may be lost: it
    is counted."""
    for what, stop_and_start in STOPS.items():
        site = Site(what.replace(" ", "-"))
        for _ in range(10):
            site.write(10)
            time.sleep(random.uniform(0.2, 1.0))
            stop_and_start(site)
        missing, count = site.missing_lines()
        print("relp_stopped: 10 times %s: %d lines of %d are missing" % (what, len(missing), count))
