"""Lines of a log by a real rsyslogd, which is restarted and killed, as is the daemon."""
import glob
import os
import random
import re
import subprocess
import time

from checks.parts import program
from checks.parts.answers import expect_acknowledged_kept, kept_answers
from checks.parts.configurations import configured, sending
from checks.parts.daemons import FedDaemon
from checks.parts.files import read, write
from checks.parts.processes import Service
from checks.parts.scenes import scene
from checks.parts.tools import needs
from checks.parts.waiting import wait_for
from checks.parts.wrong import expect, expect_true

# More than what a queue of rsyslog holds that has no size of its own.
WAITING = 1010


def rsyslog_config(folder, daemon, wrapper, log):
    """The configuration with this daemon's socket, and a file as its source."""
    text = configured("rsyslog/audit.conf", *sending(wrapper, daemon.socket))
    config = os.path.join(folder, "rsyslog.conf")
    os.mkdir(os.path.join(folder, "work"))
    source = ('input(type="imfile" file="%s" tag="%s" facility="authpriv" persistStateInterval="1" '
              'freshStartTail="off")\n')
    with open(config, "w") as file:
        # As long as rsyslog takes them: host name, tag and message.
        file.write('global(workDirectory="%s/work" maxMessageSize="64k" localHostname="%s")\n' % (folder, "h" * 255))
        file.write('module(load="imfile")\n')
        # Also what is on its way to the queue of the configuration is to be on the disk.
        file.write('main_queue(queue.type="Disk" queue.filename="main" queue.checkpointInterval="1" '
                   'queue.syncQueueFiles="on")\n')
        file.write(source % (log, "some") + source % (log + ".long", "t" * 500) + text)
    return config


def rsyslogd_of(folder, config):
    """A real rsyslogd with this configuration, which it has to take."""
    checked = subprocess.run(["rsyslogd", "-N1", "-f", config], capture_output=True)
    expect_true(checked.returncode == 0, "rsyslogd refuses the configuration: %r" % checked.stderr)
    return Service("rsyslogd", "-n", "-f", config, "-i", os.path.join(folder, "pid"))


def write_lines(log, turn, wanted):
    with open(log, "a") as file:
        # A line that is longer than an event, as rsyslog escapes it.
        file.write("\x7f" * 8192 + "\n")
        for number in range(20):
            wanted.append("turn %d line %d" % (turn, number))
            file.write(wanted[-1] + "\n")


def expect_cut(payload):
    """A line that was too long is its start, its length and its SHA-256."""
    note = re.search(rb" \[of (\d+) bytes, SHA-256 [0-9a-f]{64}\]$", payload)
    expect_true(len(payload) == 32696 and note is not None,
                "%d bytes of a long line: .. %r" % (len(payload), payload[-100:]))
    expect_true(int(note[1]) > 240000, "a line of %r bytes" % note[1])
    expect_true(b" %s %s" % (b"h" * 255, b"t" * 500) in payload,
                "the host name or the tag of a long line is cut: %r" % payload[:1000])


@scene
def scene_rsyslog():
    """Lines of a log come by rsyslog, which is restarted while the daemon is killed: no line is missing. Then rsyslogd
    is killed too: what was acknowledged is kept."""
    needs("rsyslogd", "sed")
    folder = os.getcwd()
    daemon, log = FedDaemon(folder), os.path.join(folder, "some.log")
    open(log, "w").close()
    wrapper, answers = kept_answers(folder)
    config = rsyslog_config(folder, daemon, wrapper, log)
    wanted, rsyslog = [], rsyslogd_of(folder, config)
    with open(log + ".long", "w") as file:
        file.write("\x7f" * 7920 + "\n" + "\x7f" * 60000 + "\n")
    try:
        for turn in range(20 if program.LONG else 4):
            write_lines(log, turn, wanted)
            time.sleep(random.uniform(0.2, 1.0))
            if turn % 2 == 0:
                rsyslog.restart()
            else:
                daemon.kill()
                daemon.start()
        last = b"some " + wanted[-1].encode()
        daemon.wait_for(lambda held: any(payload.endswith(last) for payload in held), "the last line")
        daemon.wait_for(lambda held: sum(b"ttt" in payload for payload in held) >= 2, "a message with a long tag")
        found = daemon.payloads(folder)
        texts = [payload.decode().split("some ", 1)[1] for payload in found if b"ttt" not in payload]
        expect_cut([payload for payload in found if b"ttt" in payload][-1])
        write_lines(log, turn + 1, [])
        time.sleep(random.uniform(0.2, 1.0))
    finally:
        rsyslog.kill()
    missing = [line for line in wanted if line not in texts]
    expect_true(not missing, "%d lines of %d are missing: %s .." % (len(missing), len(wanted), missing[:3]))
    daemon.stop()
    expect_acknowledged_kept(daemon.store, answers, folder)


@scene
def scene_rsyslog_waiting():
    """A daemon is away, and more messages wait for it than a queue of rsyslog holds without a size of its own: none is
    dropped."""
    needs("rsyslogd", "sed")
    folder = os.getcwd()
    daemon, log = FedDaemon(folder), os.path.join(folder, "some.log")
    config = rsyslog_config(folder, daemon, program.PATH, log)
    # Nothing is killed but the daemon, so no message has to be synced.
    text = read(config).replace(b'queue.syncQueueFiles="on"', b"").replace(b'queue.checkpointInterval="1"', b"")
    write(config, text)
    rsyslog = rsyslogd_of(folder, config)
    daemon.kill()
    wanted = ["line %d." % number for number in range(WAITING)]
    with open(log, "w") as file:
        file.writelines(line + "\n" for line in wanted)
    try:
        wait_for(lambda: sum(read(path).count(b"+pszRawMsg:") for path in glob.glob("work/audit.0*")) >= WAITING,
                 "a message in the queue", 60)
        daemon.start()
        daemon.wait_for(lambda held: held and held[-1].endswith(wanted[-1].encode()), "the last line")
    finally:
        rsyslog.kill()
    texts = [payload.decode().split("some ", 1)[1] for payload in daemon.payloads(folder)]
    daemon.stop()
    expect(list(dict.fromkeys(texts)), wanted, "the lines that waited")
