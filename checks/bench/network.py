"""Measures how events come over a network, with the processes of `bin/check network` on loopback.

usage: bin/bench network EXECUTABLE [LINES]

LINES is 5000 unless it is given: what each way sends. Prints events a second of `send` over a daemon's socket and over
stunnel, and of ten hosts over RELP and TLS; and how long clients wait for an acknowledgement, if each keeps its
connection and sends an event a second, and they are more than the places of the daemon.
"""
import os
import random
import socket
import threading
import time

from checks.network.common import HOSTS
from checks.network.relp import Site
from checks.network.stunnel import Logger, Tunnel
from checks.parts.certificates import Authority
from checks.parts.daemons import FedDaemon
from checks.parts.files import folder_of_its_own
from checks.parts.frames import append_frame, read_frame
from checks.parts.processes import end_all
from checks.parts.program import done
from checks.parts.scenes import program_of
from checks.parts.tools import needs
from checks.parts.waiting import wait_while_growing
from checks.parts.wrong import expect

SECONDS = 15


def rate_of_send(path, window, count):
    data = b"".join(b"line %d with the length of a line of syslog, or nearly so\n" % number for number in range(count))
    begun = time.time()
    expect(done("send", path, "--text", "1", "--window", str(window), data=data).count(b"ack "), count,
           "acknowledgements")
    return count / (time.time() - begun)


def measure_send(count):
    authority = Authority("authority")
    logger = Logger(os.getcwd(), authority, ["host0.example"])
    tunnel = Tunnel(os.getcwd(), authority, "host0.example", logger.writers)
    for name, path in ("the socket", logger.daemon.socket), ("stunnel", tunnel.socket):
        # One event first, so that certificates were exchanged once.
        rate_of_send(path, 1, 1)
        rates = [rate_of_send(path, window, count if window > 1 else count // 10) for window in (1, 64, 256)]
        print("send over %s, window 1, 64, 256: %s events a second"
              % (name, ", ".join("%.0f" % rate for rate in rates)), flush=True)


def measure_relp(count):
    site = Site("site")
    begun = time.time()
    site.write(count // HOSTS)
    wait_while_growing(lambda: site.daemon.count() >= count, site.daemon.count, "the last line")
    print("ten hosts over RELP and TLS: %.0f events a second" % (count / (time.time() - begun)), flush=True)


def client(path, end, waits):
    """Sends an event a second over a connection that it keeps, until it is dropped."""
    stream = None
    time.sleep(random.random())
    while time.time() < end:
        begun = time.time()
        while True:
            try:
                if stream is None:
                    stream = socket.socket(socket.AF_UNIX)
                    stream.connect(path)
                stream.sendall(append_frame(b"text"))
                read_frame(stream)
                break
            except (EOFError, OSError):
                stream.close()
                stream = None
        waits.append(time.time() - begun)
        time.sleep(max(0, begun + 1 - time.time()))
    if stream:
        stream.close()


def measure_places(count):
    os.mkdir("places%d" % count)
    daemon = FedDaemon("places%d" % count, options=["--idle", "1"])
    waits, end = [], time.time() + SECONDS
    clients = [threading.Thread(target=client, args=(daemon.socket, end, waits)) for _ in range(count)]
    for each in clients:
        each.start()
    for each in clients:
        each.join()
    waits.sort()
    print("%d clients that keep their connections, --idle 1: %.1f events a second, an acknowledgement after %.3f s, "
          "the longest %.1f s"
          % (count, len(waits) / SECONDS, waits[len(waits) // 2], waits[-1]), flush=True)
    daemon.kill()


def main(words):
    count = int((program_of(words, 1) or [5000])[0])
    needs("stunnel4", "openssl", "rsyslogd")
    with folder_of_its_own("bench-network-"):
        try:
            measure_send(count)
            for clients in 15, 30, 60:
                measure_places(clients)
            measure_relp(count)
        finally:
            end_all()
    return 0
