"""Measures a daemon over its socket: events a second that 16 clients append, each with one append in flight and with
16, and how many clients a second connect, append one event, read its acknowledgement and leave, one after another.
Beside these stand the events a second of flushes of 16 and of 64 in the library, in the same run. Then how many a
second `audit send` sends, alone.

usage: bin/bench daemon EXECUTABLE [BENCH]

EXECUTABLE is the program, and BENCH the one of audit_tool_bench, without which the library's figures are left out. The
clients are up to four processes, which leave the daemon a processor.
"""
import collections
import os
import re
import select
import statistics
import struct
import subprocess
import tempfile
import time

from checks.bench.stores import fill
from checks.parts import program
from checks.parts.clients import connected
from checks.parts.daemons import Daemon
from checks.parts.frames import APPEND_SIZE, append_frame
from checks.parts.places import KEY
from checks.parts.program import done
from checks.parts.scenes import program_of

CLIENTS = 16
SECONDS = 3.0
# A turn appends for nine seconds, and then the lines of `audit send` for each window.
SECTORS = 2_000_000
TURNS = 5
# Processes of clients: the daemon has a processor of its own.
PROCESSES = max(1, min(4, (os.cpu_count() or 2) - 1))
EVENT = b"a small event"
# The lines of `audit send`, and how many of them it sends ahead of their answers.
LINES = 300_000
WINDOWS = 64, 256, 1024


def replies_read(clients, in_flight):
    """How many replies the clients with these descriptors read, each of which sends an append for each reply."""
    frames = [append_frame(EVENT) * count for count in range(in_flight + 1)]
    held = dict.fromkeys(clients, 0)
    poll = select.epoll()
    for client in clients:
        poll.register(client, select.EPOLLIN)
        os.write(client, frames[in_flight])
    end, done = time.monotonic() + SECONDS, 0
    while time.monotonic() < end:
        for client, _ in poll.poll():
            replies, held[client] = divmod(held[client] + len(os.read(client, 1 << 16)), APPEND_SIZE)
            os.write(client, frames[replies])
            done += replies
    return done


def appends_a_second(path, in_flight):
    """Events that were acknowledged to all clients, a second. The clients are spread over processes."""
    streams = [connected(path) for _ in range(CLIENTS)]
    given, taken = os.pipe()
    for place in range(PROCESSES):
        if os.fork() == 0:
            share = [stream.fileno() for stream in streams[place::PROCESSES]]
            os.write(taken, struct.pack(">Q", replies_read(share, in_flight)))
            os._exit(0)
    for stream in streams:
        stream.close()
    for _ in range(PROCESSES):
        os.wait()
    counts = struct.unpack(">%dQ" % PROCESSES, os.read(given, 8 * PROCESSES))
    os.close(given)
    os.close(taken)
    return sum(counts) / SECONDS


def clients_a_second(path):
    """Clients that connected, appended and left, one after another, a second."""
    frame = append_frame(EVENT)
    begun = now = time.monotonic()
    done = 0
    while now - begun < SECONDS:
        with connected(path) as stream:
            stream.sendall(frame)
            size = 0
            while size < APPEND_SIZE:
                size += len(stream.recv(APPEND_SIZE - size))
        done += 1
        now = time.monotonic()
    return done / (now - begun)


def sent_a_second(executable, path, window, folder):
    """Events that `audit send` sends a second, from a file, and prints to another one."""
    name = os.path.join(folder, "lines")
    if not os.path.exists(name):
        with open(name, "wb") as lines:
            lines.write((b"event 7 %s\n" % EVENT.hex().encode()) * LINES)
    with open(name, "rb") as lines, open(os.path.join(folder, "answers"), "wb") as answers:
        begun = time.monotonic()
        subprocess.run([executable, "send", path, "--window", str(window)], stdin=lines, stdout=answers, check=True)
        return LINES / (time.monotonic() - begun)


def flushes(bench, folder):
    """Events a second of the library's flushes, by their size: of the mean of their times."""
    store = os.path.join(folder, "flushed")
    found = subprocess.run([bench, "1", "1", "1", "sessions", store, "8192"], stdout=subprocess.PIPE,
                           stderr=subprocess.STDOUT, check=True)
    os.remove(store)
    rates = {}
    for size, nanoseconds in re.findall(rb"^flushes (\d+) .* mean (\d+)", found.stdout, re.M):
        rates[int(size)] = int(size) * 1e9 / int(nanoseconds)
    return rates


class MeasuredDaemon(Daemon):
    """A daemon over a new store in a new folder."""

    def __init__(self, folder):
        os.mkdir(folder)
        store = os.path.join(folder, "store")
        done("format", store, str(SECTORS), KEY)
        fill(store, SECTORS)
        super().__init__(store, os.path.join(folder, "socket"))


def measure_turn(rates, folder, turn, bench):
    """One turn, with a store of its own, which it can't fill."""
    if bench:
        for size, rate in flushes(os.path.abspath(bench), folder).items():
            rates[size].append(rate)
    with MeasuredDaemon(os.path.join(folder, str(turn))) as daemon:
        for in_flight in (1, 16):
            rates["in flight %d" % in_flight].append(appends_a_second(daemon.socket, in_flight))
        rates["in turn"].append(clients_a_second(daemon.socket))
        for window in WINDOWS:
            sent = sent_a_second(program.PATH, daemon.socket, window, folder)
            rates["sent %d ahead" % window].append(sent)
        daemon.stop()
    os.remove(daemon.store)


def report(rates):
    mean = {name: statistics.harmonic_mean(found) for name, found in rates.items()}
    for in_flight, size in ((1, 16), (16, 64)):
        rate, beside = mean["in flight %d" % in_flight], ""
        if size in mean:
            beside = ", the library's flushes of %d: %.0f, ratio %.2f" % (size, mean[size], rate / mean[size])
        print("16 clients with %d in flight: %.0f events a second%s" % (in_flight, rate, beside))
    for window in WINDOWS:
        rate = mean["sent %d ahead" % window]
        print("send, %d ahead: %.0f events a second, ratio to 16 in flight %.2f"
              % (window, rate, rate / mean["in flight 16"]))
    beside = ""
    if 1 in mean:
        # Of a client's time without that of a flush of one event.
        beside = ", without their flushes %.0f" % (1 / (1 / mean["in turn"] - 1 / mean[1]))
    print("clients that connect, append and leave in turn: %.0f a second%s" % (mean["in turn"], beside))


def main(words):
    bench, = program_of(words, 1) or [None]
    rates = collections.defaultdict(list)
    with tempfile.TemporaryDirectory(prefix="bench-daemon-") as folder:
        for turn in range(TURNS):
            measure_turn(rates, folder, turn, bench)
    report(rates)
    return 0
