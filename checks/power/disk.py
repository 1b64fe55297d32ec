"""A disk for tests, as a plugin of nbdkit. What was written and not flushed is in its cache; when its power is cut it
loses that, or keeps any of it.

usage: nbdkit --unix SOCKET python disk.py image=IMAGE orders=PATH [unit=BYTES] [torn=1] [lies=1]

IMAGE is what the platter has. Units of BYTES (512, or 4096) are written whole: after a cut each has its old content, or
any that was written since the last flush. With `torn` a unit may also have been under way: its first bytes are new and
the rest is anything. With `lies` a flush is answered and does nothing.

PATH is a Unix socket for orders. `cut CALLS SEED` and a line feed cut the power before so many further writes and
flushes are done, 0 for now; the seed decides what becomes of the cache. The answer, once the power is off, is the
number of units that were in the cache, and of those that are torn. From then on every request fails.
"""
import errno
import os
import random
import socket
import threading

import nbdkit

API_VERSION = 2
options = {"unit": "512", "torn": "0", "lies": "0"}
disk = None


class Disk:
    def __init__(self, path, unit, may_tear, lies):
        self.unit, self.may_tear, self.lies = unit, may_tear, lies
        self.platter = os.open(path, os.O_RDWR)
        self.size = os.fstat(self.platter).st_size
        # What a read answers, and for each unit in the cache all that was written since the last flush.
        self.content = bytearray(os.pread(self.platter, self.size, 0))
        self.cache = []
        self.lock, self.off = threading.Lock(), threading.Event()
        self.calls_left, self.seed, self.found = None, 0, (0, 0)

    def on_call(self):
        """Counts a call, and fails it if the power is off."""
        if self.calls_left == 0 and not self.off.is_set():
            self.cut()
        self.expect_power()
        if self.calls_left is not None:
            self.calls_left -= 1

    def expect_power(self):
        if self.off.is_set():
            nbdkit.set_error(errno.EIO)
            raise OSError("no power")

    def read(self, size, offset):
        with self.lock:
            self.expect_power()
            return bytes(self.content[offset:offset + size])

    def write(self, data, offset):
        with self.lock:
            self.on_call()
            self.content[offset:offset + len(data)] = data
            last = offset + len(data)
            for unit in range(offset // self.unit, -(-last // self.unit)):
                start = unit * self.unit
                self.cache.append((unit, bytes(self.content[start:start + self.unit])))

    def flush(self):
        with self.lock:
            self.on_call()
            if not self.lies:
                for unit, content in self.cache:
                    os.pwrite(self.platter, content, unit * self.unit)
                self.cache.clear()

    def order(self, calls, seed):
        with self.lock:
            self.calls_left, self.seed = calls, seed
            if calls == 0 and not self.off.is_set():
                self.cut()

    def cut(self):
        """Power is off: the platter keeps some of the cache."""
        chance = random.Random(self.seed)
        keep = chance.choice([self.keep_nothing, self.keep_all, self.keep_first, self.keep_any])
        kept = keep(chance)
        torn = 0
        for unit, content in kept.items():
            if self.may_tear and chance.random() < 0.5:
                new = chance.randrange(self.unit)
                content = content[:new] + chance.randbytes(self.unit - new)
                torn += 1
            os.pwrite(self.platter, content, unit * self.unit)
        self.found = len({unit for unit, _ in self.cache}), torn
        self.off.set()

    def keep_nothing(self, _):
        return {}

    def keep_all(self, _):
        return dict(self.cache)

    def keep_first(self, chance):
        """As if the cache were written in order, up to a random unit."""
        return dict(self.cache[:chance.randrange(len(self.cache) + 1)])

    def keep_any(self, chance):
        """Each unit has any of its contents, or its old one."""
        contents = {}
        for unit, content in self.cache:
            contents.setdefault(unit, []).append(content)
        chosen = {unit: chance.choice([None, *found]) for unit, found in contents.items()}
        return {unit: content for unit, content in chosen.items() if content is not None}


def take_orders(listener):
    """A later order replaces one that waits for its calls, and both are answered."""
    while True:
        stream, _ = listener.accept()
        threading.Thread(target=take_order, args=(stream,), daemon=True).start()


def take_order(stream):
    with stream, stream.makefile("rw") as lines:
        _, calls, seed = lines.readline().split()
        disk.order(int(calls), int(seed))
        disk.off.wait()
        lines.write("%d %d\n" % disk.found)


def config(key, value):
    options[key] = value


def after_fork():
    global disk
    disk = Disk(options["image"], int(options["unit"]), options["torn"] == "1", options["lies"] == "1")
    listener = socket.socket(socket.AF_UNIX)
    listener.bind(options["orders"])
    listener.listen()
    threading.Thread(target=take_orders, args=(listener,), daemon=True).start()


def open(readonly):
    return disk


def get_size(disk):
    return disk.size


def can_write(disk):
    return True


def can_flush(disk):
    return True


def pread(disk, buffer, offset, flags):
    buffer[:] = disk.read(len(buffer), offset)


def pwrite(disk, buffer, offset, flags):
    disk.write(bytes(buffer), offset)


def flush(disk, flags):
    disk.flush()
