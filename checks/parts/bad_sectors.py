"""A disk some of whose sectors can't be read, as a plugin of nbdkit.

usage: nbdkit --unix SOCKET python bad_sectors.py image=IMAGE bad=SECTOR[,SECTOR..]
"""
import errno
import os

import nbdkit

API_VERSION = 2
SECTOR = 512
options = {}


def config(key, value):
    options[key] = value


def open(readonly):
    return os.open(options["image"], os.O_RDONLY)


def get_size(handle):
    return os.fstat(handle).st_size


def block_size(handle):
    return 1, SECTOR, 1 << 25


def pread(handle, buffer, offset, flags):
    read = range(offset // SECTOR, (offset + len(buffer) + SECTOR - 1) // SECTOR)
    if any(int(sector) in read for sector in options["bad"].split(",")):
        nbdkit.set_error(errno.EIO)
        raise OSError("a sector can't be read")
    buffer[:] = os.pread(handle, len(buffer), offset)
