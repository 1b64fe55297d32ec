"""Stores that are measured."""
import os

SECTOR = 512
# How many sectors are written at a time.
ROW = 2048


def fill(store, sectors):
    """Writes each sector after the headers: a first write to a sparse file costs more."""
    with open(store, "r+b") as file:
        file.seek(2 * SECTOR)
        for place in range(2, sectors, ROW):
            file.write(bytes(min(ROW, sectors - place) * SECTOR))
        os.fsync(file.fileno())
