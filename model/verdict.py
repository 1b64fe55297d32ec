"""Verdicts on exports and texts of states, which the auditor's own programs give."""
import re

from read_export import Fault, read_on
from state import FIRST


def first_state(first_key):
    """What a verification begins with."""
    return FIRST._replace(key=first_key)


def verdict(export, first_key, commitment):
    """(0, the number of events, whether they close the log), or (the number of a fault, its index, False)."""
    try:
        _, after = read_on(export, first_state(first_key), commitment)
    except Fault as fault:
        index, cause = re.fullmatch("entry ([0-9]+): ([0-9]+) .*", str(fault)).groups()
        return int(cause), int(index), False
    return 0, after.count, after.closed


def state_after(log, first_key, commitment):
    """The state after the entries of a log."""
    return read_on(log.export, first_state(first_key), commitment)[1]
