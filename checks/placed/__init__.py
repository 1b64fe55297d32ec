"""Random runs of the model: sources that place their appends, while they and the server are killed, its device fails,
connections are lost, frames of old ones come late, and stores fill up, wear out and are closed. At each moment the
log's events of a source's kind are a prefix of its list: in order, each once. Each reply says what the log is, and in
the end each list is whole, if the store still takes events.

usage: bin/check placed [RUNS [FIRST]]

There are 300 runs unless RUNS is given. They are numbered from FIRST on, by default 0, and the same number gives the
same run. Then faults are planted in the model, such as a place that is compared with the number of all events. Each has
to be noticed by one of the runs.
"""
from checks.parts.wrong import Usage, Wrong
from checks.placed.faults import FAULTS, Right
from checks.placed.worlds import World


def fault_in(number, server_class):
    """What is wrong in a run, if anything is."""
    try:
        World(number, server_class).run()
    except Wrong as wrong:
        return str(wrong)
    return None


def is_noticed(planted, runs):
    return any(fault_in(number, planted) for number in runs)


def main(words):
    if len(words) > 2 or not all(word.isdigit() for word in words):
        raise Usage
    count, first = [*map(int, words), *(300, 0)[len(words):]]
    runs = range(first, first + count)
    wrong = [(number, fault_in(number, Right)) for number in runs]
    said = ["run %d: %s" % (number, fault) for number, fault in wrong if fault]
    said += ["a planted fault isn't noticed: " + planted.__doc__ for planted in FAULTS if not is_noticed(planted, runs)]
    print("".join(line + "\n" for line in said), end="")
    return 1 if said else 0
