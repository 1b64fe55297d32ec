"""What the program says, where it isn't what the auditor's programs do."""
import os

from checks.parts import program
from checks.parts.files import read, write
from checks.parts.logs import word_of
from checks.verify_on.damage import damaged_states, damaged_tails, is_state, planted
from checks.verify_on.logs import Outcome, joined, made_logs, sample
from read_export import Fault, read_on
from state import FIRST

# Up to this size a log is cut at every two entries.
SMALL = 9


def verify(export, start, commit, *options):
    """Verifies bytes by the text of a key or a state."""
    for path, data in ("export", export), ("start", start):
        write(path, data)
        os.chmod(path, 0o600)
    status, out, err = program.whole("verify", "export", "start", word_of(*commit), *options)
    return Outcome(status, out.splitlines(), err)


def saved():
    """The state that was saved, if one was."""
    try:
        return read("kept")
    except FileNotFoundError:
        return None
    finally:
        if os.path.exists("kept"):
            os.unlink("kept")


def judged(export, start, commit):
    """The auditor's verdict on bytes after a state."""
    try:
        read_on(export, start, commit)
    except Fault as fault:
        return Outcome(1, [], b"audit: %s\n" % str(fault).encode())
    return None


def differences_of_cuts(log):
    """The log cut at every entry, and a small one at every two."""
    key, size = log.first_key.hex().encode(), len(log)
    whole = joined(log.entries)
    if verify(whole, key, log.commit(size)) != log.outcome(0, size):
        yield "%d entries" % size
    for cut in range(size + 1):
        state = log.state(cut).text()
        found = verify(joined(log.entries[:cut]), key, log.commit(cut), "--save", "kept")
        if found != log.outcome(0, cut) or saved() != state:
            yield "the first %d of %d entries" % (cut, size)
        if verify(joined(log.entries[cut:]), state, log.commit(size)) != log.outcome(cut, size):
            yield "%d entries after %d" % (size - cut, cut)
        for end in range(cut, size + 1 if size <= SMALL else cut):
            found = verify(joined(log.entries[cut:end]), state, log.commit(end), "--save", "kept")
            if found != log.outcome(cut, end) or saved() != log.state(end).text():
                yield "entries %d to %d of %d" % (cut, end, size)


def differences_of_faults(log):
    """With a fault, from a state before it there is the verdict that there is from the key."""
    key, first = log.first_key.hex().encode(), FIRST._replace(key=log.first_key)
    size = len(log)
    for at in sorted({size - 1, *sample(range(size), 1)}) if size else ():
        for entries, commit in planted(log, at):
            wanted = judged(joined(entries), first, commit)
            if wanted is None:
                # Exchanged with its like, or closed where the log ends: nothing is wrong.
                continue
            if verify(joined(entries), key, commit) != wanted:
                yield "%d entries with a fault at %d" % (size, at)
            for cut in sorted({at, *sample(range(at + 1), 1)}):
                if verify(joined(entries[cut:]), log.state(cut).text(), commit, "--save",
                          "kept") != wanted or saved() is not None:
                    yield "%d entries after %d, with a fault at %d: not %r" % (size - cut, cut, at, wanted.said)


def differences_of_damaged(logs):
    tried = 0
    for size, cut in (3, 2), (7, 5), (64, 63), (5, 5), (1, 0):
        log = next(log for log in logs if len(log) == size)
        tail, commit = joined(log.entries[cut:]), log.commit(size)
        for text in damaged_states(log.state(cut)):
            tried += 1
            if is_state(text):
                yield "a damaged state is one: %r" % text
            found = verify(tail, text, commit, "--save", "kept")
            if found != Outcome(2, [], b"audit: bad argument\n") or saved() is not None:
                yield "the damaged state %r" % text
        for export, state in damaged_tails(log, cut) if 0 < cut < size else ():
            tried += 1
            wanted = judged(export, state, commit)
            if commit[0] < state.count:
                wanted = Outcome(2, [], b"audit: bad argument\n")
            found = verify(export, state.text(), commit, "--save", "kept")
            if wanted is None or found != wanted or saved() is not None:
                yield "a damaged tail after %d of %d: %r, and not %r" % (cut, size, found, wanted)
    if tried < 500:
        yield "only %d were damaged" % tried


def differences():
    logs = list(made_logs())
    for log in logs:
        yield from differences_of_cuts(log)
        yield from differences_of_faults(log)
    yield from differences_of_damaged(logs)
