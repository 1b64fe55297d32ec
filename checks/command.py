"""What `bin/check NAME` and `bin/bench NAME` have in common: the list, usages, and how a check ends."""
import importlib
import signal
import sys

from checks.parts import processes
from checks.parts.wrong import LEFT_OUT, LeftOut, Usage, Wrong


def print_list(entries):
    width = max(len(name) for name in entries)
    for entry in entries.values():
        print("%-*s  %s; %s" % (width, entry.name, entry.about, entry.time))


def usage_of(module):
    return module.__doc__.strip() + "\n"


def run(entry, words):
    """Runs a check with its words, and returns its status."""
    module = importlib.import_module(entry.module)
    if words[:1] in (["--help"], ["-h"]):
        print(usage_of(module), end="")
        return 0
    # So that nothing stays mounted, and no process.
    signal.signal(signal.SIGTERM, lambda *_: sys.exit(1))
    try:
        return module.main(list(words))
    except Usage as usage:
        sys.stderr.write(usage_of(module) + "".join("\n" + line for line in str(usage).splitlines()) + "\n")
        return 2
    except LeftOut as left_out:
        print("left out: %s: %s" % (entry.name, left_out))
        return LEFT_OUT
    except Wrong as wrong:
        print(wrong)
        return 1
    finally:
        # Also where a signal ends the check.
        processes.end_all()


def unknown(command, name):
    sys.stderr.write("%s: there is no %s; %s --list names all\n" % (command, name, command))
    return 2
