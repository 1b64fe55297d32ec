"""Measures the program, and what is around it.

usage: bin/bench [EVENTS [LEAVES [FRAMES [OPENED [HELD [VERIFIED [ASKED [LARGE]]]]]]]]
       bin/bench --list
       bin/bench NAME [ARGUMENT ..]

Without a name it measures what `bin/bench store` does, with these sizes. --list names the measurements, with what each
is for and how long it takes; `bin/bench NAME --help` prints its usage.

Times are relative to those of the unavoidable hashes, writes, syncs and reads, in interleaved runs, since other work on
the machine changes both. If those vary, instructions are counted. The minimum of interleaved runs is reported; of
flushes and replies the tenth percentile, since the fastest of many syncs is an outlier; of the longest events the sum.
Sectors are written before they are timed, since a first write to a sparse file costs more. Replies and bare proofs use
different indices, so neither profits from the other's caches.
"""
from checks import command
from checks.table import BENCHES


def main(words):
    if words[:1] in (["--help"], ["-h"]):
        print(__doc__.strip())
        return 0
    if words == ["--list"]:
        command.print_list(BENCHES)
        return 0
    if not words or words[0].isdigit():
        return command.run(BENCHES["store"], words)
    if words[0] not in BENCHES:
        return command.unknown("bin/bench", words[0])
    return command.run(BENCHES[words[0]], words[1:])
