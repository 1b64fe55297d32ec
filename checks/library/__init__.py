"""libauditstore and the Python package over it: verdicts, frames, clients that are killed, handlers, and the examples.

Verdicts and frames are those of proofs, exports, replies and notes of the model, cut and changed, also under valgrind
and AddressSanitizer. Clients, sources and handlers run in processes that are killed, fork and exit. The library, the
header and the Python package must show the same names.

usage: bin/check library EXECUTABLE [--long] [SCENE ..]

What is expected comes from the model, from the auditor's programs and from EXECUTABLE, which serves the stores. The
library is linked from the archive that `rt lib` leaves in crates/audit_c; AUDIT_STORE_LIBRARY in the environment names
one that is built already. With --long there are 20,000 mutations and 200 kills. A compiler of C or Go, or
valgrind, that isn't there is left out with a line.
"""
from checks.library import asked, built, examples, handled, judged, placed, watched
from checks.library.common import use_library
from checks.parts.scenes import play_side_by_side, scenes_in, words_of

SCENES = scenes_in(built, judged, watched, asked, placed, handled, examples)


def main(words):
    _, names = words_of(words, SCENES)
    with use_library():
        return play_side_by_side(SCENES, names)
