"""What feeds were answered: each acknowledgement is of a commitment that the store's newest one goes on from."""
import os
import random

from checks.parts import program
from checks.parts.daemons import commitment_of
from checks.parts.files import write
from checks.parts.program import done
from checks.parts.wrong import expect, expect_true


def kept_answers(folder):
    """A program that keeps the answers that `audit send` prints in a file, beside passing them on; and the file."""
    wrapper, answers = os.path.join(folder, "audit-kept"), os.path.join(folder, "answers")
    text = '#!/bin/sh\n[ "$1" = send ] || exec %s "$@"\n%s "$@" | tee -a %s\n' % (program.PATH, program.PATH, answers)
    write(wrapper, text.encode())
    os.chmod(wrapper, 0o755)
    write(answers, b"")
    return wrapper, answers


def acknowledged_in(answers):
    """The roots that were acknowledged, by their counts."""
    found = {}
    with open(answers, "rb") as file:
        for line in file:
            words = line.split()
            if len(words) == 4 and words[0] == b"ack" and len(words[3]) == 64:
                found[int(words[2])] = words[3].decode()
    return found


def expect_acknowledged_kept(store, answers, folder):
    newest = commitment_of(store)
    last = acknowledged_in(answers)
    expect_true(last, "nothing was acknowledged")
    for count in random.sample(sorted(last), min(20, len(last))) + [max(last)]:
        proof = os.path.join(folder, "proof")
        done("prove", store, "increment", str(count), newest.split(":")[0], proof)
        said = program.whole("check", proof, "%d:%s" % (count, last[count]), newest)
        expect(said, (0, b"accepted\n", b""), "the check of the acknowledgement of %d events" % count)
