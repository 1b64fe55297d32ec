"""Each call in buffers of exactly the stated lengths, watched by valgrind and by AddressSanitizer."""
import os
import shutil
import subprocess

from check_proof import event_under, read_proof
from history import BadArgument
from checks.library import common
from checks.library.common import commitment_of
from checks.library.judged import (
    ROLLS, events_of, judged_by_auditor, mutated, proofs_of, replies, reply_in, word_in)
from checks.parts import program
from checks.parts.places import at_top
from checks.parts.scenes import scene
from checks.parts.wrong import LeftOut, Wrong, expect
from model.chain import ZERO_KEY, log_of
from model.note import note, note_in
from model.verdict import state_after, verdict
from state import State

SOURCE = at_top("checks", "library", "watched.c")


def record(call, *arguments):
    parts = [bytes([call])]
    for argument in [*arguments, b"", b""][:3]:
        parts += [len(argument).to_bytes(4, "big"), argument]
    return b"".join(parts)


def packed(commitment):
    return commitment.count.to_bytes(8, "big") + commitment.root


def of_proof(log):
    """A proof, changed or not, checked and opened, with the answers of the auditor's programs."""
    proof, commitments = ROLLS.choice(list(proofs_of(log)))
    proof = mutated(proof) if ROLLS.randrange(3) else proof
    is_inclusion = len(commitments) == 1
    answer = {True: 0, False: 1, None: 32}[judged_by_auditor(proof, commitments)]
    yield record(1 if is_inclusion else 2, proof, *map(packed, commitments)), answer
    if is_inclusion:
        opens = 32 if answer == 0 and event_under(ZERO_KEY, read_proof(proof)[4]) is None else answer
        yield record(3, proof, packed(commitments[0]), ZERO_KEY), opens


def of_texts():
    """The text of a note, a word and a reply, changed or not, with the answers of the model and of the formats."""
    text = note(b"some.example/log", ROLLS.randrange(100), ROLLS.randbytes(32))
    text = mutated(text) if ROLLS.randrange(3) else text
    yield record(6, text), 0 if note_in(text) else 20
    word = b"%d:%s" % (ROLLS.randrange(1 << 40), ROLLS.randbytes(32).hex().encode())
    word = mutated(word) if ROLLS.randrange(3) else word
    yield record(5, word), 0 if word_in(word) else 20
    reply = mutated(ROLLS.choice(SHORT)) if ROLLS.randrange(3) else ROLLS.choice(SHORT)
    yield record(4, reply), {"more": 2, "malformed": 20}.get(str(reply_in(reply)), 0)


def of_exports():
    """An export and the state after it, changed or not, with the model's verdict and that of the auditor's programs; and a
    placed append."""
    log = log_of(events_of(ROLLS.randrange(6), bool(ROLLS.randrange(2))))
    export = mutated(log.export) if ROLLS.randrange(3) else log.export
    yield record(7, export, packed(commitment_of(log)), ZERO_KEY), verdict(export, ZERO_KEY, tuple(commitment_of(log)))[0]
    text = state_after(log, ZERO_KEY, tuple(commitment_of(log))).text()
    text = mutated(text) if ROLLS.randrange(3) else text
    yield record(9, text), 0 if is_state(text) else 20
    size = ROLLS.choice((0, 1, 100, 32688, 32689))
    yield record(8, bytes(size)), size + 19 if size <= 32688 else 0


def is_state(text):
    try:
        State.read(text)
    except BadArgument:
        return False
    return True


SHORT = [reply for reply in replies() if len(reply) < 4000]


def calls(number):
    log = log_of(events_of(9))
    for _ in range(number):
        yield from of_proof(log)
        yield from of_texts()
        yield from of_exports()


def compiled(*flags):
    if shutil.which("cc") is None:
        raise LeftOut("there is no C compiler")
    done = subprocess.run(["cc", "-std=c99", "-Wall", "-Wextra", "-Werror", "-pedantic", "-g", *flags,
                           "-I" + at_top("library"), "-o", "watched", SOURCE, "-L" + common.FOLDER, "-lauditstore",
                           "-Wl,-rpath," + common.FOLDER], capture_output=True, text=True)
    if done.returncode and "asan" in done.stderr:
        raise LeftOut("the C compiler has no AddressSanitizer")
    if done.returncode:
        raise Wrong(done.stderr)
    return os.path.abspath("watched")


def expect_answers(command, number):
    asked = list(calls(number))
    done = subprocess.run(command, input=b"".join(data for data, _ in asked), capture_output=True, timeout=600)
    expect((done.returncode, done.stderr), (0, b""), "the calls, watched")
    found = [int(line) for line in done.stdout.split()]
    wrong = [(data[:200], answer, wanted) for (data, wanted), answer in zip(asked, found) if answer != wanted]
    expect((len(found), wrong[:3]), (len(asked), []), "the answers")


@scene
def scene_valgrind():
    """Under valgrind, which watches the proved code too."""
    if shutil.which("valgrind") is None:
        raise LeftOut("there is no valgrind")
    watched = compiled()
    expect_answers(["valgrind", "-q", "--error-exitcode=99", watched], 1500 if program.LONG else 100)


@scene
def scene_address_sanitizer():
    """Under AddressSanitizer, which watches the C around it, and the copies that the library makes."""
    watched = compiled("-fsanitize=address,undefined", "-fno-sanitize-recover=all")
    expect_answers([watched], 4000 if program.LONG else 400)
