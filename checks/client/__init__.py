"""Runs the commands that ask a server (`audit ask`, `send`, `watch` and `read`) against `audit serve` and `audit
daemon`, and against servers that lie; and `fleet` and `witness-git` with peers that lie.

usage: bin/check client EXECUTABLE [--long] [SCENE ..]

With --long a million events are sent and the server is killed 50 times. What is expected comes from `audit show`,
`prove` and `export` on the same store, or from the model. It may run beside other work: no scene depends on how fast a
server of its own answers.
"""
from checks.client import (
    asking, fleets, git_witnesses, lying, reading, reading_on, saying, sending, slow, stopping, witnessing)
from checks.parts.scenes import play_side_by_side, scenes_in, words_of

SCENES = scenes_in(asking, lying, witnessing, slow, saying, sending, stopping, reading, reading_on, git_witnesses,
                   fleets)


def main(words):
    _, names = words_of(words, SCENES)
    return play_side_by_side(SCENES, names)
