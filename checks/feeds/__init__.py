"""Feeds a daemon as docs/operations.md says, from a real rsyslogd, a file and a real journal, and runs it under the
user, umask and groups of its systemd unit. Where a kind is bound, each line and message must be in the log once,
whatever is killed and rotated; a daemon of the model also takes frames late, and a fenced one answers from its memory.
The logs of auditd, of containers and of pgaudit are rotated as these do it, and a real auditd writes one.

usage: bin/check feeds EXECUTABLE [--long] [SCENE ..]

A scene whose tools aren't there, or that needs root, is left out. With --long more is killed, rotated
logs 100 times.
"""
from checks.feeds import answered, behind, file, journal, messages, placed, programs, reader, rsyslog, unit
from checks.parts.scenes import play_all, scenes_in, words_of

SCENES = scenes_in(rsyslog, reader, file, placed, behind, programs, answered, journal, messages, unit)


def main(words):
    _, names = words_of(words, SCENES)
    return play_all(SCENES, names)
