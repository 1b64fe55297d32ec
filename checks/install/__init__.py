"""Installs an executable in a folder, uses it from there, and removes it; and the same with a Debian package. Tests the
man page, completion, README's commands and the systemd units.

usage: bin/check install EXECUTABLE [SCENE ..]

What needs groff, bash, systemd-analyze or dpkg-deb is left out where these are missing.
"""
from checks.install import documents, folders, packages
from checks.parts.scenes import play_all, scenes_in, words_of

SCENES = scenes_in(folders, documents, packages)


def main(words):
    _, names = words_of(words, SCENES, options=())
    return play_all(SCENES, names)
