"""Hosts that log to a store of another machine, with real programs on loopback: rsyslogd over RELP and TLS, and stunnel
in front of a daemon's sockets, with the configurations of packaging/.

usage: bin/check network EXECUTABLE [--long] [SCENE ..]

Where each host has a kind of its own, its lines are in the log once, whatever is killed; otherwise some may be twice.
A scene whose tools aren't there is left out. Needed are openssl, and Debian's rsyslog and rsyslog-relp, or stunnel4.
With --long more is killed, and what rsyslogd loses when it is killed itself is counted.
"""
from checks.network import bound, relp, stunnel
from checks.parts.scenes import play_side_by_side, scenes_in, words_of

SCENES = scenes_in(relp, stunnel, bound)
SHORT = [name for name in SCENES if name != "relp_stopped"]


def main(words):
    _, names = words_of(words, SCENES, short=SHORT)
    return play_side_by_side(SCENES, names)
