"""A real etcd of three members, and the ways of machines to them."""
import contextlib
import os
import select
import socket
import subprocess
import threading
import time

from checks.parts.certificates import Authority
from checks.parts.waiting import free_port

MEMBERS = 3


def make_certificates():
    """An authority, and a certificate under it for every member and machine: ca.pem, own.pem and own.key."""
    authority = Authority("authority")
    key, certificate = authority.certify("member", "IP:127.0.0.1")
    for made, name in (authority.root, "ca.pem"), (key, "own.key"), (certificate, "own.pem"):
        os.symlink(made, name)


class Member:
    """One member of etcd."""
    all = []

    def __init__(self, number):
        self.name, self.port, self.peers = "member%d" % number, free_port(), free_port()
        self.process = None
        Member.all.append(self)

    def start(self):
        listen, peers = "https://127.0.0.1:%d" % self.port, "http://127.0.0.1:%d" % self.peers
        cluster = ",".join("%s=http://127.0.0.1:%d" % (member.name, member.peers) for member in Member.all)
        with open(self.name + ".log", "ab") as log:
            self.process = subprocess.Popen(
                ["etcd", "--name", self.name, "--data-dir", self.name, "--listen-client-urls", listen,
                 "--advertise-client-urls", listen,
                 "--listen-peer-urls", peers, "--initial-advertise-peer-urls", peers, "--initial-cluster", cluster,
                 "--cert-file", "own.pem", "--key-file", "own.key", "--trusted-ca-file", "ca.pem",
                 "--client-cert-auth"],
                stdin=subprocess.DEVNULL, stdout=log, stderr=log)

    def kill(self):
        self.process.kill()
        self.process.wait()

    @classmethod
    def end_all(cls):
        for member in cls.all:
            if member.process is not None:
                member.kill()


class Link(threading.Thread):
    """A machine's way to a member of etcd. Where it is cut, connections stay and nothing passes."""

    def __init__(self, member):
        super().__init__(daemon=True)
        self.member, self.is_cut, self.listener = member, False, socket.socket()
        self.listener.bind(("127.0.0.1", 0))
        self.listener.listen()
        self.address = "https://127.0.0.1:%d" % self.listener.getsockname()[1]
        self.start()

    def run(self):
        while True:
            near, _ = self.listener.accept()
            threading.Thread(target=self.carry, args=(near,), daemon=True).start()

    def carry(self, near):
        with near, socket.socket() as far, contextlib.suppress(OSError):
            while self.is_cut:
                time.sleep(0.02)
            far.connect(("127.0.0.1", self.member.port))
            other = {near: far, far: near}
            while True:
                ready = select.select(list(other), [], [], 0.05)[0]
                for end in [] if self.is_cut else ready:
                    data = end.recv(65536)
                    if not data:
                        return
                    other[end].sendall(data)
                if self.is_cut:
                    time.sleep(0.02)
