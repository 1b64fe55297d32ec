"""Certificates for TLS, by openssl."""
import os

from checks.parts.files import write
from checks.parts.tools import call

NEW_KEY = "-newkey", "ec", "-pkeyopt", "ec_paramgen_curve:prime256v1", "-nodes"


class Authority:
    """A certificate authority, in a folder."""

    def __init__(self, folder):
        self.folder = os.path.abspath(folder)
        os.mkdir(self.folder)
        self.root = os.path.join(self.folder, "ca.pem")
        call("openssl", "req", "-x509", *NEW_KEY, "-days", "2", "-subj", "/CN=authority", "-keyout",
             self.folder + "/ca.key", "-out", self.root)

    def certify(self, name, names=None):
        """Paths of a key and of a certificate for this name, or for others."""
        key, certificate, request, extension = (
            os.path.join(self.folder, each) for each in (name + ".key", name + ".pem", "request", "extension"))
        write(extension, ("subjectAltName=%s\n" % (names or "DNS:" + name)).encode())
        call("openssl", "req", *NEW_KEY, "-subj", "/CN=" + name, "-keyout", key, "-out", request)
        call("openssl", "x509", "-req", "-in", request, "-CA", self.root, "-CAkey", self.folder + "/ca.key",
             "-CAcreateserial", "-days", "2", "-extfile", extension, "-out", certificate)
        return key, certificate
