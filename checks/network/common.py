"""What hosts over a network share."""

HOSTS = 10


def certified(authority, name):
    """The changes of a configuration for this name's key and certificate."""
    key, certificate = authority.certify(name)
    return ("/etc/audit-tls/ca.pem", authority.root), ("/etc/audit-tls/own.pem",
                                                       certificate), ("/etc/audit-tls/own.key", key)
