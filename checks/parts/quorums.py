"""A quorum of NBD servers, as qemu-nbd's options."""


def quorum_of(sockets):
    """Two of these servers have to agree."""
    options = "driver=quorum,vote-threshold=2"
    for number, socket in enumerate(sockets):
        child = ",children.%d." % number
        options += child + "driver=raw" + child + "file.driver=nbd" + child + "file.server.type=unix"
        options += child + "file.server.path=" + socket
    return options
