"""What the model and the auditor's programs both state: each must say the same of small logs."""
import history
from check_proof import is_accepted, read_proof
from history import leaf_hash
from read_export import read_export

from model.chain import CLOSE, log_of
from model.disk import choose, header_of, image_of, recovered, salvaged
from model.tree import increment, increment_proof, membership, membership_proof, root

KEY = bytes(range(32))
MOST = 33


def texts(count):
    return [bytes([place]) for place in range(count)]


def leaves_of(count):
    return [leaf_hash(text) for text in texts(count)]


def roots_agree():
    return all(root(leaves_of(count)) == history.root(leaves_of(count)) for count in range(2 * MOST))


def commitment_of(count):
    return count, root(leaves_of(count))


def is_member(index, count):
    proof = membership_proof(index, count, membership(leaves_of(count), index), texts(count)[index])
    commitments = [commitment_of(count)]
    return is_accepted(read_proof(proof), commitments) and not is_accepted(read_proof(proof + b"x"), commitments)


def is_grown(older, newer):
    proof = increment_proof(older, newer, increment(leaves_of(newer), older))
    commitments = [commitment_of(older), commitment_of(newer)]
    is_swapped_refused = older == newer or not is_accepted(read_proof(proof), commitments[::-1])
    return is_accepted(read_proof(proof), commitments) and is_swapped_refused


def members_accepted():
    return all(is_member(index, count) for count in range(1, MOST) for index in range(count))


def increments_accepted():
    return all(is_grown(older, newer) for newer in range(1, MOST) for older in range(1, newer + 1))


def events_of(count):
    return [(number, bytes([number]) * (100 * number)) for number in range(count)]


def is_read_back(events):
    log = log_of(events, KEY)
    return read_export(log.export, KEY, (len(events), root(log.leaves))) == (events, log.closed)


def exports_read_back():
    return all(is_read_back(events_of(count)) and is_read_back([*events_of(count), CLOSE]) for count in range(9))


def is_found(events, generation, version):
    """An image at rest has the header and the entries of its log, and a recovery leaves it as it is."""
    log = log_of(events, KEY)
    image = image_of(log, generation, 64, version)
    header = header_of(log, generation, 64, version)
    return choose(image) == (header, False) and recovered(image) == image and salvaged(image) == log.entries


def images_found():
    open_logs = all(is_found(events_of(count), 2 + 2 * count, version) for count in range(6) for version in (1, 2))
    return open_logs and is_found([*events_of(5), CLOSE], 8, 2)


def results():
    """What is compared, and whether it agrees."""
    yield "roots", roots_agree()
    yield "inclusion proofs", members_accepted()
    yield "consistency proofs", increments_accepted()
    yield "exports", exports_read_back()
    yield "images", images_found()
