"""The values in crates/audit_test_format."""
import functools
import hashlib
import hmac

from check_proof import root_of_member, roots_of_increment
from history import leaf_hash
from read_export import under_keystream

from model.chain import CLOSING_KIND, FIRST_LINK, ZERO_KEY, keystream_key, log_of, next_key, number, seal
from model.stored.common import HI, root_of
from model.stored.value import digest, outside, text
from model.tree import increment, increment_proof, membership, membership_proof, root

SAMPLE = [b"", b"\x00", b"\x10", b"\x20\x21"]
FULL = 1 << 24


def leaves_of(texts):
    return [leaf_hash(each) for each in texts]


def counted(count):
    """The leaves of texts of one byte, each its leaf's index."""
    return leaves_of(bytes([place]) for place in range(count))


def counted_hashes(count):
    return [bytes([place]) * 32 for place in range(count)]


def proof():
    yield text("full_with_first", lambda: root_of_member(0, FULL, counted_hashes(24), b"hello"))
    yield text("full_with_last", lambda: root_of_member(FULL - 1, FULL, counted_hashes(24), b"hello"))
    yield text("older_of_last", lambda: roots_of_increment(FULL - 1, FULL, counted_hashes(25))[0])
    yield text("newer_of_last", lambda: roots_of_increment(FULL - 1, FULL, counted_hashes(25))[1])


def proof_bytes():
    entry = log_of([HI]).entries[0]
    yield text("entry", lambda: entry)
    yield text("proof", lambda: membership_proof(0, 1, [], entry))
    yield text("membership", lambda: membership_proof(1, 3, membership(counted(3), 1), b"\1"))
    yield text("increment", lambda: increment_proof(3, 5, increment(counted(5), 3)))
    yield text("root", lambda: root_of([HI]))


def tree():
    sample = leaves_of(SAMPLE)
    for count in 1, 2, 3, 4:
        yield text("sample/%d" % count, lambda count=count: root(sample[:count]))
    yield text("sample/membership", lambda: b"".join(membership(sample, 0)))
    yield text("sample/increment", lambda: b"".join(increment(sample, 2)))
    yield digest("to_33/roots", lambda: b"".join(root(counted(count)) for count in range(34)))
    yield digest("to_33/memberships", lambda: b"".join(
        b"".join(membership(counted(count), place)) for count in range(1, 34) for place in range(count)))
    yield digest("to_33/increments", lambda: b"".join(
        b"".join(increment(counted(count), place + 1)) for count in range(1, 34) for place in range(count)))
    yield text("2_to_the_20/root", lambda: root(leaves_of(number(place, 4) for place in range(1 << 20))))


RFC_4231 = [(1, "4.2", b"\x0b" * 20, b"Hi There"), (2, "4.3", b"Jefe", b"what do ya want for nothing?"),
            (6, "4.7", b"\xaa" * 131, b"Test Using Larger Than Block-Size Key - Hash Key First")]


def python_hmac(key, message):
    return hmac.new(key, message, hashlib.sha256).digest()


def mac():
    """The vectors of RFC 4231, which Python's own module makes too, and its HMACs under other keys."""
    for case, section, key, message in RFC_4231:
        yield outside("rfc_4231/%d" % case, lambda key=key, message=message: python_hmac(key, message), "RFC 4231, section " + section)
    for length in 0, 63, 64, 65:
        yield text("key_of_%d" % length, lambda length=length: python_hmac(bytes([length]) * length, b"audit"))


SHA_256 = [("none", b"", "the Secure Hash Algorithm Validation System's short messages, length 0"),
           ("abc", b"abc", "the examples of FIPS 180-4, one block"),
           ("two_blocks", b"abcdbcdecdefdefgefghfghighijhijkijkljklmklmnlmnomnopnopq", "the examples of FIPS 180-4, two blocks"),
           ("long", b"abcdefghbcdefghicdefghijdefghijkefghijklfghijklmghijklmnhijklmnoijklmnopjklmnopqklmnopqrlmnopqrsmnopqrst"
            b"nopqrstu", "the examples of FIPS 180-4, a longer message")]


def lanes():
    """Published digests, which Python's own module makes too."""
    for case, message, source in SHA_256:
        yield outside(case, lambda message=message: hashlib.sha256(message).digest(), source)


LONGEST = 32696


@functools.lru_cache(maxsize=1)
def export_of_every_length():
    """The export of events whose kinds are the lengths of their payloads, from no byte to the longest, under a counting key."""
    key, link, export = bytes(range(32)), FIRST_LINK, bytearray()
    for length in range(LONGEST + 1):
        entry, link = seal(key, link, length, bytes((length + place) % 256 for place in range(length)))
        export += entry
        key = next_key(key)
    return bytes(export)


def last_key():
    key = bytes(range(32))
    for _ in range(LONGEST + 1):
        key = next_key(key)
    return key


def chain():
    yield text("hi/entry", lambda: log_of([HI]).entries[0])
    yield text("reserved/entry", lambda: seal(ZERO_KEY, FIRST_LINK, CLOSING_KIND, b"hi")[0])
    yield outside("keystream", lambda: under_keystream(ZERO_KEY, bytes(65)), "RFC 8439, A.1, and the first byte of the next block")
    yield text("keystream_key", lambda: keystream_key(ZERO_KEY, 1))
    yield text("next_key", lambda: next_key(ZERO_KEY))
    yield digest("every_length/export", export_of_every_length, is_long=True)
    yield text("every_length/last_key", last_key)
    yield text("every_length/last_link", lambda: export_of_every_length()[-64:-32], is_long=True)


TESTS = "crates/audit_test_format/src/"
FILES = {TESTS + "proof.rt": proof, TESTS + "proof/proof_bytes.rt": proof_bytes, TESTS + "tree.rt": tree, TESTS + "mac.rt": mac,
         TESTS + "lanes.rt": lanes,
         TESTS + "chain.rt": chain}
