"""Notes of docs/formats.md: a commitment with the name of its log, as lines of text."""

MOST_OF_A_NAME = 255


def is_name(name):
    return 1 <= len(name) <= MOST_OF_A_NAME and all(0x21 <= byte <= 0x7e for byte in name)


def is_note(name, count, root):
    """Of what there are notes."""
    return is_name(name) and 0 <= count < 1 << 64 and len(root) == 32


def note(name, count, root):
    return b"".join([b"audit-note 1\n", b"name ", name, b"\n", b"count ", b"%d" % count, b"\n", b"root ", root.hex().encode(),
                     b"\n"])


def note_in(text):
    """The name, the count and the root of which this text is the note, if it is one: of all that its lines may spell, the one
    whose note is the text."""
    parts = [line.split(b" ", 1)[-1] for line in text.split(b"\n")]
    if len(parts) != 5:
        return None
    try:
        found = parts[1], int(parts[2]), bytes.fromhex(parts[3].decode("ascii"))
    except ValueError:
        return None
    return found if is_note(*found) and note(*found) == text else None
