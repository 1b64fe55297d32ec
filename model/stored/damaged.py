"""Devices that are damaged at random, as crates/audit_tool_rehearse/src/devices.rt draws the damage, and what openings find."""
from read_export import sha256

from model.chain import number
from model.disk import GENERATION_LIMIT, SECTOR, Damage, appended, image_of, opened, sectors_of
from model.session import CLOSED, FULL, WORN, Rights, Session
from model.stored.common import HI
from model.stored.drawn import MASK, Random, drawn_start, drawn_stream


def append_drawn(server, random):
    """Appends up to four drawn events, and returns the device."""
    events = random.below(5)
    session = Session(Rights(), False)
    server.feed(session, drawn_stream(random, events, 20))
    server.flush()
    return image_of(server.log, server.generation, server.sectors, server.version)


def put(sector, at, data):
    return sector[:at] + data + sector[at + len(data):]


def resealed(sector):
    return put(sector, 480, sha256(sector[:480]))


def limit(random):
    """Numbers at the limits of a header's rules and beyond."""
    pick = random.below(5)
    least = (0, (1 << 24) - 1, (1 << 62) - 2, MASK - 3)[pick] if pick < 4 else random.next() << 20 & MASK
    return random.below(4) + least & MASK


def change_numbers(random, image):
    """One of the four numbers in one header or in both."""
    at = random.below(4) * 8 + 16
    value = limit(random) if random.below(4) == 0 else None
    grows = 0 if value is not None else random.below(5) - 2
    left_alone = random.below(6)
    for slot in (0, 1):
        if slot != left_alone and slot < len(image):
            found = int.from_bytes(image[slot][at:at + 8], "big")
            image[slot] = resealed(put(image[slot], at, number(found + grows & MASK if value is None else value, 8)))


def turn(image, at, place, turned):
    if at < len(image):
        image[at] = put(image[at], place % SECTOR, bytes([image[at][place % SECTOR] ^ turned & 0xff]))


PARTS = [(0, 10), (10, 6), (48, 32), (80, 32), (112, 32), (144, 336)]


def change_parts(random, image):
    """A byte of another field in one header or in both."""
    start, size = PARTS[random.below(6)]
    at = random.below(size) + start
    turned = random.up_to(255)
    left_alone = random.below(6)
    for slot in (0, 1):
        if slot != left_alone and slot < len(image):
            turn(image, slot, at, turned)
            image[slot] = resealed(image[slot])


def change_versions(random, image):
    version = (1, 1, 1, 2, 0, 3)[random.below(6)]
    left_alone = random.below(4)
    for slot in (0, 1):
        if slot != left_alone and slot < len(image):
            image[slot] = resealed(put(image[slot], 8, number(version, 2)))


def bring_older(random, older, image):
    """A header of an older state of the device."""
    slot = random.below(2)
    if slot < min(len(image), len(older)):
        image[slot] = older[slot]


def bring_older_contents(random, older, image):
    """The same, with the generation of the newer one."""
    slot = random.below(2)
    if slot < min(len(image), len(older)):
        image[slot] = resealed(put(older[slot], 16, image[slot][16:24]))


def any_sector(random, image):
    """A sector of the headers, of the front of the device, or any."""
    pick = random.below(4)
    return random.below(2 if pick == 0 else 12 if pick < 3 else len(image))


def turn_byte(random, image):
    at = any_sector(random, image)
    place = random.below(8) if random.below(2) == 0 else random.below(512)
    turn(image, at, place, random.up_to(255))


def clear_sector(random, image):
    at = any_sector(random, image)
    if at < len(image):
        image[at] = bytes(SECTOR)


def add_noise(random, image):
    at = any_sector(random, image)
    for place in range(SECTOR):
        turn(image, at, place, random.below(256))


def resize(random, image):
    """A device that is truncated, or extended with zeros."""
    if random.below(2) == 0:
        del image[random.below(len(image)):]
    else:
        image += [bytes(SECTOR)] * random.up_to(3)


def exchange_headers(image):
    if len(image) >= 2:
        image[0], image[1] = image[1], image[0]


def hurt(random, older, image):
    """Damages an image in one of several ways."""
    pick = random.below(18)
    if pick < 5:
        change_numbers(random, image)
    elif pick < 8:
        change_parts(random, image)
    elif pick < 10:
        (bring_older if pick == 8 else bring_older_contents)(random, older, image)
    elif pick == 10:
        exchange_headers(image)
    elif pick < 13:
        turn_byte(random, image)
    elif pick < 16:
        (clear_sector, add_noise, resize)[pick - 13](random, image)
    else:
        change_versions(random, image)


def hurt_image(start):
    """A device to which events were appended twice, with one or two damages."""
    random = Random(start)
    server = drawn_start(random)
    older = append_drawn(server, random)
    image = append_drawn(server, random)
    for _ in range(random.up_to(2)):
        hurt(random, older, image)
    return image


def appended_to(image, header, log):
    """Why an append of `hi` is refused, or 0, and the image after it."""
    if header.closed:
        return CLOSED, image
    if header.end + sectors_of(2) > header.sectors:
        return FULL, image
    if header.generation + 2 >= GENERATION_LIMIT:
        return WORN, image
    return 0, appended(image, header, log, HI)


def outcome(start):
    """What is said of the opening of a damaged device, and of an append after it; then the device."""
    image = hurt_image(start)
    try:
        header, log, image = opened(image)
    except Damage as damage:
        return number(damage.number, 1) + number(damage.index, 8) + b"".join(image)
    said = bytes(1) + number(header.count, 8) + header.root + number(header.end, 8) + number(header.generation, 8)
    code, image = appended_to(image, header, log)
    return said + number(header.version, 2) + number(code, 1) + b"".join(image)
