"""Calls about WARN packets: their fields, their sentence and sheet, and places near their circle."""
import glob
import os
import struct

import choices
import damages
import expected
import shapes
from choices import any_number, chance

model = expected.model

HERE = os.path.dirname(os.path.abspath(__file__))
SAMPLES = [bytes.fromhex(open(path).read()) for path in sorted(glob.glob(os.path.join(HERE, "..", "vectors", "*.hex")))]
LENGTHS = (*range(0, 11), *range(129, 136), 199, 200, 201, *range(1_197, 1_204), 1_300, 4_000)
FLAGS = (0x8000, 0x8000, 0xC000, 0xA000, 0x9000, 0x8800, 0xF800, 0xFFFF, 0x87FF)
LATEST = 2 ** 64 - 1


def case(rng):
    packet = pick(rng)
    drawn = model.warn_sheet(packet)
    sound = not expected.refused(drawn)
    length = len(model.sentence(drawn[1])) if sound else 250
    yield "read_packet", (packet, choices.any_parts(rng))
    for _ in range(2 if sound else 1):
        yield "packet_sentence", (*choices.room(rng, length), packet)
    number, sheet = yield "packet_sheet", (packet, choices.any_sheet(rng))
    if number == 0:
        yield "write", (*choices.room(rng, length), b"", sheet)
    for _ in range(rng.randint(2, 4) if sound else 1):
        yield "packet_place", (packet, *shapes.place(rng, [], circles_of(packet)))


def pick(rng):
    if chance(rng, 2):
        return rng.choice(SAMPLES)
    if chance(rng, 20):
        return damages.damaged_packet(rng, rng.choice(SAMPLES) if chance(rng, 10) else made(rng))
    return made(rng)


def circles_of(packet):
    """Its circle, as far as its centre is in range."""
    if len(packet) < 0x40:
        return []
    latitude, longitude, radius = struct.unpack_from(">iiH", packet, 0x36)
    return [(latitude, longitude, 10 * radius)] if model._place_in_range(latitude, longitude) else []


def made(rng, event=None, sequence=None, ttl=None, key=None, period=None):
    """A packet with each field at random or at its limits; of those that decide about refusal most are sound. The period is its timestamp and expiry."""
    timestamp, expiry = times(rng) if period is None else period
    latitude, longitude = shapes.at_limits(rng) if chance(rng, 6) else shapes.centre(rng)
    head = struct.pack(
        ">4sBBHQIHH6BQQQiiH", rng.choice((b"WARN", b"WARN", b"warn", b"WARM", b"\0ARN")) if chance(rng, 3) else b"WARN",
        rng.choice((0, 2, 3, 128, 255)) if chance(rng, 2) else 1, any_number(rng, 8),
        any_number(rng, 16) if chance(rng, 4) else rng.choice(FLAGS) | rng.getrandbits(15) & rng.getrandbits(15), timestamp,
        any_number(rng, 32) if event is None else event, any_number(rng, 16) if sequence is None else sequence,
        any_number(rng, 16) if ttl is None else ttl, *(any_number(rng, 8) for _ in range(6)), any_number(rng, 64), expiry, any_number(rng, 64),
        latitude, longitude, any_number(rng, 16))
    signed = struct.pack(">I", any_number(rng, 32) if key is None else key) + rng.randbytes(64)
    return sized(rng, head, signed)


def times(rng):
    """Timestamp and expiry."""
    timestamp = any_number(rng, 64)
    if chance(rng, 90):
        lasting = choices.lasting(rng)
        timestamp = min(timestamp, LATEST - lasting)
        return timestamp, timestamp + lasting
    if chance(rng, 30):
        return timestamp, any_number(rng, 64)
    return timestamp, (timestamp + rng.choice((*choices.LASTING_FAULTS, *choices.LASTING_LIMITS))) % 2 ** 64  # it may come round


def sized(rng, head, signed):
    """Head, TLV block and the signed end; or cut off, or too long."""
    if chance(rng, 12):
        length = rng.choice(LENGTHS)
    else:
        length = rng.choice((132, 132, 133, 200, 1_200, rng.randint(132, 1_200)))
    if length < 132:
        return (head + signed)[:length]
    return head + rng.randbytes(length - 132) + signed
