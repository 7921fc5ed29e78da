"""Choices that several kinds of calls make: numbers at their limits, buffers, lasting times, names."""

import library

HUGE = (2 ** 31, 2 ** 32 - 1, 2 ** 32, 2 ** 32 + 1, 2 ** 63 - 1, 2 ** 63, 2 ** 64 - 2, 2 ** 64 - 1)
LONGEST = 31_536_000
LASTING_LIMITS = (1, 2, 59, 60, 61, 3_599, 3_600, 3_601, 3_660, 86_399, 86_400, 86_401, 90_061, LONGEST - 1, LONGEST)
LASTING_FAULTS = (0, -1, -LONGEST, LONGEST + 1, LONGEST + 60, 2 ** 31, 2 ** 32 + 1)
NAME_BYTES = bytes(b for b in range(0x21, 0x100) if b not in b",<&")
LETTERS = b"abcdefghijklmnopqrstuvwxyzABCDEFGHIJKLMNOPQRSTUVWXYZ0123456789.@-_:/"


def chance(rng, percent):
    return rng.random() * 100 < percent


def any_number(rng, bits):
    """A number of so many bits, often at a limit."""
    kind = rng.randrange(8)
    if kind == 0:
        return rng.choice((0, 1, 2 ** bits - 2, 2 ** bits - 1, 2 ** (bits - 1) - 1, 2 ** (bits - 1)))
    if kind < 3:
        return rng.randrange(min(22, 2 ** bits))
    if kind < 5:
        return rng.getrandbits(rng.randint(1, bits))
    if kind == 5 and bits >= 16:  # empty thousands groups
        return rng.choice((1_000, 1_015, 20_000, 40_001, 1_000_000, 1_000_001, 90_000_010, 1_000_000_000, 4_000_000_100)) % 2 ** bits
    return rng.getrandbits(bits)


def lasting(rng):
    """A lasting time that is in range."""
    kind = rng.randrange(4)
    if kind == 0:
        return rng.choice(LASTING_LIMITS)
    if kind == 1:  # some of the four parts are zero
        return max(1, rng.choice((0, 0, 1, rng.randrange(365))) * 86_400 + rng.choice((0, 1, rng.randrange(24))) * 3_600
                   + rng.choice((0, 1, rng.randrange(60))) * 60 + rng.choice((0, 1, rng.randrange(60))))
    if kind == 2:
        return rng.randint(1, 90_000)
    return rng.randint(1, LONGEST)


def name(rng):
    """A sender or identifier that is in range."""
    length = rng.choice((1, 2, 127, 128)) if chance(rng, 10) else rng.randint(1, 24)
    chosen = bytes(rng.choices(NAME_BYTES if chance(rng, 25) else LETTERS, k=length))
    if chance(rng, 5):
        chosen = rng.choice((b"]", b"]]", b">", b"]>", b"]]]", b"'", b'"', b".", b"no", b"\x7f", b"\xff")) + chosen[:125]
    return chosen.replace(b"]]>", b"]].")


def any_sheet(rng):
    """What a sheet may hold before it is given."""
    return library.SHEET.unpack(rng.randbytes(library.SHEET.size))


def any_reason(rng):
    """What a reason may hold before it is given."""
    return library.WHY.unpack(rng.randbytes(library.WHY.size))


def any_parts(rng):
    """What a packet's parts may hold before they are given."""
    return library.PACKET.unpack(rng.randbytes(library.PACKET.size))


def room(rng, length):
    """A buffer and a start for a sentence of that length: too small, just enough, ample, past the end."""
    kind = rng.randrange(12)
    before = rng.choice((0, 0, 1, rng.randrange(300)))
    if kind < 4:
        size, start = before + length + rng.randrange(300), before
    elif kind < 6:
        size, start = before + length, before
    elif kind == 6:
        size, start = before + length - 1, before
    elif kind == 7:
        size, start = before + rng.randrange(length), before
    elif kind == 8:
        size, start = before, before
    elif kind == 9:
        size, start = before, before + rng.randint(1, 300)
    elif kind == 10:
        size = rng.randrange(1_000)
        start = rng.choice((*HUGE, 2 ** 64 - length, 2 ** 64 - length + size, 2 ** 64 - size)) % 2 ** 64
    else:
        size, start = rng.randrange(1_000), rng.randrange(1_000)
    return rng.randbytes(max(size, 0)), start
