"""Polygons, circles, and places that lie near them, on them or anywhere. Units are 1e-7 degree; a circle is (latitude, longitude, metres)."""
import math

import expected
from choices import chance

model = expected.model

LATITUDE, LONGITUDE = model.LAT_LIMIT, model.LON_LIMIT
FULL_TURN = 2 * LONGITUDE
FARTHEST = 20_000_000  # metres
GRAINS = (1, 7, 1_000, 10_000, 1_000_000, 10_000_000)


def clamp(value, limit):
    return max(-limit, min(limit, value))


def in_turn(longitude):
    """The same meridian within range: past 180 degrees comes -180."""
    return longitude if abs(longitude) <= LONGITUDE else (longitude + LONGITUDE) % FULL_TURN - LONGITUDE


def centre(rng):
    if chance(rng, 15):
        return (rng.choice((-LATITUDE, -LATITUDE + 1, -1, 0, 1, LATITUDE - 1, LATITUDE)),
                rng.choice((-LONGITUDE, -LONGITUDE + 1, -1, 0, 1, LONGITUDE - 1, LONGITUDE)))
    if chance(rng, 15):  # at a step of the cosine table
        return rng.randint(-899, 899) * 1_000_000 + rng.choice((-1, 0, 0, 1)), rng.randint(-1_799, 1_799) * 1_000_000
    if chance(rng, 15):  # near the date line
        return rng.randint(-LATITUDE, LATITUDE), in_turn(LONGITUDE + rng.choice((1, -1)) * rng.randrange(rng.choice((10, 100_000, 100_000_000))))
    return rng.randint(-LATITUDE, LATITUDE), rng.randint(-LONGITUDE, LONGITUDE)


def crowd(rng):
    """Where shapes lie close together, so that several hold the same places: their middle, and the grain of their distances."""
    return *centre(rng), rng.choice(GRAINS)


def polygon(rng, its_crowd=None):
    """At least 4 pairs, the last equal to the first."""
    count = rng.choice((3, 3, 4, 4, 5, 6, 8, rng.randint(3, 40)))
    if its_crowd and chance(rng, 85):
        vertices = crowd_vertices(rng, count, *its_crowd)
    else:
        vertices = rng.choice((spread_vertices, near_vertices, near_vertices, near_vertices, level_vertices))(rng, count)
    return vertices + vertices[:1]


def spread_vertices(rng, count):
    """Over the whole grid, often at its corners, where the products are largest."""
    return [anywhere(rng) if chance(rng, 50) else
            (rng.choice((-LATITUDE, LATITUDE, LATITUDE - 1, 0)), rng.choice((-LONGITUDE, 1 - LONGITUDE, LONGITUDE, 0))) for _ in range(count)]


def near_vertices(rng, count):
    """Of few latitudes and longitudes, so that edges are often flat, upright, shared or crossed."""
    return crowd_vertices(rng, count, *crowd(rng))


def crowd_vertices(rng, count, latitude, longitude, grain):
    steps = rng.choice((2, 3, 5, 9, 60))
    return [(clamp(latitude + grain * rng.randint(-steps, steps), LATITUDE), clamp(longitude + grain * rng.randint(-steps, steps), LONGITUDE))
            for _ in range(count)]


def level_vertices(rng, count):
    """Mostly at one latitude or a unit beside it, so that a place there has many edges that start or end at its latitude."""
    latitude, longitude = centre(rng)
    grain = rng.choice(GRAINS)
    return [(clamp(latitude + rng.choice((0, 0, 0, 1, -1, grain, -grain)), LATITUDE), clamp(longitude + grain * rng.randint(-9, 9), LONGITUDE))
            for _ in range(count)]


def circle(rng, its_crowd=None):
    if its_crowd and chance(rng, 85):
        return crowd_circle(rng, *its_crowd)
    latitude, longitude = centre(rng)
    kind = rng.randrange(5)
    if kind == 0:
        metres = rng.choice((0, 1, 2, 999, 1_000, 111_195, FARTHEST - 1, FARTHEST))
    elif kind == 1:
        metres = rng.randint(0, FARTHEST)
    else:
        metres = rng.randint(0, rng.choice((100, 10_000, 1_000_000)))
    return latitude, longitude, metres


def crowd_circle(rng, latitude, longitude, grain):
    metres = grain * rng.randint(0, 9) // 90  # 90 units are a metre, or nearly so
    return clamp(latitude + grain * rng.randint(-5, 5), LATITUDE), in_turn(longitude + grain * rng.randint(-5, 5)), metres


# ---- as texts

def decimal_text(rng, value):
    whole, part = divmod(abs(value), 10 ** 7)
    sign = "-" if value < 0 else rng.choice(("", "", "", "+", "-" if value == 0 else ""))
    digits = f"{part:07}"
    if chance(rng, 70):
        digits = digits.rstrip("0")
    if not digits and chance(rng, 20):
        digits = "0" * rng.randint(1, 7)
    leading = f"{whole:0{rng.randint(1, 3)}}" if chance(rng, 10) else str(whole)
    return sign + leading + ("." + digits if digits else "")


def pair_text(rng, pair):
    return decimal_text(rng, pair[0]) + "," + decimal_text(rng, pair[1])


def space(rng, least):
    return " " * least if chance(rng, 90) else "".join(rng.choices(" \t\r\n", k=rng.randint(least, 4)))


def polygon_text(rng, pairs):
    words = [pair_text(rng, pair) + space(rng, 1) for pair in pairs]
    text = space(rng, 0) + "".join(words)
    return (text if chance(rng, 20) else text.rstrip()).encode()


def circle_text(rng, shape):
    kilometres, metres = divmod(shape[2], 1_000)
    digits = f"{metres:03}"
    digits = digits.rstrip("0") if chance(rng, 70) else digits
    leading = f"{kilometres:0{rng.randint(1, 5)}}" if chance(rng, 10) else str(kilometres)
    radius = leading + ("." + digits if digits else "")
    return (space(rng, 0) + pair_text(rng, shape) + space(rng, 1) + radius + space(rng, 0)).encode()


# ---- places

def nudge(rng):
    return rng.choice((0, 0, 0, 1, -1, 2, -2))


def near_polygon(rng, pairs):
    at = rng.randrange(len(pairs) - 1)
    (y1, x1), (y2, x2) = pairs[at], pairs[at + 1]
    kind = rng.randrange(6)
    if kind == 0:
        return y1 + nudge(rng), x1 + nudge(rng)
    if kind in (1, 2):  # a grid point of the edge, or beside it
        steps = math.gcd(y2 - y1, x2 - x1)
        step = rng.randint(-1, steps + 1) if steps else 0
        y, x = (y1 + (y2 - y1) // steps * step, x1 + (x2 - x1) // steps * step) if steps else (y1, x1)
        return y + (nudge(rng) if kind == 2 else 0), x + nudge(rng)
    latitudes, longitudes = [y for y, _ in pairs], [x for _, x in pairs]
    west, east = min(longitudes), max(longitudes)
    if kind == 3:  # where the edge crosses a latitude, rounded
        y = rng.randint(min(y1, y2), max(y1, y2))
        return y, (x1 + (x2 - x1) * (y - y1) // (y2 - y1) if y2 != y1 else x1) + nudge(rng)
    if kind == 4:  # at the latitude of a vertex
        return y1, rng.randint(west - 3, east + 3)
    return rng.randint(min(latitudes) - 3, max(latitudes) + 3), rng.randint(west - 3, east + 3)


def near_circle(rng, shape):
    latitude, longitude, metres = shape
    u = model.reach(metres)
    dy = rng.choice((0, u, u + 1, rng.randint(0, u), rng.randint(0, u), rng.randint(0, u)))
    dx = math.isqrt(max(u * u - dy * dy, 0))
    cosine = model.COSINE[abs(latitude) // 1_000_000]
    # the largest longitude difference that is still taken for dx; or half way round, where both ways are as long
    across = ((dx + 1) * 10 ** 6 - 1) // cosine if cosine else rng.randrange(LONGITUDE)
    across = LONGITUDE if chance(rng, 5) else across
    east = longitude + rng.choice((-1, 1)) * (across + nudge(rng))
    return latitude + rng.choice((-1, 1)) * (dy + nudge(rng)), in_turn(east) if chance(rng, 80) else east


def anywhere(rng):
    return rng.randint(-LATITUDE, LATITUDE), rng.randint(-LONGITUDE, LONGITUDE)


def at_limits(rng):
    """At the limits of the range, or out of it."""
    latitude = rng.choice((0, LATITUDE, LATITUDE + 1, 2 ** 31 - 1, rng.randrange(2 ** 31)))
    longitude = rng.choice((0, LONGITUDE, LONGITUDE + 1, 2 ** 31 - 1, rng.randrange(2 ** 31)))
    return rng.choice(((latitude, longitude), (-latitude, -longitude), (latitude, -longitude), (-2 ** 31, longitude), (latitude, -2 ** 31)))


def place(rng, polygons, circles):
    """A place to be asked about: mostly near one of the shapes."""
    kind = rng.randrange(12)
    if kind == 0:
        return at_limits(rng)
    if kind == 1 or not (polygons or circles):
        return anywhere(rng)
    if polygons and (not circles or chance(rng, 60)):
        latitude, longitude = near_polygon(rng, rng.choice(polygons))
    else:
        latitude, longitude = near_circle(rng, rng.choice(circles))
    if chance(rng, 95):
        return clamp(latitude, LATITUDE), clamp(longitude, LONGITUDE)
    return clamp(latitude, 2 ** 31 - 1), clamp(longitude, 2 ** 31 - 1)
