"""Texts at the edges of the rules of their element, some of them just inside and some just outside."""
import alerts
import expected
import shapes
from choices import chance

model = expected.model

FAULTY_NAMES = (b"", b"a,b", b"a b", b"a\nb", b" a", b"a ", b"a&lt;b", b"a\x7fb", b"\xc3", b"]]", b"a]]b", b"x" * 128, b"x" * 129, b"," * 129, b"y" * 200)
ZONES = ("+00:00", "-00:00", "+14:00", "-14:00", "+13:59", "-13:59", "+14:01", "-14:01", "+15:00", "+00:59", "+00:60", "-23:00", "+24:00", "-24:00", "Z", "", "+0:00", "+00", "00:00", "+00:00Z",
         " +00:00", "+-1:00")
ALL_CODES = sorted({code for codes in expected.CODES.values() for code in codes})
DECIMALS = ("0", "-0", "+0", "00", "000", "0000", "90", "-90", "90.0", "90.0000000", "90.0000001", "-90.0000001", "91", "180", "-180", "180.0000001", "-180.0000001", "179.9999999",
            "181", "999.9999999", "1.", ".5", "1.12345678", "1.1234567", "+-1", "--1", "1e1", "", "-", "+", ".", "1.-1", "0x1", "१", "089.9999999", "+090")
RADII = ("0", "0.0", "00000", "000000", "1.", ".5", "20000", "20000.0", "20000.000", "20000.001", "20001", "19999.999", "99999", "100000", "-1", "+1", "1.0000", "1.1234", "1e3",
         "", "1 1", "1,1", "5")


def text(rng, element, was):
    """A text for the element: at an edge of its rule, or made out of what it was."""
    if element in model.TIMES:
        return time_text(rng).encode()
    if element in model.NAMES:
        return rng.choice(FAULTY_NAMES)
    if element in expected.CODES:
        return code_text(rng, element).encode()
    if element == "polygon":
        return polygon_text(rng, was).encode()
    if element == "circle":
        return circle_text(rng, was).encode()
    return rng.choice(alerts.FREE_TEXTS) + rng.choice((b"", b"<!-- c -->", b"]]>", b"&", b"&gt;", b"\x0c", b"<b/>"))


def time_text(rng):
    year = rng.choice(("0000", "0001", "0004", "0100", "1900", "2000", "2023", "2024", "2100", "2400", "9999", "999", "10000", "-001"))
    month = rng.choice((0, 1, 2, 2, 2, 2, 4, 6, 9, 11, 12, 13))
    day = rng.choice((0, 1, 28, 28, 29, 29, 29, 30, 31, 32))
    hour, minute, second = rng.choice((0, 0, 12, 23, 23, 24, 24, 25)), rng.choice((0, 0, 0, 30, 59, 60)), rng.choice((0, 0, 0, 1, 59, 60))
    zone = rng.choice(ZONES[:6]) if chance(rng, 60) else rng.choice(ZONES)
    made = f"{year}-{month:02}-{day:02}T{hour:02}:{minute:02}:{second:02}{zone}"
    if chance(rng, 10):
        at = rng.randrange(len(made))
        made = made[:at] + rng.choice(("", " ", "0", "t", "-", ":", ".5")) + made[at + 1:]
    return rng.choice(("", "", "", " ", "\r\n\t")) + made + rng.choice(("", "", "", " ", "\n"))


def code_text(rng, element):
    made = rng.choice(expected.CODES[element] if chance(rng, 50) else ALL_CODES)
    return rng.choice((made, made, made.lower(), made.upper(), made[:-1], made + "s", " " + made, made + " ", "", "Very Likely", made + "\n"))


def pair_text(rng):
    latitude, longitude = shapes.anywhere(rng)
    latitude = rng.choice(DECIMALS) if chance(rng, 50) else shapes.decimal_text(rng, latitude)
    longitude = rng.choice(DECIMALS) if chance(rng, 50) else shapes.decimal_text(rng, longitude)
    return latitude + rng.choice((",", ",", ",", ",", ",", ",", ",", ", ", " ", ",,", " ,", "")) + longitude


def polygon_text(rng, was):
    """The polygon with a pair changed, left out, put in or repeated; with its end no longer its start, or equal in value only."""
    pairs = was.decode("latin-1").split() or ["0,0"]
    kind = rng.randrange(6)
    at = rng.randrange(len(pairs))
    if kind == 0:
        pairs[at] = pair_text(rng)
    elif kind == 1:
        del pairs[at]
    elif kind == 2:
        pairs.insert(at, pair_text(rng))
    elif kind == 3:
        pairs[-1] = rng.choice(("+", "0", "", "-")) + pairs[0] + rng.choice(("", "0", ".0", ".", "00"))
    elif kind == 4:
        pairs = pairs[:rng.choice((1, 2, 3, 4))] + pairs[-1:]
    else:
        pairs = [pairs[0]] * rng.choice((3, 4, 5))
    return rng.choice(("", " ", "\n")) + rng.choice((" ", " ", "\t", "\r\n", "  ")).join(pairs) + rng.choice(("", " ", ","))


def circle_text(rng, was):
    """The circle with its centre or its radius changed, or with something between or after."""
    centre, radius = [*was.decode("latin-1").split(), "0,0", "1"][:2]
    kind = rng.randrange(4)
    if kind == 0:
        centre = pair_text(rng)
    elif kind < 3:
        radius = rng.choice(RADII)
    return rng.choice(("", " ", "\n")) + centre + rng.choice((" ", " ", " ", "\t\n", "  ", "", ",")) + radius + rng.choice(("", "", "", " ", " 1", "\r\n"))
