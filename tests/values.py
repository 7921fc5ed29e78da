#!/usr/bin/env python3
"""Writes crates/values_test/stdin and stdout: cases at every limit, and their answers.

The answers come from tests/model/model02.py, which was written from documents 01 and 02 alone, and from Python's own datetime and
decimal modules. Run it from the repository's root after a change to the cases; the gate compares the program with stdout.
"""
import datetime
import itertools
import math
import os
import sys

sys.path.insert(0, os.path.join(os.path.dirname(__file__), "model"))
import model02 as model

FOLDER = os.path.join(os.path.dirname(__file__), "..", "crates", "values_test")


# ---- times

# the last days of a common year's months, of a leap year's February (and the day before) and year, and of the last year
DAY_ENDS = ("2023-01-31", "2023-02-28", "2023-03-31", "2023-04-30", "2023-05-31", "2023-06-30", "2023-07-31", "2023-08-31", "2023-09-30", "2023-10-31",
            "2023-11-30", "2023-12-31", "2024-02-28", "2024-02-29", "2024-12-31", "9999-12-31")
OFFSETS = ("+00:00", "-00:00", "-07:00", "+05:30", "+14:00", "-14:00", "+13:59", "-00:01")


def around_day_end(days):
    """Hours 23 to 25 with minutes and seconds 0, 1 and 59 on each day: (text, hour, minute and second)"""
    for i, day in enumerate(days):
        for clock in itertools.product((23, 24, 25), (0, 1, 59), (0, 1, 59)):
            yield "{}T{:02}:{:02}:{:02}{}".format(day, *clock, OFFSETS[i % len(OFFSETS)]), clock


def times():
    good = "2002-05-24T16:49:00-07:00"
    yield from [good, "0001-01-01T00:00:00-00:00", "0001-01-01T00:00:00+14:00", "0001-01-01T00:00:00-14:00",
                "9999-12-31T23:59:59-14:00", "9999-12-31T23:59:59+14:00", "1970-01-01T00:00:00+00:00",
                "1970-01-01T00:00:00-00:00", "1969-12-31T23:59:59+00:00", "1970-01-01T00:00:00+00:01",
                "2026-11-15T10:00:00-00:00", "2026-11-15T11:15:00+01:00", "2038-01-19T03:14:08+00:00"]
    # each field at and past its limits
    for year in ("0000", "0001", "0004", "0100", "0400", "1600", "1700", "1900", "2000", "2100", "2400", "9996", "9999"):
        for day in ("02-28", "02-29", "02-30", "03-01", "12-31"):
            yield f"{year}-{day}T12:34:56+05:30"
    for month in range(0, 14):
        for day in (0, 1, 28, 29, 30, 31, 32):
            yield f"2023-{month:02}-{day:02}T00:00:00+00:00"
    for hour in (0, 9, 12, 19, 20, 23, 24, 25, 30, 99):
        yield f"2023-06-15T{hour:02}:00:00+00:00"
    # hour 24 with zero minutes and seconds, and the times around it, at ends of months, of years, of the calendar
    for time, clock in around_day_end(DAY_ENDS + ("1900-02-28", "2000-02-29", "0001-01-01")):
        yield time
    for offset in OFFSETS + ("+14:01", "-14:01", "+24:00", "-24:00", "+00:60"):
        yield f"9999-12-31T24:00:00{offset}"
    yield from ["0000-12-31T24:00:00+00:00", "2023-02-29T24:00:00+00:00", "2023-04-31T24:00:00+00:00", " 2024-02-28T24:00:00-07:00\n",
                "2023-06-15T24:00:00Z", "2023-06-15T24:00+00:00"]
    for sixty in (0, 1, 59, 60, 61, 99):
        yield f"2023-06-15T00:{sixty:02}:00+00:00"
        yield f"2023-06-15T00:00:{sixty:02}+00:00"
        yield f"2023-06-15T00:00:00+00:{sixty:02}"
        yield f"2023-06-15T00:00:00-13:{sixty:02}"
    for offset in ("+00:00", "-00:00", "+13:59", "+14:00", "-14:00", "+14:01", "-14:01", "+15:00", "-15:00", "+99:00",
                   "Z", "z", "+1:00", "+0100", "+01", "", ",01:00", "+24:00"):
        yield f"2023-06-15T12:00:00{offset}"
    # white space around, and nothing else
    for space in (" ", "\t", "\n", "\r", "  \t\r\n  "):
        yield space + good
        yield good + space
        yield space + good + space
    for other in ("\x0b", "\x0c", "\xa0", "\x00", "x", "<", "0", " x", "x "):
        yield other + good
        yield good + other
    yield from ["", " ", "2002-05-24 16:49:00-07:00", "2002-05-24t16:49:00-07:00", "02002-05-24T16:49:00-07:00",
                "+2002-05-24T16:49:00-07:00", "-2002-05-24T16:49:00-07:00", "2002-05-24T16:49:00.0-07:00",
                "2002-05-24T16:49-07:00", "2002-5-24T16:49:00-07:00", "2002/05/24T16:49:00-07:00",
                "2002-05-24T16.49.00-07:00", "2002-05-24T16:49:00-07:0", "2002-05-24T16:49:00-07:000",
                "200a-05-24T16:49:00-07:00", "2002-05-24T16:49:0/-07:00", "2002-05-24T16:49:0:-07:00"]
    # every byte of the form damaged upwards and downwards
    for i, c in enumerate(good):
        yield good[:i] + chr(ord(c) + 1) + good[i + 1:]
        yield good[:i] + chr(ord(c) - 1) + good[i + 1:]
        yield good[:i] + good[i + 1:]
        yield good[:i] + " " + good[i:]


def time_answer(text):
    z = model.instant(text.encode("latin-1"))
    # the calendar once more by Python's own, where its range allows; it knows no hour 24, which is a day after hour 0
    ends_day = "T24:00:00" in text
    try:
        there = datetime.datetime.strptime(text.strip(" \t\r\n").replace("T24:00:00", "T00:00:00"), "%Y-%m-%dT%H:%M:%S%z")
        epoch = datetime.datetime(1970, 1, 1, tzinfo=datetime.timezone.utc)
        if z is not None:
            assert (there - epoch) // datetime.timedelta(seconds=1) + 86_400 * ends_day == z, text
    except (ValueError, OverflowError):
        pass
    return "fault" if z is None else str(z)


# ---- numbers and durations

def numbers():
    picked = set(range(0, 131)) | {199, 200, 201, 219, 220, 221, 299, 300, 365, 900, 909, 910, 911, 919, 920, 990, 999}
    for size in (1_000, 1_000_000, 1_000_000_000):
        for near in (-1, 0, 1, 15, 100, 999):
            for times in (1, 2, 4):
                picked.add(times * size + near)
        for times in (10, 19, 20, 21, 99, 100, 101, 999):
            picked.add(times * size)
    picked |= {1_015, 65_535, 65_536, 1_001_001, 1_000_001, 2_147_483_647, 2_147_483_648, 4_000_000_000, 4_294_967_294, 4_294_967_295}
    return sorted(n for n in picked if n <= 4_294_967_295)


def durations():
    picked = {1, 2, 59, 60, 61, 62, 119, 120, 121, 3_599, 3_600, 3_601, 3_660, 3_661, 3_662, 3_720, 3_900, 7_199, 7_200,
              7_261, 900, 3_780, 16_200, 21_300, 86_399, 86_400, 86_401, 86_460, 90_000, 90_061, 172_799, 172_800, 176_461,
              1_779_044, 31_535_999, 31_536_000}
    return sorted(picked)


def value_of(spoken):
    """What reading answers for words that nobody wrote as one number; by the rule in crates/words/specs/Reading.antt."""
    total = current = 0
    for word in spoken.split():
        if word in model._SMALL:
            current += model._SMALL.index(word)
        elif word in model._TENS:
            current += 10 * model._TENS.index(word)
        elif word == "hundred":
            current *= 100
        elif word in ("thousand", "million", "billion"):
            total, current = total + current * {"thousand": 10 ** 3, "million": 10 ** 6, "billion": 10 ** 9}[word], 0
        else:
            break
    return (total + current) % 2 ** 32


# ---- decimals

def decimals():
    for limit in (90, 180):
        yield from [f"{limit}", f"-{limit}", f"+{limit}", f"{limit}.0000000", f"{limit}.0000001", f"-{limit}.0000001",
                    f"{limit - 1}.9999999", f"-{limit - 1}.9999999", f"0{limit}", f"{limit + 1}"]
    yield from ["0", "-0", "+0", "000", "0000", "0.0", "-0.0000000", "0.00000000", "1.2345678", "1.23456789", "1.", ".5", "-.5",
                "+-1", "--1", "-", "+", "", ".", "1.2.3", "1,2", "1e1", " 1", "1 ", "1\n", "٣", "7a", "a7", "12.3456a", "12.a",
                "0.1", "0.01", "0.001", "0.0001", "0.00001", "0.000001", "0.0000001", "-0.0000001", "45.5", "007.7", "1-1",
                "999", "999.9999999", "12345", "\x00", "0x1", "1/2", "1:2", "9", "/", ":", "-12.5", "+12.5"]


def degrees_answer(text, limit):
    p = model._pair(text.encode("utf-8") + b",0") if limit == model.LAT_LIMIT else model._pair(b"0," + text.encode("utf-8"))
    return "fault" if p is None else str(p[0] if limit == model.LAT_LIMIT else p[1])


def radii():
    yield from ["0", "0.000", "0.001", "1", "20000", "20000.0", "20000.000", "20000.001", "20001", "19999.999", "99999", "020000",
                "00001", "000001", "-1", "+1", "1.2345", "1.", ".1", "", "195", "1 ", " 1", "1,0", "0.0000", "12345.678"]


def radius_answer(text):
    c = model.circle(b"0,0 " + text.encode()) if text == text.strip() else None
    return "fault" if c is None else str(c[2])


# ---- shapes

def polygons():
    square = "0,0 0,10 10,10 10,0 0,0"
    diamond = "38.47,-120.14 38.34,-119.95 38.52,-119.74 38.62,-119.89 38.47,-120.14"
    notch = "0,0 0,20 10,20 5,10 10,0 0,0"                        # a vertex that points down from above
    comb = "0,0 10,5 0,10 10,15 0,20 -5,20 -5,0 0,0"              # vertices at one latitude, above and below
    stairs = "0,0 0,10 5,10 5,20 10,20 10,0 0,0"                  # horizontal edges at a latitude between
    world = "-90,-180 -90,180 90,180 90,-180 -90,-180"
    bow = "0,0 10,10 10,0 0,10 0,0"                               # crosses itself
    flat = "0,0 0,5 0,10 0,0"                                     # no area
    point = "1,1 1,1 1,1 1,1"
    for lat in (-0.0000001, 0, 0.0000001, 5, 9.9999999, 10, 10.0000001):
        for lon in (-0.0000001, 0, 0.0000001, 5, 9.9999999, 10, 10.0000001, 15, 20):
            for shape in (square, stairs, notch, bow):
                yield f"{lat:.7f},{lon:.7f}", shape
    for lat, lon in ((38.5, -119.95), (38.47, -120.14), (38.62, -119.89), (38.34, -119.95), (38.52, -119.74),
                     (38.405, -120.045), (38.62, -119.8900001), (38.34, -120), (38.52, -119.73), (38.52, -119.9)):
        yield f"{lat:.7f},{lon:.7f}", diamond
    for lon in (-1, 0, 2, 5, 8, 10, 12, 15, 18, 20, 21):
        for lat in (0, 5, 10, -5):
            yield f"{lat},{lon}", comb
    for lat in (-90, 0, 90):
        for lon in (-180, 0, 180):
            yield f"{lat},{lon}", world
            yield f"{lat},{lon}", "90,180 -90,-180 90,-180 90,180"
    for lon in (-0.0000001, 0, 3, 10, 10.0000001):
        yield f"0,{lon:.7f}", flat
    yield "1,1", point
    yield "1,1.0000001", point
    # the grid is flat: written across the date line, this is the wide one
    for lon in ("0", "178.9999999", "179", "179.5", "180", "-180", "-179.5", "-179", "-178.9999999"):
        yield f"0,{lon}", "-1,179 -1,-179 1,-179 1,179 -1,179"
    # the extremes of the products: a long edge, a place one unit off it
    long_edge = "-90,-180 90,180 90,179.9999999 -90,-180"
    for lon in ("0.0000001", "-0.0000001", "0", "179.9999999", "180"):
        yield f"0,{lon}", long_edge
    yield "89.9999999,179.9999998", long_edge
    yield "-89.9999999,-179.9999998", long_edge
    # edges that start or end at the place's latitude, in every way: each vertex north of it, at it or south of it
    for latitudes in itertools.product((-1, 0, 1), repeat=4):
        text = " ".join(f"{latitude},{longitude}" for latitude, longitude in zip(latitudes, (1, 3, 2, 0)))
        for place in ("0,1", "0,0.5"):
            yield place, f"{text} {latitudes[0]},1"
    # texts
    for text in ("", " ", "0,0", "0,0 0,1 1,1", "0,0 0,1 0,0", "0,0 0,1 1,1 0,0", "0,0 0,1 1,1 -0.0,+000", "0,0 0,1 1,1 0,0.0000001",
                 "\t0,0\n0,1\r1,1  0,0 \n", "0,0\x0b0,1 1,1 0,0", "0,0 0,1 1,1 0,0 x", "0,0;0,1 1,1 0,0", "0, 0 0,1 1,1 0,0",
                 "0 ,0 0,1 1,1 0,0", "0,0,0 0,1 1,1 0,0", "180,0 0,1 1,1 180,0", "0,180 0,-180 1,1 0,180", "0,180 0,1 1,1 0,-180",
                 "0,0 0,1 1,1 90.0000001,0 0,0", "0,0 0,1 1,1 2,2 0,0 0,0", "1,1 0,0 0,1 1,1 ,", "+1,+1 2,2 3,1 1.0,1.0000000"):
        yield "0.5,0.5", text


def circles():
    for place in ("0.0089932,0", "0.0089933,0", "-0.0089932,0", "-0.0089933,0", "0,0.0089932", "0,0.0089933", "0,0", "0.005,0.005"):
        yield place, "0,0 1"
    for place in ("32.9525,-115.5527", "32.9525,-115.5526999", "32.9525,-115.5526998", "32.9525001,-115.5527"):
        yield place, "32.9525,-115.5527 0"
    for place in ("26.8536759,128.6", "26.8536760,128.6", "25.1,130.5365459", "25.1,130.5365460"):
        yield place, "25.1,128.6 195"
    for place in ("90,0", "90,180", "90,-180", "89.9,0", "-90,0", "-90,180"):
        yield place, "90,0 10"
        yield place, "-90,-180 10"
    for place in ("0,180", "0,-180", "0,179.99", "0,-179.99", "90,0", "-90,180"):
        yield place, "0,180 20000"
        yield place, "0,-180 20000.000"
        yield place, "0,-179.99 50"
    yield from date_line()
    for text in ("", " ", "0,0", "0,0 1 2", " \n0,0\t\r1 ", "0,0,1", "1 0,0", "0,0 -1", "0,0 20000.001", "0,0 1.2345", "91,0 1", "0,181 1"):
        yield "0,0", text


def date_line():
    """The shorter way round: across the date line, on it, half way round, at the poles."""
    for lon in ("179.99", "-179.99", "179.9899999", "-179.9899999", "179.9900001", "180", "-180", "179.9999999", "-179.9999999"):
        for radius in ("1.064", "1.065", "2.128", "2.129"):
            yield f"-16.8,{lon}", f"-16.8,-179.99 {radius}"
            yield f"-16.8,{lon}", f"-16.8,179.99 {radius}"
        for line in ("180", "-180"):
            yield f"0,{lon}", f"0,{line} 0"
            yield f"60,{lon}", f"60,{line} 0"
            yield f"0,{lon}", f"0,{line} 1.111"
    # 1,800,000,000 is both ways' length, and at latitude 60 half of it is 10,007.55 km
    for centre, places in (("0", ("180", "-180", "179.9999998", "-179.9999998")), ("90", ("-90", "-89.9999998", "-90.0000002")),
                           ("-90.0000001", ("90", "89.9999999", "89.9999997", "90.0000001"))):
        for lon in places:
            yield f"60,{lon}", f"60,{centre} 10007.55"
            yield f"60,{lon}", f"60,{centre} 10007.549"
    for lon in ("180", "-180", "179.99", "-179.99", "0", "90"):
        for centre in ("90,-180", "90,179.99", "89.9999999,-179.99", "-90,180", "-89.9,-179.99"):
            yield f"{centre.split(',')[0]},{lon}", f"{centre} 0.1"
    yield "0,180", "0,0 20000"
    yield "0,-179.8642025", "0,0 20000"
    yield "0,-179.8642026", "0,0 20000"


# as crates/values_test/src/main.rt has them: around the date line, half way round from it, at the ends of i32
LONGITUDES = (-2_147_483_648, -1_900_000_000, -1_800_000_001, -1_800_000_000, -1_799_999_999, -1_799_900_000, -900_000_000, -1,
              0, 1, 900_000_001, 1_799_900_000, 1_799_999_999, 1_800_000_000, 1_800_000_001, 2_147_483_647)


def shorter_way(a, b):
    """The least of all ways from one longitude to another, full turns taken off or added; the model's where both are in range."""
    way = min(abs(a - b + turns * 3_600_000_000) for turns in range(-2, 3))
    if max(abs(a), abs(b)) <= model.LON_LIMIT:
        assert model._longitude_difference(a, b) == way, (a, b)
    return way


def holds(shape, rule, place):
    return "fault" if shape is None else "inside" if rule(shape, *place) else "outside"


def main():
    cases, answers = [], []

    def add(kind, text, answer):
        assert "#" not in text, text
        encoded = text.encode("latin-1") if kind == "T" else text.encode("utf-8")
        cases.append(kind.encode() + encoded + b"#\n")
        answers.append(answer)

    for i in range(901):
        entry = math.floor(10 ** 6 * math.cos(math.radians(i / 10)) + 0.5)
        assert model.COSINE[i] == entry, i
        answers.append(str(entry))
    for a in LONGITUDES:
        for b in LONGITUDES:
            answers.append(str(shorter_way(a, b)))
    for text in times():
        add("T", text, time_answer(text))
    for n in numbers():
        add("N", " " + model.words(n), f"{n} {model.words(n)}")
    for spoken in (" one of two", " two days", " seven, from", " seven.", " seventy one x", " one one", " hundred", " five thousand million", " one-two",
                   " four billion two hundred ninety four million nine hundred sixty seven thousand two hundred ninety six"):
        n = value_of(spoken.replace(",", " ,").replace(".", " .").replace("-", " -"))
        add("N", spoken, f"{n} {model.words(n)}")
    for spoken in ("one", "", " ", "  one", " One", " and", " onetwo"):
        add("N", spoken, "0 zero")
    for s in durations():
        add("D", " " + model.duration(s), f"{s} {model.duration(s)}")
    for spoken, s in ((" one days", 1 * 86_400), (" two day", 2 * 86_400), (" five seconds one minute", 65), (" zero days one second", 1), (" one minute, x", 60)):
        add("D", spoken, f"{s} {model.duration(s)}")
    for text in decimals():
        add("A", text, degrees_answer(text, model.LAT_LIMIT))
        add("O", text, degrees_answer(text, model.LON_LIMIT))
    for text in radii():
        add("R", text, radius_answer(text))
    for place, text in polygons():
        ring, at = model.polygon(text.encode()), model._pair(place.encode())
        add("P", f"{place};{text}", ("" if ring is None else "polygon ") + holds(ring, model._polygon_holds, at))
    for place, text in circles():
        disc, at = model.circle(text.encode()), model._pair(place.encode())
        add("C", f"{place};{text}", holds(disc, model._circle_holds, at))

    stdin = b"".join(cases)
    assert len(stdin) < 65_536, len(stdin)
    open(os.path.join(FOLDER, "stdin"), "wb").write(stdin)
    open(os.path.join(FOLDER, "stdout"), "w").write("\n".join(answers) + "\n")
    print(f"{len(cases)} cases, {len(stdin)} bytes, {len(answers)} answers")


if __name__ == "__main__":
    main()
