#!/usr/bin/env python3
"""Makes the benchmarks' inputs, the same in each run: inputs.py FOLDER."""
import glob
import itertools
import math
import os
import shutil
import struct
import sys

VECTORS = os.path.join(os.path.dirname(os.path.abspath(__file__)), "..", "tests", "vectors")
LIMIT = 65_535

ALERT = """<?xml version="1.0" encoding="UTF-8"?>
<alert xmlns="urn:oasis:names:tc:emergency:cap:1.2">
  <identifier>KSTO1055887203</identifier>
  <sender>KSTO@NWS.NOAA.GOV</sender>
  <sent>2003-06-17T14:57:00-07:00</sent>
  <status>Actual</status>
  <msgType>Alert</msgType>
  <scope>Public</scope>
{infos}</alert>
"""
INFO = """  <info>
    <category>{category}</category>
    <event>SEVERE THUNDERSTORM</event>
    <responseType>Shelter</responseType>
    <urgency>{urgency}</urgency>
    <severity>{severity}</severity>
    <certainty>{certainty}</certainty>
    <expires>2003-06-{day}T16:00:00-07:00</expires>
    <description>{description}</description>
{areas}  </info>
"""
AREA = """    <area>
      <areaDesc>SOUTHWESTERN ALPINE COUNTY IN CALIFORNIA</areaDesc>
{shapes}{geocodes}    </area>
"""
POLYGON = "      <polygon>{}</polygon>\n"
CIRCLE = "      <circle>{:.4f},{:.4f} 5</circle>\n"
GEOCODE = """      <geocode>
        <valueName>SAME</valueName>
        <value>{:06}</value>
      </geocode>
"""
SENTENCES = [
    "AT 254 PM PDT...NATIONAL WEATHER SERVICE DOPPLER RADAR INDICATED A SEVERE THUNDERSTORM OVER SOUTH CENTRAL ALPINE COUNTY.",
    "THE STORM IS ABOUT 18 MILES SOUTHEAST OF KIRKWOOD...MOVING SOUTHWEST AT 5 MPH.",
    "HAIL...INTENSE RAIN AND STRONG DAMAGING WINDS ARE LIKELY WITH THIS STORM.",
    "Take cover in a substantial shelter until the storm passes; stay away from windows.",
    "Roads &amp; bridges along the Mokelumne River may flood within minutes.",
    "Dangerous winds of 60 to 70 mph can bring down trees and power lines.",
    "Svært kraftige vindkast og store nedbørmengder ventes i fjellet utover ettermiddagen.",
    "Campers above 8,000 feet should move to lower ground now, and not wait for another warning.",
    "Call 9-1-1 only in an emergency; for reports of hail larger than 1 inch call the office in Sacramento.",
    "A flash flood watch remains in effect for Calaveras, Tuolumne and Alpine counties until 9 PM PDT this evening.",
    "Il est conseillé d'éviter tout déplacement dans la région jusqu'à la fin de l'alerte.",
]


def star(pairs, latitude, longitude, radius):
    """A closed ring of that many pairs around a place; the radius is a function of the angle, so that the ring doesn't cross itself."""
    points = []
    for i in range(pairs - 1):
        a = 2 * math.pi * i / (pairs - 1)
        r = radius(a)
        points.append((f"{latitude + r * math.sin(a):.4f}", f"{longitude + r * math.cos(a):.4f}"))
    return points + points[:1]


def ring(pairs, latitude, longitude):
    """A closed ring of that many pairs around a place: a rosette of seven leaves with small teeth."""
    return star(pairs, latitude, longitude, lambda a: 0.8 + 0.1 * math.sin(7 * a) + 0.02 * math.sin(61 * a))


def noise(seed):
    """Endless numbers from -1 to 1: no generator of Python's, which another version may change."""
    while True:
        seed = (6_364_136_223_846_793_005 * seed + 1_442_695_040_888_963_407) % 2**64
        yield (seed >> 11) / 2**52 - 1


def coast(pairs):
    """A coast around 46 north, 11 east, jagged on every scale down to the single edge: one and the same, drawn finer with more pairs."""
    numbers = noise(1)
    octaves = [[0.2 / math.sqrt(2**k) * next(numbers) for _ in range(2**k)] for k in range(2, 13)]

    def radius(a):
        r = 0.8
        for knots in octaves:
            share, i = math.modf(a / (2 * math.pi) * len(knots))
            r += (1 - share) * knots[int(i)] + share * knots[(int(i) + 1) % len(knots)]
        return r

    return star(pairs, 46, 11, radius)


def comb(pairs):
    """A comb, where the least can be skipped: all edges but the three of its back cross each latitude from 45.6 to 46.8 north."""
    points = [(46.8 if i % 2 else 45.6, 10.2 + 0.0004 * i) for i in range(pairs - 3)]
    points += [(45.2, points[-1][1]), (45.2, points[0][1]), points[0]]
    return [(f"{latitude:.4f}", f"{longitude:.4f}") for latitude, longitude in points]


def polygon(points):
    return POLYGON.format(" ".join(f"{latitude},{longitude}" for latitude, longitude in points))


def info(i, description, areas):
    """The info of a number, with a description and areas; its codes and times change with the number."""
    return INFO.format(
        category=("Met", "Safety", "Transport")[i % 3], urgency=("Immediate", "Expected", "Future")[i % 3],
        severity=("Severe", "Extreme", "Moderate", "Minor")[i % 4], certainty=("Observed", "Likely")[i % 2], day=18 + i % 10,
        description=description, areas=areas)


def alert(infos, sentences, points, geocodes):
    """An alert of that many infos, each with a description of that many sentences, a polygon and that many geocodes."""
    text = itertools.cycle(SENTENCES)
    return ALERT.format(infos="".join(
        info(i, "\n".join(next(text) for _ in range(sentences)),
             AREA.format(shapes=polygon(points), geocodes="".join(GEOCODE.format(6_000 + 7 * i + j) for j in range(geocodes))))
        for i in range(infos))).encode()


def area(latitude):
    """An area with two polygons and two circles side by side, from 20 to 23 east."""
    rings = "".join(polygon(star(6, latitude, longitude, lambda a: 0.1)) for longitude in (20, 21))
    return AREA.format(shapes=rings + CIRCLE.format(latitude, 22) + CIRCLE.format(latitude, 23), geocodes="")


def many_areas(count):
    """An alert of one info with that many areas, from 10 north on, a quarter of a degree apart, so that no two shapes hold the same place."""
    return ALERT.format(infos=info(0, SENTENCES[0], "".join(area(10 + i / 4) for i in range(count)))).encode()


def largest(limit, make):
    """The last of make(0), make(1), ... before one has more than `limit` bytes."""
    best = None
    for n in itertools.count():
        document = make(n)
        if len(document) > limit:
            return best
        best = document


def main(folder):
    def write(name, content):
        with open(os.path.join(folder, name), "wb") as file:
            file.write(content)

    # the sample alerts that the library must accept
    for answer in sorted(glob.glob(os.path.join(VECTORS, "*.out"))):
        document = answer[:-4] + ".xml"
        if os.path.exists(document) and not open(answer, "rb").read().startswith(b"refused"):
            shutil.copy(document, os.path.join(folder, "real-" + os.path.basename(document)))

    # infos and texts; from 8 KB on all infos are alike, of 4 KB each, so that only the size differs
    for kilobytes, infos, pairs, geocodes in ((1, 1, 4, 0), (8, 2, 12, 10), (20, 5, 12, 10), (64, 16, 12, 10)):
        points = ring(pairs, 38, -120)
        write(f"alert-{kilobytes}.xml", largest(min(1_024 * kilobytes, LIMIT), lambda n: alert(infos, n, points, geocodes)))
    write("polygon.xml", largest(LIMIT, lambda n: alert(1, 3, ring(3_000 + 10 * n, 38, -120), 0)))

    # rings for places, with longitudes of two digits so that 4,000 pairs fit into a document
    rings = {f"coast-{pairs}": coast(pairs) for pairs in (100, 1_000, 4_000)}
    rings["comb-4000"] = comb(4_000)
    for name, points in rings.items():
        document = alert(1, 1, points, 0)
        assert len(document) <= LIMIT, len(document)
        write(name + ".xml", document)
        write(name + ".wkt", ("POLYGON ((" + ", ".join(f"{longitude} {latitude}" for latitude, longitude in points) + "))").encode())

    # areas with shapes
    for count in (16, 128):
        document = many_areas(count)
        assert len(document) <= LIMIT, len(document)
        write(f"areas-{count}.xml", document)

    # a packet of key 21 and event 7 with sequence number 2, of the least length
    head = b"WARN" + struct.pack(">BBHQIHH6BQQQiiH", 1, 0, 0x8000, 1_000_000, 7, 2, 60, 1, 0, 3, 2, 1, 0, 1_000_000, 1_003_900, 1_000_000,
                                 350_000_000, 1_357_000_000, 2_000)
    write("packet", head + struct.pack(">I", 21) + bytes(64))


if __name__ == "__main__":
    main(sys.argv[1])
