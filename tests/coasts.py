#!/usr/bin/env python3
"""Writes documents whose polygon has thousands of edges that start or end exactly at the latitude of the asked places, or cross it: coasts.py FOLDER.

FOLDER/places.txt has a line for each question, as tests/places.txt has: document, latitude, longitude and the answer of
tests/model/model02.py, which looks at every edge.
"""
import itertools
import os
import sys

from places import answers

PAIRS = 6_000
STEP = 5  # between two pairs, in 1e-3 degree of longitude
ALERT = """<alert xmlns="urn:oasis:names:tc:emergency:cap:1.2"><identifier>coast</identifier><sender>tests@example.org</sender>\
<sent>2026-11-17T12:00:00+00:00</sent><status>Test</status><msgType>Alert</msgType><scope>Public</scope><info><category>Met</category>\
<event>gale</event><urgency>Future</urgency><severity>Minor</severity><certainty>Possible</certainty>\
<area><areaDesc>a coast</areaDesc><polygon>{}</polygon></area></info></alert>"""

# the latitudes of a coast's pairs, again and again; places stand at latitude 0
COASTS = {
    "touches-from-north": (0, 1),
    "touches-from-south": (0, -1),
    "crosses": (1, -1),
    "crosses-at-pairs": (1, 0, -1, 0),
    "runs-along": (0, 0, 1, 1, 0, 0, -1, -1),
    "touches-unevenly": (0, 2, 0, 1, 1, 0, -1, 0, 0, -2, 3, 0, -3),
}


def coast(latitudes):
    """A ring: the coast from west to east, and back far in the north."""
    east = (PAIRS - 4) * STEP
    points = [(latitude, STEP * i) for i, latitude in zip(range(PAIRS - 3), itertools.cycle(latitudes))]
    points += [(9, east), (9, 0), points[0]]
    return " ".join(f"{latitude},{longitude / 1_000:g}" for latitude, longitude in points)


def places():
    """At the coast's latitude and a unit beside it: at pairs, between them, and past both ends."""
    for longitude in ("-1", "0", "0.0025", "0.005", "14.9975", "15", "15.0000001", "15.0025", "15.005", "15.01", "15.0125", "29.98", "29.9801", "31"):
        yield "0", longitude
    for latitude in ("0.0000001", "-0.0000001"):
        for longitude in ("-1", "15", "15.0025"):
            yield latitude, longitude


def main(folder):
    with open(os.path.join(folder, "places.txt"), "w") as questions:
        for name, latitudes in COASTS.items():
            document = ALERT.format(coast(latitudes)).encode()
            with open(os.path.join(folder, name + ".xml"), "wb") as file:
                file.write(document)
            for latitude, longitude in places():
                print(name, latitude, longitude, answers(document, latitude, longitude), file=questions)


if __name__ == "__main__":
    main(sys.argv[1])
