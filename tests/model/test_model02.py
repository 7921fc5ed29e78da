#!/usr/bin/env python3
"""Tests of model02.  Every case says why.  Run: python3 test_model02.py

One group for each request of document 02 (at least ten reasoned cases each, counted at the end),
then comparisons with other computations, the papers' sample alerts, and the base: the tests of
model.py run against this model with all amendments off."""

import importlib.util
import os
import random
import re
import struct
import sys
import time
import xml.etree.ElementTree as ET
import xml.parsers.expat
from datetime import datetime, timedelta

sys.dont_write_bytecode = True
HERE = os.path.dirname(os.path.abspath(__file__))
SHARED = os.path.join(HERE, "..", "..", "..", "shared")
sys.path.insert(0, HERE)
import model02 as o                                                      # noqa: E402

vars(o.RULES).update(r3=True, r6=True, r12=True, r14=True)

COUNTS, FAILED, GROUP = {}, [], "?"


def check(why, got, want):
    COUNTS[GROUP] = COUNTS.get(GROUP, 0) + 1
    if got != want:
        FAILED.append(why)
        print("FAILED [%s]: %s\n  got  %r\n  want %r" % (GROUP, why, got, want))


def refused(number, place=0):
    return ("refused", number, place)


# ---------------------------------------------------------------------------
# Builders
# ---------------------------------------------------------------------------

URN = b"urn:oasis:names:tc:emergency:cap:1.2"
URN11 = b"urn:oasis:names:tc:emergency:cap:1.1"
OPEN = b'<alert xmlns="' + URN + b'">'
OPEN11 = b'<alert xmlns="' + URN11 + b'">'
HEAD = (b"<identifier>A17</identifier><sender>kiln.example</sender>"
        b"<sent>2024-03-01T10:00:00-00:00</sent><status>Actual</status>"
        b"<msgType>Alert</msgType><scope>Public</scope>")
INFO_HEAD = (b"<category>Fire</category><event>Kiln</event><urgency>Immediate</urgency>"
             b"<severity>Extreme</severity><certainty>Observed</certainty>")
EXPIRES = b"<expires>2024-03-01T11:15:00+01:00</expires>"
INFO = b"<info>" + INFO_HEAD + EXPIRES + b"</info>"
CLOSE = b"</alert>"
DOC = OPEN + HEAD + INFO + CLOSE


def doc(head=HEAD, rest=INFO, before=b"", after=b"", open_=OPEN, close=CLOSE):
    return before + open_ + head + rest + close + after


def prefixed(text, prefix=b"cap"):
    """Every own tag of a fragment under the prefix."""
    return re.sub(rb"<(/?)(?=[a-z])", rb"<\1" + prefix + b":", text)


CAP_OPEN = b'<cap:alert xmlns:cap="' + URN + b'">'
CAP_CLOSE = b"</cap:alert>"


def cap_doc(rest):
    """A document under the prefix cap; rest stands behind the info, as written."""
    return CAP_OPEN + prefixed(HEAD + INFO) + rest + CAP_CLOSE


def info(*extra, head=INFO_HEAD):
    return b"<info>" + head + b"".join(extra) + b"</info>"


def area(*shapes, desc=b"d"):
    return b"<area><areaDesc>" + desc + b"</areaDesc>" + b"".join(shapes) + b"</area>"


def poly(text):
    return b"<polygon>" + text + b"</polygon>"


def circ(text):
    return b"<circle>" + text + b"</circle>"


def swap(document, old, new):
    """Replace exactly one place."""
    assert document.count(old) == 1, (old, document.count(old))
    return document.replace(old, new)


def at(document, needle, which=0):
    i = -1
    for _ in range(which + 1):
        i = document.index(needle, i + 1)
    return i


def case(why, document, number, needle=None, behind=False, place=None, which=0):
    """A refused document; the place is where needle begins, or ends with behind=True."""
    if place is None:
        place = at(document, needle, which) + (len(needle) if behind else 0)
    check(why, o.cap_check(document), refused(number, place))


def taken(why, document, total=1):
    check(why, o.cap_check(document), ("ok", total))


def packet(length=132, major=1, minor=0, flags=0x8000, timestamp=1000, event=7, seq=2, ttl=60,
           six=(1, 0, 3, 2, 1, 0), onset=0, expiry=4900, effective=0, lat=0, lon=0, radius=100,
           key=21, magic=b"WARN"):
    head = (magic + struct.pack(">BBH", major, minor, flags)
            + struct.pack(">QIHH", timestamp, event, seq, ttl) + bytes(six)
            + struct.pack(">QQQ", onset, expiry, effective) + struct.pack(">iiH", lat, lon, radius))
    assert len(head) == 0x40
    body = head + bytes(i % 251 for i in range(max(0, length - 132)))
    return (body + struct.pack(">I", key) + b"\xAA" * 64)[:length] if length >= 132 else \
        (head + b"\0" * 68)[:length]


CAP_SHEET = {"kind": "cap", "wording": "plain", "msgType": "alert", "status": "actual",
             "scope": "public", "sender": b"kiln.example", "name": b"A17", "part": 1, "total": 1,
             "urgency": "immediate", "severity": "extreme", "certainty": "observed", "lasts": 900}
CANCEL_SHEET = dict(CAP_SHEET, msgType="cancel", name=b"A18", part=0, total=0, urgency=None,
                    severity=None, certainty=None, lasts=None)
WARN_SHEET = {"kind": "warn", "wording": "plain", "urgent": True, "update": False, "cancel": True,
              "test": False, "event": 7, "number": 2, "origin": 21, "lasts": 3900, "hazard": 1,
              "kind2": 0, "urgency": 3, "severity": 2, "certainty": 1, "response": 0}
S1 = (b"cap alert, actual, public, from kiln.example, name A17, part one of one, immediate, "
      b"extreme, observed, lasts fifteen minutes.\n")
S2 = b"cap cancel, actual, public, from kiln.example, name A18, no parts.\n"
S3 = (b"warn alert urgent cancel, event seven, number two, origin twenty one, lasts one hour five "
      b"minutes, hazard one, kind zero, urgency three, severity two, certainty one, response zero.\n")


# ---------------------------------------------------------------------------
# [1] compare
# ---------------------------------------------------------------------------

def path(text):
    """"info 2/area 1" is that path below alert 1."""
    out = [("alert", 1)]
    for step in text.split("/") if text else []:
        name, position = step.split(" ")
        out.append((name, int(position)))
    return tuple(out)


def listed(*items):
    """items: "kind path"."""
    diffs = []
    for item in items:
        kind, _, rest = item.partition(" ")
        diffs.append((path(rest), kind))
    return ("list", len(diffs), diffs)


def r1():
    big = 10 ** 6
    check("a document against itself: nothing, count 0, also with no room", o.compare(DOC, DOC, 0), listed())
    check("one text changed", o.compare(DOC, swap(DOC, b"Kiln", b"Oven"), big), listed("both info 1/event 1"))
    check("element only in the second", o.compare(DOC, swap(DOC, b"</scope>", b"</scope><note>x</note>"), big),
          listed("second note 1"))
    check("element only in the first", o.compare(swap(DOC, b"</scope>", b"</scope><note/>"), DOC, big),
          listed("first note 1"))
    check("empty tag and empty text are the same text", o.compare(
        swap(DOC, b"</scope>", b"</scope><note/>"), swap(DOC, b"</scope>", b"</scope><note></note>"), big), listed())
    check("empty text and absent differ", o.compare(
        swap(DOC, b"</scope>", b"</scope><note></note>"), DOC, 1), listed("first note 1"))
    check("times as instants: another offset, white space, -00:00 for +00:00", o.compare(
        DOC, swap(swap(DOC, b">2024-03-01T11:15:00+01:00<", b">\n2024-03-01T10:15:00+00:00 <"),
                  b">2024-03-01T10:00:00-00:00<", b">2024-03-01T10:00:00+00:00<"), big), listed())
    check("times that differ by an instant are texts in both", o.compare(
        DOC, swap(DOC, b"11:15:00+01", b"11:15:01+01"), big), listed("both info 1/expires 1"))
    check("hour 24 is the next day's midnight: no difference ([6])", o.compare(
        swap(DOC, b"2024-03-01T11:15:00+01:00", b"2024-03-01T24:00:00+01:00"),
        swap(DOC, b"2024-03-01T11:15:00+01:00", b"2024-03-02T00:00:00+01:00"), big), listed())
    one = doc(rest=info(area(circ(b"0,0 1"))))
    check("shapes are raw bytes: an equal circle written otherwise differs", o.compare(
        one, swap(one, b"0,0 1", b"0,0 1.0"), big), listed("both info 1/area 1/circle 1"))
    check("references unresolved: &gt; and > differ", o.compare(
        swap(DOC, b"Kiln", b"a&gt;b"), swap(DOC, b"Kiln", b"a>b"), big), listed("both info 1/event 1"))
    check("an info in one only is listed without what is inside it", o.compare(
        DOC, doc(rest=INFO + info(area(circ(b"0,0 1")))), big), listed("second info 2"))
    two = doc(rest=INFO + info(b"<headline>h</headline>"))
    check("matched by position: dropping the first info compares the second with it", o.compare(
        two, doc(rest=info(b"<headline>h</headline>")), big),
        listed("first info 1/expires 1", "second info 1/headline 1", "first info 2"))
    check("positions among equals at each step, schema order, inner ones at their element's turn", o.compare(
        doc(rest=info(area(poly(b"0,0 0,1 1,1 0,0"), circ(b"0,0 1")), area(circ(b"1,1 1"), circ(b"1,1 2")))),
        doc(rest=info(b"<web>w</web>", area(circ(b"0,0 2")), area(circ(b"1,1 1"), circ(b"1,1 3"), desc=b"e"),
                      area())), big),
        listed("second info 1/web 1", "first info 1/area 1/polygon 1", "both info 1/area 1/circle 1",
               "both info 1/area 2/areaDesc 1", "both info 1/area 2/circle 2", "second info 1/area 3"))
    pair = b"<eventCode><valueName>n</valueName><value>v</value></eventCode>"
    check("inside a pair", o.compare(doc(rest=info(pair * 3)), doc(rest=info(pair * 2 + swap(pair, b">v<", b"><"))), big),
          listed("both info 1/eventCode 3/value 1"))
    check("repeated leaves by position: a code put in front shifts the others", o.compare(
        doc(HEAD + b"<code>a</code><code>b</code>"), doc(HEAD + b"<code>x</code><code>a</code><code>b</code>"), big),
        listed("both code 1", "both code 2", "second code 3"))
    check("nothing else is listed: prefix, BOM, declaration, comments, white space, quotes", o.compare(
        DOC, b"\xef\xbb\xbf<?xml ?><!-- c -->\n<cap:alert\nxmlns:cap='" + URN + b"'>" + prefixed(HEAD).replace(
            b"><", b">\r\n<!-- d --><") + prefixed(INFO) + b"</cap:alert >\n", big), listed())
    three = doc(HEAD + b"<code>a</code>" * 3)
    check("room exactly the count", o.compare(doc(), three, 3), listed("second code 1", "second code 2", "second code 3"))
    check("room one less: 24, carrying 0", o.compare(doc(), three, 2), refused(24))
    check("the first document's refusal before the second's, with its place", o.compare(
        DOC + b"x", b"", 0), refused(15, len(DOC)))
    check("the second's refusal before 24", o.compare(DOC, DOC + b"x", 0), refused(15, len(DOC)))
    check("first document's late fault before the second's length (14)", o.compare(
        DOC + b"x", b" " * 65_537, 0), refused(15, len(DOC)))
    check("lasting time isn't asked: a part that lasts 0 is compared", o.compare(
        swap(DOC, b"11:15:00+01", b"11:00:00+01"), DOC, big), listed("both info 1/expires 1"))
    check("skipped elements aren't listed ([14])", o.compare(
        DOC, doc(rest=INFO + b"<ds:S a='b'>t</ds:S>"), 0), listed())


# ---------------------------------------------------------------------------
# [2] edges skipped early
# ---------------------------------------------------------------------------

def r2():
    def does(a, b, lat=0, lon=0):
        return o._edge_skipped(a[0], b[0], lat), o._edge(a, b, lat, lon)
    check("both ends above: skipped, neither holds nor counts", does((1, -5), (2, 5)), (True, None))
    check("both ends below: skipped", does((-1, 5), (-2, 5)), (True, None))
    check("an end at the latitude touches it: not skipped, and here it counts (other end above)",
          does((0, 5), (1, 5)), (False, "counts"))
    check("end at the latitude, other below: not skipped; both are at or below, so it doesn't count",
          does((0, 5), (-1, 5)), (False, None))
    check("an edge along the latitude holding the place", does((0, -1), (0, 1)), (False, "holds"))
    check("an edge along the latitude beside the place", does((0, 1), (0, 2)), (False, None))
    check("an edge across, east", does((-1, 1), (1, 1)), (False, "counts"))
    check("an edge across, west", does((-1, -1), (1, -1)), (False, None))
    check("an edge of no length at the place", does((0, 0), (0, 0)), (False, "holds"))
    check("an edge of no length above", does((1, 0), (1, 0)), (True, None))
    square = [(0, 0), (0, 4), (4, 4), (4, 0), (0, 0)]
    for why, lat, lon in (("inside", 2, 2), ("outside east", 2, 5), ("outside above: all edges skipped", 5, 2),
                          ("on the top edge", 4, 2), ("on a vertex", 0, 0), ("level with the top, outside", 4, 5)):
        check("same answer with and without skipping: " + why, o._polygon_holds(square, lat, lon, skipping=True),
              o._polygon_holds(square, lat, lon, skipping=False))
    rnd = random.Random(2)
    same = never = True
    for _ in range(6000):
        pts = [(rnd.randint(-4, 4), rnd.randint(-4, 4)) for _ in range(rnd.randint(3, 9))]
        pts.append(pts[0])
        y, x = rnd.randint(-5, 5), rnd.randint(-5, 5)
        same = same and o._polygon_holds(pts, y, x, skipping=True) == o._polygon_holds(pts, y, x, skipping=False)
        never = never and all(o._edge(a, b, y, x) is None for a, b in zip(pts, pts[1:])
                              if o._edge_skipped(a[0], b[0], y))
    check("random polygons: the answers are the same", same, True)
    check("random polygons: a skipped edge neither holds nor counts", never, True)
    wide = [(900_000_000, -1_800_000_000), (-900_000_000, 1_800_000_000), (0, 0), (900_000_000, -1_800_000_000)]
    check("at the ends of the grid", o._polygon_holds(wide, -900_000_000, 1_800_000_000), True)


# ---------------------------------------------------------------------------
# [3] the date line
# ---------------------------------------------------------------------------

def r3():
    east = packet(lat=0, lon=-1_799_900_000, radius=300)        # -179.99, 3 km: u 269,796
    check("the customer's case: 179.99 against -179.99 (0.02 degree apart, 2.2 km)",
          o.warn_place(east, 0, 1_799_900_000), ("inside",))
    with o.rules(r3=False):
        check("before [3] he wasn't reached", o.warn_place(east, 0, 1_799_900_000), ("outside",))
    check("the same in CAP", o.cap_place(doc(rest=info(area(circ(b"0,-179.99 3")))), 1, 0, 1_799_900_000), ("inside",))
    check("3 km = u 269,796: 269,796 units across the line is inside",
          o.warn_place(east, 0, 1_800_000_000 - (269_796 - 100_000)), ("inside",))
    check("... and 269,797 outside", o.warn_place(east, 0, 1_800_000_000 - (269_797 - 100_000)), ("outside",))
    check("180 and -180 are one meridian: difference 0, radius 0 holds it",
          o.warn_place(packet(lon=1_800_000_000, radius=0), 0, -1_800_000_000), ("inside",))
    check("difference exactly 1,800,000,000 stays", o._longitude_difference(-1_800_000_000, 0), 1_800_000_000)
    check("difference 1,800,000,001 becomes 1,799,999,999", o._longitude_difference(-900_000_001, 900_000_000),
          1_799_999_999)
    check("largest difference 3,600,000,000 becomes 0", o._longitude_difference(1_800_000_000, -1_800_000_000), 0)
    check("in the middle of the map nothing changes", o._longitude_difference(100, -100), 200)
    far = doc(rest=info(area(circ(b"0,0 20000"))))
    check("20,000 km reaches 1,798,642,025 units at the equator, not the antipode",
          [o.cap_place(far, 1, 0, x)[0] for x in (1_798_642_025, -1_798_642_026, 1_800_000_000)],
          ["inside", "outside", "outside"])
    check("the cosine is applied to the shorter way, then rounded down", [
        o.warn_place(packet(lat=600_000_000, lon=1_799_999_999, radius=0), 600_000_000, x)
        for x in (-1_800_000_000, -1_799_999_999)], [("inside",), ("outside",)])    # 1/2 -> 0; 2/2 -> 1
    across = doc(rest=info(area(poly(b"-1,179 -1,-179 1,-179 1,179 -1,179"))))
    check("polygons keep the flat grid: a box written across the line is the wide one",
          [o.cap_place(across, 1, 0, x)[0] for x in (0, 1_795_000_000)], ["inside", "outside"])
    check("at latitude 90 the cosine is 0: every longitude", o.warn_place(
        packet(lat=900_000_000, lon=0, radius=0), 900_000_000, 1_800_000_000), ("inside",))
    rnd = random.Random(3)
    ok = all(o._longitude_difference(a, b) == min((a - b) % 3_600_000_000, (b - a) % 3_600_000_000)
             for a, b in ((rnd.randint(-1_800_000_000, 1_800_000_000), rnd.randint(-1_800_000_000, 1_800_000_000))
                          for _ in range(3000)))
    check("random: the shorter of the two ways round", ok, True)


# ---------------------------------------------------------------------------
# [4] streaming
# ---------------------------------------------------------------------------

def cuts(document, *places):
    ends = [0] + list(places) + [len(document)]
    return [document[a:b] for a, b in zip(ends, ends[1:])]


def r4():
    whole = ("sheet", CAP_SHEET)
    n = len(DOC)
    check("in one piece", o.stream(n, [DOC], 1), (["ok"], whole))
    check("byte by byte", o.stream(n, [DOC[i:i + 1] for i in range(n)], 1), (["ok"] * n, whole))
    check("pieces with no bytes at all, first, between and last", o.stream(n, [b"", DOC[:9], b"", DOC[9:], b""], 1),
          (["ok"] * 5, whole))
    check("a piece past the told length is turned away whole, the state stays, a fitting one is taken",
          o.stream(n, [DOC[:-1], DOC[-1:] + b"\n", DOC[-1:]], 1), (["ok", refused(25), "ok"], whole))
    check("behind the full length an empty piece is taken, one byte isn't",
          o.stream(n, [DOC, b"", b" "], 1), (["ok", "ok", refused(25)], whole))
    check("finish before the told length: 25, though the bytes so far are a good document",
          o.stream(n + 1, [DOC], 1), (["ok"], refused(25)))
    check("finish before the told length: 25 before the document's own fault", o.stream(n, [b"x"], 1), (["ok"], refused(25)))
    check("25 before 14: told 65,537, nothing given", o.stream(65_537, [], 1), ([], refused(25)))
    check("told 65,537 and given: 14 at 0 as the whole document", o.stream(65_537, [b" " * 65_537], 1),
          (["ok"], refused(14)))
    check("nothing told, nothing given: the empty document's answer", o.stream(0, [], 1), ([], refused(15, 0)))
    bad = swap(DOC, b"Extreme", b"extreme")
    check("same refusal and place, cut inside the bad text", o.stream(len(bad), cuts(bad, at(bad, b"treme")), 1)[1],
          refused(17, at(bad, b"extreme")))
    short = DOC[:-3]
    check("an end tag cut off by the finish stops short at the told length", o.stream(len(short), [short], 1)[1],
          refused(15, len(short)))
    late = swap(DOC, b"Kiln", b"&bad;")[:at(DOC, b"Kiln") + 5]
    check("a bad reference with no < behind it gives only 15 at the length", o.stream(len(late), cuts(late, 3), 1)[1],
          refused(15, len(late)))
    check("21 for a part that isn't there, 7 behind it", (o.stream(n, [DOC], 2)[1], o.stream(n, [DOC], 0)[1]),
          (refused(21), refused(21)))
    zero = swap(DOC, b"11:15:00+01", b"11:00:00+01")
    check("7 at the finish", o.stream(len(zero), cuts(zero, 100), 1)[1], refused(7))
    old = swap(DOC, URN, URN11)
    check("CAP 1.1 in pieces ([12])", o.stream(len(old), cuts(old, at(old, b"1.1") + 1), 1)[1], whole)
    signed = doc(rest=INFO + b"<ds:S a='>'>x<!-- -->y</ds:S>")
    check("a signature in pieces ([14])", o.stream(len(signed), [signed[i:i + 2] for i in range(0, len(signed), 2)], 1)[1],
          whole)
    check("sender and name are copies", o.stream(n, [DOC], 1)[1][1]["sender"], b"kiln.example")


# ---------------------------------------------------------------------------
# [5] why
# ---------------------------------------------------------------------------

BOX = poly(b"0,0 0,2 2,2 2,0 0,0")
FAR = poly(b"50,50 50,52 52,52 52,50 50,50")
C1 = circ(b"1,1 50")
CFAR = circ(b"-50,-50 1")
INSIDE = (10_000_000, 10_000_000)


def r5():
    def ask(*areas, place=INSIDE, part=1):
        return o.why(doc(rest=info(*areas)), part, *place)
    check("one polygon", ask(area(BOX)), ("inside", 1, "polygon", 1))
    check("the second polygon of the area: none before it holds", ask(area(FAR, BOX, BOX)), ("inside", 1, "polygon", 2))
    check("a polygon before a circle of the same area", ask(area(BOX, C1)), ("inside", 1, "polygon", 1))
    check("or else the first circle, counted among the circles", ask(area(FAR, CFAR, C1)), ("inside", 1, "circle", 2))
    check("the first area wins: a circle in area 1 before a polygon in area 2", ask(area(C1), area(BOX)),
          ("inside", 1, "circle", 1))
    check("areas without shapes count among the areas", ask(area(), area(FAR), area(CFAR, C1)), ("inside", 3, "circle", 2))
    check("outside: all the shapes of the part", ask(area(FAR, FAR, CFAR), area(), area(CFAR)), ("outside", 4))
    check("no shape: areas without polygon and circle", ask(area(), area()), ("noshape",))
    check("part 0 never has one", o.why(doc(rest=b""), 0, *INSIDE), ("noshape",))
    check("only the asked part counts", o.why(doc(rest=info(area(FAR)) + info(area(BOX))), 2, *INSIDE),
          ("inside", 1, "polygon", 1))
    check("outside counts the asked part's shapes only", o.why(doc(rest=info(area(FAR)) + info(area(BOX, BOX))), 1, *INSIDE),
          ("outside", 1))
    check("a place on an edge is held", ask(area(BOX), place=(0, 5)), ("inside", 1, "polygon", 1))
    check("by 01 as amended: the shorter way round ([3])", ask(area(circ(b"0,-179.99 3")), place=(0, 1_799_900_000)),
          ("inside", 1, "circle", 1))
    check("the document's own refusal first", o.why(DOC + b"x", 9, 2 ** 31 - 1, 0), refused(15, len(DOC)))
    check("then 21", o.why(DOC, 2, 900_000_001, 0), refused(21))
    check("then 6, also where there is no shape", o.why(DOC, 1, 900_000_001, 0), refused(6))
    check("7 isn't asked", o.why(doc(rest=info(swap(EXPIRES, b"11:15", b"11:00"), area(BOX))), 1, *INSIDE),
          ("inside", 1, "polygon", 1))
    rnd = random.Random(5)
    ok = True
    for _ in range(300):
        areas = [area(*([rnd.choice((BOX, FAR)) for _ in range(rnd.randint(0, 2))]
                        + [rnd.choice((C1, CFAR)) for _ in range(rnd.randint(0, 2))])) for _ in range(rnd.randint(0, 3))]
        d = doc(rest=info(*areas))
        reason, answer = o.why(d, 1, *INSIDE), o.cap_place(d, 1, *INSIDE)
        shapes = re.findall(rb"<polygon>|<circle>", d)
        ok = ok and reason[0] == answer[0] and (reason[0] != "outside" or reason[1] == len(shapes))
        if reason[0] == "inside":
            hit = min(d.find(b) for b in (BOX, C1) if b in d)
            before = d[:hit]
            k = before.rfind(b"<area>")
            kind = "polygon" if d.startswith(BOX, hit) else "circle"
            ok = ok and reason == ("inside", before.count(b"<area>"), kind,
                                   before[k:].count(b"<" + kind.encode() + b">") + 1)
    check("random: says what asking says, and names the first good shape in the document", ok, True)


# ---------------------------------------------------------------------------
# [6] hour 24
# ---------------------------------------------------------------------------

def r6():
    t = o.instant
    check("24:00:00 is the next day's midnight", t(b"2024-02-28T24:00:00-00:00"), t(b"2024-02-29T00:00:00-00:00"))
    check("over a month's and a year's end", t(b"2023-12-31T24:00:00+01:00"), t(b"2024-01-01T00:00:00+01:00"))
    check("with an offset", t(b"1969-12-31T24:00:00-07:00"), 7 * 3600)
    check("24:00:01 stays 18", t(b"2024-02-28T24:00:01-00:00"), None)
    check("24:01:00 stays 18", t(b"2024-02-28T24:01:00-00:00"), None)
    check("hour 25 stays 18", t(b"2024-02-28T25:00:00-00:00"), None)
    check("the day must exist", t(b"2023-02-29T24:00:00-00:00"), None)
    check("year 0000 isn't one, though the next day would be", t(b"0000-12-31T24:00:00-00:00"), None)
    check("the last: one second above the old top", (t(b"9999-12-31T24:00:00-14:00"), t(b"9999-12-31T23:59:59-14:00")),
          (253_402_351_200, 253_402_351_199))
    check("9999-12-31T24:00:00 in UTC", t(b"9999-12-31T24:00:00-00:00"), 253_402_300_800)
    check("white space around as ever", t(b"\n2024-02-28T24:00:00-00:00\t"), t(b"2024-02-29T00:00:00-00:00"))
    check("24:00 with a bad offset", t(b"2024-02-28T24:00:00+14:01"), None)
    with o.rules(r6=False):
        check("before [6]", t(b"2024-02-28T24:00:00-00:00"), None)
    for name, d in (("sent", swap(DOC, b"2024-03-01T10:00:00-00:00", b"2024-02-29T24:00:00-00:00")),
                    ("effective", swap(DOC, b"<expires>", b"<effective>2024-02-29T24:00:00-00:00</effective><expires>")),
                    ("onset", swap(DOC, b"<expires>", b"<onset>2024-02-29T24:00:00-00:00</onset><expires>")),
                    ("expires", swap(DOC, b"2024-03-01T11:15:00+01:00", b"2024-03-01T24:00:00+01:00"))):
        taken("accepted in " + name, d)
        case("24:00:01 in %s is 18 at the text" % name, d.replace(b"24:00:00", b"24:00:01"), 18, b"<" + name.encode() + b">", True)
    late = swap(DOC, b"2024-03-01T11:15:00+01:00", b"2024-03-01T24:00:00-00:00")
    check("ends at midnight: lasts fourteen hours", o.cap_sheet(late, 1)[1]["lasts"], 14 * 3600)
    top = swap(swap(DOC, b"2024-03-01T10:00:00-00:00", b"9999-12-31T23:59:59-00:00"),
               b"2024-03-01T11:15:00+01:00", b"9999-12-31T24:00:00-00:00")
    check("the last second of the range lasts one second", o.program(top).split(b"lasts ")[1], b"one second.\n")
    check("from the first instant to the last: 7, no overflow", o.cap_sheet(
        swap(swap(DOC, b"2024-03-01T10:00:00-00:00", b"0001-01-01T00:00:00+14:00"),
             b"2024-03-01T11:15:00+01:00", b"9999-12-31T24:00:00-14:00"), 1), refused(7))


# ---------------------------------------------------------------------------
# [7] running
# ---------------------------------------------------------------------------

def r7():
    def entry(used=True, key=1, event=1, seq=0, cancelled=False, keep=0, timestamp=100, expiry=200):
        return (used, key, event, seq, cancelled, keep, timestamp, expiry)
    def run(table, t=150, room=99):
        return o.running(table, t, room)
    check("one running event", run([entry()]), ("list", 1, [(1, 1)]))
    check("timestamp at the time counts, expiry at the time doesn't",
          [run([entry()], t)[1] for t in (99, 100, 199, 200)], [0, 1, 1, 0])
    check("cancelled isn't running", run([entry(cancelled=True)]), ("list", 0, []))
    check("a free entry is no event", run([entry(used=False)]), ("list", 0, []))
    check("table order, key id and event", run([entry(event=9), entry(used=False, event=3), entry(key=0, event=4),
                                                entry(event=2)]), ("list", 3, [(1, 9), (0, 4), (1, 2)]))
    check("first used entry judges: cancelled first hides a running second",
          run([entry(cancelled=True), entry()]), ("list", 0, []))
    check("... a running first lists the event once", run([entry(), entry(cancelled=True), entry()]), ("list", 1, [(1, 1)]))
    check("... a free one before doesn't judge", run([entry(used=False, cancelled=True), entry()]), ("list", 1, [(1, 1)]))
    check("same event under two keys: two events", run([entry(), entry(key=2)])[2], [(1, 1), (2, 1)])
    check("keep-until plays no part, nor does the sequence", run([entry(keep=0, seq=65535)])[1], 1)
    check("made-up times: expiry before timestamp is never running",
          [run([entry(timestamp=200, expiry=100)], t)[1] for t in (99, 150, 250)], [0, 0, 0])
    check("room exactly enough", run([entry(), entry(event=2)], room=2)[1], 2)
    check("no room: 24 at 0", run([entry(), entry(event=2)], room=1), refused(24))
    check("nothing running needs no room", run([], room=0), ("list", 0, []))
    check("largest time: expiry above it can't be", run([entry(expiry=2 ** 64 - 1)], 2 ** 64 - 1)[1], 0)
    free = (False, 9, 9, 9, True, 99, 5, 6)
    table = o.receive([free], packet(timestamp=1000, expiry=4900), [21], True, 10)[1]
    check("acceptance writes both fields of a new entry", table, [(True, 21, 7, 2, False, 70, 1000, 4900)])
    again = o.receive(table, packet(seq=3, timestamp=500, expiry=600), [21], True, 0)[1]
    check("and replaces both on an update, smaller ones too; keep-until stays the larger",
          again, [(True, 21, 7, 3, False, 70, 500, 600)])
    check("a refused packet writes neither", o.receive(again, packet(seq=3, timestamp=1, expiry=2), [21], True, 0), refused(10))
    check("a future packet isn't running before its timestamp", run(table, 999)[1], 0)
    check("sweeping looks at keep-until only and leaves the two fields", o.sweep(table, 71),
          [(False, 21, 7, 2, False, 70, 1000, 4900)])
    check("not swept though expired", o.sweep(table, 70), table)


# ---------------------------------------------------------------------------
# [8] recording and replaying
# ---------------------------------------------------------------------------

def record(clock, verdict, pkt):
    return struct.pack(">QBH", clock, verdict, len(pkt)) + pkt


def night(offset, count):
    return struct.pack(">II", offset, count) + b"NITE"


FREE = (False,) + (0,) * 7


def r8():
    p = packet()
    buf = bytes(range(200)) + bytes(200)
    got = o.record_all(buf, 3, [(5, True, p), (6, False, b"")])
    want = record(5, 1, p) + record(6, 0, b"") + night(3, 2)
    check("layout: records from the offset, trailer behind, all other bytes stay",
          got, ("file", buf[:3] + want + buf[3 + len(want):], 3 + len(want)))
    check("start writes nothing and needs room for a trailer", (o.record_start(15, 3), o.record_start(14, 3)),
          (("started", (3, 3, 0)), refused(13)))
    check("no record at all: a file of the trailer", o.record_all(bytes(12), 0, []), ("file", night(0, 0), 12))
    check("replaying no records: no answers, the table as it was", o.replay(night(0, 0), [FREE], [21], 0),
          ("replayed", [], [FREE]))
    check("zero records must fill nothing: a byte between offset and trailer is 26", o.replay(b"x" + night(0, 0), [], [], 9),
          refused(26))
    check("... bytes before the offset are skipped", o.replay(b"x" + night(1, 0), [], [], 9), ("replayed", [], []))
    check("offset past its field: 26 before 13", o.record_start(0, 2 ** 32), refused(26))
    check("offset of its field's largest: only room is wanting", o.record_start(0, 2 ** 32 - 1), refused(13))
    state = o.record_start(500, 0)[1]
    check("packet of 65,536 bytes: 26 before 13", o.record_add(state, bytes(20), 0, True, bytes(65_536)), refused(26))
    check("packet of 65,535 bytes fits its field: 13 here", o.record_add(state, bytes(20), 0, True, bytes(65_535)), refused(13))
    check("count too large for its field", o.record_add((0, 0, 2 ** 32 - 1), bytes(99), 0, True, b""), refused(26))
    check("the largest count", o.record_add((0, 0, 2 ** 32 - 2), bytes(23), 0, True, b"")[2], (0, 11, 2 ** 32 - 1))
    check("room for the record but not for the trailer behind it: 13",
          [o.record_add(state, bytes(n), 0, True, b"abc")[0] for n in (25, 26)], ["refused", "recorded"])
    check("a refused record changes nothing, and the recorder goes on with its state", o.record_taken(
        bytes(40), 0, [(1, True, b"a" * 5), (2, True, b"b" * 2), (3, False, b"")]),
        ([("recorded",), refused(13), ("recorded",)],
         ("file", record(1, 1, b"aaaaa") + record(3, 0, b"") + night(0, 2) + b"\0", 39)))
    check("the end too wants room: a shorter buffer handed on", o.record_end((0, 30, 1), bytes(41)), refused(13))
    check("one byte more is enough", o.record_end((0, 30, 1), bytes(42)), ("file", bytes(30) + night(0, 1), 42))
    taken_file = o.record_all(bytes(2000), 7, [
        (10, True, packet(seq=1)), (20, True, packet(seq=1)), (30, False, packet(seq=9)), (40, True, packet(131)),
        (2 ** 64 - 1, True, packet(seq=9)), (50, True, packet(seq=2, key=5)), (60, True, packet(event=8)),
        (70, True, packet(event=9))])
    file = taken_file[1][:taken_file[2]]
    check("replay: the live answers in order", o.replay(file, [FREE, FREE], [21], 8),
          ("replayed", [("accepted",), refused(10), refused(9), refused(1), refused(12), refused(8), ("accepted",),
                        refused(11)],
           [(True, 21, 7, 1, False, 70, 1000, 4900), (True, 21, 8, 2, False, 120, 1000, 4900)]))
    check("no room for the answers: 24", o.replay(file, [FREE, FREE], [21], 7), refused(24))
    check("26 before 24", o.replay(file[:-1] + b"e", [FREE], [21], 0), refused(26))
    check("under 12 bytes: bad trailer", o.replay(b"NITE", [], [], 9), refused(26))
    check("offset beyond the trailer", o.replay(night(1, 0), [], [], 9), refused(26))
    one = record(5, 1, p)
    check("verdict byte 2", o.replay(record(5, 2, p) + night(0, 1), [FREE], [21], 9), refused(26))
    check("count says fewer, count says more", (o.replay(one + one + night(0, 1), [FREE], [21], 9),
                                                o.replay(one + night(0, 2), [FREE], [21], 9)), (refused(26),) * 2)
    check("count 0 over records", o.replay(one + night(0, 0), [FREE], [21], 9), refused(26))
    check("packet length reaching into the trailer", o.replay(struct.pack(">QBH", 5, 1, 133) + p + night(0, 1), [FREE], [21], 9),
          refused(26))
    check("fewer than 11 bytes left for a record", o.replay(one + b"0123456789" + night(0, 2), [FREE], [21], 9), refused(26))
    check("an offset inside the first record that parses otherwise is judged as it stands",
          o.replay(one + night(11, 1), [FREE], [21], 9), refused(26))
    check("a refused replay leaves the table (the answer has none)", o.replay(b"", [FREE], [21], 0), refused(26))
    check("NITE inside a packet is nothing special: a packet with another magic",
          o.replay(record(0, 0, b"NITE" * 9) + night(0, 1), [], [], 1), ("replayed", [refused(2)], []))
    rnd = random.Random(8)
    ok = True
    for _ in range(150):
        keys = [rnd.randint(1, 3) for _ in range(2)]
        table = [random_entry(rnd) for _ in range(rnd.randint(0, 4))]
        feed = [(rnd.choice((0, 7, 100, 2 ** 64 - 65_536, 2 ** 64 - 1)), rnd.random() < .8, random_packet(rnd))
                for _ in range(rnd.randint(0, 8))]
        offset = rnd.randint(0, 20)
        room = bytes(rnd.randrange(256) for _ in range(offset + sum(11 + len(x[2]) for x in feed) + 12 + rnd.randint(0, 9)))
        _, newbuf, length = o.record_all(room, offset, feed)
        ok = ok and newbuf[:offset] == room[:offset] and newbuf[length:] == room[length:]
        live, answers = [tuple(e) for e in table], []
        for clock, verdict, pkt in feed:
            r = o.receive(live, pkt, keys, verdict, clock)
            if r[0] == "accepted":
                live = r[1]
            answers.append(r if r[0] == "refused" else ("accepted",))
        ok = ok and o.replay(newbuf[:length], table, keys, len(feed)) == ("replayed", answers, live)
        if length > 12:
            damaged = bytearray(newbuf[:length])
            i = rnd.randrange(offset, length) if length > offset else 0
            damaged[i] ^= 1 << rnd.randrange(8)
            r = o.replay(bytes(damaged), table, keys, 99)
            ok = ok and (r[0] == "replayed" or r == refused(26))
    check("random: recorded and replayed is fed live", ok, True)


def random_entry(rnd):
    return (rnd.random() < .6, rnd.randint(1, 3), rnd.randint(1, 3), rnd.randint(0, 5), rnd.random() < .5,
            rnd.randint(0, 200), rnd.randint(0, 200), rnd.randint(0, 200))


def random_packet(rnd):
    return packet(rnd.choice((132, 132, 132, 140, 7, 131)), seq=rnd.randint(0, 6), event=rnd.randint(1, 3),
                  key=rnd.randint(1, 3), ttl=rnd.randint(0, 90), flags=rnd.choice((0x8000, 0x9000, 0x8000, 0x4000)),
                  timestamp=rnd.randint(0, 100), expiry=rnd.randint(50, 200))


# ---------------------------------------------------------------------------
# [9] settings
# ---------------------------------------------------------------------------

HOME = {"lat": -1, "lon": 2, "severity": 3, "keys": [5, 9], "second": None}
BARE = {"lat": 0, "lon": 0, "severity": 0, "keys": [], "second": None}


def content(s, second=b""):
    return (struct.pack(">iiBB", s["lat"], s["lon"], s["severity"], len(s["keys"]))
            + b"".join(struct.pack(">I", k) for k in s["keys"]) + second)


def edition(body, form=1, first=False, length=None, distance=None):
    n = len(body) + 5 if length is None else length
    d = (0 if first else n) if distance is None else distance
    return body + struct.pack(">BHH", form, n, d)


def store(*settings, form=1):
    out, seconds = b"", b"\0" if form == 2 else b""
    for s in settings:
        second = seconds
        if s["second"] is not None:
            second = b"\1" + struct.pack(">ii", *s["second"])
        out += edition(content(s, second), form, first=not out)
    return out


def r9():
    add, rd = o.settings_add, o.settings_read
    def newest(b, n=0, **k):
        return rd(b, len(b), n, **k)
    nine = {"forms": (1,)}
    check("layout of the first edition: 23 bytes, trailer 1, 23, 0", add(bytes(30), 0, 1, HOME),
          ("added", b"\xff\xff\xff\xff\0\0\0\2\3\2\0\0\0\5\0\0\0\x09\1\0\x17\0\0" + bytes(7), 23))
    two = store(HOME, BARE)
    check("the second edition's distance is its own length: trailer's start to trailer's start",
          add(store(HOME) + b"\xAA" * 20, 23, 1, BARE), ("added", two + b"\xAA" * 5, 38))
    check("reading gives the newest", newest(two), ("settings", BARE))
    check("one back", newest(two, 1), ("settings", HOME))
    check("two back: no more than two there: 28", newest(two, 2), refused(28))
    check("empty store: sound, nothing to read", (o.settings_check(b"", 0), rd(b"junk", 0, 0)), (("sound", None, 0), refused(28)))
    check("store past its room: 13 first, before 27 and 28", rd(b"\xff" * 9, 10, 5), refused(13))
    check("adding without room: 13 last", add(store(HOME) + bytes(14), 23, 1, BARE), refused(13))
    check("... with just the room", add(store(HOME) + bytes(15), 23, 1, BARE)[2], 38)
    check("27 of the settings to be added before 13", add(b"", 0, 1, dict(HOME, severity=5)), refused(27))
    for why, change in (("latitude", {"lat": 900_000_001}), ("longitude", {"lon": -1_800_000_001}),
                        ("repeat", {"keys": [5, 5]}), ("falling", {"keys": [9, 5]}), ("17 key ids", {"keys": list(range(17))})):
        check("settings to be added that break the rules: " + why, add(bytes(99), 0, 1, dict(HOME, **change)), refused(27))
    check("limits are taken: 16 key ids, 0 and 2^32-1 among them, severity 4, corner of the world",
          add(bytes(99), 0, 1, dict(lat=-900_000_000, lon=1_800_000_000, severity=4,
                                    keys=list(range(15)) + [2 ** 32 - 1], second=None))[2], 79)
    check("every call checks all editions first: a bad old one hides a good newest",
          newest(edition(content(dict(HOME, severity=9)), first=True) + edition(content(BARE))), refused(27))
    check("... also when adding", add(edition(content(dict(HOME, severity=9)), first=True) + bytes(99), 23, 1, BARE), refused(27))
    check("27 before 28", newest(two[:-1] + b"\x01", 7), refused(27))
    check("distance of the first must be 0", newest(edition(content(BARE), distance=15)), refused(27))
    check("distance of the second must be its length", newest(store(HOME) + edition(content(BARE), distance=23)), refused(27))
    check("distance 0 on the second", newest(store(HOME) + edition(content(BARE), distance=0)), refused(27))
    check("length longer than what is there", newest(edition(content(BARE), length=16, distance=0)), refused(27))
    check("length its content hasn't: key count 2, one key id", newest(edition(content(HOME)[:-4], first=True)), refused(27))
    check("17 key ids stored", newest(edition(content(dict(BARE, keys=list(range(17)))), first=True)), refused(27))
    check("place out of range stored", newest(edition(content(dict(BARE, lat=900_000_001)), first=True)), refused(27))
    check("editions fill the store: a byte in front is 27", newest(b"\0" + two), refused(27))
    check("... a byte behind is 27", newest(two + b"\0"), refused(27))
    check("fewer than 5 bytes hold no trailer", newest(b"\1\0\4\0"), refused(27))
    check("length 0 in a trailer doesn't hang", newest(content(BARE) + b"\1\0\0\0\0"), refused(27))
    check("form 2 on a box still on [9]: 27", newest(store(BARE, form=2), **nine), refused(27))
    check("form 7 on a box still on [9]: 27 too, there is no 29", newest(edition(content(BARE), 7, True), **nine), refused(27))
    check("the rest of the room is not looked at", rd(two + b"\xff" * 9, 38, 1), ("settings", HOME))
    rnd = random.Random(9)
    ok = True
    for _ in range(200):
        buf, length, told = bytes(rnd.randrange(256) for _ in range(rnd.randint(0, 300))), 0, []
        for _ in range(rnd.randint(0, 8)):
            s = random_settings(rnd)
            r = add(buf, length, 1, s)
            if r[0] == "refused":
                ok = ok and r == refused(13) and length + 15 + 4 * len(s["keys"]) > len(buf)
                continue
            ok = ok and r[1][:length] == buf[:length] and r[1][r[2]:] == buf[r[2]:] and len(r[1]) == len(buf)
            buf, length = r[1:]
            told.append(s)
            ok = ok and rd(buf, length) == ("settings", s)
        ok = ok and [rd(buf, length, n) for n in range(len(told))] == [("settings", s) for s in reversed(told)]
        ok = ok and rd(buf, length, len(told)) == refused(28)
    check("random: what was added is read back, n back too", ok, True)


def random_settings(rnd, second=False):
    return {"lat": rnd.randint(-900_000_000, 900_000_000), "lon": rnd.randint(-1_800_000_000, 1_800_000_000),
            "severity": rnd.randint(0, 4), "keys": sorted(rnd.sample(range(60), rnd.randint(0, 5))),
            "second": (rnd.randint(-9, 9), rnd.randint(-9, 9)) if second and rnd.random() < .4 else None}


# ---------------------------------------------------------------------------
# [10] form 2
# ---------------------------------------------------------------------------

def forward_sound(data, forms=(1, 2)):
    """Soundness by another way: editions parsed from the front by their content."""
    at_, first, form0 = 0, True, None
    while at_ < len(data):
        if len(data) < at_ + 10:
            return False
        lat, lon, sev, k = struct.unpack_from(">iiBB", data, at_)
        fits = []
        for form in forms:
            end = at_ + 10 + 4 * k
            places = [(lat, lon)]
            if form == 2:
                if end >= len(data) or data[end] > 1:
                    continue
                if data[end] == 1:
                    if end + 9 > len(data):
                        continue
                    places.append(struct.unpack_from(">ii", data, end + 1))
                    end += 8
                end += 1
            whole = end + 5 - at_
            if data[end:end + 5] == struct.pack(">BHH", form, whole, 0 if first else whole):
                fits.append((form, end + 5, places))
        if len(fits) != 1:
            assert not fits, "two readings of one store"
            return False
        form, end, places = fits[0]
        keys = struct.unpack_from(">%dI" % k, data, at_ + 10)
        if (form0 not in (None, form) or sev > 4 or k > 16 or any(a >= b for a, b in zip(keys, keys[1:]))
                or any(abs(a) > 900_000_000 or abs(b) > 1_800_000_000 for a, b in places)):
            return False
        form0, first, at_ = form, False, end
    return True


def r10():
    add, rd, move = o.settings_add, o.settings_read, o.settings_move
    shed = dict(HOME, second=(10, -20))
    def newest(b, n=0):
        return rd(b, len(b), n)
    check("form 2 without a second place: a byte 0 behind the key ids", add(bytes(24), 0, 2, HOME),
          ("added", content(HOME) + b"\0" + b"\2\0\x18\0\0", 24))
    check("form 2 with it: a byte 1 and the place", add(bytes(32), 0, 2, shed),
          ("added", content(HOME) + b"\1\0\0\0\x0a\xff\xff\xff\xec" + b"\2\0\x20\0\0", 32))
    check("read back with the second place", newest(store(HOME, shed, form=2)), ("settings", shed))
    check("second place byte 2: bad content", newest(edition(content(HOME, b"\2"), 2, True)), refused(27))
    check("second place out of range", newest(edition(content(HOME, b"\1" + struct.pack(">ii", 900_000_001, 0)), 2, True)),
          refused(27))
    check("form 2 content under form 1 is a length its content hasn't", newest(edition(content(HOME, b"\0"), 1, True)), refused(27))
    check("a store holds one form only: 1 then 2 is bad content", newest(store(HOME) + edition(content(BARE, b"\0"), 2)), refused(27))
    check("2 then 1 likewise", newest(store(HOME, form=2) + edition(content(BARE), 1)), refused(27))
    check("adding names a form that isn't the store's: 27", add(store(HOME) + bytes(99), 23, 2, BARE), refused(27))
    check("... before 30: form 1 with a second place onto a form 2 store", add(store(HOME, form=2) + bytes(99), 24, 1, shed), refused(27))
    check("unknown form stored: 29", newest(edition(content(HOME), 3, True)), refused(29))
    check("form 0 isn't known", newest(edition(content(HOME), 0, True)), refused(29))
    check("27 for any trailer before 29: an old trailer's distance is wrong under a newest of form 3",
          newest(edition(content(HOME), 1, distance=1) + edition(content(BARE), 3)), refused(27))
    check("29 before 27 for any content: an old severity 9 under a newest of form 3",
          newest(edition(content(dict(HOME, severity=9)), 1, True) + edition(content(BARE), 3)), refused(29))
    check("trailers are found by length, whatever the form: unknown form in the middle",
          newest(store(HOME) + edition(b"anything at all", 77) + edition(content(BARE), 1)), refused(29))
    check("an edition shorter than any content is bad content: 29 of another comes first",
          (newest(edition(b"", 1, True)), newest(edition(b"", 1, True) + edition(content(BARE), 3))), (refused(27), refused(29)))
    check("a length under 5 is a bad trailer: 27 before 29, though overlapping trailers of 5, 3 and 4 would chain up",
          newest(b"\1\0\5" + b"\0\0\3\0" + b"\3\0\4\0\4"), refused(27))
    check("named form not known: 29 before 27 for stored and added content, after 27 for a trailer", (
        add(edition(content(dict(HOME, severity=9)), 1, True) + bytes(99), 23, 3, dict(HOME, severity=9)),
        add(edition(content(HOME), 1, distance=1) + bytes(99), 23, 3, HOME)), (refused(29), refused(27)))
    check("named form not known on an empty store, also when moving", (add(bytes(9), 0, 3, HOME), move(b"", 0, 0, b"")),
          (refused(29), refused(29)))
    check("store past its room: 13 before 29", add(b"", 1, 3, HOME), refused(13))
    check("30: second place added as form 1, before 13", add(b"", 0, 1, shed), refused(30))
    check("27 before 30: the settings break another rule too", add(bytes(99), 0, 1, dict(shed, severity=9)), refused(27))
    old, new = store(HOME, BARE), store(HOME, BARE, form=2)
    check("forward: edition by edition, in order, the room behind stays", move(old, 38, 2, b"\xAA" * 45),
          ("moved", new + b"\xAA" * 5, 40))
    check("forward then back: the same bytes", move(new, 40, 1, bytes(38)), ("moved", old, 38))
    check("already in the form asked for: as it is", (move(old, 38, 1, bytes(40)), move(store(shed, form=2), 32, 2, bytes(32))),
          (("moved", old + bytes(2), 38), ("moved", store(shed, form=2), 32)))
    check("back with a second place anywhere: 30, before 13", move(store(shed, HOME, form=2), 56, 1, b""), refused(30))
    check("no room: 13, also for one that comes out as it is", (move(old, 38, 2, bytes(39)), move(old, 38, 1, bytes(37))),
          (refused(13), refused(13)))
    check("an empty store moves to nothing", move(b"xyz", 0, 2, b"abc"), ("moved", b"abc", 0))
    check("source past its room first", move(old, 39, 1, b""), refused(13))
    check("27 of the source before 13", move(old[:-1] + b"\1", 38, 2, b""), refused(27))
    inner = doc(rest=info(area(BOX)))
    here = dict(HOME, lat=800_000_000, lon=0)
    check("asked with settings: neither, either place", [o.settings_place(dict(here, second=s), inner, 1)[0]
          for s in (None, (-5, -5), INSIDE)], ["outside", "outside", "inside"])
    check("the first place alone is enough", o.settings_place(dict(HOME, lat=5, lon=5, second=(800_000_000, 0)), inner, 1), ("inside",))
    check("a packet likewise", o.settings_place(dict(here, second=(0, 0)), packet()), ("inside",))
    check("no shape stays no shape", o.settings_place(dict(here, second=(0, 0)), DOC, 1), ("noshape",))
    check("own refusals, 21, then 6 for either place", (
        o.settings_place(dict(here, second=(900_000_001, 0)), b"", 1), o.settings_place(dict(here, second=(900_000_001, 0)), inner, 2),
        o.settings_place(dict(HOME, lat=5, lon=5, second=(900_000_001, 0)), inner, 1)), (refused(15, 0), refused(21), refused(6)))
    rnd = random.Random(10)
    ok = True
    for _ in range(1500):
        form = rnd.choice((1, 2))
        s = store(*[random_settings(rnd, form == 2) for _ in range(rnd.randint(0, 4))], form=form)
        room = bytes(400)
        there = o.settings_move(s, len(s), 3 - form, room)
        if there == refused(30):
            ok = ok and form == 2
        else:
            ok = ok and there[0] == "moved" and move(there[1], there[2], form, room)[1][:len(s)] == s
        damaged = bytearray(s)
        for _ in range(rnd.randint(0, 2) if s else 0):
            kind, i = rnd.random(), rnd.randrange(len(damaged)) if damaged else 0
            if kind < .6 and damaged:
                damaged[i] = rnd.choice((0, 1, 2, 3, damaged[i] ^ 1, damaged[i] ^ 0x80))
            elif kind < .8:
                del damaged[i:i + rnd.randint(1, 4)]
            else:
                damaged[i:i] = bytes(rnd.randint(1, 4))
        r = o.settings_check(bytes(damaged))
        ok = ok and (r[0] == "sound") == forward_sound(bytes(damaged)) and (r[0] == "sound" or r[1] in (27, 29))
    check("random: there and back; soundness against a parse from the front", ok, True)


# ---------------------------------------------------------------------------
# [11] order at the table
# ---------------------------------------------------------------------------

def r11():
    def both(table, p1, p2, keys=(21,), v1=True, c1=10, v2=True, c2=20):
        one, other = o.commute(table, list(keys), p1, v1, c1, p2, v2, c2)
        return one == other, one
    a, b = packet(event=1), packet(event=2)
    check("two new events, two free entries: both accepted, same contents", both([FREE, FREE], a, b),
          (True, (("accepted",), ("accepted",), {(21, 1): (2, False, 70, 1000, 4900), (21, 2): (2, False, 80, 1000, 4900)})))
    one, other = o.commute([FREE], [21], a, True, 10, b, True, 20)
    check("one free entry isn't enough: whoever comes first gets it", (one[:2], other[:2]),
          ((("accepted",), refused(11)), (refused(11), ("accepted",))))
    check("entries stand in other slots", [t[0][2] for t in (
        o.receive(o.receive([FREE, FREE], x, [21], True, 0)[1], y, [21], True, 0)[1] for x, y in ((a, b), (b, a)))], [1, 2])
    held = (True, 21, 1, 1, True, 500, 3, 4)
    check("one new, one old event", both([held, FREE, FREE], a, b)[0], True)
    check("two old events need no free entry in truth", both([held, (True, 21, 2, 1, False, 0, 0, 0)], a, b)[0], True)
    check("each its own verdict", both([FREE, FREE], a, b, v1=False)[1][:2], (refused(9), ("accepted",)))
    check("each its own clock: 12", both([FREE, FREE], a, b, c2=2 ** 64 - 1)[1][:2], (("accepted",), refused(12)))
    check("one key list: 8", both([FREE, FREE], a, packet(event=2, key=5)), (True, (("accepted",), refused(8), {
        (21, 1): (2, False, 70, 1000, 4900)})))
    check("a packet with faults of its own", both([FREE, FREE], a, packet(131, event=2))[0], True)
    check("a refused number: 10", both([held, FREE, FREE], packet(event=1, seq=1), b)[1][:2], (refused(10), ("accepted",)))
    same = o.commute([FREE, FREE], [21], packet(event=1, seq=1), True, 0, packet(event=1, seq=2), True, 0)
    check("the same event in either order isn't promised: 1 then 2, or 2 then a refused 1", (same[0][:2], same[1][:2]),
          ((("accepted",), ("accepted",)), (refused(10), ("accepted",))))
    t = [(True, 1, i, 0, False, k, 0, 0) for i, k in enumerate((4, 5, 6, 7, 8))] + [(False, 1, 9, 0, False, 0, 0, 0)]
    check("sweeping at 5 and then 7 is sweeping at 7", o.swept_twice(t, 5, 7)[0], o.swept_twice(t, 5, 7)[1])
    check("... and at 7 and then 5", o.swept_twice(t, 7, 5)[0], o.sweep(t, 7))
    check("the same time twice", o.swept_twice(t, 6, 6)[0], o.sweep(t, 6))
    check("at 0 nothing goes", o.swept_twice(t, 0, 0), (t, t))
    rnd = random.Random(11)
    ok = ok2 = True
    for _ in range(1500):
        table, seen = [FREE, (False, 2, 2, 9, True, 999, 1, 2)], set()
        for _ in range(rnd.randint(0, 4)):
            e = random_entry(rnd)
            if e[0] and (e[1], e[2]) in seen:
                continue
            if e[0]:
                seen.add((e[1], e[2]))
            table.insert(rnd.randint(0, len(table)), e)
        p1, p2 = random_packet(rnd), random_packet(rnd)
        names = [o.warn_read(p) for p in (p1, p2)]
        names = [(r[1]["key"], r[1]["event"]) if r[0] == "ok" else None for r in names]
        if names[0] is not None and names[0] == names[1]:
            continue
        one, other = o.commute(table, [1, 2], p1, rnd.random() < .8, rnd.choice((0, 9, 2 ** 64 - 1)),
                               p2, rnd.random() < .8, rnd.choice((0, 9, 150)))
        ok = ok and one == other
        t1, t2 = rnd.randint(0, 200), rnd.randint(0, 200)
        swept = o.swept_twice(table, t1, t2)
        ok2 = ok2 and swept[0] == swept[1]
    check("random: two packets of different events", ok, True)
    check("random: two sweeps", ok2, True)


# ---------------------------------------------------------------------------
# [12] CAP 1.1
# ---------------------------------------------------------------------------

def r12():
    old = doc(open_=OPEN11)
    taken("the 1.1 name space is taken", old)
    check("same sentence: \"cap\" for both, no edition in the sheet", (o.program(old), o.cap_sheet(old, 1)), (S1, ("sheet", CAP_SHEET)))
    with o.rules(r12=False):
        case("before [12]: another name space", old, 15, place=0)
    case("1.0 isn't taken", doc(open_=OPEN.replace(b"1.2", b"1.0")), 15, place=0)
    case("1.11 isn't taken", doc(open_=OPEN.replace(b"1.2", b"1.11")), 15, place=0)
    taken("under a prefix", CAP_OPEN.replace(b"1.2", b"1.1") + prefixed(HEAD + INFO) + CAP_CLOSE)
    def res(inner):
        return info(b"<resource><resourceDesc>r</resourceDesc>" + inner + b"</resource>")
    taken("1.1: mimeType absent, resource ends", doc(rest=res(b""), open_=OPEN11))
    taken("1.1: mimeType absent, uri follows", doc(rest=res(b"<uri>u</uri>"), open_=OPEN11))
    taken("1.1: mimeType present", doc(rest=res(b"<mimeType>m</mimeType><size>1</size>"), open_=OPEN11))
    d = doc(rest=res(b"<uri>u</uri>"))
    case("1.2: mimeType still required, found at uri", d, 16, b"<uri>")
    d = doc(rest=res(b""))
    case("1.2: missing at the resource's end", d, 16, b"</resource>")
    d = doc(rest=res(b"<size>1</size><mimeType>m</mimeType>"), open_=OPEN11)
    case("1.1: mimeType misplaced", d, 16, b"<mimeType>")
    d = doc(rest=res(b"<mimeType/><mimeType/>"), open_=OPEN11)
    case("1.1: mimeType repeated", d, 16, b"<mimeType/>", which=1)
    for code in (b"Avoid", b"AllClear"):
        d = swap(DOC, b"</event>", b"</event><responseType>" + code + b"</responseType>")
        taken("1.2: " + code.decode(), d)
        case("1.1: %s isn't a response code" % code.decode(), swap(d, URN, URN11), 17, b"<responseType>", True)
    for code in (b"Shelter", b"Evacuate", b"Prepare", b"Execute", b"Monitor", b"Assess", b"None"):
        taken("1.1: " + code.decode(), swap(old, b"</event>", b"</event><responseType>" + code + b"</responseType>"))
    d = swap(old, b"11:15:00+01:00", b"10:15:00Z")
    case("times keep 1.2's form: Z is 18", d, 18, b"<expires>", True)
    taken("1.1: hour 24 as in 1.2", swap(old, b"11:15:00+01:00", b"24:00:00+01:00"))
    taken("1.1: language may be absent (013's ASN.1 names no OPTIONAL, but permits the schema's XML)", old)
    d = doc(rest=info(area(poly(b"0,0 1,1 0,0"))), open_=OPEN11)
    case("1.1: a polygon of three pairs is 22, 01's own rule", d, 22, b"<polygon>", True)
    check("the two tables differ in one row", [(c, s) for c in o.FOLLOW["1.2"] for s in o.FOLLOW["1.2"][c][0]
                                               if o.FOLLOW["1.2"][c][0][s] != o.FOLLOW["1.1"][c][0][s]], [("resource", 0)])
    check("compare takes two of the same edition", o.compare(old, swap(old, b"Kiln", b"Oven"), 1), listed("both info 1/event 1"))
    check("editions differ: 31 at 0, before 24", o.compare(old, swap(DOC, b"Kiln", b"Oven"), 0), refused(31))
    check("editions differ: 31 also where nothing else differs", o.compare(DOC, old, 9), refused(31))
    check("31 only after both are accepted", (o.compare(old, DOC + b"x", 9), o.compare(old + b"x", DOC, 9)),
          (refused(15, len(DOC)), refused(15, len(old))))


# ---------------------------------------------------------------------------
# [13] say it twice
# ---------------------------------------------------------------------------

def r13():
    checked = dict(CAP_SHEET, wording="checked")
    line = b"checked " + S1.replace(b"fifteen minutes", b"fifteen as one five minutes")
    check("the request's own words", o.sentence(checked), line)
    check("read back: the wording is a fact", o.read(line, 1), ("read", 1, checked))
    warn = dict(WARN_SHEET, wording="checked")
    wline = b"checked " + S3.replace(b"one hour five minutes", b"one as one hour five as five minutes")
    check("warn: every number of the duration, no other number", o.sentence(warn), wline)
    check("warn read back", o.read(wline, 1)[2], warn)
    check("no stated time stays", o.sentence(dict(checked, lasts=None)), b"checked " + S1.replace(b"fifteen minutes", b"no stated time"))
    check("part 0: only the opening differs", o.sentence(dict(CANCEL_SHEET, wording="checked")), b"checked " + S2)
    check("... and reads back as its own sheet", o.read(b"checked " + S2 + S2, 1)[2], dict(CANCEL_SHEET, wording="checked"))
    for n, text in ((10, "ten as one zero"), (20, "twenty as two zero"), (100, "one hundred as one zero zero"),
                    (365, "three hundred sixty five as three six five"), (105, "one hundred five as one zero five"),
                    (11, "eleven as one one"), (59, "fifty nine as five nine")):
        check("digits of %d" % n, o.duration(n * 86_400, "checked"), text + " days")
    check("singular for a count of one", o.duration(90_061, "checked"),
          "one as one day one as one hour one as one minute one as one second")
    check("a drawn sheet is in 01's wording", (o.cap_sheet(DOC, 1)[1]["wording"], o.warn_sheet(packet())[1]["wording"]), ("plain", "plain"))
    check("the program speaks 01's wording", o.program(DOC), S1)
    check("another wording is a fact out of range: 23", o.write(bytes(500), 0, dict(CAP_SHEET, wording="loud")), refused(23))
    check("mixed list, in order", [o.read(S1 + line + wline + S3, k)[2]["wording"] for k in (1, 2, 3, 4)],
          ["plain", "checked", "checked", "plain"])
    for why, bad in (("plain opening, checked duration", line[8:]), ("checked opening, plain duration", b"checked " + S1),
                     ("wrong digits", line.replace(b"one five", b"one six")), ("a digit more", line.replace(b"one five", b"zero one five")),
                     ("digits as one number", line.replace(b"one five", b"fifteen")), ("no as", line.replace(b" as ", b" ")),
                     ("as twice", line.replace(b"as one five", b"as one five as one five")),
                     ("checked twice", b"checked " + line), ("capital", b"C" + line[1:]), ("two spaces", line.replace(b"checked ", b"checked  ")),
                     ("part number doubled", line.replace(b"part one of", b"part one as one of")),
                     ("sixty minutes", line.replace(b"fifteen as one five", b"sixty as six zero"))):
        check("not a read-back: " + why, o.read(bad, 0), refused(23))
    check("warn has no stated time in neither wording", o.read(wline.replace(b"one as one hour five as five minutes", b"no stated time"), 0), refused(23))
    check("in a list the place is the changed line's", o.read(S1 + line.replace(b"fifteen", b"fifty") + S2, 0), refused(23, len(S1)))
    # The replacement promise, word by word.
    def replaced(text):
        """Every text with exactly one number word replaced by a different number word."""
        parts = text.split(" ")
        for i, word in enumerate(parts):
            if word in o.NUMBER_WORDS:
                for other in o.NUMBER_WORDS:
                    if other != word:
                        yield " ".join(parts[:i] + [other] + parts[i + 1:])
    ok = all(o.seconds_of(t, "checked") is None for n in range(1, 366) for t in replaced(o.duration(n * 86_400, "checked")))
    check("all counts of days, every number word by every other: refused", ok, True)
    rnd = random.Random(13)
    ok = True
    for n in [1, 59, 60, 3661, 86_399, 90_061, 31_536_000, 31_535_999] + [rnd.randint(1, 31_536_000) for _ in range(12)]:
        for sheet in (dict(checked, lasts=n), dict(warn, lasts=n)):
            full, dur = o.sentence(sheet), o.duration(n, "checked").encode()
            assert full.count(b"lasts " + dur) == 1
            for t in replaced(dur.decode()):
                ok = ok and o.read(full.replace(b"lasts " + dur, b"lasts " + t.encode()), 0) == refused(23)
    check("whole read-backs of both kinds, every number word of the duration by every other: refused", ok, True)
    check("in 01's wording the same is not promised: fifteen to sixteen is a read-back", o.read(S1.replace(b"fifteen", b"sixteen"), 1)[2]["lasts"], 960)
    ok = True
    for _ in range(400):
        sheets = [dict(rnd.choice((CAP_SHEET, CANCEL_SHEET, WARN_SHEET)), wording=rnd.choice(("plain", "checked", "plain", "no")))
                  for _ in range(rnd.randint(0, 6))]
        sheets = [dict(s, lasts=rnd.choice((0, 1, 900, 31_536_000, rnd.randint(1, 31_536_001)))) if s["lasts"] else s for s in sheets]
        buf, where, written = bytes(rnd.randint(0, 900)), 0, []
        for s in sheets:
            r = o.write(buf, where, s)
            if r[0] == "written":
                ok = ok and r[1][:where] == buf[:where] and r[1][r[2]:] == buf[r[2]:]
                buf, where = r[1:]
                written.append(s)
            else:
                ok = ok and r[1] in (13, 23)
        ok = ok and [o.read(buf[:where], k + 1) for k in range(len(written))] == [("read", len(written), s) for s in written]
    check("demand 3 over lists that mix both wordings", ok, True)


# ---------------------------------------------------------------------------
# [14] foreign elements
# ---------------------------------------------------------------------------

SIG = (b'<ds:Signature xmlns:ds="http://www.w3.org/2000/09/xmldsig#" Id=\'a\'>\n <ds:SignedInfo>text &amp; more'
       b'<!-- c --></ds:SignedInfo>\n<ds:Value/>x</ds:Signature>')


def nested(n, inner=b"", name=b"x:e"):
    return (b"<" + name + b">") * n + inner + (b"</" + name + b">") * n


def r14():
    def behind(foreign):
        return doc(rest=INFO + foreign)
    def bad(why, foreign, number, needle=None, end=False, which=0, d=None, place=None):
        d = behind(foreign) if d is None else d
        if place is None:
            place = at(d, foreign if needle is None else needle, which) + (len(needle) if end else 0)
        check(why, o.cap_check(d), refused(number, place))
    # where
    taken("behind the last info", behind(SIG))
    taken("where an info could stand if there is none: behind scope", doc(rest=SIG), 0)
    for name in (b"restriction", b"addresses", b"code", b"note", b"references", b"incidents"):
        taken("behind %s, no info" % name.decode(), doc(rest=b"<" + name + b"/>" + SIG), 0)
    taken("several, with comments and white space between", behind(SIG + b" <!-- c -->\n" + SIG + b"<y:z/>"))
    taken("the same in 1.1", doc(rest=INFO + SIG, open_=OPEN11))
    with o.rules(r14=False):
        case("before [14]: attribute, 15", behind(SIG), 15, b"<ds:Signature")
        case("before [14]: no attribute, 16", behind(b"<ds:s/>"), 16, b"<ds:s")
    d = swap(DOC, b"<scope>", b"<x:y/><scope>")
    case("not before scope: another prefix is 16", d, 16, b"<x:y/>")
    d = swap(DOC, b"<scope>", b"<x:y a='b'/><scope>")
    case("not before scope: with an attribute 15", d, 15, b"<x:y")
    d = swap(DOC, b"<event>", b"<x:y/><event>")
    case("not inside an info", d, 16, b"<x:y/>")
    d = swap(DOC, b"Kiln", b"<x:y/>")
    case("not inside a leaf", d, 16, b"<x:y/>")
    case("not behind the alert", DOC + SIG, 15, place=len(DOC))
    d = doc(rest=SIG + INFO)
    bad("an info behind a skipped one is 16", None, 16, b"<info>", d=d)
    d = doc(rest=INFO + SIG + INFO)
    bad("between infos: the second info is 16", None, 16, b"<info>", which=1, d=d)
    d = doc(rest=SIG + b"<note/>")
    bad("any own element behind a skipped one", None, 16, b"<note/>", d=d)
    d = doc(rest=SIG + b"<info a='b'>")
    bad("... with an attribute 15", None, 15, b"<info a", d=d)
    d = doc(rest=INFO * 16 + SIG + INFO)
    bad("a 17th info behind a skipped one: 16 before 14", None, 16, b"<info>", which=16, d=d)
    # whose prefix isn't the alert's own
    bad("no prefix where the alert has none: own, unknown, 16", b"<Signature/>", 16)
    bad("... with an attribute 15, as agencies print it", b"<Signature xmlns='x'>", 15)
    bad("inside a skipped one, no prefix where the alert has none: 16", b"<x:a><b/></x:a>", 16, b"<b/>")
    bad("... with an attribute 15", b"<x:a><b c='d'/></x:a>", 15, b"<b c")
    check("under a prefix an element without one is foreign", o.cap_check(cap_doc(b"<Signature xmlns='x'><y/>t</Signature>")), ("ok", 1))
    d = cap_doc(b"<Signature><cap:info/></Signature>")
    case("inside a skipped one the alert's own prefix is 16", d, 16, b"<cap:info/>")
    d = cap_doc(b"<S><cap:q r='s'></cap:q></S>")
    case("... with an attribute 15", d, 15, b"<cap:q")
    check("prefixes are bytes: Cap isn't cap", o.cap_check(cap_doc(b"<Cap:info/>")), ("ok", 1))
    check("an unprefixed info under a prefixed alert is skipped, not a part",
          o.cap_check(CAP_OPEN + prefixed(HEAD) + INFO + CAP_CLOSE), ("ok", 0))
    for odd in (b"<cap:>", b"<cap:9/>", b"<cap:a:b/>", b"<cap:" + b"n" * 70 + b"/>"):
        case("an own element with an odd name in a skipped one is 16, by 01's name rule: %r" % odd[:9], cap_doc(b"<S>" + odd + b"</S>"), 16, odd)
    d = cap_doc(b"<S/><cap:i+nfo/>")
    case("... but a byte that no tag name has is 15", d, 15, b"<cap:i+")
    # names
    long = b"n" * 64
    taken("names of 64 bytes, prefix of 64", behind(b"<" + long + b":" + long + b"/>"))
    bad("a name of 65", b"<x:" + long + b"n/>", 15)
    bad("a prefix of 65", b"<" + long + b"n:x/>", 15)
    taken("_ first, digits, -, . within", behind(b"<_:_/><a1-._:b2-._/>"))
    bad("digit first in the prefix", b"<1x:a/>", 15)
    bad("digit first behind the colon", b"<x:1a/>", 15)
    bad("empty prefix: isn't the alert's own, and no name", b"<:a/>", 15)
    bad("nothing behind the colon", b"<x:/>", 15)
    bad("two colons", b"<x:a:b/>", 15)
    bad("byte from 0x80 up in a name", b"<x:\xc3\xa9/>", 15)
    # attributes
    taken("both quotes, white space around =, the other quote, > and references inside",
          behind(b"<x:a b = \"it's > &amp;&lt;\"\n\tc='\"'/>"))
    sixteen = b"".join(b" a%d=''" % i for i in range(16))
    taken("16 attributes", behind(b"<x:a" + sixteen + b"/>"))
    bad("17 attributes", b"<x:a" + sixteen + b" z=''/>", 15)
    bad("a name repeated", b"<x:a b='1' b='2'/>", 15)
    taken("repeat is by bytes: p:b and q:b and B differ from b", behind(b"<x:a b='' p:b='' q:b='' B=''/>"))
    taken("the same attribute in another tag", behind(b"<x:a b=''><x:c b=''/></x:a>"))
    bad("no white space between attributes", b"<x:a b='1'c='2'/>", 15)
    bad("no value", b"<x:a b/>", 15)
    bad("no quotes", b"<x:a b=c/>", 15)
    bad("< in a value", b"<x:a b='<'/>", 15)
    bad("numeric reference in a value: 15 at the tag", b"<x:a b='&#65;'/>", 15)
    bad("lone & in a value", b"<x:a b='a & b'/>", 15)
    bad("control byte in a value", b"<x:a b='\x01'/>", 15)
    taken("tab, LF, CR, ]]>, -- and bytes from 0x80 up in a value", behind(b"<x:a b='\t\n\r]]>--\xff'/>"))
    bad("attribute name with a bad byte", b"<x:a b+='c'/>", 15)
    bad("attribute name beginning with a digit", b"<x:a 1b='c'/>", 15)
    bad("attribute name of 65", b"<x:a " + long + b"n='c'/>", 15)
    taken("attribute names with a colon, xmlns among them", behind(b"<x:a xmlns='u' xmlns:q='' " + long + b":" + long + b"='c'/>"))
    bad("inner tag's fault is at the inner tag", b"<x:a><y:b c='<'/></x:a>", 15, b"<y:b")
    bad("/ in a tag", b"<x:a / >", 15)
    d = behind(b"<x:a b='>")
    case("a quote never closed: 15 at the length", d, 15, place=len(d))
    # content
    taken("text and comments in any mix, also first, last, and ]] or > alone", behind(b"<x:a>]]<!-- a -->>&gt;<y:b/>t<!----></x:a>"))
    bad("]]> in its text, at the byte", b"<x:a>ab]]></x:a>", 15, b"]]>")
    bad("numeric reference in its text, at the reference", b"<x:a>ab&#65;</x:a>", 15, b"&#65;")
    bad("control byte in its text, at the byte", b"<x:a>ab\x02</x:a>", 15, b"\x02")
    bad("comment with --, at the comment", b"<x:a>t<!-- -- --></x:a>", 15, b"<!-- --")
    d = behind(b"<x:a>")[:-len(CLOSE)] + b"&bad;"
    case("its text with no < behind it: only 15 at the length", d, 15, place=len(d))
    bad("CDATA, at its <", b"<x:a><![CDATA[x]]></x:a>", 15, b"<![CDATA")
    bad("an instruction", b"<x:a><?p x?></x:a>", 15, b"<?p")
    bad("a DOCTYPE", b"<x:a><!DOCTYPE x></x:a>", 15, b"<!DOC")
    bad("tags must match", b"<x:a><x:b></x:a></x:b>", 15, b"</x:a>")
    bad("... by bytes, prefix too", b"<x:a></y:a>", 15, b"</y:a>")
    bad("the alert's end inside a skipped one is a wrong end tag", b"<x:a>", 15, b"</alert>")
    taken("white space before > of an end tag", behind(b"<x:a></x:a\n>"))
    bad("an end tag with an attribute", b"<x:a></x:a b='c'>", 15, b"</x:a b")
    bad("stray text between skipped ones: text outside leaves, at the byte", b"<x:a/>t<x:b/>", 15, b"t<x:b")
    bad("an end tag too many", b"<x:a/></x:a>", 15, b"</x:a>")
    # depth
    taken("32 deep", behind(nested(32, b"text<!-- c -->")))
    check("33 deep: 32, and it carries 0", o.cap_check(behind(nested(33))), refused(32))
    check("an empty tag is an element too", o.cap_check(behind(nested(32, b"<x:f/>"))), refused(32))
    taken("32 with the empty tag", behind(nested(31, b"<x:f/>")))
    taken("siblings don't add up", behind(nested(31, b"<x:f/>" * 40) * 3))
    bad("15 before 32 in one tag", nested(32, b"<x:f b='<'/>"), 15, b"<x:f")
    bad("16 before 32 in one tag: the 33rd is the alert's own", nested(32, b"<f/>"), 16, b"<f/>")
    bad("left to right: an earlier fault before the depth", nested(32, b"&bad;<x:f/>"), 15, b"&bad;")
    check("left to right: the depth before a later fault", o.cap_check(behind(nested(32, b"<x:f>&bad;</x:f>"))), refused(32))
    check("without an end the 33rd tag gives only 15 at the length", o.cap_check(behind(nested(32, b"<x:f '"))),
          refused(15, len(behind(nested(32, b"<x:f '")))))
    # what it gives
    check("the sheet is the one without them", o.cap_sheet(behind(SIG), 1), o.cap_sheet(DOC, 1))
    check("the place asked about too", o.why(doc(rest=info(area(BOX)) + SIG), 1, *INSIDE), ("inside", 1, "polygon", 1))
    check("places are those of the document as it came", o.cap_check(behind(SIG) + b"x"), refused(15, len(behind(SIG))))
    huge = behind(b"<x:a>" + b"t" * (65_536 - len(behind(b"<x:a></x:a>"))) + b"</x:a>")
    taken("the length counts what is skipped: 65,536", huge)
    case("... 65,537", huge + b" ", 14, place=0)
    case("missing things stay missing: no scope before the alert's end", swap(doc(rest=b""), b"<scope>Public</scope>", b""), 16, b"</alert>")


# ---------------------------------------------------------------------------
# Comparisons with other computations
# ---------------------------------------------------------------------------

def local(tag):
    return tag.split("}")[-1]


def flat(document):
    """{path: text or None} of the CAP elements, by the library's own parser; times as datetimes."""
    out = {}
    def walk(node, here):
        kids = list(node)
        out[here] = None if local(node.tag) in o.CONTAINERS else (node.text or "")
        if local(node.tag) in o.TIMES:
            out[here] = datetime.strptime(node.text.strip(), "%Y-%m-%dT%H:%M:%S%z")
        counts = {}
        for kid in kids:
            if not kid.tag.startswith("{urn:oasis"):
                continue
            counts[kid.tag] = counts.get(kid.tag, 0) + 1
            walk(kid, here + ((local(kid.tag), counts[kid.tag]),))
    walk(ET.fromstring(document), (("alert", 1),))
    return out


def random_info(rnd):
    bits = [b"<language>%d</language>" % rnd.randint(0, 1)] if rnd.random() < .5 else []
    bits += [b"<category>%s</category>" % rnd.choice((b"Fire", b"Met")) for _ in range(rnd.randint(1, 3))]
    bits.append(INFO_HEAD[INFO_HEAD.index(b"<event>"):])
    bits += [b"<eventCode><valueName>%d</valueName><value>%d</value></eventCode>" % (rnd.randint(0, 1), rnd.randint(0, 1))
             for _ in range(rnd.randint(0, 2))]
    for name in (b"effective", b"onset", b"expires"):
        if rnd.random() < .5:
            when = rnd.choice((b"2024-03-01T11:15:00+01:00", b"2024-03-01T10:15:00-00:00", b"2024-03-01T10:15:01+00:00"))
            bits.append(b"<%s>%s</%s>" % (name, when, name))
    for _ in range(rnd.randint(0, 3)):
        bits.append(area(*([rnd.choice((BOX, FAR)) for _ in range(rnd.randint(0, 2))]
                           + [rnd.choice((C1, CFAR)) for _ in range(rnd.randint(0, 2))]), desc=rnd.choice((b"d", b"e"))))
    return b"<info>" + b"".join(bits) + b"</info>"


def random_compare():
    rnd = random.Random(101)
    order = {name: i for seq in o.SEQUENCES["1.2"].values() for i, (name, _, _) in enumerate(seq)}
    ok = mirror = True
    for _ in range(400):
        def make():
            head = HEAD + b"<code>%d</code>" % rnd.randint(0, 1) * rnd.randint(0, 3) + rnd.choice((b"", b"<note/>", b"<note>n</note>"))
            return doc(head, b"".join(random_info(rnd) for _ in range(rnd.randint(0, 3))))
        a, b = make(), make()
        one, two = flat(a), flat(b)
        want = [(p, "first") for p in one if p not in two and p[:-1] in two]
        want += [(p, "second") for p in two if p not in one and p[:-1] in one]
        want += [(p, "both") for p in one if p in two and one[p] != two[p]]
        want.sort(key=lambda item: [(order.get(name, 0), k) for name, k in item[0]])
        got = o.compare(a, b, 10 ** 6)
        ok = ok and got == ("list", len(want), want)
        other = {"first": "second", "second": "first", "both": "both"}
        mirror = mirror and o.compare(b, a, 10 ** 6)[2] == [(p, other[k]) for p, k in got[2]]
        ok = ok and o.compare(a, b, len(want)) == got and (not want or o.compare(a, b, len(want) - 1) == refused(24))
    check("compare against the library's parser and set differences, sorted in schema order", ok, True)
    check("compare the other way round is the mirror", mirror, True)


FOREIGN_BITS = [b"t", b" ", b"&amp;", b"&#1;", b"]]>", b"<!-- c -->", b"<!-- - -->", b"<!-- -- -->", b"<y:b/>", b"<b/>", b"<cap:b/>",
                b"<y:b c='d' e=\"f\">", b"</y:b>", b"<y:b c='<'>", b"<![CDATA[x]]>", b"<?p?>", b"<x:a>", b"</x:a>", b"<x:a ",
                b"c='d'", b"c=\"&lt;\"", b"/>", b">", b"<", b"\x01", b"\x7f", b"<y:b c='1' c='2'/>", b"<:a/>", b"<y:1/>", b"<y:b:c/>"]


def random_foreign():
    rnd = random.Random(114)
    formed = without = streamed = True
    accepted = 0
    def tree(depth):
        name = rnd.choice((b"x:a", b"y:b", b"Q:c"))
        attributes = b"".join(rnd.choice((b" a='1'", b"\tp:q = \"&gt;'\"", b" z='>'"))[:99] for _ in range(rnd.randint(0, 1)))
        if depth == 0 or rnd.random() < .3:
            return b"<" + name + attributes + b"/>"
        inner = b"".join(rnd.choice((b"t", b"<!-- c -->", b" ", b"&lt;", tree(depth - 1))) for _ in range(rnd.randint(0, 3)))
        return b"<" + name + attributes + b">" + inner + b"</" + name + b">"
    for _ in range(4000):
        good = rnd.random() < .5
        foreign = b"".join(tree(rnd.randint(0, 4)) for _ in range(rnd.randint(1, 3)))
        if not good:
            foreign = bytearray(foreign)
            for _ in range(rnd.randint(1, 3)):
                i = rnd.randrange(len(foreign) + 1)
                if rnd.random() < .5:
                    foreign[i:i + rnd.randint(0, 3)] = rnd.choice(FOREIGN_BITS)
                else:
                    foreign[i:i] = rnd.choice(FOREIGN_BITS)
            foreign = bytes(foreign)
        infos = INFO * rnd.randint(0, 2)
        if rnd.random() < .5:
            d, bare = doc(rest=infos + foreign), doc(rest=infos)
        else:
            d = CAP_OPEN + prefixed(HEAD + infos) + foreign + CAP_CLOSE
            bare = CAP_OPEN + prefixed(HEAD + infos) + CAP_CLOSE
        r = o.cap_check(d)
        try:
            xml.parsers.expat.ParserCreate().Parse(d, True)
            well = True
        except xml.parsers.expat.ExpatError:
            well = False
        if good:
            formed = formed and r == o.cap_check(bare) and well
        if r[0] == "ok":
            accepted += 1
            formed = formed and well
            for part in range(4):
                without = without and o.cap_sheet(d, part) == o.cap_sheet(bare, part)
            without = without and o.compare(d, bare, 0) == ("list", 0, []) and o.compare(bare, d, 0) == ("list", 0, [])
        else:
            formed = formed and (r[1] in (15, 16, 32) and 0 <= r[2] <= len(d))
        ends = sorted(rnd.randint(0, len(d)) for _ in range(rnd.randint(0, 9)))
        streamed = streamed and o.stream(len(d), cuts(d, *ends), 1)[1] == o.cap_sheet(d, 1)
    check("[14] made-up foreign elements are taken, and what is taken is well-formed by the library", formed, True)
    check("[14] sheets and compare as without them", without, True)
    check("[14] enough were taken to mean something", accepted > 1500, True)
    check("[4] cut anywhere: the whole document's answer", streamed, True)


def random_instants():
    rnd = random.Random(106)
    ok = True
    for _ in range(3000):
        t = datetime(rnd.randint(1, 9998), rnd.randint(1, 12), rnd.randint(1, 28))
        off = rnd.randint(-840, 840)
        want = (t + timedelta(days=1) - datetime(1970, 1, 1)) // timedelta(seconds=1) - off * 60
        text = "%04d-%s%s%02d:%02d" % (t.year, t.strftime("%m-%dT24:00:00"), "-" if off < 0 else "+", abs(off) // 60, abs(off) % 60)
        ok = ok and o.instant(text.encode()) == want
    check("[6] hour 24 against datetime", ok, True)


def vectors():
    folder = os.path.join(SHARED, "vectors")
    if not os.path.isdir(folder):
        return
    for name in sorted(os.listdir(folder)):
        if not name.endswith(".xml"):
            continue
        base = os.path.join(folder, name[:-4])
        document = open(base + ".xml", "rb").read()
        for switches, endings in ((dict(), (".14.out", ".12.out", ".out")),
                                  (dict(r14=False), (".12.out", ".out")),
                                  (dict(r12=False, r14=False, r3=False, r6=False), (".out",))):
            want = next(open(base + e, "rb").read() for e in endings if os.path.exists(base + e))
            with o.rules(**switches):
                check("vector %s with %r" % (name, switches), o.program(document), want)
        check("vector %s in pieces" % name, o.stream(len(document), [document[i:i + 7] for i in range(0, len(document), 7)], 1)[1],
              o.cap_sheet(document, 1))


def base():
    """The base tests of model.py against this model with all amendments off."""
    path_a = os.path.join(SHARED, "model", "test_model.py")
    if not (os.path.exists(path_a) and os.path.isdir(os.path.join(SHARED, "papers"))):
        return
    def load(where, name):
        spec = importlib.util.spec_from_file_location(name, where)
        module = importlib.util.module_from_spec(spec)
        spec.loader.exec_module(module)
        return module
    mine = sys.modules.get("model")
    here = os.getcwd()
    try:
        sys.modules["model"] = load(os.path.join(HERE, "model02_base.py"), "model02_base")
        tests = load(path_a, "base_tests")
        os.chdir(SHARED)
        for group in ("bench samples warn prolog comments tags structure texts shapes places sheets sentences "
                      "papers random_comparisons speed").split():
            getattr(tests, group)()
    finally:
        os.chdir(here)
        sys.modules.pop("model")
        if mine is not None:
            sys.modules["model"] = mine
    check("base tests of model.py (%d checks)" % tests.COUNT, (tests.COUNT > 400, tests.FAILED), (True, []))


def speed():
    tail = b"<x:a " + b" ".join(b"a%d='%s'" % (i, b"v" * 200) for i in range(16)) + b"/>"
    for why, d in (("64 KB of skipped tags", doc(rest=INFO + tail * 18)), ("64 KB of skipped empty tags", doc(rest=INFO + b"<x:a/>" * 10_700)),
                   ("64 KB of skipped text", doc(rest=INFO + b"<x:a>" + b"]" * 64_000 + b"</x:a>")),
                   ("64 KB of codes", doc(HEAD + b"<code/>" * 9200))):
        assert 55_000 < len(d) <= 65_536, (why, len(d))
        begin = time.time()
        o.cap_check(d)
        o.compare(d, d, 0)
        check("under two seconds: " + why, time.time() - begin < 2, True)


if __name__ == "__main__":
    for group in (r1, r2, r3, r4, r5, r6, r7, r8, r9, r10, r11, r12, r13, r14, random_compare, random_foreign,
                  random_instants, vectors, base, speed):
        GROUP = group.__name__
        group()
    for i in range(1, 15):
        if COUNTS.get("r%d" % i, 0) < 10:
            FAILED.append("fewer than ten cases for [%d]" % i)
    print(", ".join("%s %d" % item for item in COUNTS.items()))
    print("%d checks, %d failed" % (sum(COUNTS.values()), len(FAILED)))
    sys.exit(1 if FAILED else 0)
