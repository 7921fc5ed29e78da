#!/usr/bin/env python3
"""A model: document 01 ("The warning box: rules") as amended by all of requests [1] to [14]
of document 02.  Python 3.11, standard library only.

Comments in quotation marks are sentences of 01 or 02; "[n]" is request n of 02, "[n.m]" is
entry m of request n in notes/READINGS-02.md, "[A n]" an entry of notes/READINGS.md (base).

Interface
-----------------------------------------------------------------------------------------
A refusal is always ("refused", number, place).

RULES                       switches r3, r6, r12, r14 (True for what has landed); with rules(r14=True): ...
cap_check(doc), cap_sheet(doc, part), cap_place(doc, part, lat, lon)
warn_read(p), warn_sheet(p), warn_place(p, lat, lon)
write(buf, start, sheet), sentence(sheet), read(text, k), program(stdin)
                            as in the base; sheets have "wording": "plain" | "checked" (a sheet
                            handed in without the key counts as "plain")
receive(table, packet, keys, verdict, now), sweep(table, t)
                            entries (used, key, event, seq, cancelled, keep, timestamp, expiry)
compare(doc1, doc2, room)   ("list", count, [(path, kind), ...]); path (("alert", 1), ("info", 2),
                            ...), kind "first" | "second" | "both"
stream(total, pieces, part) a PAIR ([answer per piece], final): "ok" | ("refused", 25, 0) and
                            ("sheet", s) | refused.  Also stream_start(total, part) -> state,
                            stream_feed(state, piece) -> (answer, state), stream_finish(state)
why(doc, part, lat, lon)    ("inside", area, "polygon" | "circle", shape) | ("outside", tried) |
                            ("noshape",)
running(table, t, room)     ("list", count, [(key, event), ...])
record_start(room, offset)  ("started", state); room: bytes or their number.  A state is
                            (offset, at, count), at being where the next record goes
record_add(state, buf, clock, verdict, packet)   ("recorded", newbuf, newstate)
record_end(state, buf)      ("file", newbuf, length): the file is newbuf[:length]
record_all(buf, offset, records)    start, each record, end; the first refusal is the answer
record_taken(buf, offset, records)  (answers, ("file", newbuf, length) | refused): goes on behind
                            a refused record with state and bytes as they were
replay(file, table, keys, room)     ("replayed", [("accepted",) | refused, ...], table)
settings_check(buf, length=None, forms=(1, 2))   ("sound", form or None, number of editions)
settings_read(buf, length, n=0, forms=(1, 2))    ("settings", s), s = {"lat", "lon", "severity",
                            "keys": [..], "second": None | (lat, lon)}
settings_add(buf, length, form, s, forms=(1, 2)) ("added", newbuf, newlength)
settings_move(buf, length, to_form, room)        ("moved", newroom, newlength): THREE members, as
                            the room's content behind the moved store stays.  forms=(1,) is a box
                            "still on [9]": there 29 doesn't exist and every other form is 27
settings_place(s, doc, part), settings_place(s, packet)     ("inside",) | ("outside",) | ("noshape",)
swept_twice(table, t1, t2)  (table, table): two sweeps, and one at the larger
commute(table, keys, p1, v1, c1, p2, v2, c2)     (one, other): for the order p1 p2 and the order
                            p2 p1 a triple (answer to p1, answer to p2, contents), contents being
                            {(key, event): (seq, cancelled, keep, timestamp, expiry)}
"""

import contextlib
import functools
import re
from datetime import date
from decimal import Decimal, localcontext


# ---------------------------------------------------------------------------
# Which amendments have landed
# ---------------------------------------------------------------------------

class Rules:
    """Each switch turned off gives the rules as they were before that request landed."""

    def __init__(self):
        self.r3 = True          # the shorter way round the date line
        self.r6 = True          # hour 24
        self.r12 = False        # CAP 1.1
        self.r14 = False        # foreign elements


RULES = Rules()


@contextlib.contextmanager
def rules(**switches):
    old = dict(vars(RULES))
    try:
        for name, value in switches.items():
            assert name in old, name
            setattr(RULES, name, value)
        yield RULES
    finally:
        vars(RULES).update(old)


# ---------------------------------------------------------------------------
# Refusal numbers
# ---------------------------------------------------------------------------

class Refused(Exception):
    """The first broken rule: its number and its place.

    24 to 32 name no place, so they carry 0: "All others carry 0." [1.9]"""

    def __init__(self, number, place=0):
        super().__init__(number, place)
        self.number = number
        self.place = place

    def answer(self):
        return ("refused", self.number, self.place)


def _answering(function):
    """Public functions answer a refusal as a value."""
    @functools.wraps(function)
    def wrapped(*arguments, **named):
        try:
            return function(*arguments, **named)
        except Refused as refusal:
            return refusal.answer()
    return wrapped


LAT_LIMIT = 900_000_000             # units of 1e-7 degree, either way, inclusive
LON_LIMIT = 1_800_000_000
LONGEST = 31_536_000                # seconds


def _place_in_range(lat, lon):
    return -LAT_LIMIT <= lat <= LAT_LIMIT and -LON_LIMIT <= lon <= LON_LIMIT


def _unsigned(data, offset, width):
    return int.from_bytes(data[offset:offset + width], "big")


def _signed(data, offset, width):
    return int.from_bytes(data[offset:offset + width], "big", signed=True)


# ---------------------------------------------------------------------------
# The packet
# ---------------------------------------------------------------------------

def _packet(p):
    """The fields of an accepted packet.  WARN order: 1 (8 bytes), 2, 3, 4, 1 (132), 5, 6, 7."""
    n = len(p)
    if n < 8:
        raise Refused(1)
    if p[0:4] != b"WARN":
        raise Refused(2)
    if p[4] == 0 or p[4] > 1:                   # "any minor is taken"
        raise Refused(3)
    flags = _unsigned(p, 0x06, 2)
    # "flag bit 0 is the top bit of the 16: ALERT, URGENT, UPDATE, CANCEL, TEST, the rest ignored"
    flag_list = [bool(flags & (0x8000 >> bit)) for bit in range(5)]
    if not flag_list[0]:
        raise Refused(4)
    if n < 132:
        raise Refused(1)
    if n > 1200:
        raise Refused(5)
    lat = _signed(p, 0x36, 4)
    lon = _signed(p, 0x3A, 4)
    if not _place_in_range(lat, lon):
        raise Refused(6)
    timestamp = _unsigned(p, 0x08, 8)
    expiry = _unsigned(p, 0x26, 8)
    # "The packet lasts expiry minus timestamp."
    if not 1 <= expiry - timestamp <= LONGEST:
        raise Refused(7)
    return {
        "flags": flag_list,
        "timestamp": timestamp,
        "event": _unsigned(p, 0x10, 4),
        "seq": _unsigned(p, 0x14, 2),
        "ttl": _unsigned(p, 0x16, 2),
        "hazard": p[0x18],
        "kind": p[0x19],
        "urgency": p[0x1A],
        "severity": p[0x1B],
        "certainty": p[0x1C],
        "response": p[0x1D],
        "onset": _unsigned(p, 0x1E, 8),
        "expiry": expiry,
        "effective": _unsigned(p, 0x2E, 8),
        "lat": lat,
        "lon": lon,
        "radius": _unsigned(p, 0x3E, 2),        # in 10 m
        "key": _unsigned(p, n - 68, 4),
        "tlv": (0x40, n - 132),
        "sig": (n - 64, 64),
    }


@_answering
def warn_read(packet):
    return ("ok", _packet(packet))


@_answering
def warn_sheet(packet):
    """Own refusals; 21 cannot come (a packet has one sheet) and 7 is already the packet's own.
    [13] "A sheet is drawn in 01's wording; the caller may set the other." """
    f = _packet(packet)
    return ("sheet", {
        "kind": "warn",
        "wording": "plain",
        "urgent": f["flags"][1],
        "update": f["flags"][2],
        "cancel": f["flags"][3],
        "test": f["flags"][4],
        "event": f["event"],
        "number": f["seq"],
        "origin": f["key"],
        "lasts": f["expiry"] - f["timestamp"],
        "hazard": f["hazard"],
        "kind2": f["kind"],
        "urgency": f["urgency"],
        "severity": f["severity"],
        "certainty": f["certainty"],
        "response": f["response"],
    })


def _packet_circle(f):
    """"A packet's shape is the circle of its epicentre and radius." """
    return (f["lat"], f["lon"], 10 * f["radius"])


@_answering
def warn_place(packet, lat, lon):
    """The packet's own refusals (its 6 and 7 among them), then 6 for the place asked about."""
    f = _packet(packet)
    if not _place_in_range(lat, lon):
        raise Refused(6)
    return ("inside",) if _circle_holds(_packet_circle(f), lat, lon) else ("outside",)


# ---------------------------------------------------------------------------
# The event table
# ---------------------------------------------------------------------------
# An entry is (used, key, event, seq, cancelled, keep, timestamp, expiry); the last two are
# [7]'s: "Let each table entry also keep the accepted packet's timestamp and expiry."

USED, KEY, EVENT, SEQ, CANCELLED, KEEP, TIMESTAMP, EXPIRY = range(8)


def _receive(table, packet, keys, verdict, now):
    """The table after acceptance.  Packet's own refusals, "on receipt then 12, 8, 9, 10, 11"."""
    f = _packet(packet)
    if now > 2 ** 64 - 65_536:
        raise Refused(12)
    if f["key"] not in keys:
        raise Refused(8)
    if not verdict:
        raise Refused(9)
    table = [tuple(entry) for entry in table]
    # [7] "Acceptance writes the two new fields with the others": both are the packet's,
    # whatever the entry held; only keep-until is the larger of two.
    seq, cancel, keep = f["seq"], f["flags"][3], now + f["ttl"]
    times = (f["timestamp"], f["expiry"])

    # "an event (key id with event number) is judged by its first used entry"
    for i, entry in enumerate(table):
        if entry[USED] and (entry[KEY], entry[EVENT]) == (f["key"], f["event"]):
            if not seq > entry[SEQ]:
                raise Refused(10)
            # "keep-until becomes the larger of its old one and now plus ttl"
            table[i] = entry[:SEQ] + (seq, cancel, max(entry[KEEP], keep)) + times
            return table

    # "A new event takes the lowest free entry ... its keep-until is now plus ttl,
    # whatever the free entry held."
    for i, entry in enumerate(table):
        if not entry[USED]:
            table[i] = (True, f["key"], f["event"], seq, cancel, keep) + times
            return table
    raise Refused(11)


@_answering
def receive(table, packet, keys, verdict, now):
    return ("accepted", _receive(table, packet, keys, verdict, now), "accepted")


def sweep(table, t):
    """"Sweeping at a time frees exactly the used entries whose keep-until is below it,
    touching only their used mark."  [7] "sweeping still looks at keep-until only" """
    return [(False,) + tuple(entry)[1:] if entry[USED] and entry[KEEP] < t else tuple(entry)
            for entry in table]


def _first_used(table):
    """(key, event) -> index of the event's first used entry, in table order."""
    first = {}
    for i, entry in enumerate(table):
        if entry[USED]:
            first.setdefault((entry[KEY], entry[EVENT]), i)
    return first


@_answering
def running(table, t, room):
    """[7] "lists, in table order, key id and event of each event whose first used entry is
    uncancelled, with timestamp at or before a given time and expiry after it" """
    out = [event for event, i in _first_used(table).items()
           if not table[i][CANCELLED] and table[i][TIMESTAMP] <= t < table[i][EXPIRY]]
    if len(out) > room:
        raise Refused(24)
    return ("list", len(out), out)


# ---------------------------------------------------------------------------
# [11] Order at the table: the two sides of the two statements
# ---------------------------------------------------------------------------

def swept_twice(table, t1, t2):
    return sweep(sweep(table, t1), t2), sweep(table, max(t1, t2))


def contents(table):
    """Content of every event: what its first used entry holds beside its name."""
    return {event: tuple(table[i][SEQ:]) for event, i in _first_used(table).items()}


def commute(table, keys, p1, v1, c1, p2, v2, c2):
    def feed(order):
        now_table, answers = [tuple(entry) for entry in table], {}
        for name, packet, verdict, clock in order:
            answers[name], now_table = _fed(now_table, packet, keys, verdict, clock)
        return answers[1], answers[2], contents(now_table)
    first, second = (1, p1, v1, c1), (2, p2, v2, c2)
    return feed((first, second)), feed((second, first))


def _fed(table, packet, keys, verdict, clock):
    """(answer, table afterwards) of one packet fed live."""
    answer = receive(table, packet, keys, verdict, clock)
    if answer[0] == "accepted":
        return ("accepted",), answer[1]
    return answer, table


# ---------------------------------------------------------------------------
# [8] Play last night again
# ---------------------------------------------------------------------------
# record: clock (8), verdict (1), packet length (2), packet
# trailer: offset of the first record (4), number of records (4), "NITE"

RECORD_HEAD = 11
TRAILER = 12
NITE = b"NITE"


def _recorder_room(at, room):
    """"13, no room at any call for the recording and a trailer behind it" """
    if at + TRAILER > room:
        raise Refused(13)


@_answering
def record_start(room, offset):
    """"A recorder starts at a named offset".  It writes nothing yet."""
    room = room if isinstance(room, int) else len(room)
    if offset >= 2 ** 32:
        raise Refused(26)                       # "offset ... too large for its field"
    _recorder_room(offset, room)
    return ("started", (offset, offset, 0))


@_answering
def record_add(state, buf, clock, verdict, packet):
    offset, at, count = state
    if len(packet) >= 2 ** 16 or offset >= 2 ** 32 or count + 1 >= 2 ** 32:
        raise Refused(26)
    record = (clock.to_bytes(8, "big") + (b"\1" if verdict else b"\0")
              + len(packet).to_bytes(2, "big") + packet)
    end = at + len(record)
    _recorder_room(end, len(buf))
    return ("recorded", buf[:at] + record + buf[end:], (offset, end, count + 1))


@_answering
def record_end(state, buf):
    offset, at, count = state
    if offset >= 2 ** 32 or count >= 2 ** 32:   # only in a state that isn't ours [8.8]
        raise Refused(26)
    _recorder_room(at, len(buf))
    trailer = offset.to_bytes(4, "big") + count.to_bytes(4, "big") + NITE
    end = at + TRAILER
    return ("file", buf[:at] + trailer + buf[end:], end)


def record_all(buf, offset, records):
    answer = record_start(len(buf), offset)
    if answer[0] == "refused":
        return answer
    state = answer[1]
    for clock, verdict, packet in records:
        answer = record_add(state, buf, clock, verdict, packet)
        if answer[0] == "refused":
            return answer
        buf, state = answer[1:]
    return record_end(state, buf)


def record_taken(buf, offset, records):
    """"A file recorded with states and bytes handed on untouched holds exactly the records
    taken, in order.": a refused call leaves both, and the recorder goes on."""
    answer = record_start(len(buf), offset)
    if answer[0] == "refused":
        return [], answer
    state, answers = answer[1], []
    for clock, verdict, packet in records:
        answer = record_add(state, buf, clock, verdict, packet)
        if answer[0] == "recorded":
            buf, state = answer[1:]
            answer = ("recorded",)
        answers.append(answer)
    return answers, record_end(state, buf)


def _records(file):
    """The records of a sound file, else 26."""
    n = len(file)
    if n < TRAILER or file[n - 4:] != NITE:
        raise Refused(26)
    at, count, stop = _unsigned(file, n - 12, 4), _unsigned(file, n - 8, 4), n - TRAILER
    if at > stop:
        raise Refused(26)
    out = []
    # "The records must fill the file from that offset to the trailer exactly; bytes before the
    # offset are skipped."  And they must be as many as the trailer says.
    while at < stop:
        if len(out) == count or stop - at < RECORD_HEAD:
            raise Refused(26)
        verdict, length = file[at + 8], _unsigned(file, at + 9, 2)
        if verdict > 1 or stop - at - RECORD_HEAD < length:
            raise Refused(26)
        packet = file[at + RECORD_HEAD:at + RECORD_HEAD + length]
        out.append((_unsigned(file, at, 8), verdict == 1, packet))
        at += RECORD_HEAD + length
    if len(out) != count:
        raise Refused(26)
    return out


@_answering
def replay(file, table, keys, room):
    """"26 ...; then 24, no room for the answers".  Each record's answer, and the table, are
    those of feeding the packets live, "that list and no sweep between"."""
    records = _records(file)
    if len(records) > room:
        raise Refused(24)
    table, answers = [tuple(entry) for entry in table], []
    for clock, verdict, packet in records:
        answer, table = _fed(table, packet, keys, verdict, clock)
        answers.append(answer)
    return ("replayed", answers, table)


# ---------------------------------------------------------------------------
# The document: tables of 007's schema, and of 012's
# ---------------------------------------------------------------------------

# name, least count, most count (None: unbounded); the order is the schema's.
_PAIR = [("valueName", 1, 1), ("value", 1, 1)]
_SEQUENCES_12 = {
    "alert": [
        ("identifier", 1, 1), ("sender", 1, 1), ("sent", 1, 1), ("status", 1, 1),
        ("msgType", 1, 1), ("source", 0, 1), ("scope", 1, 1), ("restriction", 0, 1),
        ("addresses", 0, 1), ("code", 0, None), ("note", 0, 1), ("references", 0, 1),
        ("incidents", 0, 1), ("info", 0, None),
    ],
    "info": [
        ("language", 0, 1), ("category", 1, None), ("event", 1, 1), ("responseType", 0, None),
        ("urgency", 1, 1), ("severity", 1, 1), ("certainty", 1, 1), ("audience", 0, 1),
        ("eventCode", 0, None), ("effective", 0, 1), ("onset", 0, 1), ("expires", 0, 1),
        ("senderName", 0, 1), ("headline", 0, 1), ("description", 0, 1),
        ("instruction", 0, 1), ("web", 0, 1), ("contact", 0, 1), ("parameter", 0, None),
        ("resource", 0, None), ("area", 0, None),
    ],
    "resource": [
        ("resourceDesc", 1, 1), ("mimeType", 1, 1), ("size", 0, 1), ("uri", 0, 1),
        ("derefUri", 0, 1), ("digest", 0, 1),
    ],
    "area": [
        ("areaDesc", 1, 1), ("polygon", 0, None), ("circle", 0, None), ("geocode", 0, None),
        ("altitude", 0, 1), ("ceiling", 0, 1),
    ],
    "eventCode": _PAIR,
    "parameter": _PAIR,
    "geocode": _PAIR,
}
# [12] "mimeType may be absent"; no other element or count differs (CAP11-STRUCTURE.md).
_SEQUENCES_11 = dict(_SEQUENCES_12, resource=[
    (name, 0 if name == "mimeType" else least, most)
    for name, least, most in _SEQUENCES_12["resource"]])
SEQUENCES = {"1.2": _SEQUENCES_12, "1.1": _SEQUENCES_11}
CONTAINERS = frozenset(_SEQUENCES_12)


def _follow_table(sequence):
    """"For each container a fixed table says which element may follow which".

    State None: nothing yet; state i: the last element was number i of the sequence.
    follow[state][name] is the next state; a missing name is a refusal.
    ends: the states in which the container may end.
    """
    follow, ends = {}, set()
    for state in [None] + list(range(len(sequence))):
        row = {}
        start = 0 if state is None else state + 1
        if state is not None and sequence[state][2] is None:
            row[sequence[state][0]] = state             # unbounded: again
        for i in range(start, len(sequence)):
            row[sequence[i][0]] = i
            if sequence[i][1] > 0:                      # a required one can't be passed over
                break
        else:
            ends.add(state)
        follow[state] = row
    return follow, ends


FOLLOW = {edition: {container: _follow_table(sequence) for container, sequence in table.items()}
          for edition, table in SEQUENCES.items()}

_CODES_12 = {
    "status": ["Actual", "Exercise", "System", "Test", "Draft"],
    "msgType": ["Alert", "Update", "Cancel", "Ack", "Error"],
    "scope": ["Public", "Restricted", "Private"],
    "category": ["Geo", "Met", "Safety", "Security", "Rescue", "Fire", "Health", "Env",
                 "Transport", "Infra", "CBRNE", "Other"],
    "responseType": ["Shelter", "Evacuate", "Prepare", "Execute", "Avoid", "Monitor",
                     "Assess", "AllClear", "None"],
    "urgency": ["Immediate", "Expected", "Future", "Past", "Unknown"],
    "severity": ["Extreme", "Severe", "Moderate", "Minor", "Unknown"],
    "certainty": ["Observed", "Likely", "Possible", "Unlikely", "Unknown"],
}
# [12] "Avoid and AllClear aren't response codes"
_CODES_11 = dict(_CODES_12, responseType=[
    code for code in _CODES_12["responseType"] if code not in ("Avoid", "AllClear")])
CODES = {"1.2": _CODES_12, "1.1": _CODES_11}
TIMES = ("sent", "effective", "onset", "expires")
NAMES = ("sender", "identifier")

# [12] "The name space ends in 1.1 and picks the edition"
URN = b"urn:oasis:names:tc:emergency:cap:"
WS = b"\t\n\r "                         # [A 1] the four white-space bytes of XML
BOM = b"\xef\xbb\xbf"


def _edition(value):
    """The edition that a name space picks, or None for another name space."""
    if value == URN + b"1.2":
        return "1.2"
    if RULES.r12 and value == URN + b"1.1":
        return "1.1"
    return None


# ---------------------------------------------------------------------------
# The document: texts
# ---------------------------------------------------------------------------

# "bytes below 0x20 but tab, LF, CR"
_CONTROL = re.compile(rb"[\x00-\x08\x0b\x0c\x0e-\x1f]")

# Every "&" that does not begin one of the five named references.
_REFERENCE_FAULT = re.compile(rb"&(?!(?:amp|lt|gt|apos|quot);)")

# Faults of form (15) in a leaf's text: such a byte, "]]>", and such an "&".
_TEXT_FAULT = re.compile(
    rb"[\x00-\x08\x0b\x0c\x0e-\x1f]|\]\]>|&(?!(?:amp|lt|gt|apos|quot);)")

_TIME = re.compile(rb"([0-9]{4})-([0-9]{2})-([0-9]{2})T([0-9]{2}):([0-9]{2}):([0-9]{2})"
                   rb"([+-])([0-9]{2}):([0-9]{2})")


def instant(text):
    """Whole seconds from 1970 of a time's text, or None where it is refused (18)."""
    m = _TIME.fullmatch(text.strip(WS))         # "Times may have white space around them"
    if m is None:
        return None
    year, month, day, hour, minute, second = (int(m.group(i)) for i in range(1, 7))
    sign = -1 if m.group(7) == b"-" else 1
    off_hour, off_minute = int(m.group(8)), int(m.group(9))
    if minute > 59 or second > 59 or off_minute > 59:
        return None
    # [6] "hour 24 with zero minutes and seconds, meaning 00:00:00 of the next day ... Any other
    # hour 24 stays refusal 18."
    if hour > 23 and not (RULES.r6 and (hour, minute, second) == (24, 0, 0)):
        return None
    offset = 60 * off_hour + off_minute
    if offset > 14 * 60:
        return None
    try:
        days = date(year, month, day).toordinal() - date(1970, 1, 1).toordinal()
    except ValueError:                          # year 0000, or a day that doesn't exist
        return None
    # The offset is taken off, not added.
    return days * 86_400 + hour * 3600 + minute * 60 + second - sign * offset * 60


def _forbidden_in_name(text):
    """Forbidden byte in a sender or identifier: not above 0x20, comma, "<", "&"."""
    return any(b <= 0x20 or b in b",<&" for b in text)


_DECIMAL = rb"([+-]?)([0-9]{1,3})(?:\.([0-9]{1,7}))?"
_PAIR_FORM = re.compile(_DECIMAL + rb"," + _DECIMAL)
_RADIUS_FORM = re.compile(rb"([0-9]{1,5})(?:\.([0-9]{1,3}))?")
_WS_RUN = re.compile(rb"[\t\n\r ]+")


def _decimal(sign, whole, part):
    """Units of 1e-7 degree."""
    value = int(whole) * 10 ** 7 + int((part or b"").ljust(7, b"0"))
    return -value if sign == b"-" else value


def _pair(text):
    """(lat, lon) of "latitude, comma, longitude", or None."""
    m = _PAIR_FORM.fullmatch(text)
    if m is None:
        return None
    lat = _decimal(*m.group(1, 2, 3))
    lon = _decimal(*m.group(4, 5, 6))
    return (lat, lon) if _place_in_range(lat, lon) else None


def _words_between_white_space(text):
    text = text.strip(WS)
    return _WS_RUN.split(text) if text else []


def polygon(text):
    """List of (lat, lon), or None (22)."""
    pairs = [_pair(word) for word in _words_between_white_space(text)]
    if None in pairs or len(pairs) < 4:         # 01's own rule, in both editions [12.4]
        return None
    return pairs if pairs[-1] == pairs[0] else None     # "equal ... in value"


def circle(text):
    """(lat, lon, metres), or None (22)."""
    words_ = _words_between_white_space(text)
    if len(words_) != 2:
        return None
    centre = _pair(words_[0])
    m = _RADIUS_FORM.fullmatch(words_[1])
    if centre is None or m is None:
        return None
    metres = int(m.group(1)) * 1000 + int((m.group(2) or b"").ljust(3, b"0"))
    if metres > 20_000_000:
        return None
    return centre + (metres,)


def _judge_content(edition, name, text):
    """The content rules of one leaf, in the order 14, 19, 17, 18, 22.

    Returns (number or None, value)."""
    if name in NAMES:
        if len(text) > 128:
            return 14, None
        if len(text) == 0 or _forbidden_in_name(text):
            return 19, None
        return None, text
    if name in CODES[edition]:
        for code in CODES[edition][name]:
            if text == code.encode("ascii"):    # "codes exactly, no trimming"
                return None, code.lower()
        return 17, None
    if name in TIMES:
        value = instant(text)
        return (18, None) if value is None else (None, value)
    if name == "polygon":
        value = polygon(text)
        return (22, None) if value is None else (None, value)
    if name == "circle":
        value = circle(text)
        return (22, None) if value is None else (None, value)
    return None, text                           # "All texts with no rule here are taken as they come"


# ---------------------------------------------------------------------------
# The document: constructs (declaration, comment, tag, text)
# ---------------------------------------------------------------------------

class Element:
    """An element of an accepted document.  A leaf has its raw text and the value its rule gives
    (an instant, a code in small letters, a shape, else the text); a container its children.
    What [14] skips makes no element, nor does a comment or white space between elements."""

    def __init__(self, name, text=None, value=None):
        self.name = name
        self.text = text
        self.value = value
        self.children = []

    def all(self, name):
        return [child for child in self.children if child.name == name]

    def value_of(self, name, default=None):
        """The value of a leaf that stands at most once."""
        return next((child.value for child in self.children if child.name == name), default)


class _Open:
    """A container whose end tag has not come yet."""

    def __init__(self, qname, element):
        self.qname = qname      # the tag's name as written, prefix included
        self.element = element
        self.state = None       # the row of its follow table


_QUOTE_OR_END = re.compile(rb"[>\"']")
_NAME = re.compile(rb"[A-Za-z0-9\-_.:]+")
_ATTRIBUTE = re.compile(
    rb"[\t\n\r ]+xmlns(?::([A-Za-z]{1,16}))?[\t\n\r ]*=[\t\n\r ]*(?:\"([^\"]*)\"|'([^']*)')")

# [14] "A name is 1 to 64 ASCII letters, digits, "-", "_" and ".", first a letter or "_", or two
# such with ":" between"
_FOREIGN_NAME_TEXT = rb"[A-Za-z_][A-Za-z0-9\-_.]{0,63}(?::[A-Za-z_][A-Za-z0-9\-_.]{0,63})?"
_FOREIGN_NAME = re.compile(_FOREIGN_NAME_TEXT)
# "attributes in either quote", "each after white space"; white space may "surround "=""
_FOREIGN_ATTRIBUTE = re.compile(
    rb"[\t\n\r ]+(" + _FOREIGN_NAME_TEXT + rb")[\t\n\r ]*=[\t\n\r ]*(?:\"([^\"]*)\"|'([^']*)')")

DEEPEST = 32
MOST_ATTRIBUTES = 16


class _Tag:
    """One start or empty tag: its name as written, prefix (None: no ":"), local name, whether
    it is empty, and whatever stands behind the name, not looked at yet."""

    def __init__(self, qname, empty, attributes):
        self.qname = qname
        self.empty = empty
        self.attributes = attributes
        self.prefix, self.local = None, qname
        if b":" in qname:
            # [14] "what stands before the first ":" is the prefix"
            self.prefix, self.local = qname.split(b":", 1)


class _Document:
    def __init__(self, doc):
        self.doc = doc
        self.edition = None
        self.alert = None
        self.stack = []
        self.prefix = None      # the alert's own, None for the default name space
        self.skipped = False    # [14] an outermost foreign element has been met
        self.ended = False      # the alert's end has come

    # -- whole document ---------------------------------------------------

    def read(self):
        doc = self.doc
        if len(doc) > 65_536:
            raise Refused(14)                   # "14 for length first"; its place is 0
        i = len(BOM) if doc.startswith(BOM) else 0
        i = self.declaration(i)
        while i is not None:
            i = self.next_outside_leaves(i)
        return self

    def declaration(self, i):
        """"optional declaration from "<?xml" and a white-space byte to the first "?>",
        at most 128 bytes in all" """
        doc = self.doc
        if not (doc.startswith(b"<?xml", i) and len(doc) > i + 5 and doc[i + 5] in WS):
            return i
        end = doc.find(b"?>", i + 6)
        if end < 0:
            raise Refused(15, len(doc))
        end += 2
        if end - i > 128 or _CONTROL.search(doc, i, end):
            raise Refused(15, i)
        return end

    def next_outside_leaves(self, i):
        """Text outside leaves (white space only), then a comment or a tag.
        Gives the index behind it, or None when the document is at its end."""
        doc = self.doc
        less = doc.find(b"<", i)
        stop = len(doc) if less < 0 else less
        for k in range(i, stop):
            if doc[k] not in WS:
                raise Refused(15, k)            # "text outside leaf elements": the stray byte
        if less < 0:
            if self.ended:
                return None
            raise Refused(15, len(doc))         # "input that stops short"
        if doc.startswith(b"<!--", less):
            return self.comment(less)
        end = self.tag_end(less)
        if self.ended:
            raise Refused(15, less)             # "a tag after the alert's end"
        if self.is_end_tag(less):
            self.container_end(less, end)
            return end
        return self.start_tag(less, end)

    # -- comments ---------------------------------------------------------

    def comment(self, start):
        """A comment that may stand here.  Gives the index behind it."""
        end = self.comment_end(start)
        content = self.doc[start + 4:end - 3]
        if b"--" in content or content.endswith(b"-") or _CONTROL.search(content):
            raise Refused(15, start)
        return end

    def comment_end(self, start):
        """"a comment to the first "-->" after its opening" """
        end = self.doc.find(b"-->", start + 4)
        if end < 0:
            raise Refused(15, len(self.doc))
        return end + 3

    # -- tags -------------------------------------------------------------

    def tag_end(self, start):
        """"A tag ... runs to the first ">" outside quotes".  Gives the index behind it."""
        doc, i = self.doc, start + 1
        while True:
            m = _QUOTE_OR_END.search(doc, i)
            if m is None:
                raise Refused(15, len(doc))
            if m.group() == b">":
                return m.end()
            close = doc.find(m.group(), m.end())
            if close < 0:
                raise Refused(15, len(doc))
            i = close + 1

    def is_end_tag(self, start):
        return self.doc[start + 1:start + 2] == b"/"

    def is_end_tag_of(self, start, end, qname):
        """</name> with white space allowed before ">" only."""
        return self.doc[start + 2:end - 1].rstrip(WS) == qname

    def container_end(self, start, end):
        if not self.stack or not self.is_end_tag_of(start, end, self.stack[-1].qname):
            raise Refused(15, start)            # "a wrong end tag"
        top = self.stack.pop()
        if top.state not in FOLLOW[self.edition][top.element.name][1]:
            raise Refused(16, start)            # "for something missing, its container's end"
        if not self.stack:
            self.ended = True

    def tag(self, start, end):
        """A start or empty tag by its parts; 15 where its name is one that no tag has."""
        body = self.doc[start + 1:end - 1]
        # DOCTYPE, CDATA and instructions have "!" or "?" in the place of the name: 15 below.
        empty = body.endswith(b"/")
        if empty:
            body = body[:-1]
        body = body.rstrip(WS)                  # "white space may precede ">" or "/>"
        m = _WS_RUN.search(body)
        qname, attributes = (body, b"") if m is None else (body[:m.start()], body[m.start():])
        if not _NAME.fullmatch(qname):
            raise Refused(15, start)
        return _Tag(qname, empty, attributes)

    def start_tag(self, start, end):
        """A start or empty tag outside leaves.  15, 16, 14 (and 32) in that order; for a leaf
        its text is read on.  Gives the index where the next thing outside leaves begins."""
        tag = self.tag(start, end)
        if self.alert is None:
            return self.first_tag(tag, start, end)
        if self.foreign_may_stand() and tag.prefix != self.prefix:
            self.skipped = True
            return self.skip(tag, start, end, 1)

        if tag.attributes:
            raise Refused(15, start)            # "Other tags have no attribute"
        if tag.prefix != self.prefix:
            raise Refused(16, start)            # "A start tag with another prefix is 16."
        if self.skipped:
            raise Refused(16, start)            # [14] "behind a skipped one ... (an info too)"
        top = self.stack[-1]
        name = tag.local.decode("ascii")
        row = FOLLOW[self.edition][top.element.name][0][top.state]
        if name not in row:
            raise Refused(16, start)            # unknown, misplaced or repeated
        top.state = row[name]

        if name in CONTAINERS:
            if tag.empty:
                raise Refused(16, start)        # every container has something required
            if name == "info" and len(self.alert.all("info")) == 16:
                raise Refused(14, start)        # "a 17th info"
            element = Element(name)
            top.element.children.append(element)
            self.stack.append(_Open(tag.qname, element))
            return end

        # a leaf
        if tag.empty:                           # "an empty tag is an empty text"
            self.content(name, b"", end)        # [A 3] place: the byte after the tag
            return end
        return self.leaf(tag.qname, name, end)

    def first_tag(self, tag, start, end):
        """[A 2] "The alert start tag": named alert, where the document's first tag stands."""
        if tag.local != b"alert":
            raise Refused(15 if tag.attributes else 16, start)
        m = _ATTRIBUTE.fullmatch(tag.attributes)
        if m is None:
            raise Refused(15, start)            # none, two, another one, badly written
        self.edition = _edition(m.group(2) if m.group(2) is not None else m.group(3))
        if self.edition is None:
            raise Refused(15, start)            # "another name space too"
        if tag.prefix != m.group(1):
            raise Refused(16, start)            # it carries the prefix it declares
        self.prefix = tag.prefix
        if tag.empty:
            raise Refused(16, start)            # something missing: its empty tag
        self.alert = Element("alert")
        self.stack.append(_Open(tag.qname, self.alert))
        return end

    # -- [14] foreign elements ----------------------------------------------

    def foreign_may_stand(self):
        """"after the last info, or where an info could stand if there is none": between the
        alert's own children, wherever its table lets an info follow."""
        if not RULES.r14 or len(self.stack) != 1:
            return False
        return "info" in FOLLOW[self.edition]["alert"][0][self.stack[-1].state]

    def foreign_form(self, tag, start):
        """"Faults in these names, attributes and values, references too, are 15 at the tag." """
        if not _FOREIGN_NAME.fullmatch(tag.qname):
            raise Refused(15, start)
        names, i = set(), 0
        while i < len(tag.attributes):
            m = _FOREIGN_ATTRIBUTE.match(tag.attributes, i)
            if m is None:
                raise Refused(15, start)
            name = m.group(1)
            value = m.group(2) if m.group(2) is not None else m.group(3)
            if name in names or len(names) == MOST_ATTRIBUTES:
                raise Refused(15, start)        # "must not repeat in a tag", "at most 16"
            if b"<" in value or _REFERENCE_FAULT.search(value) or _CONTROL.search(value):
                raise Refused(15, start)
            names.add(name)
            i = m.end()

    def skip(self, tag, start, end, depth):
        """One foreign element whose start or empty tag is this.  Gives the index behind it."""
        self.foreign_form(tag, start)
        if depth > DEEPEST:
            raise Refused(32)                   # "after 15 and 16 in one construct"; place 0 [14.1]
        if tag.empty:
            return end
        doc, i = self.doc, end
        while True:
            # "text and comments in any mix (text judged as a leaf's)"
            less = doc.find(b"<", i)
            if less < 0:
                raise Refused(15, len(doc))     # "a leaf's text with no "<" after it"
            fault = _TEXT_FAULT.search(doc, i, less)
            if fault:
                raise Refused(15, fault.start())
            if doc.startswith(b"<!--", less):
                i = self.comment(less)
                continue
            i = self.tag_end(less)
            if self.is_end_tag(less):
                if not self.is_end_tag_of(less, i, tag.qname):
                    raise Refused(15, less)     # "tags must match"
                return i
            inner = self.tag(less, i)
            if inner.prefix == self.prefix:
                # "in ... a skipped one, an element with the alert's own prefix ..., or with
                # none where it has none, is 16 (15 with an attribute)"
                raise Refused(15 if inner.attributes else 16, less)
            i = self.skip(inner, less, i, depth + 1)

    # -- a leaf's text, and what ends it ------------------------------------

    def leaf(self, qname, name, i):
        doc = self.doc
        less = doc.find(b"<", i)
        if less < 0:
            raise Refused(15, len(doc))         # "a leaf's text with no "<" after it"
        text = doc[i:less]
        fault = _TEXT_FAULT.search(text)
        if fault:
            raise Refused(15, i + fault.start())
        self.content(name, text, i)

        # Behind a whole text only its element's end tag may stand.
        if doc.startswith(b"<!--", less):
            self.comment_end(less)              # without its end: 15 at the input's length
            raise Refused(15, less)             # comments "don't stand inside a text"
        end = self.tag_end(less)
        if self.is_end_tag(less):
            if not self.is_end_tag_of(less, end, qname):
                raise Refused(15, less)
            return end
        inner = self.tag(less, end)             # 15 first
        raise Refused(15 if inner.attributes else 16, less)     # an element inside a leaf is misplaced

    def content(self, name, text, place):
        number_, value = _judge_content(self.edition, name, text)
        if number_ is not None:
            raise Refused(number_, place)       # "for a text's content, the byte after its start tag"
        self.stack[-1].element.children.append(Element(name, text, value))


class Alert:
    """An accepted document: its edition and its alert element."""

    def __init__(self, doc):
        accepted = _Document(doc).read()
        self.edition = accepted.edition
        self.root = accepted.alert
        self.infos = self.root.all("info")      # "Parts are the info elements in their order"


@_answering
def cap_check(doc):
    return ("ok", len(Alert(doc).infos))


def _part(alert, part):
    """The asked part: an info, or None for part 0 of a document without parts; else 21."""
    total = len(alert.infos)
    if total == 0 and part == 0:
        return None
    if 1 <= part <= total:
        return alert.infos[part - 1]
    raise Refused(21)


def _draw(doc, part):
    """"Drawing a sheet, after its packet's or document's own: 21, 7." """
    alert = Alert(doc)
    info = _part(alert, part)
    root = alert.root
    sheet = {
        "kind": "cap",                          # [12] "no sheet names the edition"
        "wording": "plain",                     # [13] "A sheet is drawn in 01's wording"
        "msgType": root.value_of("msgType"),
        "status": root.value_of("status"),
        "scope": root.value_of("scope"),
        "sender": root.value_of("sender"),
        "name": root.value_of("identifier"),
        "part": part,
        "total": len(alert.infos),
        "urgency": None,
        "severity": None,
        "certainty": None,
        "lasts": None,
    }
    if info is not None:
        for code in ("urgency", "severity", "certainty"):
            sheet[code] = info.value_of(code)
        expires = info.value_of("expires")
        if expires is not None:
            # "A CAP part lasts from effective (else sent) to expires"
            lasts = expires - info.value_of("effective", root.value_of("sent"))
            if not 1 <= lasts <= LONGEST:
                raise Refused(7)
            sheet["lasts"] = lasts
    return sheet


@_answering
def cap_sheet(doc, part):
    return ("sheet", _draw(doc, part))


# ---------------------------------------------------------------------------
# [1] Show me what the agency changed
# ---------------------------------------------------------------------------

def _differ(one, other):
    """"Times are compared as instants, all else as raw bytes." """
    if one.name in TIMES:
        return one.value != other.value
    return one.text != other.text


def _differences(edition, one, other, path, out):
    """Of two containers that stand in both documents under one path."""
    groups = []
    for element in (one, other):
        by_name = {}
        for child in element.children:
            by_name.setdefault(child.name, []).append(child)
        groups.append(by_name)
    for name, _, _ in SEQUENCES[edition][one.name]:         # "in schema order"
        here, there = groups[0].get(name, []), groups[1].get(name, [])
        for k in range(max(len(here), len(there))):
            step = path + ((name, k + 1),)      # "its position among equals at each step (from 1)"
            if k >= len(there):
                out.append((step, "first"))     # "listed without what is inside it"
            elif k >= len(here):
                out.append((step, "second"))
            elif name in CONTAINERS:
                _differences(edition, here[k], there[k], step, out)
            elif _differ(here[k], there[k]):
                out.append((step, "both"))      # "for texts alone"


@_answering
def compare(doc1, doc2, room):
    """"a refused document gives its own number, the first document before the second; then 24";
    [12] "31, editions differ, after both documents are accepted and before 24" """
    one = Alert(doc1)
    other = Alert(doc2)
    if one.edition != other.edition:
        raise Refused(31)
    out = []
    _differences(one.edition, one.root, other.root, (("alert", 1),), out)
    if len(out) > room:
        raise Refused(24)
    return ("list", len(out), out)


# ---------------------------------------------------------------------------
# [4] The gateway hands over bytes as they come
# ---------------------------------------------------------------------------
# The state holds all bytes: a model may.  A state is (total, part, bytes so far).

def stream_start(total, part):
    return (total, part, b"")


def stream_feed(state, piece):
    """"A piece that would pass the told length is turned away and the state stays." """
    total, part, so_far = state
    if len(so_far) + len(piece) > total:
        return ("refused", 25, 0), state
    return "ok", (total, part, so_far + piece)


@_answering
def stream_finish(state):
    """"at finish 25 comes before all others"; else the answer of the whole document."""
    total, part, so_far = state
    if len(so_far) != total:
        raise Refused(25)
    return ("sheet", _draw(so_far, part))


def stream(total, pieces, part):
    state, answers = stream_start(total, part), []
    for piece in pieces:
        answer, state = stream_feed(state, piece)
        answers.append(answer)
    return answers, stream_finish(state)


# ---------------------------------------------------------------------------
# Is the studio inside
# ---------------------------------------------------------------------------

PI = Decimal("3.14159265358979323846264338327950288419716939937510582097494459")


def _cosine_table():
    """"901 entries, one for each tenth of a degree ... each 10^6 times the cosine, to the
    nearest."  By the cosine's own series at 50 digits; no entry is near a half."""
    table = []
    with localcontext() as context:
        context.prec = 50
        for i in range(901):
            x2 = (PI * i / 1800) ** 2
            term, total, n = Decimal(1), Decimal(1), 0
            while abs(term) > Decimal("1e-40"):
                n += 2
                term = -term * x2 / (n * (n - 1))
                total += term
            table.append(int((total * 10 ** 6 + Decimal("0.5")).to_integral_value("ROUND_FLOOR")))
    return table


COSINE = _cosine_table()


def reach(metres):
    """"u is metres times 10^7 over 111,195, rounded down." """
    return metres * 10 ** 7 // 111_195


def _longitude_difference(a, b):
    """[3] "take the shorter way round, so the difference is never above 1,800,000,000" """
    plain = abs(a - b)
    return min(plain, 3_600_000_000 - plain) if RULES.r3 else plain


def _circle_holds(shape, lat, lon):
    c_lat, c_lon, metres = shape
    u = reach(metres)
    dy = abs(lat - c_lat)
    # "dx the ... longitude difference, without sign, times cosine over 10^6, rounded down";
    # the entry is that of the centre's latitude in tenths of a degree, toward 0.
    dx = _longitude_difference(lon, c_lon) * COSINE[abs(c_lat) // 1_000_000] // 10 ** 6
    return dx * dx + dy * dy <= u * u


def _edge_skipped(y1, y2, lat):
    """[2] "both ends lie on the same side of the place's latitude and neither touches it" """
    return (y1 < lat and y2 < lat) or (y1 > lat and y2 > lat)


def _edge(end1, end2, lat, lon):
    """What one edge does: "holds", "counts" (crosses strictly east) or None."""
    (y1, x1), (y2, x2) = end1, end2
    # twice the signed area of (end 1, end 2, place)
    cross = (x2 - x1) * (lat - y1) - (lon - x1) * (y2 - y1)
    if cross == 0 and min(x1, x2) <= lon <= max(x1, x2) and min(y1, y2) <= lat <= max(y1, y2):
        return "holds"                          # "a place on an edge is inside"
    if (y1 <= lat) != (y2 <= lat):              # one end at or below, the other above
        # The edge meets the latitude at x1 + (x2 - x1)(lat - y1)/(y2 - y1);
        # strictly east of the place iff cross/(y2 - y1) > 0.
        if (cross > 0) == (y2 > y1) and cross != 0:
            return "counts"
    return None


def _polygon_holds(pairs, lat, lon, skipping=False):
    odd = False
    for end1, end2 in zip(pairs, pairs[1:]):
        if skipping and _edge_skipped(end1[0], end2[0], lat):
            continue
        does = _edge(end1, end2, lat, lon)
        if does == "holds":
            return True
        if does == "counts":
            odd = not odd
    return odd


def _shapes(info):
    """(area's position, "polygon" | "circle", position among these in the area, shape), in
    document order; positions from 1.  Part 0 has none."""
    out = []
    for a, area in enumerate(info.all("area") if info is not None else [], 1):
        for kind in ("polygon", "circle"):
            out += [(a, kind, k, leaf.value) for k, leaf in enumerate(area.all(kind), 1)]
    return out


def _holds(kind, shape, lat, lon):
    return (_polygon_holds if kind == "polygon" else _circle_holds)(shape, lat, lon)


@_answering
def why(doc, part, lat, lon):
    """[5] "the first area, and in it the first polygon or else the first circle, that holds the
    place"; outside: all the part's shapes; no shape.  Refusals as asking about a place."""
    info = _part(Alert(doc), part)
    if not _place_in_range(lat, lon):
        raise Refused(6)
    shapes = _shapes(info)
    if not shapes:
        return ("noshape",)
    for area, kind, k, shape in shapes:
        if _holds(kind, shape, lat, lon):
            return ("inside", area, kind, k)
    return ("outside", len(shapes))


def _inside(info, places):
    """Any shape of the part holds any of the places."""
    shapes = _shapes(info)
    if not shapes:
        return ("noshape",)
    hit = any(_holds(kind, shape, *place) for _, kind, _, shape in shapes for place in places)
    return ("inside",) if hit else ("outside",)


@_answering
def cap_place(doc, part, lat, lon):
    """"Asking about a place, likewise: 21, 6." """
    info = _part(Alert(doc), part)
    if not _place_in_range(lat, lon):
        raise Refused(6)
    return _inside(info, [(lat, lon)])


# ---------------------------------------------------------------------------
# [9], [10] Settings that outlive an update; a second kiln shed
# ---------------------------------------------------------------------------
# edition: latitude, longitude (4 each, signed), severity, number of key ids (1 each), key ids
# (4 each), in form 2 a byte 0 or 1 and the place, then the trailer: form (1), the edition's whole
# length (2), distance back to the previous trailer's start (2), 0 for the first.

SETTINGS_TRAILER = 5
MOST_KEYS = 16


def _settings_sound(s):
    """These rules: places in range, severity 0 to 4, up to 16 key ids rising without repeats."""
    places = [(s["lat"], s["lon"])] + ([s["second"]] if s["second"] is not None else [])
    keys = list(s["keys"])
    return (all(_place_in_range(*place) for place in places) and 0 <= s["severity"] <= 4
            and len(keys) <= MOST_KEYS and all(0 <= key < 2 ** 32 for key in keys)
            and all(a < b for a, b in zip(keys, keys[1:])))


def _settings(lat, lon, severity, keys, second):
    return {"lat": lat, "lon": lon, "severity": severity, "keys": keys, "second": second}


def _edition_content(form, s):
    out = (s["lat"].to_bytes(4, "big", signed=True) + s["lon"].to_bytes(4, "big", signed=True)
           + bytes([s["severity"], len(s["keys"])])
           + b"".join(key.to_bytes(4, "big") for key in s["keys"]))
    if form == 2:
        if s["second"] is None:
            out += b"\0"
        else:
            out += b"\1" + b"".join(x.to_bytes(4, "big", signed=True) for x in s["second"])
    return out


def _edition_bytes(form, s, first):
    content = _edition_content(form, s)
    length = len(content) + SETTINGS_TRAILER
    # Editions stand one after another, so the previous trailer starts this edition's length back.
    return content + bytes([form]) + length.to_bytes(2, "big") + (0 if first else length).to_bytes(2, "big")


def _content_of(form, content):
    """The settings of an edition's content in a known form, or None."""
    n = len(content)
    if n < 10:
        return None
    k = content[9]
    at = 10 + 4 * k
    if n < at:
        return None
    keys = [_unsigned(content, 10 + 4 * i, 4) for i in range(k)]
    second = None
    if form == 2:
        if n < at + 1 or content[at] > 1:
            return None
        if content[at] == 1:
            if n < at + 9:
                return None
            second = (_signed(content, at + 1, 4), _signed(content, at + 5, 4))
            at += 8
        at += 1
    if n != at:                                 # "a length its content hasn't, is bad content"
        return None
    s = _settings(_signed(content, 0, 4), _signed(content, 4, 4), content[8], keys, second)
    return s if _settings_sound(s) else None


def _store(buf, length, forms, named=None):
    """The store's form (None if it is empty) and its settings, oldest first.

    "every call checks all of them first": 13 "first if the store passes its room"; 27 for any
    trailer; 29 for a form stored or named; 27 for any content."""
    if length > len(buf):
        raise Refused(13)
    found, end = [], length
    while end > 0:                              # "Trailers are found from the end by length"
        if end < SETTINGS_TRAILER:
            raise Refused(27)
        form, whole = buf[end - 5], _unsigned(buf, end - 4, 2)
        distance = _unsigned(buf, end - 2, 2)
        if not SETTINGS_TRAILER <= whole <= end:
            raise Refused(27)
        start = end - whole
        if distance != (whole if start > 0 else 0):
            raise Refused(27)
        found.append((form, buf[start:end - SETTINGS_TRAILER]))
        end = start
    found.reverse()
    seen = [form for form, _ in found] + ([] if named is None else [named])
    if any(form not in forms for form in seen):
        # "A box still on [9] refuses form 2 with 27."
        raise Refused(29 if 2 in forms else 27)
    store_form, out = None, []
    for form, content in found:
        # "a known form that isn't the store's": the forms differ within the store
        if store_form not in (None, form):
            raise Refused(27)
        store_form = form
        s = _content_of(form, content)
        if s is None:
            raise Refused(27)
        out.append(s)
    return store_form, out


@_answering
def settings_check(buf, length=None, forms=(1, 2)):
    form, editions = _store(buf, len(buf) if length is None else length, forms)
    return ("sound", form, len(editions))


@_answering
def settings_read(buf, length, n=0, forms=(1, 2)):
    """"Reading gives the newest; asking a sound store for the one n back gives that, or refuses
    exactly if it has no more than n." """
    _, editions = _store(buf, length, forms)
    if len(editions) <= n:
        raise Refused(28)
    return ("settings", editions[len(editions) - 1 - n])


@_answering
def settings_add(buf, length, form, s, forms=(1, 2)):
    store_form, editions = _store(buf, length, forms, form)
    # "27 ... also for settings to be added that break these rules"; a known form that isn't the
    # store's is bad content.
    if store_form not in (None, form) or not _settings_sound(s):
        raise Refused(27)
    if form == 1 and s["second"] is not None:
        raise Refused(30)
    edition = _edition_bytes(form, s, first=not editions)
    end = length + len(edition)
    if end > len(buf):
        raise Refused(13)                       # "13 for room, last"
    return ("added", buf[:length] + edition + buf[end:], end)


@_answering
def settings_move(buf, length, to_form, room):
    """"moved forward edition by edition, in order, to the start of other room, and may be moved
    back; a store already in the form asked for comes out as it is" """
    store_form, editions = _store(buf, length, (1, 2), to_form)
    if to_form == 1 and any(s["second"] is not None for s in editions):
        raise Refused(30)
    moved = b"".join(_edition_bytes(to_form, s, first=i == 0) for i, s in enumerate(editions))
    if len(moved) > len(room):
        raise Refused(13)
    return ("moved", moved + room[len(moved):], len(moved))


@_answering
def settings_place(s, data, part=None):
    """[10] "Asked with settings, a part or packet is inside if either place is".  Own refusals,
    21 (for a part), then 6 for either place [10.12]."""
    packet = part is None
    fields = _packet(data) if packet else None
    info = None if packet else _part(Alert(data), part)
    places = [(s["lat"], s["lon"])] + ([s["second"]] if s["second"] is not None else [])
    if not all(_place_in_range(*place) for place in places):
        raise Refused(6)
    if not packet:
        return _inside(info, places)
    hit = any(_circle_holds(_packet_circle(fields), *place) for place in places)
    return ("inside",) if hit else ("outside",)


# ---------------------------------------------------------------------------
# The sentence: numbers and durations in words
# ---------------------------------------------------------------------------

_SMALL = ("zero one two three four five six seven eight nine ten eleven twelve thirteen "
          "fourteen fifteen sixteen seventeen eighteen nineteen").split()
_TENS = "- - twenty thirty forty fifty sixty seventy eighty ninety".split()
_GROUPS = ((10 ** 9, "billion"), (10 ** 6, "million"), (10 ** 3, "thousand"))

# [13.7] every word that "Numbers in words" can use
NUMBER_WORDS = tuple(_SMALL + _TENS[2:] + ["hundred", "thousand", "million", "billion"])


def words(n):
    """"Numbers in words: no hyphen, no "and", empty thousands groups unsaid." """
    if n == 0:
        return "zero"
    out = []
    for size, name in _GROUPS:
        if n >= size:
            out.append(_below_thousand(n // size) + " " + name)
            n %= size
    if n:
        out.append(_below_thousand(n))
    return " ".join(out)


def _below_thousand(n):
    out = []
    if n >= 100:
        out += [_SMALL[n // 100], "hundred"]
        n %= 100
    if n >= 20:
        out.append(_TENS[n // 10])
        n %= 10
    if n:
        out.append(_SMALL[n])
    return " ".join(out)


def digits(n):
    """[13] "its decimal digits in words": 105 is "one zero five"."""
    return " ".join(_SMALL[int(d)] for d in str(n))


def number(text):
    """The number whose words these are, or None.  The caller compares with words()."""
    total = group = 0
    for word in text.split(" "):
        if word in _SMALL:
            group += _SMALL.index(word)
        elif word in _TENS[2:]:
            group += 10 * _TENS.index(word)
        elif word == "hundred":
            group *= 100
        else:
            for size, name in _GROUPS:
                if word == name:
                    total += group * size
                    group = 0
                    break
            else:
                return None
    n = total + group
    return n if 0 <= n < 10 ** 12 and words(n) == text else None


_UNITS = (("day", 86_400), ("hour", 3600), ("minute", 60), ("second", 1))


def duration(seconds, wording="plain"):
    """"days, hours, minutes, seconds, zero parts unsaid, singular for a count of one"; [13] in the
    other wording "each number in a duration is followed by "as" and its decimal digits in words" """
    out = []
    for name, size in _UNITS:
        count, seconds = divmod(seconds, size)
        if count:
            said = words(count) + (" as " + digits(count) if wording == "checked" else "")
            out.append(said + " " + name + ("" if count == 1 else "s"))
    return " ".join(out)


def seconds_of(text, wording="plain"):
    """The seconds whose duration in that wording this is, or None."""
    total, pending = 0, []
    for word in text.split(" "):
        size = next((s for n, s in _UNITS if word in (n, n + "s")), None)
        if size is None:
            pending.append(word)
        else:
            if wording == "checked" and "as" in pending:
                pending = pending[:pending.index("as")]     # the digits are judged below
            count = number(" ".join(pending))
            if count is None:
                return None
            total += count * size
            pending = []
    if pending or total < 1 or duration(total, wording) != text:
        return None
    return total


# ---------------------------------------------------------------------------
# The sentence: sheets
# ---------------------------------------------------------------------------

_SPOKEN = {name: [code.lower() for code in _CODES_12[name]]
           for name in ("status", "msgType", "scope", "urgency", "severity", "certainty")}

_WARN_WIDTHS = (("event", 32), ("number", 16), ("origin", 32), ("hazard", 8), ("kind2", 8),
                ("urgency", 8), ("severity", 8), ("certainty", 8), ("response", 8))


def _is_int(value):
    return isinstance(value, int) and not isinstance(value, bool)


def _lasting_in_range(value):
    return _is_int(value) and 1 <= value <= LONGEST


def _name_in_range(value):
    """Sender and name: the document's range, and "also hold no "]]>" "."""
    return (isinstance(value, bytes) and 1 <= len(value) <= 128
            and not _forbidden_in_name(value) and b"]]>" not in value)


def _wording(sheet):
    return sheet.get("wording", "plain")


def sheet_in_range(sheet):
    if _wording(sheet) not in ("plain", "checked"):
        return False
    if sheet["kind"] == "cap":
        if not all(sheet[f] in _SPOKEN[f] for f in ("msgType", "status", "scope")):
            return False
        if not (_name_in_range(sheet["sender"]) and _name_in_range(sheet["name"])):
            return False
        part, total = sheet["part"], sheet["total"]
        if not (_is_int(part) and _is_int(total)):
            return False
        judged = [sheet[f] for f in ("urgency", "severity", "certainty")]
        if part == 0 and total == 0:
            # the sentence says none of these facts, so the sheet holds none
            return judged == [None, None, None] and sheet["lasts"] is None
        if not (1 <= part <= total <= 16):
            return False
        if not all(sheet[f] in _SPOKEN[f] for f in ("urgency", "severity", "certainty")):
            return False
        return sheet["lasts"] is None or _lasting_in_range(sheet["lasts"])
    if sheet["kind"] == "warn":
        if not all(isinstance(sheet[f], bool) for f in ("urgent", "update", "cancel", "test")):
            return False
        if not all(_is_int(sheet[f]) and 0 <= sheet[f] < 2 ** width for f, width in _WARN_WIDTHS):
            return False
        return _lasting_in_range(sheet["lasts"])
    return False


def sentence(sheet):
    """The sheet's sentence with its newline, or None where a fact is out of range.
    [13] the second wording is "opened by "checked cap" or "checked warn""."""
    if not sheet_in_range(sheet):
        return None
    wording = _wording(sheet)
    opening = "checked " if wording == "checked" else ""
    if sheet["kind"] == "cap":
        head = opening + "cap %s, %s, %s, from " % (sheet["msgType"], sheet["status"], sheet["scope"])
        if sheet["total"] == 0:
            tail = ", no parts.\n"
        else:
            # [13] ""No stated time" stays."
            lasts = ("no stated time" if sheet["lasts"] is None
                     else duration(sheet["lasts"], wording))
            tail = ", part %s of %s, %s, %s, %s, lasts %s.\n" % (
                words(sheet["part"]), words(sheet["total"]), sheet["urgency"],
                sheet["severity"], sheet["certainty"], lasts)
        return (head.encode("ascii") + sheet["sender"] + b", name " + sheet["name"]
                + tail.encode("ascii"))
    flags = "".join(" " + f for f in ("urgent", "update", "cancel", "test") if sheet[f])
    return (opening + "warn alert%s, event %s, number %s, origin %s, lasts %s, hazard %s, kind %s, "
            "urgency %s, severity %s, certainty %s, response %s.\n" % (
                flags, words(sheet["event"]), words(sheet["number"]), words(sheet["origin"]),
                duration(sheet["lasts"], wording), words(sheet["hazard"]), words(sheet["kind2"]),
                words(sheet["urgency"]), words(sheet["severity"]), words(sheet["certainty"]),
                words(sheet["response"]))).encode("ascii")


@_answering
def write(buf, start, sheet):
    """"Writing a sheet: 23, 13." """
    line = sentence(sheet)
    if line is None:
        raise Refused(23)
    if start > len(buf) or len(buf) - start < len(line):
        raise Refused(13)
    end = start + len(line)
    return ("written", buf[:start] + line + buf[end:], end)


# ---------------------------------------------------------------------------
# The sentence: the reader
# ---------------------------------------------------------------------------

_CAP_LINE = re.compile(
    rb"(checked )?cap ([a-z]+), ([a-z]+), ([a-z]+), from ([^,\n]+), name ([^,\n]+), "
    rb"(?:no parts|part ([a-z]+) of ([a-z]+), ([a-z]+), ([a-z]+), ([a-z]+), lasts ([a-z ]+))\.\n")
_WARN_LINE = re.compile(
    rb"(checked )?warn alert( urgent)?( update)?( cancel)?( test)?, event ([a-z ]+), "
    rb"number ([a-z ]+), origin ([a-z ]+), lasts ([a-z ]+), hazard ([a-z ]+), kind ([a-z ]+), "
    rb"urgency ([a-z ]+), severity ([a-z ]+), certainty ([a-z ]+), response ([a-z ]+)\.\n")


def _sheet_of_line(line):
    """"A read-back is the sentence of a sheet that keeps to them": its sheet, or None."""
    sheet = None
    m = _CAP_LINE.fullmatch(line)
    if m:
        wording = "checked" if m.group(1) else "plain"
        text = [None if g is None else g.decode("latin-1") for g in m.groups()[1:]]
        sheet = {"kind": "cap", "wording": wording,
                 "msgType": text[0], "status": text[1], "scope": text[2],
                 "sender": m.group(5), "name": m.group(6), "part": 0, "total": 0,
                 "urgency": None, "severity": None, "certainty": None, "lasts": None}
        if text[5] is not None:
            sheet["part"], sheet["total"] = number(text[5]), number(text[6])
            sheet["urgency"], sheet["severity"], sheet["certainty"] = text[7:10]
            if text[10] != "no stated time":
                sheet["lasts"] = seconds_of(text[10], wording)
                if sheet["lasts"] is None:
                    return None
    m = _WARN_LINE.fullmatch(line)
    if m:
        wording = "checked" if m.group(1) else "plain"
        text = [None if g is None else g.decode("ascii") for g in m.groups()[1:]]
        sheet = {"kind": "warn", "wording": wording,
                 "urgent": text[0] is not None, "update": text[1] is not None,
                 "cancel": text[2] is not None, "test": text[3] is not None,
                 "event": number(text[4]), "number": number(text[5]), "origin": number(text[6]),
                 "lasts": seconds_of(text[7], wording), "hazard": number(text[8]),
                 "kind2": number(text[9]), "urgency": number(text[10]),
                 "severity": number(text[11]), "certainty": number(text[12]),
                 "response": number(text[13])}
    if sheet is None or sentence(sheet) != line:
        return None
    return sheet


@_answering
def read(text, k):
    """"Reading back: 23, 21."  The whole text is checked first."""
    sheets, i = [], 0
    while i < len(text):
        newline = text.find(b"\n", i)
        end = len(text) if newline < 0 else newline + 1
        sheet = _sheet_of_line(text[i:end])
        if sheet is None:
            raise Refused(23, i)                # "the first byte of the first line that isn't a read-back"
        sheets.append(sheet)
        i = end
    if k > len(sheets):
        raise Refused(21)
    return ("read", len(sheets), None if k == 0 else sheets[k - 1])


def program(stdin):
    """"reads one document from standard input and writes each part's sentence (part 0's if
    none), stopping at the first refusal with the line "refused N at P" in digits" """
    out = b""
    answer = cap_check(stdin)
    if answer[0] == "ok":
        total = answer[1]
        for part in range(1, total + 1) if total else [0]:
            answer = cap_sheet(stdin, part)
            if answer[0] == "refused":
                break
            out += sentence(answer[1])
    if answer[0] == "refused":
        out += b"refused %d at %d\n" % (answer[1], answer[2])
    return out


if __name__ == "__main__":
    import sys
    sys.stdout.buffer.write(program(sys.stdin.buffer.read()))
