"""What the model says of each call, in the form in which library.Library gives it.

The model (tests/model/model02.py) is used as it is; only its reading of the last document and of the last few hundred lines is remembered, since
many calls are made about one document or text. What the header adds to the papers (numbers of codes, sheets as numbers, a packet's parts, names of
refusals, *value) is said here.
"""
import functools
import os
import sys

HERE = os.path.dirname(os.path.abspath(__file__))
sys.path.insert(0, os.path.join(HERE, "..", "model"))
import model02 as model

SEQUENCES, CODES = model.SEQUENCES["1.2"], model.CODES["1.2"]

CAP, WARN = 1, 2
PLACES = {"outside": 0, "inside": 1, "noshape": 2}
SHAPES = {"polygon": 1, "circle": 2}

# Codes in the order of the header, which numbers them from 1.
MESSAGES = ("alert", "update", "cancel", "ack", "error")
STATUSES = ("actual", "exercise", "system", "test", "draft")
SCOPES = ("public", "restricted", "private")
URGENCIES = ("immediate", "expected", "future", "past", "unknown")
SEVERITIES = ("extreme", "severe", "moderate", "minor", "unknown")
CERTAINTIES = ("observed", "likely", "possible", "unlikely", "unknown")

OUT_OF_RANGE = -1  # no fact of a sheet may be this

VERSION = 20_100
NAMES = {1: b"packet too short", 2: b"not a WARN packet", 3: b"version not known", 4: b"not an alert", 5: b"packet too long",
         6: b"place out of range", 7: b"lasting time out of range", 8: b"key not listed", 9: b"signature not verified",
         10: b"sequence number not above the stored one", 11: b"no free entry in the table", 12: b"clock too late", 13: b"no room in the buffer",
         14: b"too long, or too many infos", 15: b"XML form not allowed", 16: b"element not allowed, or missing", 17: b"code not in its list",
         18: b"time not valid", 19: b"sender or identifier empty or with a forbidden byte", 21: b"what was asked for is not there",
         22: b"polygon or circle not valid", 23: b"not read-backs, or a fact out of range", 24: b"no room for the list"}


class Remembered:
    """The model's reading of a document, kept until another document comes."""

    def __init__(self, read):
        self.read = read
        self.document, self.alert, self.refusal = None, None, None

    def __call__(self, document):
        if document is not self.document:
            self.document, self.alert, self.refusal = document, None, None
            try:
                self.alert = self.read(document)
            except model.Refused as refusal:
                self.refusal = refusal.number, refusal.place
        if self.refusal:
            raise model.Refused(*self.refusal)
        return self.alert


def with_offset(content):
    """The model's judgement of a text, which also remembers where the text starts."""
    def judged(self, name, text, offset):
        content(self, name, text, offset)
        self.stack[-1].element.children[-1].offset = offset
    return judged


model._Document.content = with_offset(model._Document.content)
model.Alert = Remembered(model.Alert)
model._sheet_of_line = functools.lru_cache(maxsize=512)(model._sheet_of_line)


def alert_of(document):
    """The model's reading of a document, None for a refused one."""
    try:
        return model.Alert(document)
    except model.Refused:
        return None


def refused(answer):
    return answer[0] == "refused"


def written(buffer, start, drawn):
    """(number, value, buffer) of writing the sheet that was drawn, or of its refusal."""
    if refused(drawn):
        return drawn[1], drawn[2], buffer
    answer = model.write(buffer, start, drawn[1])
    if refused(answer):
        return answer[1], answer[2], buffer
    return 0, answer[2], answer[1]


def asked(answer):
    """(number, value) of asking about a place."""
    return answer[1:] if refused(answer) else (0, PLACES[answer[0]])


# ---- the library itself, and its refusals

def version():
    return 0, VERSION


def refusal_name(buffer, start, number):
    name = NAMES.get(number)
    if name is None:
        return 21, 0, buffer
    if start + len(name) > len(buffer):
        return 13, 0, buffer
    return 0, start + len(name), buffer[:start] + name + buffer[start + len(name):]


# ---- CAP documents

def check_document(document):
    answer = model.cap_check(document)
    return answer[1:] if refused(answer) else (0, answer[1])


def document_sentence(buffer, start, document, part):
    return written(buffer, start, model.cap_sheet(document, part))


def document_sheet(document, part, sheet):
    drawn = model.cap_sheet(document, part)
    if refused(drawn):
        return drawn[1], drawn[2], sheet
    root = model.Alert(document).root
    return 0, 0, numbers_of(drawn[1], *(root.all(name)[0].offset for name in ("sender", "identifier")))


def document_place(document, part, latitude, longitude):
    return asked(model.cap_place(document, part, latitude, longitude))


def document_why(document, part, latitude, longitude, reason):
    answer = model.why(document, part, latitude, longitude)
    return *asked(answer), reason if refused(answer) else reason_of(*answer), True


def reason_of(side, *told):
    """The header's numbers for a reason."""
    if side == "inside":
        area, kind, shape = told
        return area, SHAPES[kind], shape, 0
    return 0, 0, 0, told[0] if side == "outside" else 0


# ---- WARN packets

def read_packet(packet, parts):
    answer = model.warn_read(packet)
    if refused(answer):
        return answer[1], parts
    f = answer[1]
    _, urgent, update, cancel, test = (int(flag) for flag in f["flags"])
    signature_start, signature_length = f["sig"]
    return 0, (f["timestamp"], f["onset"], f["expiry"], f["effective"], *f["tlv"], 0, signature_start, signature_start, signature_length,
               f["event"], f["key"], f["lat"], f["lon"], f["seq"], f["ttl"], f["radius"], urgent, update, cancel, test,
               f["hazard"], f["kind"], f["urgency"], f["severity"], f["certainty"], f["response"])


def packet_sheet(packet, sheet):
    drawn = model.warn_sheet(packet)
    return (drawn[1], sheet) if refused(drawn) else (0, numbers_of(drawn[1]))


def packet_sentence(buffer, start, packet):
    return written(buffer, start, model.warn_sheet(packet))


def packet_place(packet, latitude, longitude):
    return asked(model.warn_place(packet, latitude, longitude))


# ---- the event table

def receive(table, packet, keys, verified, clock):
    answer = model.receive(table, packet, keys, verified, clock)
    return (answer[1], table) if refused(answer) else (0, answer[1])


def sweep(table, time):
    return 0, model.sweep(table, time)


def find_event(table, key, event):
    for index, entry in enumerate(table):
        if entry[0] and entry[1:3] == (key, event):
            return 0, index
    return 0, len(table)


def running(room, table, time):
    answer = model.running(table, time, len(room))
    if refused(answer):
        return answer[1], answer[2], room
    return 0, answer[1], answer[2] + room[answer[1]:]


# ---- sheets and texts

def write(buffer, start, text, sheet):
    return written(buffer, start, ("sheet", sheet_of(text, sheet)))


def count(text):
    answer = model.read(text, 0)
    return answer[1:] if refused(answer) else (0, answer[1])


def read_back(text, k, sheet):
    answer = model.read(text, k)
    if refused(answer):
        return answer[1], answer[2], sheet
    return 0, answer[1], sheet if k == 0 else numbers_of(answer[2], *name_offsets(text, k, answer[2]))


def name_offsets(text, k, sheet):
    """Where the sender and the name of the k-th sentence of a text stand."""
    if sheet["kind"] == "warn":
        return None, None
    lines = text.split(b"\n")
    line, line_start = lines[k - 1], sum(len(line) + 1 for line in lines[:k - 1])
    sender = line.index(b", from ") + len(b", from ")
    name = line.index(b", name ", sender) + len(b", name ")
    return line_start + sender, line_start + name


# ---- sheets as the header's numbers

def code(codes, number):
    return codes[number - 1] if 1 <= number <= len(codes) else None


def part_of(text, start, length):
    return text[start:start + length] if start + length <= len(text) else None


def flag(number):
    return bool(number) if number <= 1 else OUT_OF_RANGE


def sheet_of(text, numbers):
    """The model's sheet for the header's numbers; a number that stands for nothing becomes a fact out of range."""
    kind, *facts = numbers
    if kind == CAP:
        return cap_sheet_of(text, *facts)
    if kind == WARN:
        return warn_sheet_of(*facts)
    return {"kind": None}


def cap_sheet_of(text, message, status, scope, part, total, urgency, severity, certainty, stated, lasting,
                 sender_start, sender_length, name_start, name_length):
    return {"kind": "cap", "msgType": code(MESSAGES, message), "status": code(STATUSES, status), "scope": code(SCOPES, scope),
            "sender": part_of(text, sender_start, sender_length), "name": part_of(text, name_start, name_length),
            "part": part, "total": total, "urgency": rating(URGENCIES, urgency), "severity": rating(SEVERITIES, severity),
            "certainty": rating(CERTAINTIES, certainty), "lasts": lasting_of(stated, lasting)}


def rating(codes, number):
    """A part's code; None, which part 0 has, is 0."""
    return None if number == 0 else code(codes, number) or OUT_OF_RANGE


def lasting_of(stated, lasting):
    """One that isn't stated is 0 and 0."""
    if (stated, lasting) == (0, 0):
        return None
    return lasting if stated == 1 else OUT_OF_RANGE


def warn_sheet_of(urgent, update, cancel, test, event, number, origin, lasting, hazard, kind, urgency, severity, certainty, response):
    return {"kind": "warn", "urgent": flag(urgent), "update": flag(update), "cancel": flag(cancel), "test": flag(test), "event": event,
            "number": number, "origin": origin, "lasts": lasting, "hazard": hazard, "kind2": kind, "urgency": urgency, "severity": severity,
            "certainty": certainty, "response": response}


def numbers_of(sheet, sender_start=None, name_start=None):
    """The header's numbers for a sheet whose sender and name start at these offsets of a text."""
    if sheet["kind"] == "warn":
        return (WARN, *(int(sheet[fact]) for fact in (
            "urgent", "update", "cancel", "test", "event", "number", "origin", "lasts", "hazard", "kind2", "urgency", "severity", "certainty",
            "response")))
    rated = sheet["total"] != 0
    stated = sheet["lasts"] is not None
    return (CAP, MESSAGES.index(sheet["msgType"]) + 1, STATUSES.index(sheet["status"]) + 1, SCOPES.index(sheet["scope"]) + 1,
            sheet["part"], sheet["total"],
            URGENCIES.index(sheet["urgency"]) + 1 if rated else 0,
            SEVERITIES.index(sheet["severity"]) + 1 if rated else 0,
            CERTAINTIES.index(sheet["certainty"]) + 1 if rated else 0,
            int(stated), sheet["lasts"] if stated else 0,
            sender_start, len(sheet["sender"]), name_start, len(sheet["name"]))
