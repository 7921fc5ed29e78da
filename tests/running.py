#!/usr/bin/env python3
"""Writes tests/c/running.in and running.out: records for tests/c/running.c, which lists the running events of event tables, and what
tests/model/model02.py answers."""
import itertools
import os
import random
import struct

from receive import HERE, KEYS, model, packet

FOLDER = os.path.join(HERE, "c")
ROOM = 80           # what running.c has for a table and for a list
INPUT = 100_000     # what it has for the records
LATEST = 2 ** 64 - 1
BLANK = (0, 0, 0, 0, 0, 0, 0, 0)
CANCEL = 0x9000


class Records:
    """The records so far, what they make the program print, and the model's table."""

    def __init__(self):
        self.records, self.out, self.entries = b"", b"", []

    def add(self, letter, time, number, more=b""):
        self.records += letter + struct.pack(">QH", time, number) + more

    def case(self, name, entries):
        """A case starts with a table of its own."""
        self.add(b"C", 0, len(name), name.encode())
        self.out += b"# %s\n" % name.encode()
        self.add(b"N", 0, len(entries))
        for i, entry in enumerate(entries):
            if entry != BLANK:
                self.add(b"E", 0, i, struct.pack(">BIIHBQQQ", *entry))
        self.entries = entries

    def receive(self, clock=5_000, **fields):
        p = packet(**fields)
        self.add(b"R", clock, len(p), p)
        answer = model.receive(self.entries, p, KEYS, True, clock)
        if answer[0] == "refused":
            self.out += b"refused %d at 0\n" % answer[1]
        else:
            self.entries = answer[1]
            self.out += b"accepted\n"

    def sweep(self, time):
        self.add(b"S", time, 0)
        self.entries = model.sweep(self.entries, time)

    def list(self, *times, room=ROOM):
        for time in times:
            self.add(b"L", time, room)
            answer = model.running(self.entries, time, room)
            self.out += b"at %d, %d places: " % (time, room)
            if answer[0] == "refused":
                self.out += b"refused %d at %d\n" % answer[1:]
            else:
                self.out += b"%d running\n" % answer[1] + b"".join(b"%d %d\n" % event for event in answer[2])


def entry(key=21, event=7, used=1, cancelled=0, timestamp=1_000, expiry=2_000, keep=5_000, sequence=1):
    return used, key, event, sequence, cancelled, keep, timestamp, expiry


def around(*times):
    return [max(0, min(LATEST, time + step)) for time in times for step in (-1, 0, 1)]


# ---- one entry

def times(records):
    for timestamp, expiry in ((1_000, 2_000), (1_000, 1_001), (1_000, 1_000), (2_000, 1_000), (0, 1), (0, 0), (0, LATEST), (LATEST - 1, LATEST),
                              (LATEST, LATEST), (LATEST, 0), (2 ** 63 - 1, 2 ** 63), (2 ** 32 - 1, 2 ** 32 + 1)):
        records.case(f"timestamp {timestamp}, expiry {expiry}", [entry(timestamp=timestamp, expiry=expiry)])
        records.list(0, *around(timestamp, expiry), 1_500, LATEST)


def marks(records):
    for used, cancelled in itertools.product((0, 1, 2, 128, 255), repeat=2):
        records.case(f"used {used}, cancelled {cancelled}", [entry(used=used, cancelled=cancelled)])
        records.list(1_500)


def wide_numbers(records):
    largest = 2 ** 32 - 1
    records.case("keys and events of any size", [entry(key=key, event=event) for key in (0, 65_536, largest) for event in (largest, 65_536, 0)])
    records.list(1_500)


# ---- several entries

STATES = {"runs": {}, "is cancelled": {"cancelled": 1}, "has expired": {"expiry": 1_500}, "hasn't begun": {"timestamp": 1_501},
          "is free": {"used": 0}}


def first_judges(records):
    """Two entries of one event, in every two states, with another event between them."""
    for first, second in itertools.product(STATES, repeat=2):
        records.case(f"the first {first}, the second {second}", [entry(**STATES[first]), entry(event=8), entry(**STATES[second])])
        records.list(1_500)


def later_ones(records):
    cancelled, expired, runs = entry(cancelled=1), entry(expiry=1_500), entry()
    records.case("a first that runs, and many that don't", [runs, cancelled, expired, cancelled])
    records.list(1_500)
    records.case("a first that doesn't run, and many that do", [cancelled, runs, runs, runs])
    records.list(1_500)
    records.case("one event in all entries", [runs] * 64)
    records.list(1_500, room=1)
    records.list(1_500, room=0)


def order(records):
    names = [(7, 3), (21, 3), (7, 3), (21, 1), (7, 2), (21, 3), (3, 7), (7, 2), (7, 1)]
    records.case("the order of the first entries", [entry(key=key, event=event) for key, event in names])
    records.list(1_500)
    records.case("the same backwards", [entry(key=key, event=event) for key, event in reversed(names)])
    records.list(1_500)


# ---- receipt and sweeping

def updates(records):
    records.case("a new event", [BLANK, BLANK])
    records.list(1_500)
    records.receive(sequence=1, timestamp=1_000, lasts=1_000)
    records.list(*around(1_000, 2_000))
    records.receive(sequence=2, timestamp=1_000, lasts=500)   # the expiry gets smaller
    records.list(*around(1_500, 2_000))
    records.receive(sequence=3, timestamp=1_400, lasts=600)   # both get larger
    records.list(*around(1_000, 1_400, 1_500, 2_000))
    records.receive(sequence=4, timestamp=400, lasts=200)     # both get smaller
    records.list(*around(400, 600, 1_400))


def refused_packets(records):
    records.case("refused packets change no times", [entry(sequence=5), BLANK])
    for fields in ({"sequence": 5}, {"sequence": 4, "flags": CANCEL}, {"sequence": 6, "lasts": 0}, {"sequence": 6, "key": 22}):
        records.receive(**{"timestamp": 10, "lasts": 10, **fields})
        records.list(10, 1_500)
    records.receive(sequence=6, timestamp=10, lasts=10, clock=LATEST)
    records.list(10, 1_500, LATEST)


def cancels(records):
    records.case("cancelled, and then not", [BLANK])
    for sequence, flags in enumerate((0x8000, CANCEL, CANCEL, 0x8000)):
        records.receive(sequence=sequence, flags=flags, timestamp=1_000, lasts=1_000)
        records.list(999, 1_000, 1_999, 2_000)
    records.case("a mark of any byte, and then none", [entry(cancelled=77)])
    records.receive(sequence=2, timestamp=1_000, lasts=1_000)
    records.list(1_500)


def taken_again(records):
    records.case("a free entry's times are written over", [entry(used=0, event=9, cancelled=1, timestamp=5, expiry=LATEST), entry(event=8)])
    records.receive(event=7, timestamp=1_000, lasts=1_000)
    records.list(5, *around(1_000, 2_000))


def sweeps(records):
    records.case("a sweep that frees nothing", [entry(timestamp=10, expiry=100), entry(event=8)])
    records.sweep(5_000)
    records.list(99, 1_500)
    records.case("a sweep of the first, so that the second judges", [entry(keep=100, cancelled=1), entry(event=8), entry(keep=5_000)])
    records.list(1_500)
    records.sweep(101)
    records.list(*around(1_000, 2_000))
    records.case("a sweep of a running one, so that the second judges", [entry(keep=100), entry(event=8), entry(cancelled=255)])
    records.list(1_500)
    records.sweep(101)
    records.list(1_500)
    records.case("a sweep looks at keep-until only", [entry(keep=100, expiry=LATEST), entry(event=8, keep=LATEST, expiry=1_001)])
    records.sweep(50_000)
    records.list(1_000, 50_000)
    records.receive(timestamp=1_000, lasts=1_000, sequence=0)
    records.list(1_000)


# ---- rooms

def rooms(records):
    mixed = [entry(event=event, cancelled=event % 3 == 0, expiry=2_000 - 500 * (event % 4 == 3)) for event in range(10)]
    running = model.running(mixed, 1_500, ROOM)[1]
    records.case(f"{running} of 10 running", mixed)
    for room in (0, 1, running - 1, running, running + 1, 9, 10, 11, 64):
        records.list(1_500, room=room)
    for room in (0, 1, 10):
        records.list(2_000, room=room)


def tables(records):
    records.case("an empty table", [])
    for room in (0, 1, ROOM):
        records.list(0, 1_500, LATEST, room=room)
    records.case("64 blank entries", [BLANK] * 64)
    records.list(0, LATEST, room=0)
    records.case("a full table", [entry(key=(21, 7)[event % 2], event=event) for event in range(64)])
    for room in (0, 63, 64, 65):
        records.list(1_500, 999, 2_000, room=room)


# ---- at random

def any_entry(pick):
    timestamp = pick.randrange(20)
    return entry(key=pick.choice((7, 21)), event=pick.randrange(4), used=pick.choice((0, 1, 1, 200)), cancelled=pick.choice((0, 0, 0, 1, 99)),
                 timestamp=timestamp, expiry=max(0, timestamp + pick.randrange(-2, 15)), keep=pick.randrange(40), sequence=pick.randrange(5))


def any_step(pick, records):
    time = pick.randrange(36)
    if pick.randrange(3) == 0:
        records.receive(clock=pick.randrange(36), key=pick.choice((7, 21)), event=pick.randrange(5), sequence=pick.randrange(8), ttl=pick.randrange(9),
                        timestamp=pick.randrange(20), lasts=pick.randrange(1, 15), flags=pick.choice((0x8000, 0x8000, CANCEL)))
    elif pick.randrange(6) == 0:
        records.sweep(time)
    count = model.running(records.entries, time, ROOM)[1]
    records.list(time, room=pick.choice((0, max(0, count - 1), count, count, count + 1, len(records.entries), ROOM)))


def at_random(records):
    pick = random.Random(2026)
    for number in range(60):
        records.case(f"random {number}", [any_entry(pick) for _ in range(pick.choice((1, 2, 3, 5, 8, 12)))])
        for _ in range(8):
            any_step(pick, records)


CASES = (times, marks, wide_numbers, first_judges, later_ones, order, updates, refused_packets, cancels, taken_again, sweeps, rooms, tables, at_random)


def main():
    records = Records()
    for cases in CASES:
        cases(records)
    assert len(records.records) < INPUT, len(records.records)
    open(os.path.join(FOLDER, "running.in"), "wb").write(records.records)
    open(os.path.join(FOLDER, "running.out"), "wb").write(records.out)
    print(len(records.records), "bytes in,", len(records.out), "bytes out")


if __name__ == "__main__":
    main()
