#!/usr/bin/env python3
"""Writes crates/receive_test/stdin and stdout: packets, sound and damaged, for an event table, and what tests/model/model02.py answers."""
import os
import random
import struct
import sys

HERE = os.path.dirname(os.path.abspath(__file__))
sys.path.insert(0, os.path.join(HERE, "model"))
import model02 as model

FOLDER = os.path.join(HERE, "..", "crates", "receive_test")
KEYS = [21, 4_294_967_295, 7]
PLACES = [(351_000_000, 1_357_000_000), (900_000_001, 0)]
DATE_LINE = [(-168_000_000, 1_799_900_000), (0, 1_800_000_000), (0, -1_800_000_000), (900_000_000, 1_800_000_000)]


def packet(event=7, sequence=2, ttl=60, flags=0x8000, timestamp=1_000_000, lasts=3_900, lat=350_000_000, lon=1_357_000_000,
           radius=2_000, key=21, size=132, major=1, magic=b"WARN", codes=(1, 0, 3, 2, 1, 0)):
    head = magic + struct.pack(">BBHQIHH6BQQQiiH", major, 0, flags, timestamp, event, sequence, ttl, *codes, timestamp, (timestamp + lasts) % 2 ** 64,
                               timestamp, lat, lon, radius)
    assert len(head) == 0x40
    return (head + bytes(range(256)) * 5)[:size - 68] + struct.pack(">I", key) + bytes(64)


# an entry as the model has it: used, key, event, sequence, cancelled, keep-until, timestamp, expiry
BLANK = (False, 0, 0, 0, False, 0, 0, 0)


def lists(*times):
    """The running events at each time."""
    for time in times:
        yield "L", time, 0, b""


def records():
    """(kind, clock, verdict, packet)"""
    yield from lists(0, 2 ** 64 - 1)
    sample = packet(flags=0x8000 | 0x4000 | 0x1000)
    largest = packet(event=2 ** 32 - 1, sequence=65_535, ttl=65_535, flags=0xFFFF, key=2 ** 32 - 1, size=1_200, lasts=31_536_000,
                     lat=-900_000_000, lon=-1_800_000_000, radius=65_535, codes=(255,) * 6, timestamp=2 ** 63)
    clock, begins, ends = 5_000_000, 1_000_000, 1_003_900
    around = (0, begins - 1, begins, ends - 1, ends)
    for name in ("warn-01-sample.hex", "warn-max.hex"):
        yield "R", clock - 2, 1, bytes.fromhex(open(os.path.join(HERE, "vectors", name)).read())
    # lengths
    for n in (0, 7, 8, 131):
        yield "R", clock, 1, sample[:n]
    yield "R", clock, 1, packet(size=1_200)[:1_200]
    yield "R", clock, 1, packet(event=8, size=1_201)
    yield "R", clock, 1, packet(event=8, size=1_201, flags=0)
    yield "R", clock, 1, largest
    # sequence numbers: 9 stored
    yield "R", clock, 1, packet(event=9, sequence=9)
    yield "R", clock, 1, packet(event=9, sequence=9)
    yield "R", clock, 1, packet(event=9, sequence=8, flags=0x9000)
    yield "R", clock, 1, packet(event=9, sequence=9, flags=0x9000)
    yield from lists(*around)
    yield "R", clock, 1, packet(event=9, sequence=10, flags=0x9000, ttl=5)
    yield from lists(begins)
    yield "R", clock - 1_000, 1, packet(event=9, sequence=11, ttl=0)
    yield from lists(begins)
    yield "R", clock, 1, packet(event=10, sequence=65_535)
    for n in (0, 65_534, 65_535):
        yield "R", clock, 1, packet(event=10, sequence=n, flags=0x9000)
    # an update that ends sooner, one that is refused, one that begins later
    yield "R", clock, 1, packet(event=9, sequence=12, lasts=60)
    yield "R", clock, 1, packet(event=9, sequence=12, lasts=600)
    yield from lists(begins + 59, begins + 60, begins + 599)
    yield "R", clock, 1, packet(event=9, sequence=13, timestamp=begins + 60)
    yield from lists(*around, begins + 59, begins + 60, ends + 59, ends + 60)
    # the last second, and an event that is cancelled all its time
    yield "R", clock, 1, packet(event=15, timestamp=2 ** 64 - 2, lasts=1)
    yield from lists(2 ** 64 - 3, 2 ** 64 - 2, 2 ** 64 - 1, 2 ** 63)
    yield "T", 0, 0, b""
    # each refusal before the table's own, alone and with the next
    for change in ({"magic": b"warn"}, {"major": 0}, {"major": 2}, {"major": 255}, {"flags": 0x7FFF}, {"lat": 900_000_001}, {"lat": -900_000_001},
                   {"lat": -2 ** 31}, {"lon": 1_800_000_001}, {"lon": -1_800_000_001}, {"lon": 2 ** 31 - 1}, {"lasts": 0}, {"lasts": -1},
                   {"lasts": 31_536_001}, {"timestamp": 2 ** 64 - 1, "lasts": 5}, {"timestamp": 0, "lasts": 1}, {"key": 22}, {"key": 0}):
        yield "R", clock, 1, packet(event=11, **change)
        yield "R", 2 ** 64 - 1, 0, packet(event=11, key=change.get("key", 23), **{k: v for k, v in change.items() if k != "key"})
    yield "R", clock, 0, packet(event=12)
    yield "R", clock, 0, packet(event=12, key=22)
    for late in (2 ** 64 - 65_537, 2 ** 64 - 65_536, 2 ** 64 - 65_535, 2 ** 64 - 1):
        yield "R", late, 1, packet(event=13, sequence=late % 100, ttl=65_535)
    yield "T", 0, 0, b""
    # sweeping: one entry at a time
    for at in (0, clock, clock + 60, clock + 61, clock + 65_536):
        yield "S", at, 0, b""
        yield "T", 0, 0, b""
        yield from lists(begins, begins + 60, 2 ** 64 - 2)
    # a swept event is new, with any number
    yield "R", clock, 1, packet(event=9, sequence=1)
    # fill the table, one past its end, sweep and fill again
    for event in range(100, 170):
        yield "R", clock + event, 1, packet(event=event, ttl=event % 7, timestamp=begins + event)
    yield from lists(*around, begins + 130, begins + 169, ends + 130)
    yield "R", clock, 1, packet(event=100, sequence=3)
    yield "R", clock, 1, packet(event=101, sequence=3, flags=0x9000)
    yield "T", 0, 0, b""
    yield from lists(begins + 130)
    yield "S", clock + 140, 0, b""
    yield from lists(begins + 130, begins + 169)
    for event in range(200, 210):
        yield "R", clock, 1, packet(event=event, key=7)
    yield "T", 0, 0, b""
    yield from lists(begins, begins + 169, ends)
    # damaged at random
    pick = random.Random(2026)
    for _ in range(60):
        p = bytearray(pick.choice((sample, largest[:1_200], packet(event=300, sequence=pick.randrange(65_536)))))
        for _ in range(pick.randrange(3)):
            p[pick.randrange(0x40)] = pick.randrange(256)
        yield "R", pick.randrange(2 ** 33), pick.randrange(4) != 0, bytes(p)
    yield "T", 0, 0, b""
    yield from lists(*around)
    # epicentres across the date line from the places, on it, half way round, at the poles; radii that just reach and just don't
    for lat in (-168_000_000, 0, 899_000_000, 900_000_000, -900_000_000):
        for lon in (-1_799_900_000, 1_799_900_000, -1_800_000_000, 1_800_000_000, 0, 1, -1):
            for radius in (0, 111, 112, 212, 213, 65_535):
                yield "P", 0, 0, packet(lat=lat, lon=lon, radius=radius)
    yield "P", 0, 0, packet(lon=1_800_000_001)


def place_lines(p, places):
    for place in places:
        held = model.warn_place(p, *place)
        yield b"refused %d at 0\n" % held[1] if held[0] == "refused" else held[0].encode() + b"\n"


def answer_line(answer):
    return b"refused %d at 0\n" % answer[1] if answer[0] == "refused" else b"accepted\n"


def main():
    stdin, out, table = b"", b"", [BLANK] * 64
    for kind, clock, verdict, p in records():
        stdin += kind.encode() + struct.pack(">QBH", clock, int(verdict), len(p)) + p
        if kind == "S":
            table = model.sweep(table, clock)
        elif kind == "T":
            for i, (used, key, event, sequence, cancelled, keep, timestamp, expiry) in enumerate(table):
                if used or keep:
                    out += b"%d %s %d %d %d%s %d %d %d\n" % (i, b"used" if used else b"free", key, event, sequence,
                                                             b" cancelled" if cancelled else b"", keep, timestamp, expiry)
        elif kind == "L":
            _, count, events = model.running(table, clock, 64)
            out += b"%d\n" % count + b"".join(b"%d %d\n" % event for event in events)
        elif kind == "P":
            out += b"".join(place_lines(p, DATE_LINE))
        else:
            answer = model.receive(table, p, KEYS, bool(verdict), clock)
            if answer[0] != "refused":
                table = answer[1]
            out += answer_line(answer)
            drawn = model.warn_sheet(p)
            out += b"refused %d at 0\n" % drawn[1] if drawn[0] == "refused" else model.sentence(drawn[1])
            out += b"".join(place_lines(p, PLACES))
    assert len(stdin) < 262_144, len(stdin)
    open(os.path.join(FOLDER, "stdin"), "wb").write(stdin)
    open(os.path.join(FOLDER, "stdout"), "wb").write(out)
    print(len(stdin), "bytes in,", len(out), "bytes out")


if __name__ == "__main__":
    main()
