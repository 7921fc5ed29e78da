#!/usr/bin/env python3
"""Writes crates/readback_test/stdout: what its list of writes and reads must answer, by tests/model/model02.py.

The list is that of crates/readback_test/src/main.rt, said here once more as the model's sheets.
"""
import os
import sys

sys.path.insert(0, os.path.join(os.path.dirname(__file__), "model"))
import model02 as model

ROOM = 1020


def cap(sender, name, part=None, lasts=None, message="alert", status="actual", scope="public"):
    rated = part is not None
    return {"kind": "cap", "msgType": message, "status": status, "scope": scope, "sender": sender, "name": name,
            "part": part[0] if rated else 0, "total": part[1] if rated else 0,
            "urgency": "immediate" if rated else None, "severity": "extreme" if rated else None,
            "certainty": "observed" if rated else None, "lasts": lasts}


def warn(event, lasts):
    return {"kind": "warn", "urgent": True, "update": False, "cancel": True, "test": False, "event": event, "number": 2,
            "origin": 21, "lasts": lasts, "hazard": 1, "kind2": 0, "urgency": 3, "severity": 2, "certainty": 1, "response": 0}


SAMPLES = [cap(b"kiln.example", b"A17", (1, 1), 900), cap(b"kiln.example", b"A18", message="cancel"), warn(7, 3900)]
SHEETS = SAMPLES + [
    cap(b"a", b"A", (0, 1)), cap(b"a", b"A", (2, 1)), cap(b"a", b"A", (1, 17)), cap(b"a", b"A", (1, 1), 31_536_001),
    cap(b"a,b", b"A", (1, 1), 900), cap(b"", b"A"), cap(b"a]]>", b"A"),
    warn(0, 0), warn(1, 31_536_001), warn(4_294_967_295, 31_536_000), warn(1, 1),
    cap(b"]]", b"]>", (16, 16), message="error", status="draft", scope="restricted"),
] + SAMPLES


def answered(text, k):
    answer = model.read(text, k)
    if answer[0] == "refused":
        return b"refused %d at %d\n" % answer[1:]
    if k == 0:
        return b"%d sentences\n" % answer[1]
    return b"%d: " % answer[1] + model.sentence(answer[2])


def main():
    out, buffer, start = b"", b"-" * ROOM, 0
    for sheet in SHEETS:
        answer = model.write(buffer, start, sheet)
        if answer[0] == "refused":
            out += b"refused %d at %d\n" % answer[1:]
        else:
            buffer, start = answer[1], answer[2]
            out += b"end %d\n" % start
    out += buffer + b"\n"
    text = buffer[:start]
    for k in range(12):
        out += answered(text, k)
    damaged = b"".join(b"cap ack, %s, private, from a, name b, no parts.\n" % status for status in (b"test", b"Test"))
    out += answered(damaged, 1) + answered(damaged, 0)
    open(os.path.join(os.path.dirname(__file__), "..", "crates", "readback_test", "stdout"), "wb").write(out)
    print(len(out), "bytes")


if __name__ == "__main__":
    main()
