#!/usr/bin/env python3
"""Checks each answer of tests/places.txt against tests/model/model02.py, and ends with status 1 where the model says otherwise.

A line of that file is a document, latitude, longitude, and the answers of its parts as the program `inside` writes them, with "/" between. Lines that
start with "#" say what the ones after them are about.
"""
import functools
import os
import sys

HERE = os.path.dirname(os.path.abspath(__file__))
sys.path.insert(0, os.path.join(HERE, "model"))
import model02 as model

model.Alert = functools.lru_cache(maxsize=1)(model.Alert)  # a document is asked about many places, and read once


def line(answer):
    """What the program writes for one of the model's answers."""
    kind, *told = answer
    if kind == "inside":
        return "inside: area {}, {} {}".format(*told)
    if kind == "outside":
        return f"outside: {told[0]} shape{'s' if told[0] != 1 else ''}"
    return "no shape" if kind == "noshape" else "refused {} at {}".format(*told)


def answers(document, latitude, longitude):
    """What the program writes for a document and a place, with "/" between the lines."""
    checked = model.cap_check(document)
    if checked[0] == "refused":
        return line(checked)
    place = model._pair(f"{latitude},{longitude}".encode())
    total = checked[1]
    return "/".join(line(model.why(document, part, *place)) for part in range(min(total, 1), total + 1))


def main():
    wrong = 0
    for question in open(os.path.join(HERE, "places.txt")):
        if question.startswith("#"):
            continue
        name, latitude, longitude, answer = question.rstrip("\n").split(" ", 3)
        with open(os.path.join(HERE, name + ".xml"), "rb") as file:
            said = answers(file.read(), latitude, longitude)
        if said != answer:
            wrong += 1
            print("the model says", said, "of", question, end="")
    return 1 if wrong else 0


if __name__ == "__main__":
    sys.exit(main())
