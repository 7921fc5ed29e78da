"""Runs cases: makes each call on the library and on the model, compares, counts, and says what differs.

A case is a handful of calls about one document, packet, table or text. Its name is SEED/KIND/NUMBER, and this name is the seed of its random
choices (random.Random(name)), so that each case can be repeated alone.
"""
import collections
import random

import document_calls
import expected
import library
import packet_calls
import sheet_calls
import table_calls
import text_calls

KINDS = {"documents": document_calls, "packets": packet_calls, "tables": table_calls, "sheets": sheet_calls, "texts": text_calls}
PLACE_ANSWERS = ("outside", "inside", "no shape")
KINDS_OF_SHAPES = ("polygon", "circle")
SHOWN = 160  # bytes of an argument that are printed

Difference = collections.namedtuple("Difference", "case call function arguments library model")


def case_name(seed, kind, number):
    return f"{seed}/{kind}/{number}"


def calls(case):
    """Gives (function, arguments, what the model says) for each call of a case."""
    kind = case.split("/")[1]
    steps = KINDS[kind].case(random.Random(case))
    try:
        function, arguments = next(steps)
        while True:
            wanted = getattr(expected, function)(*arguments)
            yield function, arguments, wanted
            function, arguments = steps.send(wanted)
    except StopIteration:
        return


def run_case(case, box):
    """Runs a case on the library (None: on the model alone). Gives the counts by function and answer, and the differences."""
    counts, differences = collections.Counter(), []
    for call, (function, arguments, wanted) in enumerate(calls(case)):
        counts[function, answer(function, wanted)] += 1
        got = ask(box, function, arguments) if box else wanted
        if got != wanted:
            differences.append(Difference(case, call, function, arguments, got, wanted))
    return counts, differences


def repeat_case(case, box):
    """Runs a case and prints each call, in full where it differs. Gives how many differ."""
    differ = 0
    for call, (function, arguments, wanted) in enumerate(calls(case)):
        print(f"call {call}: {function}, model: {brief(wanted, SHOWN)}", flush=True)
        got = ask(box, function, arguments) if box else wanted
        if got != wanted:
            print(described(Difference(case, call, function, arguments, got, wanted), None), flush=True)
            differ += 1
    return differ


def ask(box, function, arguments):
    try:
        return getattr(box, function)(*arguments)
    except library.Trespass as trespass:
        return (str(trespass),)


def answer(function, outcome):
    """The answer under which a call is counted: the refusal's number, or what the model answers."""
    if outcome[0] != 0:
        return str(outcome[0])
    if function == "document_why":
        return reason(PLACE_ANSWERS[outcome[1]], *outcome[2])
    return PLACE_ANSWERS[outcome[1]] if function.endswith("_place") else "0"


def reason(side, area, kind, shape, count):
    """The shape that is named, or how many there are, where all numbers above 1 count as 2+."""
    if side == "inside":
        return f"area {one_or_more(area)} {KINDS_OF_SHAPES[kind - 1]} {one_or_more(shape)}"
    return f"outside of {one_or_more(count)}" if side == "outside" else side


def one_or_more(number):
    return "1" if number == 1 else "2+"


# ---- saying what differs

def described(difference, shown=SHOWN):
    lines = [f"differs: case {difference.case}, call {difference.call}: {difference.function}"]
    lines += [f"    argument {i}: {brief(argument, shown)}" for i, argument in enumerate(difference.arguments)]
    lines += [f"    library: {brief(difference.library, shown)}", f"    model:   {brief(difference.model, shown)}"]
    return "\n".join(lines)


def brief(value, shown):
    """A value as Python writes it; a long one with its middle left out."""
    if isinstance(value, tuple) and not all(isinstance(item, int) for item in value):
        return "(" + ", ".join(brief(item, shown) for item in value) + ")"
    if shown is None or not isinstance(value, (bytes, list)) or len(value) <= shown:
        return repr(value)
    half = shown // 2
    return f"{value[:half]!r} .. {value[-half:]!r} ({len(value)} in all)"
