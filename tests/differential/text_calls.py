"""Calls that count and read back texts of sentences, sound and damaged."""
import choices
import expected
import sheets
from choices import any_number, chance

model = expected.model

WORDS = [word.encode() for word in (
    "zero", "one", "two", "nine", "ten", "eleven", "twelve", "thirteen", "nineteen", "twenty", "thirty", "ninety", "hundred", "thousand", "million", "billion", "and",
    "twenty-one", "day", "days", "hour", "hours", "minute", "minutes", "second", "seconds", "no", "stated", "time", "parts", "part", "of", "lasts", "cap", "warn", "alert",
    "urgent", "update", "cancel", "test", "ack", "error", "actual", "draft", "public", "private", "immediate", "unknown", "observed", "extreme", "from", "name", "event",
    "number", "origin", "hazard", "kind", "urgency", "severity", "certainty", "response", "", ",", ".", "Alert", "ALERT", "0", "17", "seventeen", "sixty", "trillion")]
BYTES = (b"\n", b" ", b",", b".", b"\x00", b"\r", b"\t", b"a", b"s", b"-", b"&", b"<", b"]]>", b"\xff", b"\n\n", b"\r\n", b"  ", b", ")


def case(rng):
    text, length = pick(rng)
    yield "count", (text,)
    for k in ks(rng, length):
        yield "read_back", (text, k, choices.any_sheet(rng))


def pick(rng):
    """A text, and how many lines it was made of."""
    lines = [model.sentence(sheets.any_sheet(rng)) for _ in range(how_many(rng))]
    if chance(rng, 55):
        for _ in range(rng.choice((1, 1, 1, 2, 3))):
            damage(rng, lines)
    return b"".join(lines), len(lines)


def how_many(rng):
    return rng.choice((0, 1, 1, 2, 3, 4, 5, 8, rng.randint(0, 12), rng.randint(10, 40) if chance(rng, 30) else 6))


def ks(rng, length):
    """Which sentences are asked for: none, the first, the last, past it, far past it, any."""
    asked = [0, 1, length, length + 1, rng.choice(choices.HUGE), length + 2 ** 32, rng.randint(0, length + 1), rng.randint(1, length + 1)]
    return rng.sample(asked, rng.randint(2, len(asked)))


# ---- damages; each changes the list of lines

def damage(rng, lines):
    if not lines:
        lines.append(rng.choice((b"\n", b" ", b".", b"cap", b"cap alert.\n", b"warn alert.\n", b"\x00")))
        return
    kind = rng.randrange(10)
    at = rng.randrange(len(lines))
    if kind < 2:
        damage_lines(rng, lines, at)
    elif kind < 5:
        lines[at] = damaged_bytes(rng, lines[at])
    elif kind < 9:
        lines[at] = damaged_words(rng, lines[at])
    else:
        lines[at] = wrong_sheet(rng)


def damage_lines(rng, lines, at):
    kind = rng.randrange(5)
    if kind == 0:
        lines[at] = lines[at][:rng.randrange(len(lines[at]) + 1)]
    elif kind == 1:
        lines.insert(at, rng.choice((b"\n", b" \n", b"\r\n", b"cap alert.\n", lines[at])))
    elif kind == 2:
        lines[-1] = lines[-1][:-1]
    elif kind == 3:
        lines[at] = lines[at][:rng.randrange(len(lines[at]) + 1)] + rng.choice(lines)
    else:
        del lines[at]


def damaged_bytes(rng, line):
    at = rng.randrange(len(line) + 1)
    left_out = rng.choice((0, 0, 1, 1, 1, 2, 5))
    put_in = rng.choice((b"", rng.choice(BYTES), bytes([rng.randrange(256)])))
    return line[:at] + put_in + line[at + left_out:]


def damaged_words(rng, line):
    words = line.split(b" ")
    at = rng.randrange(len(words))
    kind = rng.randrange(5)
    mark = words[at][-1:] if words[at][-1:] == b"," else b""
    if kind in (0, 1):
        words[at] = rng.choice(WORDS) + mark
    elif kind == 2:
        words.insert(at, rng.choice(WORDS))
    elif kind == 3:
        del words[at]
    else:
        other = rng.randrange(len(words))
        words[at], words[other] = words[other], words[at]
    return b" ".join(words)


def wrong_sheet(rng):
    """A line as the sentence of a sheet would be, but with one fact out of range, or with words that aren't the number's."""
    lasting = model.duration(choices.lasting(rng))
    number = model.words(any_number(rng, 32))
    kind = rng.randrange(6)
    if kind == 0:
        lasting = model.duration(rng.choice((choices.LONGEST + 1, choices.LONGEST + 86_400, 2 ** 32, 2 ** 33)))
    elif kind == 1:
        lasting = rng.choice(("zero seconds", "sixty seconds", "sixty minutes", "twenty four hours", "one days", "two day", "one hour zero minutes",
                              "one minute one hour", "", " ", "one", "no stated  time", "three hundred sixty five days one second",
                              "one day one day"))
    elif kind == 2:
        number = model.words(2 ** rng.choice((8, 16, 32)) + rng.choice((0, 1)))
    elif kind == 3:
        number = rng.choice(("one hundred zero", "zero one", "ten one", "twenty ten", "thousand", "hundred", "one thousand zero", "eleven hundred", "one thousand thousand",
                             "nine hundred ninety nine billion", "one million billion", "zero thousand", "twenty zero", "one hundred hundred"))
    if chance(rng, 50):
        part, total = rng.choice((("one", number), (number, "sixteen"), ("two", "one"), ("zero", "zero"), ("one", "seventeen"), ("sixteen", "sixteen")))
        return f"cap alert, actual, public, from a, name b, part {part} of {total}, past, minor, likely, lasts {lasting}.\n".encode()
    small = rng.choice((number, "two hundred fifty five", "two hundred fifty six", "seven"))
    return (f"warn alert, event {number}, number {small}, origin one, lasts {lasting}, hazard one, kind {small}, urgency zero, severity zero, "
            f"certainty one, response two.\n").encode()
