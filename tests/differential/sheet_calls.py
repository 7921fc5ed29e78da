"""Calls that write made-up sheets: in range, out of range, and numbers that stand for no sheet; and calls for the names of refusals."""
import choices
import expected
import sheets
from choices import any_number, chance

model = expected.model

FAULTY_NAMES = (b"", b"a,b", b"a b", b"a<b", b"a&b", b"a\nb", b"\x00", b"\x20", b"\x1f", b"a]]>b", b"]]>", b"x]]]>", b"x" * 129, b"y" * 200)
CODE_FACTS, PART_FACTS, STATED_FACT, LASTING_FACT = (1, 2, 3, 6, 7, 8, 9), (4, 5), 9, 10
RATINGS = (6, 7, 8)  # urgency, severity, certainty
NAME_FACTS = (11, 12, 13, 14)


def case(rng):
    """Several writes of sheets over one text."""
    text, sender, name = laid_out(rng)
    for _ in range(rng.randint(2, 4)):
        if chance(rng, 8):
            sheet = sheets.any_numbers(rng)
        elif chance(rng, 55):
            sheet = sheets.cap_numbers(rng, sender, name)
            if chance(rng, 40):
                out_of_range_cap(rng, sheet, text)
        else:
            sheet = sheets.warn_numbers(rng)
            if chance(rng, 40):
                out_of_range_warn(rng, sheet)
        sheet = tuple(sheet)
        line = model.sentence(expected.sheet_of(text, sheet))
        yield "write", (*choices.room(rng, len(line) if line else 150), text, sheet)
    if chance(rng, 20):
        number = rng.choice((rng.randrange(26), rng.getrandbits(8)))
        yield "refusal_name", (*choices.room(rng, len(expected.NAMES.get(number, b"a name"))), number)
    if chance(rng, 1):
        yield "version", ()


def laid_out(rng):
    """A text in which a sender and a name stand, as (start, length); they may touch, overlap, be the same, or end the text."""
    sender, name = one_name(rng), one_name(rng)
    before, between, after = (rng.randbytes(rng.choice((0, 0, 1, 20))) for _ in range(3))
    text = before + sender + between + name + after
    sender_at, name_at = (len(before), len(sender)), (len(before) + len(sender) + len(between), len(name))
    if chance(rng, 10):
        return text, sender_at, sender_at
    if chance(rng, 30):
        return text, name_at, sender_at
    return text, sender_at, name_at


def one_name(rng):
    return rng.choice(FAULTY_NAMES) if chance(rng, 8) else choices.name(rng)


def shifted(rng, number):
    """A number whose low bytes are the same, or that is near it, or any."""
    return rng.choice((number + 2 ** 8, number + 2 ** 16, number + 2 ** 32, number + 2 ** 63, number + 1, number - 1, 0, any_number(rng, 64))) % 2 ** 64


def out_of_range_cap(rng, sheet, text):
    kind = rng.randrange(12)
    if kind == 0:
        sheet[0] = shifted(rng, sheet[0])
    elif kind in (1, 2):
        fact = rng.choice(CODE_FACTS)
        sheet[fact] = rng.choice((0, 2, 3, 4, 5, 6, shifted(rng, sheet[fact])))
    elif kind in (3, 4):
        fact = rng.choice(PART_FACTS)
        sheet[fact] = rng.choice((0, 1, 16, 17, sheet[9 - fact], sheet[9 - fact] + 1, shifted(rng, sheet[fact])))
    elif kind == 5:
        sheet[LASTING_FACT] = rng.choice((0, choices.LONGEST, choices.LONGEST + 1, shifted(rng, sheet[LASTING_FACT])))
    elif kind in (6, 7):
        unsaid(rng, sheet)
    else:
        misplace(rng, sheet, text)


def unsaid(rng, sheet):
    """Sets a fact that the sentence doesn't say: of part 0, or a lasting time that isn't stated."""
    if sheet[5] == 0:
        sheet[rng.choice((*RATINGS, STATED_FACT, LASTING_FACT))] = rng.choice((1, 5, 2 ** 32, any_number(rng, 64)))
    else:
        sheet[STATED_FACT], sheet[LASTING_FACT] = 0, rng.choice((0, 1, choices.lasting(rng), any_number(rng, 64)))


def misplace(rng, sheet, text):
    """Moves the sender or the name: elsewhere in the text, to its end, past it, round the end of numbers."""
    start, length = rng.choice((NAME_FACTS[:2], NAME_FACTS[2:]))
    kind = rng.randrange(6)
    if kind == 0:
        sheet[start], sheet[length] = rng.randint(0, len(text)), rng.randint(0, 130)
    elif kind == 1:
        sheet[start] = max(0, len(text) - sheet[length] + rng.choice((-1, 0, 1)))
    elif kind == 2:
        sheet[length] = max(0, len(text) - sheet[start] + rng.choice((-1, 0, 1)))
    elif kind == 3:
        sheet[rng.choice((start, length))] = rng.choice(choices.HUGE)
    elif kind == 4:
        sheet[start] = (2 ** 64 - sheet[length] + rng.choice((0, 1, rng.randrange(50)))) % 2 ** 64
    else:
        sheet[length] = rng.choice((0, 1, 128, 129))


def out_of_range_warn(rng, sheet):
    fact = rng.randrange(len(sheet))
    if fact in (1, 2, 3, 4):
        sheet[fact] = rng.choice((0, 1, 2, 255, shifted(rng, sheet[fact])))
    elif fact == 8:
        sheet[fact] = rng.choice((0, 1, choices.LONGEST, choices.LONGEST + 1, shifted(rng, sheet[fact])))
    else:
        sheet[fact] = rng.choice((255, 256, 65_535, 65_536, 2 ** 32 - 1, 2 ** 32, shifted(rng, sheet[fact])))
