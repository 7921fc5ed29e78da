"""Made-up sheets, as the model has them and as the header's numbers."""
import choices
import expected
from choices import any_number, chance

WARN_WIDTHS = (32, 16, 32, None, 8, 8, 8, 8, 8, 8)  # event to response; None is the lasting time


def cap(rng):
    """A CAP sheet in range, as the model has it."""
    total = rng.choice((0, 0, 1, 1, 2, 16, rng.randint(1, 16)))
    rated = total > 0
    return {"kind": "cap", "msgType": rng.choice(expected.MESSAGES), "status": rng.choice(expected.STATUSES), "scope": rng.choice(expected.SCOPES),
            "sender": choices.name(rng), "name": choices.name(rng), "part": rng.randint(1, total) if rated else 0, "total": total,
            "urgency": rng.choice(expected.URGENCIES) if rated else None, "severity": rng.choice(expected.SEVERITIES) if rated else None,
            "certainty": rng.choice(expected.CERTAINTIES) if rated else None,
            "lasts": choices.lasting(rng) if rated and chance(rng, 80) else None}


def warn(rng):
    """A WARN sheet in range, as the model has it."""
    return expected.warn_sheet_of(*warn_numbers(rng)[1:])


def any_sheet(rng):
    return cap(rng) if chance(rng, 50) else warn(rng)


def warn_numbers(rng):
    facts = [choices.lasting(rng) if width is None else any_number(rng, width) for width in WARN_WIDTHS]
    return [expected.WARN, *(rng.randrange(2) for _ in range(4)), *facts]


def cap_numbers(rng, sender, name):
    """A CAP sheet in range; sender and name are (start, length)."""
    total = rng.choice((0, 0, 1, 1, 2, 16, rng.randint(1, 16)))
    codes = [rng.randint(1, 5), rng.randint(1, 5), rng.randint(1, 3)]
    if total == 0:
        rest = [0] * 7
    else:
        stated = rng.choice((0, 1, 1))
        rest = [rng.randint(1, total), total, *(rng.randint(1, 5) for _ in range(3)), stated, choices.lasting(rng) if stated else 0]
    return [expected.CAP, *codes, *rest, *sender, *name]


def any_numbers(rng):
    """Numbers that may stand for no sheet at all."""
    return [rng.choice((0, 1, 1, 2, 2, 3, any_number(rng, 64))), *(any_number(rng, rng.choice((1, 3, 5, 64))) for _ in range(14))]
