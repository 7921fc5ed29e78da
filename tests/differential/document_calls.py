"""Calls about CAP documents: checked, asked for sentences and sheets, asked about places and why they are inside or outside."""
import os
import sys

sys.path.insert(0, os.path.join(os.path.dirname(os.path.abspath(__file__)), ".."))
import alerts
import choices
import damages
import documents
import expected
import shapes
from choices import chance

model = expected.model

SAMPLES = [document for document, _ in [*documents.vectors(), *documents.cases()]]
POOL = [document for document in SAMPLES if 0 < len(document) < 20_000]


def case(rng):
    """All calls about one document; all that ask for something in a refused one must refuse alike."""
    document = pick(rng)
    yield "check_document", (document,)
    alert = expected.alert_of(document)
    sentences, places, reasons = (rng.randint(2, 5), rng.randint(2, 6), rng.randint(5, 11)) if alert else (1, 1, 1)
    for _ in range(sentences):
        part = pick_part(rng, alert)
        yield "document_sentence", (*choices.room(rng, sentence_length(document, part)), document, part)
    part = pick_part(rng, alert)
    number, _, sheet = yield "document_sheet", (document, part, choices.any_sheet(rng))
    if number == 0:
        yield "write", (*choices.room(rng, sentence_length(document, part)), document, sheet)
    for _ in range(places):
        part = pick_part(rng, alert)
        yield "document_place", (document, part, *pick_place(rng, alert, part))
    for _ in range(reasons):
        part = pick_part(rng, alert)
        yield "document_why", (document, part, *pick_place(rng, alert, part), choices.any_reason(rng))


def pick(rng):
    kind = rng.randrange(200)
    if kind == 0:
        return alerts.long_alert(rng)
    if kind < 10:
        return rng.choice(SAMPLES)
    if kind < 100:
        return alerts.alert(rng)
    if kind < 130:
        return damages.damage_text(rng, alerts.alert(rng))
    if kind < 165:
        return damages.damaged(rng, POOL, rng.choice(POOL))
    return damages.damaged(rng, POOL, alerts.alert(rng))


def pick_part(rng, alert):
    total = len(alert.infos) if alert else rng.randrange(3)
    if chance(rng, 8):
        return rng.choice((0, total + 1, 17, 255, 256, total + 2 ** 8, total + 2 ** 16, total + 2 ** 32, *choices.HUGE)) % 2 ** 64
    return rng.randint(1, total) if total else 0


def sentence_length(document, part):
    """The length of a part's sentence, or some length where there is none."""
    drawn = model.cap_sheet(document, part)
    return 150 if expected.refused(drawn) else len(model.sentence(drawn[1]))


def pick_place(rng, alert, part):
    if alert and 1 <= part <= len(alert.infos):
        found = model._shapes(alert.infos[part - 1])
        return shapes.place(rng, *([shape for _, kind, _, shape in found if kind == wanted] for wanted in ("polygon", "circle")))
    return shapes.place(rng, [], [])
