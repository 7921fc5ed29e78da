"""Sound CAP alerts with any of the elements, white space, comments and prefixes that document 01 allows."""
from datetime import date

import choices
import expected
import shapes
from choices import chance

model = expected.model

URN = "urn:oasis:names:tc:emergency:cap:1.2"
EPOCH = date(1970, 1, 1).toordinal()
DAY = 86_400
FIRST_DAY, LAST_DAY = 1 - EPOCH, date(9999, 12, 31).toordinal() - EPOCH
NOTED_DAYS = [date(y, m, d).toordinal() - EPOCH for y, m, d in (
    (1, 1, 3), (4, 2, 29), (100, 3, 1), (400, 2, 29), (1900, 2, 28), (1900, 3, 1), (1969, 12, 31), (1970, 1, 1), (1999, 12, 31), (2000, 2, 29),
    (2000, 12, 31), (2024, 2, 29), (2024, 12, 31), (2025, 2, 28), (2100, 2, 28), (2100, 3, 1), (9998, 12, 30), (9999, 12, 29))]
FREE_TEXTS = [b"", b"Storm", b"en-US", b"a &amp; b &lt;c&gt; &apos;d&apos; &quot;e&quot;", b"\ttab\r\nline\n", b"]]", b"]] >", b"]>", b"a > b", b"'", b'"',
              b"x='1'", b"--", b"-->", b"\x7f\x80\xff", "Störung".encode(), b"?>", b"/>", b"=", b"SAME", b"1,2 3", b"2002-05-24T16:49:00Z", b"Z" * 200]
COMMENTS = [b"<!---->", b"<!-- a -->", b"<!---a-->", b"<!-- <info> ' \" & ]]> -->", b"<!--\xff\n\t- -->", b"<!-- a - b -->"]
DECLARATIONS = [b'<?xml version="1.0" encoding="UTF-8"?>', b"<?xml ?>", b"<?xml\n'?>", b"<?xml " + b"x" * 120 + b"?>", b"<?xml\t<&>-- ?>"]
RICHNESS = {"area": 75, "polygon": 55, "circle": 40}  # percent of containers with the element; others differ by alert
CROWDED = {"area": 95, "polygon": 70, "circle": 60}   # the same in an alert with a crowd of shapes
LETTERS = "abcdefghijklmnopqrstuvwxyzABCDEFGHIJKLMNOPQRSTUVWXYZ"


# ---- times

def moment(rng):
    """An instant at least two days from the ends of the calendar."""
    if chance(rng, 40):
        return rng.choice(NOTED_DAYS) * DAY + rng.choice((0, 1, DAY - 1, rng.randrange(DAY)))
    if chance(rng, 50):
        return rng.randint(1_000_000_000, 2_000_000_000)
    return rng.randint((FIRST_DAY + 2) * DAY // 60, (LAST_DAY - 2) * DAY // 60) * 60 + rng.choice((0, rng.randrange(60)))


def zone(rng):
    """An offset in minutes."""
    return rng.choice((0, 0, 60, -420, 330, 840, -840, 839, -839, 1, -1, rng.randint(-840, 840)))


def midnight_zone(instant):
    """The offset, in minutes, by which a whole minute is midnight."""
    offset = -(instant // 60) % 1440
    return offset if offset <= 840 else offset - 1440


def time_text(rng, instant):
    """A text that names the instant, in some zone; midnight may be written as 24:00:00."""
    offset = midnight_zone(instant) if instant % 60 == 0 and chance(rng, 25) else zone(rng)
    days, seconds = divmod(instant + 60 * offset, DAY)
    if not FIRST_DAY <= days <= LAST_DAY:
        offset = 0
        days, seconds = divmod(min(max(instant, FIRST_DAY * DAY), (LAST_DAY + 1) * DAY - 1), DAY)
    if seconds == 0 and days > FIRST_DAY and chance(rng, 50):
        days, seconds = days - 1, DAY
    day = date.fromordinal(days + EPOCH)
    sign = "-" if offset < 0 or (offset == 0 and chance(rng, 50)) else "+"
    text = (f"{day.year:04}-{day.month:02}-{day.day:02}T{seconds // 3600:02}:{seconds // 60 % 60:02}:{seconds % 60:02}"
            f"{sign}{abs(offset) // 60:02}:{abs(offset) % 60:02}")
    if chance(rng, 8):
        text = rng.choice((" ", "\n\t", "\r\n")) + text + rng.choice(("", " ", "\n "))
    return text.encode()


class Times:
    """The times of one info: those that are there, by element. Lasting times come out in range, at the limits and out of them."""

    def __init__(self, rng, sent):
        self.texts = {}
        begin = sent
        if chance(rng, 40):
            begin = moment(rng)
            self.texts["effective"] = time_text(rng, begin)
        if chance(rng, 30):
            self.texts["onset"] = time_text(rng, moment(rng))
        if chance(rng, 75):
            lasts = rng.choice(choices.LASTING_FAULTS) if chance(rng, 12) else choices.lasting(rng)
            self.texts["expires"] = time_text(rng, begin + lasts)


# ---- the alert

class Writer:
    """Writes one alert, piece by piece."""

    def __init__(self, rng, parts):
        self.rng = rng
        self.pieces = []
        self.parts = parts
        self.prefix = "".join(rng.choices(LETTERS, k=rng.choice((1, 3, 3, 15, 16)))) if chance(rng, 30) else ""
        self.richness = rng.choice((3, 20, 60)) if parts < 5 else rng.choice((1, 10))
        self.spread = rng.choice((0, 0, 3, 30))  # percent of gaps with white space or a comment
        self.sent = moment(rng)
        self.crowd = shapes.crowd(rng) if parts < 5 and chance(rng, 45) else None
        self.times = None

    def qualified(self, name):
        return (self.prefix + ":" + name if self.prefix else name).encode()

    def gap(self):
        if self.spread and chance(self.rng, self.spread):
            self.pieces.append(self.rng.choice((b"\n", b" ", b"\r\n\t", b"  ", self.rng.choice(COMMENTS))))

    def tail(self):
        """White space in front of ">"."""
        return self.rng.choice((b" ", b"\n\t")) if self.spread and chance(self.rng, 5) else b""

    def start(self, name):
        self.pieces.append(b"<" + self.qualified(name) + self.tail() + b">")

    def end(self, name):
        self.gap()
        self.pieces.append(b"</" + self.qualified(name) + self.tail() + b">")

    def leaf(self, name, text):
        if text == b"" and chance(self.rng, 50):
            self.pieces.append(b"<" + self.qualified(name) + self.tail() + b"/>")
        else:
            qualified = self.qualified(name)
            self.pieces.append(b"<" + qualified + self.tail() + b">" + text + b"</" + qualified + self.tail() + b">")

    def text_of(self, element):
        rng = self.rng
        if element in model.NAMES:
            return choices.name(rng)
        if element in expected.CODES:
            return rng.choice(expected.CODES[element]).encode()
        if element == "sent":
            return time_text(rng, self.sent)
        if element in model.TIMES:
            return self.times.texts[element]
        if element == "polygon":
            return shapes.polygon_text(rng, shapes.polygon(rng, self.crowd))
        if element == "circle":
            return shapes.circle_text(rng, shapes.circle(rng, self.crowd))
        return rng.choice(FREE_TEXTS)

    def how_many(self, element, least, most):
        if element == "info":
            return self.parts
        if element in ("effective", "onset", "expires"):
            return int(element in self.times.texts)
        richness = (CROWDED if self.crowd else RICHNESS).get(element, self.richness)
        count = least + (1 if chance(self.rng, richness) else 0)
        if most is None:
            while chance(self.rng, richness / (1.5 if self.crowd and element in CROWDED else 3)):
                count += 1
            return count
        return min(count, most)

    def contents(self, container):
        if container == "info":
            self.times = Times(self.rng, self.sent)
        for element, least, most in expected.SEQUENCES[container]:
            for _ in range(self.how_many(element, least, most)):
                self.gap()
                if element in expected.SEQUENCES:
                    self.start(element)
                    self.contents(element)
                    self.end(element)
                else:
                    self.leaf(element, self.text_of(element))

    def prolog(self):
        rng = self.rng
        if chance(rng, 15):
            self.pieces.append(model.BOM)
        if chance(rng, 30):
            self.pieces.append(rng.choice(DECLARATIONS))
        self.gap()
        self.gap()

    def alert_start(self):
        rng = self.rng
        quote = rng.choice("\"'")
        equals = rng.choice(("=", "=", "=", " = ", "\n=\t"))
        before = rng.choice((" ", " ", "\n", " \t\r\n"))
        xmlns = "xmlns:" + self.prefix if self.prefix else "xmlns"
        self.pieces.append(b"<" + self.qualified("alert") + (before + xmlns + equals + quote + URN + quote).encode() + self.tail() + b">")

    def write(self):
        self.prolog()
        self.alert_start()
        self.contents("alert")
        self.end("alert")
        self.gap()
        self.gap()
        return b"".join(self.pieces)


def how_many_parts(rng):
    kind = rng.randrange(100)
    if kind < 12:
        return 0
    if kind < 55:
        return 1
    if kind < 80:
        return 2
    if kind < 95:
        return rng.randint(3, 6)
    return rng.choice((15, 16, 17, rng.randint(7, 16)))


def alert(rng):
    """An alert; sound, unless it has 17 parts."""
    return Writer(rng, how_many_parts(rng)).write()


def long_alert(rng):
    """An alert of about 65,536 bytes."""
    document = Writer(rng, rng.randint(0, 3)).write()
    missing = rng.choice((65_535, 65_536, 65_536, 65_537, rng.randint(60_000, 66_000))) - len(document)
    if missing < 7 or chance(rng, 20):
        return document + b" " * max(missing, 0)
    return document + b"<!--" + b"x" * (missing - 7) + b"-->"
