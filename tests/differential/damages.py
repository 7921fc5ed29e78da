"""Damages: to documents (bytes, tags, elements, texts) and to packets."""
import re

import edges
import expected

PIECES = [b"<", b">", b"/", b"&", b"]]>", b"]]", b"<!--", b"-->", b"--", b"-", b"'", b'"', b"=", b" ", b"\n", b"\t", b"\x00", b"\x0b", b"\x1f", b"\x7f", b"\x80", b"\xef\xbb\xbf",
          b"<?xml ", b"?>", b"<!DOCTYPE a>", b"<![CDATA[x]]>", b"&amp;", b"&lt;", b"&quot", b"&#1;", b"<info>", b"</info>", b"<area>", b"</area>", b"<info/>", b"<x>", b"</x>", b"<code/>",
          b"<event/>", b"<value/>", b"<valueName/>", b"cap:", b":", b" xmlns='a'", b",", b"x" * 128, b"<polygon>0,0 0,1 1,0 0,0</polygon>", b"<circle>1,1 1</circle>", b"Actual", b"Alert",
          b"2002-05-24T16:49:00-07:00", b"Z", b"24", b"90.0000001", b"-180", b"20000.001", b"</alert>", b"<alert>", b"<geocode>", b"<eventCode>", b"<parameter>", b"<resource>", b"<!-- c -->"]
TEXT_PIECES = [b"", b" ", b"\n", b",", b".", b"+", b"-", b"0", b"1", b"9", b"60", b"T", b":", b"x", b"A", b"&amp;", b"&lt", b"]]>", b"\x01", b"\xc3", b"0.0", b"180", b"90", b"00001",
               b"Public", b"Met", b"Past", b"Unknown", b"0000-", b"-14:01", b"+14:00", b"02-29", b"1,1 ", b" 5", b"x" * 100, b"y" * 129, b"<!-- c -->", b"<!-- ", b"<b>",
               b"<![CDATA[1]]>"]
RULES = {"polygon": "polygon", "circle": "circle", **dict.fromkeys(expected.model.TIMES, "time"), **dict.fromkeys(expected.model.NAMES, "name"),
         **dict.fromkeys(expected.CODES, "code")}
TAG = re.compile(rb"<[^<>]*>")
ELEMENT = re.compile(rb"<([\w:]+)>[^<]*</\1>")


def damaged(rng, pool, document):
    """The document with one to four damages; some are taken from other documents of the pool."""
    for _ in range(rng.choice((1, 1, 1, 2, 2, 3, 4))):
        document = damage(rng, pool, document)
    return document


def damage(rng, pool, document):
    kind = rng.randrange(17)
    if kind < 6:
        return damage_bytes(rng, document, kind)
    if kind < 12:
        return damage_elements(rng, pool, document, kind)
    return damage_text(rng, document)


def damage_bytes(rng, document, kind):
    at = rng.randrange(len(document) + 1) if rng.randrange(20) else len(document)
    if kind == 0:
        return document[:at]
    if kind == 1:
        return document[:at] + bytes([rng.randrange(256)]) + document[at + 1:]
    if kind in (2, 3):
        return document[:at] + rng.choice(PIECES) + document[at:]
    if kind == 4:
        return document[:at] + document[at + rng.randrange(1, 12):]
    return document[:at] + rng.choice(PIECES) + document[at + rng.randrange(1, 6):]


def damage_elements(rng, pool, document, kind):
    tags = list(TAG.finditer(document))
    elements = list(ELEMENT.finditer(document))
    if kind == 6 and tags:
        tag = rng.choice(tags)
        return document[:tag.start()] + document[tag.end():]
    if kind == 7 and elements:
        one = rng.choice(elements)
        return document[:one.start()] + document[one.end():]
    if kind == 8 and elements:
        one = rng.choice(elements)
        return document[:one.end()] + one.group() + document[one.end():]
    if kind == 9 and len(elements) > 1:
        first, second = sorted(rng.sample(elements, 2), key=lambda m: m.start())
        return document[:first.start()] + second.group() + document[first.end():second.start()] + first.group() + document[second.end():]
    if kind == 10 and elements:
        one, other = rng.choice(elements), rng.choice(list(ELEMENT.finditer(rng.choice(pool))) or elements)
        return document[:one.start()] + other.group() + document[one.end():]
    if kind == 11 and tags:
        tag = rng.choice(tags)
        return document[:tag.start()] + rng.choice(tags).group() + document[tag.end():]
    return document


def damage_text(rng, document):
    """Changes something inside the text of one element."""
    elements = list(ELEMENT.finditer(document))
    if not elements:
        return document
    one = pick_element(rng, elements)
    name = one.group(1)
    first, last = one.start() + len(name) + 2, one.end() - len(name) - 3
    if rng.randrange(2):
        return document[:first] + edges.text(rng, local(name), document[first:last]) + document[last:]
    at = rng.randint(first, last)
    left_out = rng.choice((0, 1, 1, last - at))
    return document[:at] + rng.choice(TEXT_PIECES) + document[min(at + left_out, last):]


def local(name):
    return name.rpartition(b":")[2].decode()


def pick_element(rng, elements):
    """Some element, or one whose text has a rule, the rule being chosen first."""
    if rng.randrange(4):
        rules = [RULES.get(local(one.group(1))) for one in elements]
        rule = rng.choice(sorted({rule for rule in rules if rule}) or [None])
        elements = [one for one, its_rule in zip(elements, rules) if its_rule == rule]
    return rng.choice(elements)


def damaged_packet(rng, packet):
    changed = bytearray(packet)
    for _ in range(rng.randint(1, 4)):
        if not changed:
            break
        at = rng.randrange(min(len(changed), 0x48))
        changed[at] = rng.choice((changed[at] ^ (1 << rng.randrange(8)), rng.randrange(256), 0, 255))
    if rng.randrange(8) == 0:
        del changed[rng.randrange(len(changed) + 1):]
    return bytes(changed)
