#!/usr/bin/env python3
"""Writes crates/document_test/stdin and stdout: documents, and whether each is accepted or refused.

The documents' sample alerts come from tests/vectors, with the answers stored there. The others are written here, one or more for each
sentence of document 01's "The document" and "Refusal numbers", and those that document 02's requests ask for. Each case gives the refusal's number; its place is marked in the document by
MARK, which is taken out (no mark: the document's length). The answers were worked out from the paper; this script stops where tests/model/model02.py
says otherwise.
"""
import glob
import os
import sys

HERE = os.path.dirname(os.path.abspath(__file__))
sys.path.insert(0, os.path.join(HERE, "model"))
import model02 as model
import values

FOLDER = os.path.join(HERE, "..", "crates", "document_test")
MARK = "¶"
URN = "urn:oasis:names:tc:emergency:cap:1.2"
START = f'<alert xmlns="{URN}">'
NAMES = "<identifier>A17</identifier><sender>kiln.example</sender>"
SENT = "<sent>2002-05-24T16:49:00-07:00</sent>"
HEAD = START + NAMES + SENT + "<status>Actual</status><msgType>Alert</msgType><scope>Public</scope>"
FRONT = "<category>Met</category><event>Storm</event>"
RATED = FRONT + "<urgency>Immediate</urgency><severity>Extreme</severity><certainty>Observed</certainty>"
INFO = f"<info>{RATED}</info>"
END = "</alert>"
SOUND = HEAD + INFO + END


def area(shapes):
    return HEAD + f"<info>{RATED}<area><areaDesc/>{shapes}</area></info>" + END


def prefixed(prefix, text):
    """A document with the prefix on each of its tags."""
    return (text.replace("</", "\0").replace("<", f"<{prefix}:").replace("\0", f"</{prefix}:")
            .replace(f"xmlns=", f"xmlns:{prefix}="))


# accepted: (number of parts, document)
ACCEPTED = [
    # parts, and containers' contents
    (1, SOUND), (0, HEAD + END), (2, HEAD + INFO + INFO + END), (16, HEAD + INFO * 16 + END),
    (1, HEAD + f"<info><language>en-US</language>{FRONT.replace('<event>', '<category>Fire</category><event>')}<responseType>Shelter</responseType>"
     "<responseType>None</responseType><urgency>Past</urgency><severity>Unknown</severity><certainty>Unlikely</certainty><audience/>"
     "<eventCode><valueName/><value/></eventCode><eventCode><valueName>a</valueName><value>b</value></eventCode>"
     "<effective>2002-05-24T16:49:00-07:00</effective><onset> 2002-05-24T16:49:00+00:00\n</onset><expires>2002-05-25T16:49:00-00:00</expires>"
     "<senderName/><headline/><description/><instruction/><web/><contact/><parameter><valueName/><value/></parameter>"
     "<resource><resourceDesc/><mimeType/><size/><uri/><derefUri/><digest/></resource><resource><resourceDesc/><mimeType/></resource>"
     "<area><areaDesc/><polygon>0,0 0,1 1,0 0,0</polygon><polygon>\t0,0 0,1 1,0 -0.0,+000 </polygon><circle>1,2 20000.000</circle>"
     "<geocode><valueName/><value/></geocode><altitude/><ceiling/></area><area><areaDesc/></area></info>" + END),
    (0, HEAD.replace("<scope>", "<source/><scope>") + "<restriction/><addresses/><code/><code>x</code><note/><references/><incidents/>" + END),
    # "Optional BOM; optional declaration", at most 128 bytes
    (1, "\ufeff" + SOUND), (1, '<?xml version="1.0" encoding="UTF-8?>' + SOUND), (1, "\ufeff<?xml\t?>" + SOUND), (1, "<?xml \n a<b&c--d ?>\n" + SOUND),
    (1, "<?xml " + "x" * 120 + "?>" + SOUND),
    # "then white space and comments, alert, white space and comments. Both may stand between elements too"
    (1, " \t\r\n<!-- a -->\n" + SOUND + "\r\n<!--b--> "), (1, HEAD.replace("><s", "> <!--c-->\n<s") + INFO + "\n" + END),
    (1, "<!---->" + SOUND), (1, "<!---a-->" + SOUND), (1, "<!-- a - b & <c> ' \" -->" + SOUND),
    # the name space "as default or under a prefix of 1 to 16 ASCII letters", "in either quote"; white space surrounds "="
    (1, SOUND.replace('"', "'")), (1, SOUND.replace('xmlns="', '\n xmlns \t=\r\n "')), (1, SOUND.replace('2">', '2" \n>')),
    (1, prefixed("cap", SOUND)), (1, prefixed("ABCDEFGHIJKLmnop", SOUND)), (1, prefixed("xmlns", SOUND)), (1, prefixed("c", SOUND)),
    # "white space may precede ">" or "/>""; "an empty tag is an empty text"
    (1, SOUND.replace("<event>Storm</event>", "<event \n/>")), (1, SOUND.replace("<event>Storm</event>", "<event\t></event >")),
    (1, SOUND.replace("</alert>", "</alert\n>")),
    # "references but the five named ones"; tab, LF, CR; "Bytes from 0x80 up aren't checked"; what only looks like "]]>"
    (1, SOUND.replace("Storm", "&amp;&lt;&gt;&apos;&quot;")), (1, SOUND.replace("Storm", "\t\n\r]]]>"[:4] + "]] >")), (1, SOUND.replace("Storm", "\x7f\x80é")),
    (1, SOUND.replace("Storm", "a > b ' \" - -- ]>")),
    # sender and identifier: 1 to 128 bytes above 0x20
    (1, SOUND.replace("A17", "x" * 128)), (1, SOUND.replace("kiln.example", "!é~\x7f'\">")),
    # "no element is required because of another's content"
    (0, HEAD.replace("Public", "Private") + END), (0, HEAD.replace("Alert</msgType>", "Cancel</msgType>") + END),
]

# refused: (number, document with the place marked)
REFUSED = [
    # 14: "CAP document over 65,536 bytes", first of all, at 0; sender, identifier; a 17th info at its start tag
    (14, MARK + SOUND + " " * (65_537 - len(SOUND))), (14, MARK + "x" * 65_537),
    (14, SOUND.replace("A17", MARK + "x" * 129)), (14, SOUND.replace("kiln.example", MARK + "," * 129)),
    (14, HEAD + INFO * 16 + MARK + INFO + END), (14, HEAD + INFO * 16 + MARK + "<info><bad/>"),
    # inside one construct 15, 16, 14, 19
    (15, SOUND.replace("A17", "x" * 129 + MARK + "&x;")), (16, HEAD + INFO * 16 + MARK + "<info/>" + END), (15, HEAD + INFO * 16 + MARK + "<info a=''>"),
    (15, SOUND.replace("<event>", MARK + "<bad x='1'>")), (15, SOUND.replace("kiln", "k,i" + MARK + "&n;")),
    # 15: input that stops short: its length
    (15, ""), (15, "\ufeff"), (15, " \n"), (15, "<!-- a -->"), (15, "<?xml "), (15, "<?xml " + "x" * 200), (15, HEAD), (15, HEAD + "  "),
    (15, HEAD + "<info>" + RATED), (15, START + "<identifier>A17"), (15, START + "<identifier>A&17"), (15, START + "<identifier>A17</identifier"),
    (15, START + "<identifier>A17<!-- "), (15, "<"), (15, "<alert xmlns='"), (15, "<!-- a --"), (15, "<!-->"), (15, "<!--->"), (15, SOUND + "<"), (15, SOUND + "<!--"),
    (15, SOUND + "<x '>"), (15, "<![CDATA[it's]]>"), (15, "<?x it's ?>" + SOUND.replace("'", "")), (15, HEAD + "</alert'>"),
    # the declaration: too long, control byte, not at the start, no white space after "<?xml"
    (15, MARK + "<?xml " + "x" * 121 + "?>" + SOUND), (15, "\ufeff" + MARK + "<?xml \x01?>" + SOUND), (15, " " + MARK + "<?xml ?>" + SOUND),
    (15, MARK + "<?xml?>" + SOUND), (15, MARK + "<?xml-stylesheet href='a'?>" + SOUND), (15, "<?xml ?>" + MARK + "<?xml ?>" + SOUND),
    # a part of a BOM, a second one: text outside leaf elements
    (15, MARK + "\u0bff"), (15, "\ufeff" + MARK + "\ufeff" + SOUND),
    # comments: "--", "--->", control bytes, inside a text
    (15, MARK + "<!-- a -- b -->" + SOUND), (15, MARK + "<!-- a --->" + SOUND), (15, MARK + "<!----->" + SOUND), (15, HEAD + MARK + "<!--\x00-->" + END),
    (15, SOUND.replace("Storm", "Sto" + MARK + "<!-- -->rm")), (17, SOUND.replace("Actual", MARK + "Act<!-- -->ual")), (17, SOUND.replace("Actual", MARK + "<!-- -->Actual")),
    # attribute faults
    (15, MARK + SOUND.replace(f' xmlns="{URN}"', "")), (15, MARK + SOUND.replace("1.2", "1.1")), (15, MARK + SOUND.replace('2">', '2" xmlns:a="b">')),
    (15, MARK + SOUND.replace("xmlns", "xmlns:a1")), (15, MARK + SOUND.replace("xmlns", "xmlns:")), (15, MARK + prefixed("ABCDEFGHIJKLmnopq", SOUND)),
    (15, MARK + SOUND.replace('"', "")), (15, MARK + SOUND.replace('"urn', '" urn')), (15, MARK + SOUND.replace("alert xmlns", "alertxmlns")),
    (15, SOUND.replace('1.2"', "1.2'") + "'>"), (15, MARK + SOUND.replace("xmlns", "id")), (15, MARK + SOUND.replace("urn", "&amp;")),
    (15, SOUND.replace("<event>", MARK + "<event a='b'>")), (15, SOUND.replace("<info>", MARK + f"<info xmlns='{URN}'>")), (15, MARK + f"<html xmlns='{URN}'>"),
    (15, SOUND.replace("</event>", MARK + "</event a='b'>")), (15, MARK + SOUND.replace("xmlns=", "xmlns=\x01")), (15, MARK + SOUND.replace('2">', '2"/ >')),
    # DOCTYPE, CDATA, other instructions
    (15, MARK + "<!DOCTYPE alert>" + SOUND), (15, SOUND.replace("Storm", MARK + "<![CDATA[Storm]]>")), (15, HEAD + MARK + "<?php ?>" + END), (15, HEAD + MARK + "<!-x>" + END),
    # "]]>" in text, bytes below 0x20, references: the leftmost, at its first byte
    (15, SOUND.replace("Storm", "a" + MARK + "]]>b")), (15, SOUND.replace("Storm", "a]" + MARK + "]]>b&")), (15, SOUND.replace("Storm", "\t\n\r" + MARK + "\x1f")),
    (15, SOUND.replace("Storm", MARK + "\x00")), (15, SOUND.replace("Storm", MARK + "&")), (15, SOUND.replace("Storm", "a " + MARK + "&#176;")),
    (15, SOUND.replace("Storm", MARK + "&AMP;")), (15, SOUND.replace("Storm", "&amp;" + MARK + "&amp")), (15, SOUND.replace("Storm", MARK + "&\x01")),
    (15, SOUND.replace("Storm", MARK + "&quot")), (15, SOUND.replace("Storm", "&lt;" + MARK + "&gt")), (15, SOUND.replace("Actual", "Bad" + MARK + "&x;")),
    # tag names: empty, other bytes
    (15, HEAD + MARK + "< info>" + END), (15, HEAD + MARK + "<>" + END), (15, HEAD + MARK + "</>" + END), (15, HEAD + MARK + "</ alert>" + END),
    (15, HEAD + MARK + "<inf\u00f6>" + END), (15, HEAD + MARK + "<in/fo>" + END), (15, HEAD + MARK + "<info=>" + END), (15, HEAD + MARK + "<info / >" + END),
    (15, HEAD + MARK + "<a'b'>" + END), (15, HEAD + MARK + "<a\x02>" + END),
    # a wrong end tag
    (15, SOUND.replace("</event>", MARK + "</events>")), (15, SOUND.replace("</info>", MARK + "</alert>")), (15, SOUND.replace("</event>", MARK + "</Event>")),
    (15, SOUND.replace("</event>", MARK + "</event/>")), (15, MARK + "</alert>"), (15, HEAD + MARK + "</info>" + END), (17, SOUND.replace("Actual</status>", MARK + "</wrong>")),
    (15, SOUND + MARK + END), (15, prefixed("cap", SOUND).replace("</cap:event>", MARK + "</event>")), (15, SOUND.replace("</event>", MARK + "</cap:event>")),
    # text outside leaf elements: the stray byte
    (15, MARK + "x" + SOUND), (15, START + " \n" + MARK + "x" + NAMES), (15, SOUND + " " + MARK + "x"), (15, HEAD + MARK + "&amp;" + END), (15, HEAD + " " + MARK + "x"),
    (15, HEAD + "<!---->" + MARK + "]]>" + END), (15, HEAD + MARK + "\u00a0" + END), (15, SOUND.replace("</event>", "</event>" + MARK + ".")), (15, HEAD + MARK + "\x0b" + END),
    # a tag after the alert's end
    (15, SOUND + "\n" + MARK + "<info>"), (15, SOUND + MARK + SOUND), (15, SOUND + MARK + "<?x?>"), (15, SOUND + MARK + "<!DOCTYPE x>"),
    # 16: unknown, misplaced, repeated; with another prefix
    (16, MARK + "<html>" + SOUND), (16, HEAD + MARK + "<bad/>" + END), (16, HEAD + MARK + "<Info>" + END), (16, HEAD + MARK + "<1a>" + END), (16, HEAD + MARK + "<-.>" + END),
    (16, START + MARK + "<sender>"), (16, START + "<identifier>A17</identifier>" + MARK + SENT), (16, HEAD + MARK + "<scope>Public</scope>" + END),
    (16, HEAD + MARK + "<source/>" + END), (16, HEAD + "<info>" + MARK + "<event/>"), (16, HEAD + f"<info>{FRONT}" + MARK + "<severity>"), (16, HEAD + INFO + MARK + "<note/>" + END),
    (16, HEAD + MARK + "<alert>" + END), (16, HEAD + MARK + "<value/>" + END), (16, HEAD + f"<info>{RATED}<resource><resourceDesc/>" + MARK + "<uri/>"),
    (16, HEAD + f"<info>{RATED}<area><areaDesc/><circle>1,1 1</circle>" + MARK + "<polygon>"), (16, HEAD + f"<info>{RATED}<headline/>" + MARK + "<headline/>"),
    (16, HEAD + f"<info>{RATED}<eventCode><valueName/><value/>" + MARK + "<value/>"), (16, HEAD + f"<info>{RATED}<parameter>" + MARK + "<value/>"),
    (16, HEAD + f"<info>{RATED}<area><areaDesc/><geocode>" + MARK + "<value/>"), (16, HEAD + "<info>" + RATED + "<area>" + MARK + "<polygon>"),
    (16, SOUND.replace("Storm", "St" + MARK + "<b>o</b>rm")), (16, SOUND.replace("Storm", MARK + "<event/>")), (15, SOUND.replace("Storm", MARK + "<b a=''>")),
    (19, START + "<identifier>" + MARK + "<b/></identifier>"), (16, HEAD + MARK + "<cap:info>" + END), (16, prefixed("cap", SOUND).replace("<cap:event>", MARK + "<event>")),
    (16, prefixed("cap", SOUND).replace("<cap:event>", MARK + "<Cap:event>")), (16, HEAD + MARK + "<:info>" + END), (16, prefixed("cap", HEAD) + MARK + "<cap:>"),
    (16, prefixed("cap", HEAD) + MARK + "<cap:a:b>"), (16, prefixed("cap", HEAD) + MARK + "<capinfo>"), (16, prefixed("cap", HEAD) + MARK + "<cap-info>"),
    (16, MARK + SOUND.replace("<alert", "<cap:alert")), (16, MARK + SOUND.replace("xmlns=", "xmlns:cap=")), (16, MARK + SOUND.replace("<alert xmlns=", "<a:alert xmlns:b=")),
    (16, MARK + SOUND.replace("<alert xmlns=", "<:alert xmlns=")), (15, MARK + SOUND.replace("<alert", "<a:b:alert")), (16, MARK + "<a:b:alert>"),
    # something missing: the container's end or empty tag
    (16, START + MARK + END), (16, START + NAMES + MARK + END), (16, HEAD + "<info>" + MARK + "</info>" + END), (16, HEAD + f"<info>{FRONT}" + MARK + "</info>" + END),
    (16, HEAD + MARK + "<info/>" + END), (16, MARK + START.replace(">", "/>")), (16, HEAD + f"<info>{RATED}" + MARK + "<area />" + "</info>" + END),
    (16, HEAD + f"<info>{RATED}<area>" + MARK + "</area>"), (16, HEAD + f"<info>{RATED}<resource><resourceDesc/>" + MARK + "</resource>"),
    (16, HEAD + f"<info>{RATED}<eventCode><valueName/>" + MARK + "</eventCode>"), (16, HEAD + f"<info>{RATED}" + MARK + "<parameter/>"), (16, HEAD.replace("<scope>Public</scope>", "") + MARK + END),
    # 17: codes exactly, no trimming, references unresolved
    (17, SOUND.replace("Actual", MARK + "actual")), (17, SOUND.replace("Actual", MARK + " Actual")), (17, SOUND.replace("Actual", MARK + "")), (17, SOUND.replace("Actual", MARK + "A&amp;")),
    (17, SOUND.replace("<status>Actual</status>", "<status/>" + MARK)), (17, SOUND.replace("Alert</msgType>", MARK + "Alerts</msgType>")), (17, SOUND.replace("Public", MARK + "All")),
    (17, SOUND.replace("Met", MARK + "Weather")), (17, SOUND.replace("Immediate", MARK + "Now")), (17, SOUND.replace("Extreme", MARK + "extreme")), (17, SOUND.replace("Observed", MARK + "Very Likely")),
    (17, SOUND.replace("<urgency>", "<responseType>" + MARK + "Run</responseType><urgency>")), (17, SOUND.replace("Actual</status>", MARK + "Bad<")),
    (17, SOUND.replace("Actual", MARK + "Alert")), (17, SOUND.replace("Extreme", MARK + "Immediate")),
    # 18: times
    (18, SOUND.replace("-07:00", MARK + "Z").replace("2002", MARK + "2002").replace("00" + MARK + "Z", "00Z")), (18, SOUND.replace("2002-05-24T16:49:00-07:00", MARK)),
    (18, SOUND.replace("2002-05-24T16", MARK + "2002-02-29T16")), (18, SOUND.replace("2002-05-24T16", MARK + "2002-05-24T24")), (18, SOUND.replace("2002-05-24T16:49:00-07", MARK + "2002-05-24T16:49:00-15")),
    (18, HEAD + f"<info>{RATED}<effective>" + MARK + "now</effective></info>" + END), (18, HEAD + f"<info>{RATED}<onset/>" + MARK + "</info>" + END),
    (18, HEAD + f"<info>{RATED}<expires>" + MARK + "0000-01-01T00:00:00+00:00</expires></info>" + END), (18, SOUND.replace("2002-05-24T16:49:00-07:00", MARK + "2002-05-24T16:49:00 -07:00")),
    # 19: sender or identifier empty or with a forbidden byte
    (19, SOUND.replace("A17", MARK)), (19, SOUND.replace("<identifier>A17</identifier>", "<identifier/>" + MARK)), (19, SOUND.replace("A17", MARK + "A 17")), (19, SOUND.replace("kiln", MARK + "ki,ln")),
    (19, SOUND.replace("kiln", MARK + "k&lt;n")), (19, SOUND.replace("A17", MARK + "\nA17")), (19, SOUND.replace("A17", MARK + " ")), (19, START + "<identifier/>" + MARK),
    # 22: polygon or circle text
    (22, area("<polygon>" + MARK + "</polygon>")), (22, area("<polygon/>" + MARK)), (22, area("<polygon>" + MARK + "0,0 0,1 0,0</polygon>")), (22, area("<polygon>" + MARK + "0,0 0,1 1,0 1,1</polygon>")),
    (22, area("<polygon>" + MARK + "0,0 0,1 1,0 0, 0</polygon>")), (22, area("<polygon>" + MARK + "90.0000001,0 0,1 1,0 90.0000001,0</polygon>")), (22, area("<circle>" + MARK + "1,1</circle>")),
    (22, area("<circle>" + MARK + "1,1 20000.001</circle>")), (22, area("<circle>" + MARK + "1,1 1 1</circle>")), (22, area("<circle>1,1 1</circle><circle>" + MARK + "1 1</circle>")),
    (22, area("<polygon>" + MARK + "0,180 0,1 1,0 0,-180</polygon>")), (22, area("<circle>" + MARK + "1,1 -1</circle>")),
    # strictly left to right: the first broken rule of two
    (17, SOUND.replace("Actual", MARK + "Bad").replace("</event>", "</wrong>")), (18, SOUND.replace("2002", MARK + "2").replace("Actual", "Bad")), (15, MARK + "x" + SOUND.replace("Actual", "Bad")),
]


# request [6], in each of the four time elements
SHORT = START + "<identifier>A</identifier><sender>b</sender>{}<status>Actual</status><msgType>Alert</msgType><scope>Public</scope>{}" + END
TIMED = "<info><category>Met</category><event/><urgency>Past</urgency><severity>Minor</severity><certainty>Likely</certainty>{}</info>"


def day_ends():
    """A document for each time around a day's end: (document, answer)"""
    for time, clock in values.around_day_end(values.DAY_ENDS):
        for element in ("sent", "effective", "onset", "expires"):
            timed = f"<{element}>{time}</{element}>"
            document = SHORT.format(timed, "") if element == "sent" else SHORT.format(SENT, TIMED.format(timed))
            taken = clock[0] == 23 or clock == (24, 0, 0)
            yield document.encode(), f"accepted {int(element != 'sent')}" if taken else f"refused 18 at {document.index(time)}"


def vectors():
    """The documents' sample alerts: (document, answer)"""
    for path in sorted(glob.glob(os.path.join(HERE, "vectors", "*.xml"))):
        lines = open(path[:-4] + ".out", "rb").read().decode("utf-8", "surrogateescape").splitlines()
        refused = lines[-1].startswith("refused")
        assert not lines[-1].startswith("refused 7 ") and (len(lines) == 1 or not refused), path
        parts = 0 if lines[0].endswith("no parts.") else len(lines)
        yield open(path, "rb").read(), lines[-1] if refused else f"accepted {parts}"


def cases():
    for parts, text in ACCEPTED:
        yield text.encode("utf-8"), f"accepted {parts}"
    for number, text in REFUSED:
        data, mark = text.encode("utf-8"), MARK.encode("utf-8")
        assert data.count(mark) <= 1, text
        place = data.find(mark) if mark in data else len(data)
        yield data.replace(mark, b""), f"refused {number} at {place}"


def answer(document):
    kind, *values = model.cap_check(document)
    return f"accepted {values[0]}" if kind == "ok" else "refused {} at {}".format(*values)


def main():
    wrong = 0
    with open(os.path.join(FOLDER, "stdin"), "wb") as records, open(os.path.join(FOLDER, "stdout"), "w") as answers:
        for document, expected in [*vectors(), *cases(), *day_ends()]:
            if answer(document) != expected:
                wrong += 1
                print("the model says", answer(document), "and not", expected, "of", document[:300], "...", document[-120:])
            records.write(len(document).to_bytes(3, "big") + document)
            answers.write(expected + "\n")
    sys.exit(1 if wrong else 0)


if __name__ == "__main__":
    main()
