"""How document 01 cuts a file: the data records' texts and what stands between them, and whether the file is closed.

Written from document 01's words alone, so that what is rearranged is known without asking a reader. A text is a record from its start
up to its `;`. Of a file that is not closed, or that is refused, there is no cut."""

import re
from functools import lru_cache

WHITE = b" \t\n\x0c\r"
_COMMENT = rb"/\*[^*]*\*+(?:[^/*][^*]*\*+)*/"  # up to the first `*/` that begins after the `/*`, and never further
_TRIVIA = rb"(?:[ \t\n\x0c\r]|" + _COMMENT + rb")*"
TRIVIA = re.compile(_TRIVIA)
TOKEN = re.compile(rb"'[^']*'|" + _COMMENT + rb"|[();]|'|/\*")  # the last two: a string or a comment that is open
MARKER = re.compile(rb"(?:\xef\xbb\xbf)?[ \t\n\x0c\r]*ISO-10303-21")
DATA = re.compile(rb"DATA[ \t\n\x0c\r]*(?:\(|\Z)")
HEAD = re.compile(rb"#([0-9]+)[ \t\n\x0c\r]*=[ \t\n\x0c\r]*")
WHOLE = re.compile(_TRIVIA + rb"([+-]?[0-9]+)" + _TRIVIA + rb"(?:,|\Z)")  # a first parameter that is an integer
CONTEXT = b"GEOMETRIC_REPRESENTATION_CONTEXT"


class Record:
    """What a closed record's text says: its id (a header record has none), and the places of keyword and arguments in the text."""

    def __init__(self, text, number, keyword, args, complex):
        self.text, self.id, self.complex = text, number, complex
        self.keyword_at, self.args_at = keyword, args
        self.keyword, self.args = text[keyword[0]:keyword[1]], text[args[0]:args[1]]
        self.content = (self.keyword, self.args, complex)
        self.parts = parts(self.args) if complex else []
        self.context = self.parts is not None and is_context(self)


def ends_at(file, start):
    """The place of the `;` that ends the record, or none."""
    for token in TOKEN.finditer(file, start):
        if token[0] == b";":
            return token.start()
        if token[0] in (b"'", b"/*"):
            return None
    return None


def closes_at(text, opens):
    """The place of the `)` of the `(`, or none where that lies in a string or a comment or is not closed."""
    depth = 0
    for token in TOKEN.finditer(text):
        if token.start() < opens:
            continue
        if depth == 0 and token.start() != opens:
            return None
        depth += {b"(": 1, b")": -1}.get(token[0], 0)
        if depth == 0:
            return token.start()
    return None


def parts(args):
    """Keyword and arguments of each part of a complex record, or none where a part's `(` lies in a string or a comment."""
    out, at = [], 0
    while True:
        while args[at:at + 1] and args[at] in WHITE + b",":
            at += 1
        opens = args.find(b"(", at)
        if opens < 0:
            return out
        closes = closes_at(args, opens)
        if closes is None:
            return None
        out.append((args[at:opens].rstrip(WHITE), args[opens + 1:closes]))
        at = closes + 1


def is_context(record):
    """A unit context: the record, or its first part, of that keyword has a first parameter that reads as an integer."""
    of = record.parts if record.complex else [(record.keyword, record.args)]
    args = next((args for keyword, args in of if keyword.upper() == CONTEXT), None)
    number = WHOLE.match(args) if args is not None else None
    return number is not None and -(1 << 63) <= int(number[1]) < 1 << 63


def trimmed(text, start, end):
    while start < end and text[start] in WHITE:
        start += 1
    while start < end and text[end - 1] in WHITE:
        end -= 1
    return start, end


def spans(text, number, start):
    """The record whose keyword and arguments begin at a place of its text, or none where it is not closed."""
    opens = text.find(b"(", start)
    closes = closes_at(text, opens) if opens >= 0 else None
    if closes is None:
        return None
    complex = number is not None and opens == start
    return Record(text, number, (0, 0) if complex else trimmed(text, start, opens), (opens + 1, closes), int(complex))


@lru_cache(maxsize=1 << 14)
def data_record(text):
    """The data record with this text, or none where the text is no closed data record."""
    head = HEAD.match(text)
    if head is None or int(head[1]) > 4294967295 or ends_at(text + b";", 0) != len(text):
        return None
    record = spans(text, int(head[1]), head.end())
    return record if record is not None and record.parts is not None else None


def header_record(text):
    return spans(text, None, 0) if ends_at(text + b";", 0) == len(text) else None


class Cut:
    """`gaps` stand before, between and after the data records, `records` have their texts, `at` are the places where these begin."""

    def __init__(self):
        self.gaps, self.records, self.at, self.headers, self.sections = [], [], [], [], 0

    def texts(self):
        return [record.text for record in self.records]


def filled(gaps, texts):
    """The file with these texts in the records' places."""
    return b"".join(gap + text for gap, text in zip(gaps, texts)) + gaps[-1]


def section_of(text):
    """The section that a section word opens, `outside` where it leaves one, `end` where it ends the reading; none for other texts."""
    word = text.strip(WHITE).upper()
    if DATA.match(word):
        return "data"
    return {b"HEADER": "header", b"ENDSEC": "outside", b"END-ISO-10303-21": "end"}.get(word)


@lru_cache(maxsize=1 << 12)
def cut(file):
    """The cut of an accepted closed file, or none."""
    if not MARKER.match(file):
        return None
    out, section, at, left = Cut(), "outside", 0, 0
    while True:
        start = TRIVIA.match(file, at).end()
        end = ends_at(file, start)
        if end is None and start < len(file):
            return None
        text = file[start:end]
        to = section_of(text)
        if start == len(file) or to == "end":
            out.gaps.append(file[left:])
            return out
        at = end + 1
        out.sections += to == "data"
        if to is None and section != "outside":
            record = data_record(text) if section == "data" else header_record(text)
            if record is None:
                return None
            (out.records if section == "data" else out.headers).append(record)
            if section == "data":
                out.gaps.append(file[left:start])
                out.at.append(start)
                left = end
        section = to or section
