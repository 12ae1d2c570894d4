#!/usr/bin/env python3
"""Writes runs of cases: each a length in decimal, LF, and that many bytes.

    generate.py exhaustive               all short inputs after the prefixes
    generate.py generated N SEED         files of a grammar, half of them damaged
    generate.py damaged N SEED FILE..    cuts and damaged copies of the given files
    generate.py chosen                   the list for the replay
    generate.py parameters N SEED        arguments that stress the argument reader
    generate.py lookups N SEED           ids, header records and texts, complex records
    generate.py units N SEED             unit contexts, units, measures and tolerances
    generate.py unitrules                unit files written by hand, for each rule of the units

Options: --skip S and --take T give a part of the run (each case depends on its number only, so parts join to the
whole); --most B leaves out the cases that are longer than B bytes; --out FILE writes to a file instead of standard output; --count prints the number of cases and nothing else.
Only the standard library is used, and the numbers drawn depend on the seed and the case's number alone.
"""

import argparse
import sys

sys.dont_write_bytecode = True

from draw import BOM, D, H, M, Rng, damage  # noqa: E402
from lookups import Lookups  # noqa: E402
from parameters import Parameters  # noqa: E402
from unitfiles import UnitFiles  # noqa: E402
from unitrules import UnitRules  # noqa: E402


# ---------------------------------------------------------------------------------------------------------------------
# exhaustive

ALPHABET = b"#09=();,'\"/*\\A \n"
SHAPES = [  # before, after, most bytes between
    (M, b"", 4),
    (H, b"", 4),
    (D, b"", 4),
    (D + b"#1=", b"", 4),
    (D + b"#1=A(", b");", 3),
]


class Exhaustive:
    """All runs of 0 to 4 of 16 bytes after each prefix, and of 0 to 3 inside a record."""

    def __init__(self):
        self.starts = []
        self.total = 0
        for shape in SHAPES:
            for length in range(shape[2] + 1):
                self.starts.append((self.total, shape, length))
                self.total += len(ALPHABET) ** length
        assert len(ALPHABET) == 16

    def __len__(self):
        return self.total

    def __getitem__(self, i):
        for start, shape, length in reversed(self.starts):
            if start <= i:
                break
        i -= start
        between = bytes(ALPHABET[(i >> (4 * k)) & 15] for k in reversed(range(length)))
        return shape[0] + between + shape[1]


# ---------------------------------------------------------------------------------------------------------------------
# generated

SPACES = [b" ", b" ", b"\n", b"\n", b"\t", b"\r\n", b"\x0c", b"  ", b"\r"]
COMMENT_BITS = [
    b"", b"c", b"*", b"/", b"**", b"'", b";", b"(", b")", b"/*", b" ", b"\n", b"#1=A();", b"ENDSEC;", b"''", b"\"",
    b"\xc3\xa4", b"* /", b"=",
]
STRING_BITS = [
    b"a", b"B c", b"''", b"''", b";", b"(", b")", b"/*", b"*/", b"\\X2\\00C40042\\X0\\", b"\\S\\D", b"\\X\\C4", b"\\\\",
    b"\"", b"\n", b"#1", b"=", b",", b"\xc3\x84", b"\xe4", b"ENDSEC;", b"/", b"*", b"$", b"''''",
]
WORDS = [
    b"A", b"B", b"CARTESIAN_POINT", b"DIRECTION", b"ADVANCED_FACE", b"P", b"Q", b"LENGTH_UNIT", b"SI_UNIT", b"X1",
    b"GEOMETRIC_REPRESENTATION_CONTEXT", b"FILE_NAME", b"FILE_SCHEMA", b"FILE_DESCRIPTION", b"DATA", b"HEADER",
]
ODD_WORDS = [
    b"a", b"Product", b"A B", b"DATA1", b"ENDSEC", b"'A'", b"\"A\"", b"A/*c*/", b"/*(*/A", b"'('", b"A\x0b", b"\xc3\x84",
    b"#2", b"=", b"1", b"*", b"A\x00", b"$", b"END-ISO-10303-21", b"HEADER", b"A=B", b"A,", b")", b"A)", b"\\",
]
LARGE_IDS = [
    b"4294967294", b"4294967295", b"4294967296", b"4294967297", b"4294967290", b"4294967300", b"42949672950",
    b"5000000000", b"99999999999999999999", b"04294967295", b"00000000000000000000007", b"004294967296", b"429496729",
    b"3999999999", b"18446744073709551617", b"0", b"00", b"1000000",
]


class Grammar:
    def __init__(self, r):
        self.r = r
        # How many odd things a file holds: none, few, many.
        self.oddness = r.pick([0, 0, 150, 60, 12])

    def odd(self):
        return self.oddness != 0 and self.r.one_in(self.oddness)

    def space(self, often):
        r = self.r
        if not r.one_in(often):
            return b""
        if self.odd():
            return r.pick([b"\x0b", b"\x00", b"\xa0", b"\xc2\x85", b"\x1c"])
        return b"".join(r.pick(SPACES) for _ in range(1 + r.below(3)))

    def comment(self):
        r = self.r
        body = b"".join(r.pick(COMMENT_BITS) for _ in range(r.below(5)))
        if self.odd():
            return b"/*" + body + r.pick([b"", b"*", b"/", b"* /"])
        # A body that ends the comment early leaves its rest as text, which is wanted now and then only.
        if b"*/" in body and not self.odd():
            body = body.replace(b"*/", b"*")
        return b"/*" + body + b"*/"

    def trivia(self, often):
        r = self.r
        if not r.one_in(often):
            return b""
        out = b""
        for _ in range(1 + r.below(3)):
            out += self.comment() if r.one_in(2) else self.space(1)
        return out

    def string(self):
        r = self.r
        body = b"".join(r.pick(STRING_BITS) for _ in range(r.below(6)))
        if self.odd():
            body += r.pick([b"'", b"'''"])
        return b"'" + body + (b"" if self.odd() else b"'")

    def number(self):
        r = self.r
        return r.pick([b"1", b"0.", b"-1.5E-3", b"+7", b"1.E22", b"12345678901234567890", b".5", b"2.", b"1E27", b"1.E-28", b"1234567890123456789"])

    def item(self, depth):
        r = self.r
        kind = r.below(14)
        if kind < 2:
            return b"#%d" % r.below(30)
        if kind < 5:
            return self.number()
        if kind < 8:
            return self.string()
        if kind == 8:
            return r.pick([b"$", b"*", b".T.", b".F.", b".MILLI.", b"..", b""])
        if kind == 9:
            return r.pick([b"\"0A\"", b"\"", b"\"'\"", b"\\", b"/", b"*/"]) if self.odd() else b"\"0A\""
        if kind < 12 and depth < 6:
            return b"(" + self.items(depth + 1) + (b"" if self.odd() else b")")
        if kind == 12 and depth < 6:
            return r.pick(WORDS) + b"(" + self.items(depth + 1) + b")"
        if self.odd():
            return r.pick([b"(", b")", b"'", b"/*", b";", b"((", b"))", b"');#9=Z(("])
        return b".U."

    def items(self, depth):
        r = self.r
        out = []
        for _ in range(r.pick([0, 1, 1, 2, 2, 3, 4])):
            out.append(self.trivia(8) + self.item(depth) + self.trivia(10))
        return b",".join(out)

    def arguments(self):
        close = b")"
        if self.odd():
            close = self.r.pick([b"", b"))", b") )", b")x", b")/**/", b")()", b"),"])
        return b"(" + self.items(0) + close

    def word(self):
        return self.r.pick(ODD_WORDS) if self.odd() else self.r.pick(WORDS)

    def id(self):
        r = self.r
        kind = r.below(10)
        if kind < 6:
            return b"%d" % r.below(12)
        if kind < 8:
            return b"%d" % r.below(100000)
        if kind == 8:
            return r.pick([b"007", b"0000001", b"4294967294", b"4294967295", b"0", b"3000000000"])
        return r.pick(LARGE_IDS) if self.odd() or r.one_in(12) else b"1"

    def data_record(self):
        r = self.r
        out = b"" if self.odd() else b"#"
        if self.odd():
            out += r.pick([b" ", b"/**/", b"#", b"-", b"A", b"'"])
        out += b"" if self.odd() else self.id()
        out += self.comment() if self.odd() else self.space(6)
        out += b"" if self.odd() else b"="
        out += self.space(6)
        if self.odd():
            out += self.trivia(1)
        if self.odd():
            return out + b";"
        if r.one_in(4):
            out += b"("
            for _ in range(r.pick([0, 1, 2, 2, 3])):
                out += self.trivia(6) + self.word() + self.space(6) + self.arguments()
            out += self.space(8) + (b"" if self.odd() else b")")
        else:
            out += self.word() + self.space(6)
            out += b"" if self.odd() else self.arguments()
        out += self.trivia(10)
        return out + (b"" if self.odd() else b";")

    def header_record(self):
        out = b"" if self.odd() else self.word()
        out += self.space(5)
        out += b"" if self.odd() else self.arguments()
        out += self.trivia(8)
        return out + (b"" if self.odd() else b";")

    def section_word(self, word):
        r = self.r
        case = r.below(8)
        if case == 0:
            word = word.lower()
        elif case == 1:
            word = word.title()
        elif case == 2:
            word = bytes(b ^ 32 if 65 <= b <= 90 and r.one_in(2) else b for b in word)
        if self.odd():
            word = r.pick([word + b"X", word[:-1], word + b"/*c*/", b"/*c*/ " + word, word + b"()", word + b" X", b"'" + word])
        out = self.trivia(5) + word + self.space(6)
        return out + (b"" if self.odd() else b";")

    def file(self):
        r = self.r
        out = b""
        if r.one_in(12):
            out += BOM
        out += self.space(10)
        if self.odd():
            out += r.pick([BOM, b"/**/", b"\x00", b"\x0b", b"X", b"\xef\xbb"])
        out += r.pick([b"iso-10303-21", b"ISO-10303-2", b"ISO-10303-22", b"SO-10303-21"]) if self.odd() else b"ISO-10303-21"
        out += self.space(10) + (b"" if self.odd() else b";")
        if self.odd():
            out += r.pick([b"X;", b"#1=A();", b"';';", b"A(", b";"])
        for _ in range(r.pick([0, 1, 1, 1, 1, 1, 2])):
            out += self.section_word(b"HEADER")
            for _ in range(r.pick([0, 1, 1, 2, 3])):
                out += self.trivia(4) + self.header_record()
            if not self.odd():
                out += self.section_word(b"ENDSEC")
        for _ in range(r.pick([0, 1, 1, 1, 1, 2, 3])):
            if r.one_in(6):
                out += self.section_word(b"DATA" + self.space(3) + self.arguments())
            else:
                out += self.section_word(b"DATA")
            for _ in range(r.pick([0, 1, 1, 2, 2, 3, 5, 8, 16])):
                out += self.trivia(4) + self.data_record()
            if not self.odd():
                out += self.section_word(b"ENDSEC")
            if self.odd():
                out += r.pick([b"X;", b"#7=A(;", b"';';", b"HEADER;", b";", b"A();"])
        if not self.odd():
            out += self.section_word(b"END-ISO-10303-21")
        out += self.trivia(6)
        if self.odd():
            out += r.pick([b"rest", b"'", b"/*", b"DATA;#1=A();"])
        return out


class Generated:
    """Files of the grammar above; half of them damaged; at most 2 KB."""

    def __init__(self, count, seed):
        self.count = count
        self.seed = seed

    def __len__(self):
        return self.count

    def __getitem__(self, i):
        r = Rng(1, self.seed, i)
        data = Grammar(r).file()
        if r.one_in(2):
            data = damage(r, data, 1 + r.below(4))
        if r.one_in(20):
            data = data[:10 + r.below(len(data) + 1)]
        return data[:2048]


# ---------------------------------------------------------------------------------------------------------------------
# damaged

class Damaged:
    """Windows of real files with a marker in front, and whole files below 200 KB, with a few bytes changed."""

    FRONTS = [M, H, D, D, D, D, D, D, D, M + b"DATA('x') ;", M + b"\nHEADER;\n", D + b"#1=", D + b"#1=A(", b"", BOM + D]
    ENDS = [b"", b"", b"", b"", b";", b");", b"');", b"ENDSEC;", b"ENDSEC;END-ISO-10303-21;", b"*/;"]

    def __init__(self, count, seed, names):
        self.count = count
        self.seed = seed
        self.files = []
        for name in sorted(names):
            with open(name, "rb") as file:
                data = file.read()
            if data:
                self.files.append(data)
        self.small = [data for data in self.files if len(data) < 200000]
        if not self.files:
            raise SystemExit("generate.py: damaged wants files")

    def __len__(self):
        return self.count

    def __getitem__(self, i):
        r = Rng(2, self.seed, i)
        if self.small and r.one_in(25):
            return damage(r, r.pick(self.small), r.below(4))
        data = r.pick(self.files)
        start = r.below(len(data))
        if r.one_in(10):
            start = 0
        elif not r.one_in(4):  # at a record
            start = data.find(b";", start) + 1
        length = 1 + (r.below(4000) if r.one_in(2) else r.below(400))
        end = min(start + length, len(data))
        if not r.one_in(4):
            end = data.rfind(b";", start, end) + 1 or end
        window = data[start:max(start, end)]
        window = damage(r, window, r.pick([0, 0, 1, 1, 2, 3]))
        return r.pick(self.FRONTS) + window + r.pick(self.ENDS)


# ---------------------------------------------------------------------------------------------------------------------
# chosen

def neighbours(base, start, bytes_in, bytes_over):
    """Each byte from `start` on gone, replaced and given a new one before it."""
    for p in range(start, len(base)):
        yield base[:p] + base[p + 1:]
    for p in range(start, len(base)):
        for b in bytes_over:
            yield base[:p] + bytes([b]) + base[p + 1:]
    for p in range(start, len(base) + 1):
        for b in bytes_in:
            yield base[:p] + bytes([b]) + base[p:]


def chosen_cases():
    # The examples of document 01 that concern the scan.
    yield (M + b"HEADER;FILE_SCHEMA(('X'));ENDSEC;DATA;#1=A('a;''b',#2);#2=(P(1.)Q($));ENDSEC;END-ISO-10303-21;")  # 1
    yield M + b"/*/;"  # 2
    yield b""  # 3
    yield D + b";"  # 4
    yield D + b"#4294967295=A();"  # 5
    yield D + b"#4294967296=A();"
    yield D + b"#1=A(1);#1=B(2);"  # 6
    yield D + b"#1=A((1);#2=B(2));"  # 11
    yield D + b"#1=A();ENDSEC/*c*/;"  # 12
    yield D + b"ENDSEC/*c*/;"

    # The marker, and what stands before it.
    marker = b"ISO-10303-21"
    for n in range(len(marker) + 1):
        yield marker[:n]
        yield marker[:n] + b";"
    for p in range(len(marker)):
        yield marker[:p] + bytes([marker[p] ^ 32]) + marker[p + 1:] + b";"
        yield marker[:p] + marker[p + 1:] + b";"
    blanks = [b" ", b"\t", b"\n", b"\x0c", b"\r", b"\x0b", b"\x00", b"\xa0", b"\r\n \t", b"/**/", b"X", b"\x1f", b"\x85"]
    for blank in blanks:
        for front in (blank, BOM + blank, blank + BOM, BOM + BOM + blank):
            yield front + M
        yield blank + marker
        yield blank + M + b"DATA;#1=A();"
        yield marker + blank + b";DATA;#1=A();"
        yield marker + blank
    for front in (BOM, BOM[:1], BOM[:2], BOM + BOM, b"\xfe\xff", b"\xff\xfe", BOM + b"\n", b"\n" + BOM, b"\xef\xbb\xbe"):
        for tail in (b"", b";", b"DATA;", b";DATA;#1=A();", b";HEADER;A();", b"'", b";'", b";/*", b";x"):
            yield front + marker + tail
    for tail in (b"X;", b"2;DATA;#1=A();", b" X;DATA;#1=A();", b"DATA;#1=A();", b"';';DATA;#1=A();", b"/*;*/;DATA;#1=A();"):
        yield marker + tail
    for word in (b"HEADER", b"DATA", b"ENDSEC", b"END-ISO-10303-21"):
        yield word + b";"
        yield BOM + word + b";"
    for n in range(1, 4):
        yield BOM[:n]
        yield b" " * n

    # Comments in every place.
    comments = [
        b"/*/", b"/**/", b"/***/", b"/****/", b"/*/*/", b"/*/**/", b"/**//**/", b"/* * / */", b"/*;*/", b"/*'*/", b"/*(*/",
        b"/*)*/", b"/", b"/*", b"/**", b"*/", b"//", b"/ *", b"/*\n*/ /*", b"//**/", b"/**/*/", b"/*a*/ \n/*b*/",
    ]
    comment_places = [
        (M, b""), (M, b";"), (M + b"X", b";"), (H, b""), (H, b"A();"), (H + b"A", b"();"), (H + b"A(", b");"),
        (H + b"A()", b";"), (D, b""), (D, b"#1=A();"), (D + b"#", b"1=A();"), (D + b"#1", b"=A();"), (D + b"#1=", b"A();"),
        (D + b"#1=A", b"();"), (D + b"#1=A(", b");"), (D + b"#1=A()", b";"), (D + b"#1=A();", b""), (D + b"#1=(", b"P());"),
        (M + b"DATA", b";#1=A();"), (M + b"DATA", b"();#1=A();"), (D + b"#1=A();ENDSEC", b";"), (D + b"ENDSEC;", b""),
        (D + b"ENDSEC;X", b";"), (M, b"HEADER;A();"),
    ]
    for comment in comments:
        for before, after in comment_places:
            yield before + comment + after

    # Strings in every place.
    strings = [
        b"'", b"''", b"'''", b"''''", b"'''''", b"''''''", b"';'", b"'('", b"')'", b"'/*'", b"'*/'", b"'a''b'", b"'\\''",
        b"\"", b"\"'\"", b"'\"'", b"'\n'", b"''';'''", b"'a'b'", b"' ' '", b"'#2=B('",
    ]
    string_places = [
        (M + b"X", b";DATA;#1=A();"), (H, b";"), (H + b"A(", b");"), (H, b"A();"), (H + b"A(", b");B();"), (D, b";"),
        (D + b"#1=A(", b");"), (D + b"#1=A(", b");#2=B();"), (D + b"#1=", b"();"), (D + b"#1=(P(", b"));"), (D + b"#1=A()", b";"),
        (D + b"ENDSEC;", b";"), (D + b"#1=A((", b");"),
    ]
    for string in strings:
        for before, after in string_places:
            yield before + string + after

    # Section words, in every case and section, followed by records that show the section.
    sections = [M, H, D, D + b"ENDSEC;", H + b"ENDSEC;"]
    probe = b";#1=A(2);"
    for word in (b"HEADER", b"DATA", b"ENDSEC", b"END-ISO-10303-21", b"DATA(1)", b"DATA ()"):
        swapped = bytes(b ^ 32 if 65 <= b <= 90 and k % 2 else b for k, b in enumerate(word))
        for form in (word, word.lower(), swapped, b" " + word + b"\n", b"/*c*/" + word, word + b"/*c*/", word + b"\x0b"):
            for section in sections:
                yield section + form + probe
    for word in (
        b"HEADERS", b"HEADE", b"HEADER()", b"HEADER X", b"DAT", b"DATAA", b"DATAA()", b"DATA X", b"DATA X()", b"DATA)", b"DATA(",
        b"DATA\t\n\x0c\r (", b"DATA\x0b(", b"DATA/**/(", b"DATA'('", b"DATA(';')", b"DATA((", b"data('x',('y'))", b"DATA('a','b'", b"D ATA",
        b"ENDSEC()", b"ENDSEC X", b"ENDSE", b"END_SEC", b"END-ISO-10303-2", b"END-ISO-10303-21 X", b"END-ISO-10303-21()", b"end-iso-10303-21",
        b"ISO-10303-21", b"", b"#",
    ):
        for section in (M, H, D):
            yield section + word + probe
    for blank in blanks:
        yield M + b"HEADER" + blank + b";A();"
        yield M + blank + b"DATA" + blank + b"();#1=A();"
        yield D + b"#1=A();ENDSEC" + blank + b";#2=B();"
        yield D + b"#1=A();END-ISO-10303-21" + blank + b";#2=B();"
    yield M + b"#1=A();HEADER;B();ENDSEC;C();DATA;#2=D();ENDSEC;#3=E();DATA;#4=F();ENDSEC;G();HEADER;H();"
    yield M + b"DATA;#2=A();DATA;#1=B();HEADER;C();DATA('x');#3=D();ENDSEC;ENDSEC;DATA;#4=E();"
    for tail in (b"'", b"/*", b"x", b"#1=A(", b"DATA;;", b"", b"\x00", b"DATA;#1=A();"):
        yield M + b"END-ISO-10303-21;" + tail
        yield D + b"#9=A();END-ISO-10303-21;" + tail
        yield D + b"ENDSEC;" + tail

    # Ids.
    for number in (
        b"0", b"00", b"1", b"01", b"0000000000000000000000001", b"4294967294", b"4294967295", b"4294967296", b"4294967297",
        b"04294967295", b"04294967296", b"4294967299", b"4294967300", b"4294967205", b"4294967395", b"42949672950", b"429496729",
        b"4294967290", b"5294967295", b"9999999999", b"999999999", b"10000000000", b"18446744073709551616", b"18446744073709551617",
        b"99999999999999999999999999", b"00000000004294967295", b"00000000004294967296", b"3000000000", b"2147483647",
        b"2147483648", b"-1", b"+1", b"1.", b"1 2", b"1_", b"1A", b"A1", b"", b" 1", b"0x1", b"\xb2",
    ):
        yield D + b"#" + number + b"=A();"
        yield D + b"#" + number + b" = (P(1)Q(2));"
        yield D + b"#5=B();#" + number + b"=A();"
        yield D + b"#" + number + b"=;"
        yield D + b"#" + number + b";"
        yield D + b"#" + number
    yield D + b"#4294967296"
    yield D + b"#4294967296A;"
    yield D + b"#0=A();#4294967295=B();#0=C();"
    yield D + b"#2=A();#1=B();#2=C();#3=D();#1=E();"

    # Keywords and blanks.
    for blank in blanks:
        yield H + b"A" + blank + b"(1);"
        yield H + blank + b"A(1);"
        yield H + b"A(1)" + blank + b";"
        yield H + b"A(1);" + blank
        yield H + b"A" + blank + b"B(1);"
        yield H + blank + b"(1);"
        yield D + blank + b"#1=A(2);"
        yield D + b"#" + blank + b"1=A(2);"
        yield D + b"#1" + blank + b"=A(2);"
        yield D + b"#1=" + blank + b"A(2);"
        yield D + b"#1=A" + blank + b"(2);"
        yield D + b"#1=A(" + blank + b"2);"
        yield D + b"#1=A(2" + blank + b");"
        yield D + b"#1=A(2)" + blank + b";"
        yield D + b"#1=A(2);" + blank
        yield D + b"#1=" + blank + b"(P(2));"
        yield D + b"#1=" + blank + b";"
        yield D + b"#1=" + blank + blank + b"A" + blank + b"B" + blank + blank + b"(2);"
    for word in (b"", b"1", b"'a'", b"\"", b"#2", b"=", b"*", b",", b")", b"a", b"Ab", b"A)", b"'('", b"A'('", b"/*(*/", b"A/*(*/", b"\\", b"$", b"\xc3\x84"):
        yield H + word + b"(1);"
        yield H + word + b";"
        yield D + b"#1=" + word + b"(1);"
        yield D + b"#1=" + word + b";"
        yield D + b"#1=" + word + b"(1));"
        yield D + b"#1=(" + word + b"(1));"

    # Parentheses: nested, in strings and comments, closed past the record's `;`, not at all.
    for inside in (
        b"()", b"(())", b"(", b")", b"((", b"))", b")(", b"(1)(2)", b"(1),(2)", b"'('", b"')'", b"/*(*/", b"/*)*/", b"\"(\"", b"\")\"",
        b"((1);#2=B(2)", b"(1;#2=B(2)", b"(;)", b";", b";)", b"(;", b");", b"(;'", b"(;/*", b"(;';')", b"(;/*;*/)", b"(;')')", b"(;'')", b"(;//)",
        b"(1);ENDSEC;#2=B(2)", b"(1);ENDSEC;END-ISO-10303-21;)", b"(1);/*)*/", b"(1);')'", b"(1);'", b"(1);/*", b"(1);DATA;)",
    ):
        yield H + b"A(" + inside + b");"
        yield D + b"#1=A(" + inside + b");"
        yield D + b"#1=(" + inside + b");"
        yield D + b"#1=(P(" + inside + b"));"
        yield D + b"#1=A(" + inside + b");#3=C(3);"
    for depth in (2, 3, 10, 64, 150):
        yield D + b"#1=A" + b"(" * depth + b")" * depth + b";"
        yield D + b"#1=A" + b"(" * depth + b")" * (depth - 1) + b";"
        yield D + b"#1=A" + b"(" * depth + b")" * (depth + 1) + b";"
        yield D + b"#1=" + b"(" * depth + b")" * depth + b";"
        yield D + b"#1=" + b"(" * depth + b";"
        yield H + b"(" * depth + b")" * depth + b";"
    yield D + b"#1=A" + b"(" * 350 + b";"
    yield D + b"".join(b"#%d=A(;" % k for k in range(1, 31)) + b")" * 30 + b";"
    yield D + b"".join(b"#%d=A();" % k for k in range(1, 41))
    yield H + b"".join(b"A();" for k in range(60))
    yield D + b";" * 3
    yield M + b";" * 100 + b"DATA;#1=A();"
    yield M + b"X" * 300 + b";DATA;#1=A();"
    yield M + b"X" * 300

    # Bytes that are no text, in every place of a record.
    for b in (0x00, 0x0B, 0x1C, 0x7F, 0x80, 0x85, 0xA0, 0xC2, 0xEF, 0xFF):
        for base in (D + b"#1=A(2);", H + b"A(2);"):
            start = len(D) if base.startswith(D) else len(H)
            for p in range(start, len(base) + 1):
                yield base[:p] + bytes([b]) + base[p:]
        yield bytes([b])
        yield bytes([b]) + M

    # Nothing after `=`, no `(`: with a rest that is not theirs.
    for rest in (b"", b"#2=B();", b"ENDSEC;", b"END-ISO-10303-21;)"):
        for record in (b"#1=;", b"#1= ;", b"#1 =\n;", b"#1=A;", b"#1=A ;", b"#1='a';", b"#1=/**/;", b"#1=);"):
            yield D + record + rest
            if rest.endswith(b")"):
                yield D + record[:-1] + b"(;" + rest
    for record in (b";", b"X;", b"#4294967296=A();", b"#=A();", b"#1A();", b"#1=;", b"#1= ;", b"#1=A;", b"#1=A(;", b"A;"):
        for opening in (b"DATA;", b"DAT;", b"DATA1;", b"DATA,;", b"DATA;ENDSEC;", b"HEADER;", b"HEADE;"):
            yield M + opening + record

    # One byte apart: around each refusal and reason, and around accepted records.
    for base, start in (
        (M + b"X", len(M)), (M + b"/**/", len(M)), (M + b"'';", len(M)), (H + b"A();", len(H)), (H + b"A;", len(H)), (D + b"#1=A();", len(D)),
        (D + b"#1=(P());", len(D)), (D + b"#1=A('');", len(D) + 5), (D + b"#1=A(/**/);", len(D) + 5), (D + b"#1=A(();#2=B());", len(D) + 5),
        (D + b"X;", len(D)), (D + b"#=A();", len(D)), (D + b"#1A();", len(D)), (D + b"#1=;", len(D)), (D + b"#1=A;", len(D)),
        (D + b"#4294967296=A();", len(D) + 9),
    ):
        yield from neighbours(base, start, b"(';", b")#/")


class Chosen:
    """The list of the replay: no case twice, each below 400 bytes."""

    def __init__(self):
        self.cases = list(dict.fromkeys(chosen_cases()))
        assert all(len(case) < 400 for case in self.cases)

    def __len__(self):
        return len(self.cases)

    def __getitem__(self, i):
        return self.cases[i]


# ---------------------------------------------------------------------------------------------------------------------

def main():
    parser = argparse.ArgumentParser(description="Writes runs of cases.")
    streams = parser.add_subparsers(dest="stream", required=True)
    drawn = {"generated": Generated, "parameters": Parameters, "lookups": Lookups, "units": UnitFiles}
    for name in ("exhaustive", "damaged", "chosen", "unitrules", *drawn):
        stream = streams.add_parser(name)
        if name == "damaged" or name in drawn:
            stream.add_argument("n", type=int)
            stream.add_argument("seed", type=int)
        if name == "damaged":
            stream.add_argument("files", nargs="+")
        stream.add_argument("--skip", type=int, default=0)
        stream.add_argument("--take", type=int)
        stream.add_argument("--most", type=int)
        stream.add_argument("--out")
        stream.add_argument("--count", action="store_true")
    a = parser.parse_args()

    if a.stream == "exhaustive":
        cases = Exhaustive()
    elif a.stream in drawn:
        cases = drawn[a.stream](a.n, a.seed)
    elif a.stream == "damaged":
        cases = Damaged(a.n, a.seed, a.files)
    elif a.stream == "unitrules":
        cases = UnitRules()
    else:
        cases = Chosen()

    if a.count:
        print(len(cases))
        return
    end = len(cases) if a.take is None else min(len(cases), a.skip + a.take)
    out = open(a.out, "wb") if a.out else sys.stdout.buffer
    with out:
        for i in range(a.skip, end):
            case = cases[i]
            if a.most is not None and len(case) > a.most:
                continue
            out.write(b"%d\n" % len(case) + case)


if __name__ == "__main__":
    main()
