"""The stream `lookups`: ids, header records and their texts, and complex records with parts of all forms.

The ids of a file are drawn in one of several ways: few that repeat, shuffled, descending, around 0, 1 and 4294967295, with zeros
in front. Header records have keywords in either case, FILE_NAME parameters of all forms and numbers. Complex records have none
to five parts, some of them with a `(` in a string or a comment, where the search for its `)` starts inside that."""

from draw import M, Rng, damage
from parameters import COMMENTS, WHITES, Parameters, closed

KEYWORDS = [b"A", b"B", b"CARTESIAN_POINT", b"SI_UNIT", b"X_1", b"GEOMETRIC_REPRESENTATION_CONTEXT", b"a", b"File_Name"]
HEADER_WORDS = [
    b"FILE_NAME", b"FILE_NAME", b"FILE_NAME", b"FILE_SCHEMA", b"FILE_DESCRIPTION", b"FILE_POPULATION", b"SECTION_LANGUAGE", b"FILE_NAM", b"FILE_NAMES", b"FILENAME",
    b"A", b"NOPE", b"NOPE1",
]
EXTREMES = [0, 1, 2, 4294967295, 4294967294, 4294967293, 2147483647, 2147483648, 99999, 100000, 100001, 999999999, 1000000000, 65535, 65536]
FAULTY = [  # between two parts: each has a `(` that the scan does not count
    b"'('", b"'((('", b"/*(*/", b"/*((*/", b"'(/*'", b"'(''('", b"/*('*/", b"'(' ')'", b"/*(*/ /*)*/", b"'(',')'", b"/*(*/)(", b"'a(b'", b"/* ( */", b"\"(\")",
]
TEXTS = [
    b"'part.stp'", b"''", b"$", b"*", b"'a''b'", b"'\\X2\\00C4\\X0\\'", b"'\xc3\x84'", b"'\xe4'", b"'C:\\dir\\file'", b"'a'b", b"5", b"1.5", b"#1", b".T.", b"('a')", b"()", b"", b" ",
    b"/*c*/", b"'a'/*c*/", b"/*c*/'a'", b"'", b"\"0A\"", b"\"", b"K('a')", b"'/*'", b"'*/'", b"'('", b"')'", b"','", b"'a' 'b'", b"'\\X2\\D83D0041\\X0\\'", b"'#4294967295'", b"'#3000000000 and #1'",
    b"'\\S\\D'", b"'\\N\\'", b"'\\X2\\0041ZZZZ\\X0\\'", b"'long text without anything odd in it, with commas (and parentheses)'",
]


class Lookups:
    """Files with many ids, headers and complex records."""

    def __init__(self, count, seed):
        self.count = count
        self.seed = seed
        self.other = Parameters(0, seed)

    def __len__(self):
        return self.count

    def ids(self, r):
        kind = r.below(9)
        n = 20 + r.below(20) if r.one_in(25) else r.pick([0, 1, 1, 2, 2, 3, 3, 4, 5, 7])
        if kind == 0:  # few that repeat
            return [r.below(3) for _ in range(n)]
        if kind == 1:
            return [r.below(n + 2) for _ in range(n)]
        if kind == 2:  # descending
            start = n + r.below(1000)
            return [start - k for k in range(n)]
        if kind == 3:  # ascending with gaps
            out, at = [], r.below(5)
            for _ in range(n):
                out.append(at)
                at += 1 + r.below(1 + r.below(50))
            return out
        if kind == 4:
            return [r.pick(EXTREMES) for _ in range(n)]
        if kind == 5:  # anywhere
            return [r.next() >> 32 for _ in range(n)]
        if kind == 6:  # shuffled, some twice
            out = list(range(1, n + 1)) + [1 + r.below(n) for _ in range(r.below(4)) if n]
            for k in range(len(out) - 1, 0, -1):
                j = r.below(k + 1)
                out[k], out[j] = out[j], out[k]
            return out
        if kind == 7:  # in steps that meet in a table with slots
            step = r.pick([2, 7, 16, 64, 256, 1024, 4096, 65536, 1 << 20, 1 << 24])
            start = r.below(5)
            return [(start + step * r.below(n + 1)) & 0xFFFFFFFF for _ in range(n)]
        return [4294967295 - r.below(n + 1) for _ in range(n)]

    def id_text(self, r, number):
        text = b"%d" % number
        if r.one_in(15):
            text = b"0" * r.below(12) + text
        return b"#" + text + (r.pick(WHITES) if r.one_in(15) else b"") + b"=" + (r.pick(WHITES) if r.one_in(15) else b"")

    def space(self, r, often):
        return r.pick(WHITES) if r.one_in(often) else b""

    def arguments(self, r):
        kind = r.below(8)
        if kind < 5:
            return r.pick([b"", b"1", b"#1", b"'a'", b"$,*", b"(1,2)", b"1.5,#2", b"(#1,#2),'x'", b"#4294967295", b"#3000000000,#100000", b"(#0,#1,#2)"])
        return self.other.arguments(r)

    def complex(self, r):
        out = b"("
        faults = r.pick([0, 0, 0, 8, 3])
        for _ in range(r.pick([0, 1, 1, 2, 2, 3, 5])):
            out += r.pick([b"", b"", b" ", b",", b"\n", b", ,", b"\x0b", b"/*c*/"]) if r.one_in(3) else b""
            if faults and r.one_in(faults):
                out += r.pick(FAULTY)
            out += r.pick(KEYWORDS) + self.space(r, 6)
            if r.one_in(12):
                out += r.pick(COMMENTS)
            out += b"(" + closed(self.arguments(r))
        out += r.pick([b"", b"", b"", b" ", b",", b"x", b"A", b" /*c*/", b"1,2"])
        if r.one_in(25):
            out += r.pick([b"(", b")", b"()", b"(()", b"'"])
        return closed(out[1:]).join([b"(", b""])

    def record(self, r, number):
        body = self.complex(r) if r.one_in(4) else r.pick(KEYWORDS) + self.space(r, 10) + b"(" + closed(self.arguments(r))
        return self.id_text(r, number) + body + self.space(r, 15) + b";"

    def either_case(self, r, word):
        kind = r.below(6)
        if kind == 0:
            return word.lower()
        if kind == 1:
            return bytes(b ^ 32 if 65 <= b <= 90 and r.one_in(2) else b for b in word)
        return word

    def text(self, r):
        return r.pick(TEXTS) if r.below(3) else self.other.string(r)

    def header(self, r):
        word = self.either_case(r, r.pick(HEADER_WORDS))
        if r.one_in(20):
            word = r.pick([word + b"X", word[:-1], word + b" X", b"'" + word + b"'", b"", b"\xc3\x84", word + b"/*c*/"])
        parameters = []
        for _ in range(r.pick([0, 1, 2, 5, 6, 6, 6, 7, 7, 7, 7, 8])):
            if r.one_in(12):
                parameters.append(self.other.parameter(r))
            else:
                parameters.append(self.other.trivia(r, 12) + self.text(r) + self.other.trivia(r, 12))
        return self.space(r, 12) + word + self.space(r, 10) + b"(" + closed(b",".join(parameters)) + self.space(r, 15) + b";"

    def __getitem__(self, i):
        r = Rng(5, self.seed, i)
        out = M
        for _ in range(r.pick([0, 1, 1, 1, 2])):
            out += r.pick([b"HEADER;", b"HEADER;", b"header;", b"\nHEADER ;"])
            for _ in range(r.pick([0, 1, 1, 2, 3, 4])):
                out += self.header(r)
            out += b"ENDSEC;"
        if not r.one_in(20):
            out += b"DATA;"
            for number in self.ids(r):
                out += self.record(r, number)
            out += r.pick([b"", b"ENDSEC;", b"ENDSEC;END-ISO-10303-21;"])
        if r.one_in(25):
            out = damage(r, out, 1 + r.below(2))
        return out
