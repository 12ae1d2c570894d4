"""The stream `parameters`: arguments that stress the argument reader and every reader of a parameter.

Each file has a few records whose arguments are drawn from lists of forms: numbers and references around their limits, reals
around the class's edges, names, strings with directives, measures, lists and grids with bad items, empty parameters, trivia
everywhere, and soups of tokens. What is drawn is then closed as the scan sees it (it knows no `"`), so that most files are
accepted, while the argument reader still meets open literals and comments."""

from draw import D, H, Rng, damage

WHITES = [b" ", b" ", b"\n", b"\t", b"\r\n", b"\x0c", b"  ", b"\r"]
COMMENTS = [
    b"/**/", b"/*c*/", b"/*,*/", b"/*)*/", b"/*(*/", b"/*'*/", b"/*\"*/", b"/***/", b"/*/*/", b"/*;*/", b"/* * / */", b"/*''*/", b"/*\n*/",
    b"/*#1*/", b"/*\xff*/",
]
REFS = [
    b"#1", b"#2", b"#0", b"#00", b"#4294967295", b"#4294967296", b"#4294967294", b"#04294967295", b"#004294967296", b"#42949672950", b"#429496729",
    b"#99999999999999999999", b"#18446744073709551617", b"#00000000000000000000000007", b"#5000000000", b"#3999999999", b"#4294967300",
]
ODD_REFS = [
    b"#", b"# 1", b"#-1", b"#+1", b"#1.", b"#1A", b"#A", b"#/*c*/1", b"##1", b"1#", b"#1#2", b"#1 2", b"#1/*c*/2", b"#\x0b1", b"#1\x0b", b"#\xd9\xa1",
    b"#1'a'", b"#(1)", b"#$", b"@1", b"#1)", b"#0x1",
]
INTS = [
    b"0", b"1", b"-1", b"+7", b"-0", b"+0", b"007", b"-007", b"9223372036854775807", b"9223372036854775808", b"-9223372036854775808",
    b"-9223372036854775809", b"9223372036854775806", b"-9223372036854775807", b"+9223372036854775807", b"+9223372036854775808",
    b"18446744073709551616", b"18446744073709551617", b"99999999999999999999", b"00000000000000000000000000000009223372036854775807",
    b"-0000000000000000000009223372036854775808", b"10000000000000000000", b"9999999999999999999", b"999999999999999", b"4294967296", b"92233720368547758070",
]
ODD_INTS = [
    b"+", b"-", b"--1", b"+-1", b"1-", b"1 2", b"0x1", b"1_000", b"- 1", b"1/*c*/2", b"1/**/", b"\xd9\xa1", b"1'", b"1A", b"A1", b"1..", b"\xef\xbc\x91",
    b"1\x00", b"\x001", b"1\\", b"1)", b"1(", b"-$",
]
# Trimmed by Rust, 12 here; and bytes like them that are trimmed by nobody.
EDGES = [
    b"\x0b", b"\xc2\x85", b"\xc2\xa0", b"\xe1\x9a\x80", b"\xe2\x80\x80", b"\xe2\x80\x8a", b"\xe2\x80\xa8", b"\xe2\x80\xa9", b"\xe2\x80\xaf", b"\xe2\x81\x9f",
    b"\xe3\x80\x80", b"\xe2\x80\x8b", b"\xa0", b"\x85", b"\x1c", b"\x1f", b"\x00", b"\xef\xbb\xbf", b"\xc2", b"\xe2\x80",
]
REALS = [
    b"0.", b"1.", b"-1.5", b"2.5E3", b"1.E22", b"1.E23", b"1E22", b"1E23", b"-1E-22", b"1E-23", b"0E22", b"0E23", b"0.E-22", b"0.E-23", b"-0.", b"+0.", b"-0.E5",
    b".5", b"-.5", b"+.5E+1", b"5.E-1", b"123456789012345.", b"1234567890123456.", b"12345678901234.5", b"123456789012345.6", b"000000000000000000001.5",
    b"1.5000000000000000000", b"0.000000000000000000000012345", b"0.0000000000000000000001", b"0.00000000000000000000001", b"999999999999999E22", b"999999999999999E23",
    b"999999999999999.E-22", b"1e5", b"1e+5", b"1e-05", b"1E0022", b"1E-0000000000000000000000000022", b"1E99999999999999999999", b"1E-99999999999999999999",
    b"1.7976931348623157E308", b"5e-324", b"0.1", b"0.3", b"25.4", b"0.0174532925199433", b"6.283185307179586", b"3.141592653589793", b"1.E+22", b"10.E21",
    b"100000000000000000000000.", b"1000000000000000.", b"0.001E3", b"1.0E-3", b"9007199254740993.", b"900719925474099.3E1",
    b"1.E27", b"1E28", b"-1E-27", b"1.E-28", b"0E27", b"0E28", b"0.E-27", b"0.E-28", b"0.000000000000000000000000000", b"0.0000000000000000000000000000", b"1234567890123456789.",
    b"12345678901234567890.", b"123456789012345678.9", b"1234567890123456789.0", b"9999999999999999999E27", b"9999999999999999999E28", b"-9999999999999999999.E-27",
    b"10000000000000000000.", b"1000000000000000000.", b"18446744073709551616.", b"1E0027", b"1E-0000000000000000000000000028", b"0.017453292519943295", b"57.29577951308232",
    b"-1.025893950136E-17", b"9007199254740993E19", b"4503599627370496.5", b"9223372036854775.808E3", b"0.000000000000000000000000001", b"0.0000000000000000000000000001",
]
ODD_REALS = [
    b".", b"E5", b".E5", b"1E", b"1E+", b"1E-", b"1.E", b"1.5.2", b"1E5.", b"1EE5", b"1D5", b"1f", b"+-1.", b"1 .5", b"1. 5", b"-.", b"+", b"1,5", b"0x1p3", b"1_0.",
    b"inf", b"-inf", b"+INF", b"Infinity", b"-infinity", b"nan", b"NaN", b"-NAN", b"infinit", b"in", b"infinityy", b"nan(1)", b"1e5e", b"1.E5/*c*/", b"1./*c*/5", b"1.\x00",
]
NAMES = [
    b".T.", b".F.", b".U.", b".MILLI.", b".METRE.", b".A_B1.", b"..", b".t.", b".f.", b".TRUE.", b".UNSPECIFIED.", b".\xc3\x84.", b".a b.", b".T./*c*/", b".1.", b".#1.", b".$.",
    b".A.B.", b"...", b"....",
]
ODD_NAMES = [
    b".", b".T", b"T.", b".T .", b". T.", b".T.x", b"x.T.", b".\xff.", b".\xc3.", b".(.", b".).", b".'.'.", b".\".\".", b".,.", b"./*.*/.", b".T./*c*/.F.", b"T", b".\x00.", b". .",
    b".T.\x0b", b"\x0b.T.", b".\xed\xa0\x80.",
]
STRING_BITS = [
    b"a", b"bc", b" ", b"''", b"''", b",", b"(", b")", b";", b"/*", b"*/", b"\"", b"$", b"\n", b"\\", b"\\\\", b"\\N\\", b"\\T\\", b"\\PA\\", b"\\PG\\", b"\\P?\\", b"\\P", b"\\S\\D",
    b"\\S\\", b"\\S\\''", b"\\S\\\x7f", b"\\S\\\xc3\x84", b"\\S\\\xff", b"\\X\\C4", b"\\X\\e9", b"\\X\\4", b"\\X\\ZZ", b"\\X\\", b"\\X", b"\\X2\\00C4\\X0\\", b"\\X2\\00c40042\\X0\\",
    b"\\X2\\0041ZZZZ\\X0\\", b"\\X2\\0041", b"\\X2\\004", b"\\X2\\", b"\\X2\\\\X0\\", b"\\X2\\D83DDE00\\X0\\", b"\\X2\\D83D", b"\\X2\\D83D\\X0\\", b"\\X2\\DE00\\X0\\",
    b"\\X2\\D83D0041\\X0\\", b"\\X2\\D83DD83D\\X0\\", b"\\X2\\D83DE000\\X0\\", b"\\X2\\D83D0041ZZZZ\\X0\\", b"\\X2\\D83DZZZZ", b"\\X2\\DBFFDFFF0041\\X0\\", b"\\X2\\FFFF\\X0\\",
    b"\\X2\\0041\\X0", b"\\X2\\0041\\X0a", b"\\X2\\0041\\N\\", b"\\X2\\0041\\\\", b"\\X2\\0041\\X4\\00010FFF\\X0\\", b"\\X4\\0001F600\\X0\\", b"\\X4\\0001F6\\X0\\", b"\\X4\\00110000\\X0\\",
    b"\\X4\\0000D83D0000DE00\\X0\\", b"\\X4\\FFFFFFFF", b"\\X4\\0001F600", b"\\X4\\0001F60", b"\\X4\\0000004G", b"\\X0\\", b"\\X1\\", b"\\n\\", b"\\x\\41", b"\\C:\\dir", b"\\'", b"\\''",
    b"\xc3\x84", b"\xe4", b"\xe2\x82\xac", b"\xe2\x82", b"\xf0\x9f\x98\x80", b"\xf0\x9f\x98", b"\xc0\x80", b"\xed\xa0\x80", b"\xf4\x90\x80\x80", b"\xff", b"\x80", b"\xc2\xa0", b"\x00", b"\x7f",
    b"0", b"00", b"41", b"0041", b"F",
]
PLAIN_BITS = [b"a", b"b c", b"NONE", b"1", b"-", b"_", b".", b"#1", b",", b"(", b")", b";", b" "]
KEYWORDS = [b"LENGTH_MEASURE", b"K", b"PLANE_ANGLE_MEASURE", b"A1", b"", b"k", b"K "]
ODD_MEASURES = [
    b"$(1.)", b"'s'(1.)", b"K/*(*/(1.)", b"K(/**/1.)", b"K(1./**/)", b"K( 1. )", b"K(\n1.\t)", b"K(1.", b"K(1.)x", b"K((1.))", b"K()", b"K( )", b"K(1.,2.)", b"K(inf)", b"K(nan)", b"K(1E23)", b"K(1E28)", b"K(-1E-27)",
    b"K(\x0b1.)", b"K(1.\xc2\xa0)", b"K(1.)/*c*/", b"K /*c*/ (1.)", b"(1.)", b"((1.))", b"K(1.)(2.)", b"K(1.))", b")(1.)", b"K('1.')", b"\"(\"1.)", b"K(\"1.\")", b"#1(1.)", b"1.(2.)", b"K(1E)",
    b"K($)", b"$(", b"()", b")", b"(", b"*(5)", b"K(0E23)", b"K(0E28)", b".T.(1.)", b"\x0b(1.)", b"\xff(2.)",
]
LITERALS = [b"\"0A\"", b"\"\"", b"\"\"\"\"", b"\",\"", b"\"(\"", b"\")\"", b"\"/*\"", b"\"*/\"", b"\"0", b"\"", b"\"'\"", b"\"''\"", b"\"a\"b\"", b"\"\xff\""]
ODD = [
    b"", b"", b"$", b"*", b"$$", b"$ ", b"*1", b"A", b"KEYWORD", b"=", b";", b"/", b"*/", b"//", b"\\", b"\x00", b"\xff", b"!", b"'", b"''", b"'a'b", b"'a' 'b'", b"'a'/*c*/'b'", b"'a''", b"a'b'",
    b"'a'(1)", b"('a'", b"$/*c*/", b"/*c*/$", b"/**/", b"&SCOPE", b"'a'.T.",
]
SOUP = [
    b"(", b")", b",", b"'", b"\"", b"/*", b"*/", b"''", b" ", b"1", b"#1", b".T.", b"$", b"/", b"*", b"()", b"1.", b"),(", b"a", b"\n", b"''''", b"\"\"", b"((", b"))", b"'a'", b"\x0b", b"(1)", b",,",
]


def closed(text):
    """The text that makes the scan find the `)` of a `(` before `text`, and then the record's `;`: what is open is closed."""
    i, depth, n = 0, 1, len(text)
    done = False
    while i < n:
        b = text[i]
        if b == 0x27:
            j = text.find(b"'", i + 1)
            if j < 0:
                return text + b"'" + b")" * (0 if done else depth)
            i = j + 1
        elif text.startswith(b"/*", i):
            j = text.find(b"*/", i + 2)
            if j < 0:
                return text + (b"/" if text.endswith(b"*") and len(text) >= i + 3 else b"*/") + b")" * (0 if done else depth)
            i = j + 2
        else:
            if not done:
                depth += 1 if b == 0x28 else -1 if b == 0x29 else 0
                done = depth == 0
            i += 1
    return text + b")" * (0 if done else depth)


class Parameters:
    """Records whose arguments stress the readers."""

    def __init__(self, count, seed):
        self.count = count
        self.seed = seed

    def __len__(self):
        return self.count

    def white(self, r, often):
        return b"".join(r.pick(WHITES) for _ in range(1 + r.below(2))) if r.one_in(often) else b""

    def trivia(self, r, often):
        out = b""
        while r.one_in(often):
            out += r.pick(COMMENTS) if r.one_in(2) else r.pick(WHITES)
            often = 3
        return out

    def edged(self, r, text):
        if r.one_in(14):
            text = r.pick(EDGES) + text
        if r.one_in(14):
            text += r.pick(EDGES)
        return text

    def ref(self, r):
        kind = r.below(10)
        if kind < 5:
            return b"#%d" % r.below(1000)
        return self.edged(r, r.pick(REFS)) if kind < 8 else r.pick(ODD_REFS)

    def int(self, r):
        kind = r.below(10)
        if kind < 4:
            return b"%d" % (r.below(2001) - 1000)
        if kind < 5:
            return r.pick([b"", b"-", b"+"]) + b"%d" % (r.next() >> r.below(8))
        return self.edged(r, r.pick(INTS)) if kind < 8 else r.pick(ODD_INTS)

    def real(self, r):
        kind = r.below(12)
        if kind < 3:
            return b"%d.%d" % (r.below(2001) - 1000, r.below(1000))
        if kind < 7:  # around the class's edges
            digits = b"%0*d" % (1 + r.below(4), (r.next() << 64 | r.next()) % 10 ** (1 + r.below(21)))
            point = r.below(len(digits) + 1)
            text = r.pick([b"", b"", b"-", b"+"]) + digits[:point] + r.pick([b".", b".", b""]) + digits[point:]
            if r.one_in(2):
                text += r.pick([b"E", b"e"]) + r.pick([b"", b"+", b"-"]) + b"%0*d" % (1 + r.below(3), r.below(35) if r.one_in(3) else 20 + r.below(12))
            return self.edged(r, text) if r.one_in(4) else text
        return self.edged(r, r.pick(REALS)) if kind < 10 else r.pick(ODD_REALS)

    def name(self, r):
        return r.pick(NAMES) if r.below(4) else r.pick(ODD_NAMES)

    def string(self, r):
        bits = PLAIN_BITS if r.one_in(4) else STRING_BITS
        text = b"'" + b"".join(r.pick(bits) for _ in range(r.pick([0, 1, 1, 2, 2, 3, 4, 6]))) + b"'"
        if r.one_in(20):
            text += r.pick([b"b", b" 'c'", b"/*c*/", b"(", b"'", b"\x0b", b".", b"\"x\""])
        return text

    def measure(self, r):
        if r.one_in(3):
            return r.pick(ODD_MEASURES)
        return r.pick(KEYWORDS) + self.white(r, 8) + b"(" + self.white(r, 6) + self.real(r) + self.white(r, 6) + b")"

    def good(self, r, kind):
        """A plain value, so that long lists are not all bad."""
        if kind == 0:
            return b"#%d" % r.below(100)
        if kind == 1:
            return b"%d" % (r.below(200) - 100)
        return b"%d.%d" % (r.below(200) - 100, r.below(100))

    def item(self, r, kind, bad):
        if r.one_in(bad):
            return r.pick([self.ref, self.int, self.real, self.name, self.string, self.odd])(r)
        if r.one_in(3):
            return (self.ref, self.int, self.real)[kind](r)
        return self.good(r, kind)

    def list(self, r, kind=None, bad=None):
        kind = r.below(3) if kind is None else kind
        bad = r.pick([1000, 30, 8]) if bad is None else bad
        items = []
        for _ in range(r.pick([0, 1, 1, 2, 2, 3, 4, 7])):
            comment = r.pick(COMMENTS) if r.one_in(25) else b""
            items.append(self.white(r, 6) + comment + self.item(r, kind, bad) + self.white(r, 6))
        text = b",".join(items)
        if r.one_in(20):
            text += b","
        if r.one_in(30):
            text = r.pick([b",", b" ", b",,", b"/*c*/"]) + text
        out = b"(" + text + b")"
        if r.one_in(25):
            out = r.pick([out + out, out[:-1], out[1:], out + b")", b"(" + out, out + b"x", out + b"/*c*/", out + b" ", b"K" + out, out + b".", b")" + out])
        return out

    def grid(self, r):
        kind = r.pick([0, 2])
        bad = r.pick([1000, 1000, 40, 10])
        rows = []
        for _ in range(r.pick([0, 1, 1, 2, 3, 4])):
            row = self.list(r, kind, bad) if not r.one_in(25) else r.pick([self.odd, self.real, self.ref])(r)
            rows.append(self.white(r, 6) + row + (r.pick(COMMENTS) if r.one_in(40) else self.white(r, 6)))
        text = b",".join(rows)
        if r.one_in(20):
            text += r.pick([b",", b" ", b")", b",("])
        return b"(" + text + b")"

    def odd(self, r):
        return r.pick(ODD) if r.below(3) else r.pick(LITERALS)

    def deep(self, r):
        n = 1 + r.below(12)
        return b"(" * n + r.pick([b"", b"1", b",", b"#1,2", b"''", b"1.,2."]) + b")" * (n + r.pick([0, 0, 0, -1, 1]))

    def parameter(self, r):
        forms = [self.ref, self.int, self.real, self.real, self.name, self.string, self.string, self.measure, self.list, self.list, self.grid, self.odd, self.deep]
        return self.trivia(r, 8) + r.pick(forms)(r) + self.trivia(r, 8)

    def soup(self, r):
        return b"".join(r.pick(SOUP) for _ in range(1 + r.below(14)))

    def arguments(self, r):
        kind = r.below(10)
        if kind == 0:
            text = self.soup(r)
        elif kind == 1:
            text = self.parameter(r) + b"," + self.soup(r) + b"," + self.parameter(r)
        else:
            text = b",".join(self.parameter(r) for _ in range(r.pick([0, 1, 1, 1, 2, 2, 3, 4])))
        if r.one_in(15):
            text += r.pick([b",", b" ", b",/*c*/", b",,", b"/*c*/ ", b" ,"])
        return text

    def record(self, r, number):
        text = self.arguments(r)
        if r.one_in(12):
            text = damage(r, text, 1)
        kind = r.below(20)
        if kind == 0:  # two records that share a parenthesis
            return b"#%d=A((" % number + self.arguments(r) + b");#%d=B(" % (number + 50) + closed(text) + b");"
        if kind == 1:  # the `(` lies in a comment or in a string
            return b"#%d=A" % number + r.pick([b"/*(*/", b"'('", b"'(", b"/*('*/", b"/*\"(*/"]) + closed(text) + b";"
        if kind < 5:
            parts = b"".join(r.pick([b"P", b"Q", b"", b" P "]) + b"(" + closed(self.arguments(r)) for _ in range(r.below(2)))
            return b"#%d=(" % number + parts + b"R(" + closed(text) + b");"
        return b"#%d=A(" % number + closed(text) + b";"

    def __getitem__(self, i):
        r = Rng(4, self.seed, i)
        if r.one_in(15):
            out = H + r.pick([b"FILE_NAME", b"A"]) + b"(" + closed(self.arguments(r)) + b";"
            if r.one_in(2):
                out += b"ENDSEC;DATA;" + self.record(r, 1)
            return out
        out = D
        for number in range(r.pick([1, 1, 1, 2, 3])):
            out += self.record(r, number + 1)
        return out
