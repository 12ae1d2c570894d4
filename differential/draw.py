"""What the streams of cases share: numbers drawn, and damage."""

M = b"ISO-10303-21;"
H = M + b"HEADER;"
D = M + b"DATA;"
BOM = b"\xef\xbb\xbf"


# ---------------------------------------------------------------------------------------------------------------------
# Numbers drawn (splitmix64), the same with every version of Python.

MASK = (1 << 64) - 1


class Rng:
    def __init__(self, *seeds):
        self.state = 0x9E3779B97F4A7C15
        for seed in seeds:
            self.state = (self.next() ^ (seed * 0xD1342543DE82EF95)) & MASK

    def next(self):
        self.state = (self.state + 0x9E3779B97F4A7C15) & MASK
        z = self.state
        z = ((z ^ (z >> 30)) * 0xBF58476D1CE4E5B9) & MASK
        z = ((z ^ (z >> 27)) * 0x94D049BB133111EB) & MASK
        return z ^ (z >> 31)

    def below(self, n):
        return (self.next() >> 11) % n

    def one_in(self, n):
        return self.below(n) == 0

    def pick(self, things):
        return things[self.below(len(things))]


# ---------------------------------------------------------------------------------------------------------------------
# damage

STRUCTURE = b"#=();,'/*\"\\$.0123456789AE \n\t\r\x0c"
TOKENS = [
    b"/*", b"*/", b"/*/", b"/**/", b"''", b"'", b"('", b"')", b"();", b"#1=A();", b"#2=(P()Q());", b";;", b"ENDSEC;",
    b"DATA;", b"HEADER;", b"DATA('x');", b"END-ISO-10303-21;", b"ISO-10303-21;", b"#4294967295=", b"#4294967296=",
    b"\x00", b"\x0b", b"\x80", b"\xc3\x84", b"\xff", BOM, b"\\X2\\00C4\\X0\\", b"\r\n", b"(((", b")))",
]


def place(r, data):
    """A place in the data, half of the time just at a byte that has a meaning."""
    at = r.below(len(data) + 1)
    if r.one_in(2):
        for p in range(at, min(at + 80, len(data))):
            if data[p] in b"#=();'/*":
                return p
    return at


def damage(r, data, times):
    for _ in range(times):
        n = len(data)
        at = place(r, data)
        kind = r.below(20)
        if kind < 4:  # a byte gone
            data = data[:at] + data[at + 1:]
        elif kind < 6:  # some bytes gone
            data = data[:at] + data[at + 1 + r.below(12):]
        elif kind < 9:  # a byte that has a meaning put in
            data = data[:at] + bytes([r.pick(STRUCTURE)]) + data[at:]
        elif kind < 11:  # a token put in
            data = data[:at] + r.pick(TOKENS) + data[at:]
        elif kind < 13:  # a byte replaced
            data = data[:at] + bytes([r.pick(STRUCTURE)]) + data[at + 1:]
        elif kind < 14:  # any byte
            data = data[:at] + bytes([r.below(256)]) + data[at + 1:]
        elif kind < 16 and n >= 2:  # neighbours exchanged
            at = min(at, n - 2)
            data = data[:at] + data[at + 1:at + 2] + data[at:at + 1] + data[at + 2:]
        elif kind < 17 and n >= 2:  # two bytes exchanged
            a, b = sorted((min(at, n - 1), r.below(n)))
            if a != b:
                data = data[:a] + data[b:b + 1] + data[a + 1:b] + data[a:a + 1] + data[b + 1:]
        elif kind < 19:  # some bytes twice
            length = 1 + r.below(30)
            data = data[:at + length] + data[at:]
        elif r.one_in(2):  # the end gone
            data = data[:at]
    return data
