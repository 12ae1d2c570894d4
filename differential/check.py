#!/usr/bin/env python3
"""Looks at some of the oracle's answers with other eyes, so that errors of its driver show.

    check.py STREAM ANSWERS     a run of cases, and what `oracle --part all` printed for it

It shares no code with the driver or the original, and looks only at what is plain: lookups (the last row of an id) and
header searches by the rows printed; scalars and flat lists that hold neither quotes, comments, nor odd bytes, by regular
expressions and Python's own numbers; plain strings; where a walk goes on; refusals 13 and 15 of units by what stands at
their places. Prints how many answers of each kind it looked at, and ends with status 1 at the first that is wrong.
"""

import re
import struct
import sys
from fractions import Fraction

sys.dont_write_bytecode = True

from differ import answers, cases  # noqa: E402

REF = re.compile(rb"#([0-9]+)\Z")
INT = re.compile(rb"[+-]?[0-9]+\Z")
REAL = re.compile(rb"[+-]?(?=\.?[0-9])([0-9]*)(?:\.([0-9]*))?(?:[Ee]([+-]?[0-9]+))?\Z")
NAME = re.compile(rb"\.(.*)\.\Z", re.DOTALL)
PLAIN = re.compile(rb"[ \t\n\r\x0cA-Za-z0-9_.+#$*=!&-]*\Z")
FLAT = re.compile(rb"\([ \t\n\r\x0cA-Za-z0-9_.+#$*=!&,-]*\)\Z")
STRING = re.compile(rb"'[^'\\\x80-\xff]*'\Z")
WHITE = b" \t\n\r\x0c"
LONGEST, FARTHEST = 19, 27  # the class: the digits of m, and how far e lies from 0


def ref(s):
    m = REF.match(s)
    return b"%d" % int(m[1]) if m and int(m[1]) <= 0xFFFFFFFF else 12


def i64(s):
    return b"%d" % int(s) if INT.match(s) and -(1 << 63) <= int(s) < 1 << 63 else 12


def f64(s):
    m = REAL.match(s)
    if not m:
        return 12
    whole, fraction, exponent = m[1], m[2] or b"", int(m[3] or b"0")
    digits, e = (whole + fraction).lstrip(b"0"), exponent - len(fraction)
    if len(digits) > LONGEST or abs(e) > FARTHEST:
        return 13
    value = float(Fraction(int(digits or b"0")) * Fraction(10) ** e)
    if s.startswith(b"-"):
        value = -value
    return struct.pack(">d", value).hex().encode()


def name(s):
    m = NAME.match(s)
    return (m[1].hex().encode() or b"-") if m else 12


def truth(s):
    return s[1:2] if s in (b".T.", b".F.", b".U.") else 12


def unset(reader):
    return lambda s: b"$" if s == b"$" else reader(s)


def text(s):
    if s == b"$":
        return b"-"
    return (s[1:-1].hex().encode() or b"-") if STRING.match(s) else 12


SCALARS = {
    b"ref": ref, b"opt_ref": unset(ref), b"i64": i64, b"f64": f64, b"opt_f64": unset(f64), b"measure": f64, b"enum": name, b"bool": truth, b"str": text,
}
LISTS = {b"ref_list": ref, b"i64_list": i64, b"f64_list": f64}


def listed(s, start, item):
    """The items' answers, or the first refusal; their places are where the items begin after whitespace."""
    body = s[1:-1]
    if not body.strip(WHITE):
        return b"-"
    out, at = [], start + 1
    for piece in body.split(b","):
        stripped = piece.strip(WHITE)
        answer = item(stripped)
        if isinstance(answer, int):
            return b"%d/0@%d" % (answer, at + len(piece) - len(piece.lstrip(WHITE)))
        out.append(answer)
        at += len(piece) + 1
    return b",".join(out)


class Case:
    def __init__(self, case, answer, seen):
        self.case, self.seen = case, seen
        self.lines = answer.splitlines()
        self.rows = [[int(x) for x in line.split()[1:]] for line in self.lines if line.startswith(b"r ")]
        self.headers = [[int(x) for x in line.split()[1:]] for line in self.lines if line.startswith(b"h ")]

    def same(self, kind, line, want):
        self.seen[kind] = self.seen.get(kind, 0) + 1
        if line != want:
            raise AssertionError("%s: the oracle says %r, wanted is %r" % (kind, line, want))

    def lookups(self):
        last = {row[1]: row[0] for row in self.rows}
        ids = [row[1] for row in self.rows]
        most = max(ids, default=0)
        ids += [0, 1] + ([most + 1] if most < 0xFFFFFFFF else []) + [0xFFFFFFFF]
        want = [b"l %d %s" % (i, b"%d" % last[i] if i in last else b"none") for i in ids]
        self.same("l", [line for line in self.lines if line.startswith(b"l ")], want)
        want = []
        for word in (b"FILE_NAME", b"file_schema", b"File_Description", b"NOPE"):
            found = [h[0] for h in self.headers if self.case[h[1]:h[2]].upper() == word.upper()]
            want.append(b"f %s %s" % (word, b"%d" % found[0] if found else b"none"))
        self.same("f", [line for line in self.lines if line.startswith(b"f ")], want)

    def units(self):
        for line in self.lines:
            if line.startswith(b"units 15/"):
                place = int(line.split(b"@")[1])
                rows = [row for row in self.rows if row[4] == place]
                self.same("units 15", [b"CONVERSION_BASED_UNIT" in self.case[row[2]:row[5]].upper() for row in rows], [True])
            elif line.startswith(b"units 13/"):
                place = int(line.split(b"@")[1])
                parameter = re.match(rb"(?:[^(,]*\(\s*)?([-+0-9.Ee]*)", self.case[place:])[1]
                self.same("units 13", f64(parameter), 13)

    def walk(self, start, end, block):
        """The answers at one parameter: from `start` the parameter runs to a comma or to the end."""
        skip = block[-1].split()
        after = int(skip[1][1:])
        if len(skip) > 2:
            if skip[2].startswith(b"10/"):
                self.same("10", self.case[after:end], b"")
            return None
        if after == end and not (after > start and self.case[after - 1:after] == b","):
            whole = self.case[start:after]
        else:
            whole = self.case[start:after - 1]
        s = whole.strip(WHITE)
        at = start + len(whole) - len(whole.lstrip(WHITE))
        if self.case[after - 1:after] == b"," and whole.count(b"'") % 2:
            return after  # the comma may be the text's last byte
        plain, flat, string = PLAIN.match(s), FLAT.match(s), STRING.match(s)
        if not (plain or flat or string) or any(b in whole for b in (b"/*", b"\"")):
            return after
        for line in block[:-1]:
            word, stands, answer = line.split(b" ")[:3]
            reader = SCALARS.get(word)
            if word == b"measure" and flat:
                continue
            if reader:
                want = reader(s) if plain or string else 12
                want = b"%d/0@%d" % (want, at) if isinstance(want, int) else want
            elif word in LISTS:
                want = listed(s, at, LISTS[word]) if flat else b"12/0@%d" % at
            else:
                continue
            self.same(word.decode(), (stands, answer), (b"@%d" % after, want))
        return after

    def walks(self):
        at = end = None
        block = []
        for line in self.lines:
            words = line.split(b" ")
            if words[0] == b"walk":
                row = (self.headers if words[1] == b"h" else self.rows)[int(words[2])]
                at, end = row[3:5] if words[1] == b"h" else row[4:6]
            elif words[0] == b"part" and len(words) > 3:
                at, end = int(words[5]), int(words[6])
                start, stop = int(words[3]), int(words[4])
                self.same("part", self.case[stop:at].strip(WHITE), b"(")
                self.same("part", self.case[start:stop].strip(WHITE), self.case[start:stop])
                self.same("part", self.case[end:end + 1], b")")
            elif words[0] in SCALARS or words[0] in LISTS or words[0].endswith(b"_grid"):
                block.append(line)
            elif words[0] == b"skip":
                at = self.walk(at, end, block + [line])
                block = []


def main():
    seen = {}
    for i, (case, answer) in enumerate(zip(cases(sys.argv[1]), answers(sys.argv[2]), strict=True)):
        if not answer.startswith(b"scan "):
            continue
        one = Case(case, answer, seen)
        try:
            one.lookups()
            one.units()
            one.walks()
        except AssertionError as error:
            print("case %d: %s\n%r" % (i, error, case))
            sys.exit(1)
    print(", ".join("%s %d" % pair for pair in sorted(seen.items())))


if __name__ == "__main__":
    main()
