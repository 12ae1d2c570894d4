#!/usr/bin/env python3
"""Writes strings, one to a line in hex, for texts.sh.

    texts.py exhaustive         all strings of 0 to 5 bytes over the bytes that matter (BYTES)
    texts.py groups             `\\X2\\` and `\\X4\\`, each followed by all strings of 0 to 5 pieces (PIECES)
    texts.py generated N SEED   strings of a grammar, half of them damaged, a third with a room (`ROOM:HEX`)
    texts.py pages              `\\P?\\` with every byte and `\\S\\` with every byte; each page's letter and then three `\\S\\`
    texts.py paged N SEED       as `generated`, but most of it is `\\P?\\` and `\\S\\`
    texts.py chosen             the replay's strings, without rooms
    texts.py malformed          lines that are no strings, for the replay

Only the standard library is used, and the numbers drawn depend on the seed alone.
"""

import itertools
import sys

from generate import Rng

# A quote; the backslash and the letters and digits of directives; a hex digit and a letter that is none; of UTF-8 a byte for each
# row of RFC 3629's table and each bound within: 80 and A9 lie on two sides of every narrower range of a second byte (from A0 up
# after E0, up to 9F after ED, from 90 up after F0, up to 8F after F4), and C0 begins nothing.
BYTES = b"'\\NSTPX024AZ" + bytes([0x80, 0xA9, 0xC0, 0xC3, 0xE0, 0xE2, 0xED, 0xF0, 0xF4])

PIECES = [b"00", b"41", b"D8", b"3D", b"DE", b"Z", b"\\", b"\\X0\\", b"''"]


def exhaustive():
    digits = [b"%02X" % b for b in BYTES]
    for n in range(6):
        for s in itertools.product(digits, repeat=n):
            yield b"".join(s)


def groups():
    for directive in (b"\\X2\\", b"\\X4\\"):
        for n in range(6):
            for s in itertools.product(PIECES, repeat=n):
                yield (directive + b"".join(s)).hex().encode()


# ---------------------------------------------------------------------------------------------------------------------
# generated

PLAIN = [bytes([b]) for b in range(32, 127) if b not in b"'\\"]
ODD = [bytes([b]) for b in range(256)]
EDGES = [0, 0x7F, 0x80, 0xFF, 0x7FF, 0x800, 0xD7FF, 0xE000, 0xFFFD, 0xFFFF, 0x10000, 0x10FFFF]
BAD = [b"\x80", b"\xBF", b"\xC0\x80", b"\xC1\xBF", b"\xC2", b"\xC3A", b"\xDF\xC0", b"\xE0\x80\x80", b"\xE0\x9F\xBF", b"\xE2\x82",
       b"\xED\xA0\x80", b"\xED\xBF\xBF", b"\xEF\xBF", b"\xF0\x80\x80\x80", b"\xF0\x8F\xBF\xBF", b"\xF0\x9F\x98",
       b"\xF4\x90\x80\x80", b"\xF5\x80\x80\x80", b"\xF8\x88\x80\x80\x80", b"\xFE", b"\xFF"]
UNKNOWN = [b"\\", b"\\Q\\", b"\\X1\\", b"\\X3\\41", b"\\x2\\0041", b"\\X2", b"\\X2/0041", b"\\X4", b"\\X", b"\\S", b"\\S\\",
           b"\\s\\a", b"\\n\\", b"\\t\\", b"\\N", b"\\T", b"\\P", b"\\PA", b"\\p\\", b"\\X0\\", b"\\X0", b"\\X8\\00000041", b"C:\\dir\\new",
           b"\\'", b"'"]


def plain(rng):
    return b"".join(rng.pick(PLAIN) for _ in range(1 + rng.below(10)))


def digits(rng, n, width):
    text = b"%0*X" % (width, n)
    kind = rng.below(4)
    if kind == 0:
        return text.lower()
    if kind == 1:
        return bytes(b + 32 if 65 <= b <= 70 and rng.one_in(2) else b for b in text)
    return text


def two_group(rng):
    """What `\\X2\\` may be followed by: one character, or something near one."""
    kind = rng.below(16)
    if kind < 6:
        return digits(rng, rng.pick([0x41 + rng.below(26), 0xC0 + rng.below(64), rng.below(0xD800), 0xE000 + rng.below(0x2000)]), 4)
    if kind < 9:
        return digits(rng, 0xD800 + rng.below(0x400), 4) + digits(rng, 0xDC00 + rng.below(0x400), 4)
    if kind == 9:
        return digits(rng, rng.pick([0xD7FF, 0xD800, 0xDBFF, 0xDC00, 0xDFFF, 0xE000, 0xFFFD, 0xFFFF, 0, 0x7F, 0x80, 0x7FF, 0x800]), 4)
    if kind == 10:
        return digits(rng, 0xDC00 + rng.below(0x400), 4)
    if kind == 11:
        return digits(rng, 0xD800 + rng.below(0x400), 4) + rng.pick([b"", b"\\", b"DC0", b"Z", b"''", b"DC0G"])
    if kind == 12:
        return digits(rng, 0xD800 + rng.below(0x400), 4) + digits(rng, rng.below(0x10000), 4)
    if kind == 13:
        return digits(rng, rng.below(0x10000), 4)[:rng.below(4)]
    text = bytearray(digits(rng, rng.below(0xD800), 4))
    text[rng.below(4)] = rng.pick(b"GZg/:@`'\\ +-\xC3\x80")
    return bytes(text)


def four_group(rng):
    kind = rng.below(12)
    if kind < 6:
        return digits(rng, rng.pick([rng.below(0xD800), rng.below(0x110000), 0x10000 + rng.below(0x100000)]), 8)
    if kind < 8:
        return digits(rng, rng.pick(EDGES + [0xD800, 0xDBFF, 0xDC00, 0xDFFF, 0x110000, 0xFFFFFFFF, 0x80000000]), 8)
    if kind == 8:
        return digits(rng, rng.next() >> 32, 8)
    if kind == 9:
        return digits(rng, 0xD800 + rng.below(0x400), 8) + digits(rng, 0xDC00 + rng.below(0x400), 8)
    if kind == 10:
        return digits(rng, rng.below(0x110000), 8)[:rng.below(8)]
    text = bytearray(digits(rng, rng.below(0x110000), 8))
    text[rng.below(8)] = rng.pick(b"GZg/:@`'\\ +-\xC3\x80")
    return bytes(text)


def long_directive(rng, most=6):
    two = rng.one_in(2)
    text = b"\\X2\\" if two else b"\\X4\\"
    for _ in range(rng.below(most)):
        text += two_group(rng) if two else four_group(rng)
    return text + rng.pick([b"\\X0\\"] * 5 + [b"\\X0", b"\\X0'", b"\\X0\\X0\\", b"", b"\\N\\", b"\\\\", b"\\X", b"\\x0\\"])


def piece(rng):
    kind = rng.below(16)
    if kind < 3:
        return plain(rng)
    if kind == 3:
        return rng.pick([b"''", b"'", b"'''", b"''''", b"\\\\", b"\\\\\\", b"\\N\\", b"\\T\\"])
    if kind == 4:
        return b"\\P" + (rng.pick([b"A", b"B", b"I", b"a", b"Z", b"1"]) if not rng.one_in(3) else rng.pick(ODD)) + b"\\"
    if kind == 5:
        return b"\\S\\" + (rng.pick(PLAIN) if not rng.one_in(3) else rng.pick(ODD))
    if kind == 6:
        return b"\\X\\" + digits(rng, rng.below(256), 2)
    if kind == 7:
        return b"\\X\\" + rng.pick([b"", b"4", b"G1", b"1G", b"''", b"\\", b" 1", b"+1", b"4\\"])
    if kind < 11:
        return long_directive(rng)
    if kind == 11:
        return rng.pick(UNKNOWN)
    if kind == 12:
        code = rng.pick(EDGES + [0x80 + rng.below(0x780), 0x800 + rng.below(0xC000), 0x10000 + rng.below(0x100000)])
        return chr(code).encode()
    if kind == 13:
        return rng.pick(BAD)
    if kind == 14:
        code = 0x80 + rng.below(0xD000)
        return chr(code).encode()[:1 + rng.below(2)]
    return rng.pick(ODD) + rng.pick(ODD)


def damaged(rng, s):
    for _ in range(1 + rng.below(3)):
        at = rng.below(len(s) + 1)
        new = rng.pick([b"'", b"\\", b"X", b"0", b"Z", b"\x80", b"\xE2"]) if not rng.one_in(3) else rng.pick(ODD)
        kind = rng.below(6)
        if kind == 0:
            s = s[:at] + new + s[at:]
        elif kind == 1:
            s = s[:at] + new + s[at + 1:]
        elif kind == 2:
            s = s[:at] + s[at + 1:]
        elif kind == 3:
            s = s[:at] + s[at:at + 1] + s[at:]
        else:
            s = s[:at]
    return s


def long_string(rng):
    """Up to 16 KB: what a reader might read again and again."""
    n = 1 + rng.below(2000)
    kind = rng.below(8)
    if kind == 0:
        return b"\\X2\\Z" * n
    if kind == 1:
        return b"\\" * n + rng.pick([b"", b"N\\", b"X2\\0041"])
    if kind == 2:
        return b"\\X2\\" + b"0041" * n + rng.pick([b"", b"ZZZZ", b"D83D", b"00", b"\\X0\\"])
    if kind == 3:
        return b"\\X4\\" + b"0001F600" * n + rng.pick([b"", b"0000Z", b"0000000Z", b"\\X0"])
    if kind == 4:
        return rng.pick([b"'", b"\xE2\x82", b"\xF0\x9F\x98", b"\x80", b"\xC3\xA9"]) * n
    if kind == 5:
        return b"\\X2\\D83D" * (n // 2 + 1)
    if kind == 6:
        return plain(rng) * (n // 2 + 1)
    return b"".join(piece(rng) for _ in range(n // 2 + 1))[:16384]


def any_string(rng):
    if rng.one_in(400):
        return long_string(rng)
    return b"".join(piece(rng) for _ in range(rng.below(7)))


def generated(n, rng, string=any_string):
    for _ in range(n):
        s = string(rng)
        if rng.one_in(2):
            s = damaged(rng, s)
        line = s.hex().encode()
        if rng.one_in(3):
            line = b"%d:" % rng.below(len(s) + 4) + line
        yield line


# ---------------------------------------------------------------------------------------------------------------------
# Pages

LETTERS = [bytes([b]) for b in b"ABCDEFGHIabcdefghi"]
NO_LETTERS = [b"J", b"j", b"Z", b"z", b"@", b"`", b"\\", b"'", b"0", b"1", b"9", b" ", b"P", b"S", b"\x00", b"\x7F", b"\xC2",
              b"\xE2", b"\xFF"]
CODES = [bytes([b]) for b in range(32, 128)]
# What names a page and looks as if it did not, or the other way round.
NEARLY = [b"\\\\PB\\", b"\\\\\\PB\\", b"\\\\PG\\S\\D", b"\\\\\\PG\\\\S\\D", b"\\PB", b"\\P", b"\\PB/", b"\\pB\\", b"\\PBG\\", b"\\PB\\\\",
          b"PB\\", b"PG\\\\S\\D", b"\\''PB\\", b"\\P''\\", b"\\P\\\\", b"\\P\\\\S\\D", b"\\PG\\PA\\", b"\\PG\\PB\\", b"\\X\\PB\\",
          b"\\X\\4PB\\", b"\\N\\PC\\", b"\\S\\PB\\"]
AFTER = [b"\\S\\\\", b"\\S\\\\PB\\", b"\\S\\\\S\\D", b"\\S\\'", b"\\S\\''", b"\\S\\'''", b"\\S\\", b"\\S", b"\\S\\\xC3\xA9",
         b"\\S\\\xE2\x82\xAC", b"\\s\\D", b"\\\\S\\D"]
# Before a page: groups that are bad, that are cut short or that the page's backslash ends.
BEFORE = [b"\\X2\\", b"\\X2\\00", b"\\X2\\0041", b"\\X2\\0041Z", b"\\X2\\0041ZZZZ", b"\\X2\\D83D", b"\\X2\\D83DDE00", b"\\X2\\D83D0041",
          b"\\X2\\0041\\X0", b"\\X2", b"\\X4\\", b"\\X4\\0001", b"\\X4\\0001F600", b"\\X4\\0001F60Z", b"\\X\\C", b"\\Q", b"\\"]


def page(rng):
    letter = rng.pick(LETTERS) if not rng.one_in(6) else rng.pick(NO_LETTERS) if not rng.one_in(3) else rng.pick(ODD)
    return b"\\P" + letter + b"\\"


def shifted(rng):
    return b"\\S\\" + (rng.pick(CODES) if not rng.one_in(8) else rng.pick(ODD))


def paged_piece(rng):
    kind = rng.below(16)
    if kind < 3:
        return page(rng)
    if kind < 6:
        return shifted(rng)
    if kind < 10:
        return page(rng) + shifted(rng)
    if kind == 10:
        return plain(rng)
    if kind == 11:
        return rng.pick(NEARLY)
    if kind == 12:
        return rng.pick(AFTER)
    if kind == 13:
        # Without its first backslash the page may begin with the last one of what stands before.
        return rng.pick(BEFORE) + page(rng)[rng.below(2):] + rng.pick([b"", b"", b"\\X0\\", b"Z"])
    return piece(rng)


def paged_string(rng):
    if not rng.one_in(400):
        return b"".join(paged_piece(rng) for _ in range(1 + rng.below(9)))
    n = 1 + rng.below(1500)
    kind = rng.below(4)
    if kind == 0:
        return page(rng) + shifted(rng) * n
    if kind == 1:
        return (page(rng) + shifted(rng)) * (n // 2 + 1)
    if kind == 2:
        return page(rng) + plain(rng) * (n // 4 + 1) + shifted(rng)
    return b"".join(paged_piece(rng) for _ in range(n // 2 + 1))[:16384]


def pages():
    for b in ODD:
        for c in ODD:
            yield (b"\\P" + b + b"\\" + b"\\S\\" + c).hex().encode()
    for letter in LETTERS:
        for c in ODD:
            code = b"\\S\\" + c
            yield (b"\\P" + letter + b"\\" + code + code + b"plain text" + code).hex().encode()


# ---------------------------------------------------------------------------------------------------------------------
# The replay

def page_forms():
    """Each page with a code of its own, A0, FF and one that it does not define, in capitals one by one and else together; and others."""
    own = {b"C": b"u"}  # the others' is F0
    undefined = {b"C": b"%", b"F": b"!", b"G": b".", b"H": b"!"}
    for letter in LETTERS:
        name = letter.upper()
        codes = [b"\\S\\" + c for c in [own.get(name, b"p"), b" ", b"\x7F", undefined.get(name)] if c]
        for code in codes if letter == name else [b"".join(codes)]:
            yield b"\\P" + letter + b"\\" + code
    for other in [b"J", b"j", b"@", b"`", b"Z", b"7", b"'", b"\\", b"\xC7"]:
        yield b"\\P" + other + b"\\\\S\\p"
    yield from [
        # one after the other, kept over other text, and without `\S\`
        b"\\PG\\\\PE\\\\S\\p", b"\\PG\\\\PA\\\\S\\p", b"\\PG\\\\PJ\\\\S\\p", b"\\PG\\\\P\\\\\\S\\p", b"\\PG\\\\S\\p\\PE\\\\S\\p", b"\\S\\p\\PG\\\\S\\p",
        b"\\Pg\\plain\\S\\p", b"\\PG\\\\S\\pplain''\\\\\\N\\\\X\\F0\\X2\\00F0\\X0\\\xC3\xB0\xF0\\S\\p",
        b"\\PG\\", b"\\PG\\plain", b"\\PG\\\\X\\F0", b"\\PG\\\\X2\\00F0\\X0\\", b"\\PG\\\xF0", b"\\PE\\\xC3\xB0",
        # codes outside A0 to FF, quotes and backslashes
        b"\\PG\\\\S\\\x00", b"\\PG\\\\S\\\x1F", b"\\PG\\\\S\\\x80", b"\\PG\\\\S\\\xC4", b"\\PG\\\\S\\\xFF", b"\\PG\\\\S\\''", b"\\PH\\\\S\\\\",
        b"\\PE\\\\S\\\\", b"\\PG\\\\S\\",
        # groups that are bad, that are cut short, and that the page ends
        b"\\PG\\\\X2\\0041ZZZZ\\X0\\\\S\\p", b"\\X2\\PG\\\\S\\p", b"\\X2\\00\\PG\\\\S\\p", b"\\X2\\0041\\PG\\\\S\\p", b"\\X2\\0041ZZPG\\\\S\\p",
        b"\\X2\\D83D\\PG\\\\S\\p", b"\\X2\\D83D0041\\PG\\\\S\\p\\X0\\", b"\\X4\\0001F600\\PG\\\\S\\p", b"\\X4\\PG\\\\S\\p", b"\\X2\\00F0\\X0PG\\\\S\\p",
        # backslashes before, and what is no directive
        b"\\\\PG\\\\S\\p", b"\\\\\\PG\\\\S\\p", b"\\S\\\\PG\\\\S\\p", b"\\pG\\\\S\\p", b"\\PG\\S\\p", b"\\PGG\\\\S\\p", b"\\PG/\\S\\p", b"\\PG"]


def chosen():
    """Written by hand as forms that are multiplied out, and a few of the generated ones. No string occurs twice."""
    seen = set()

    def once(strings):
        for s in strings:
            if s not in seen:
                seen.add(s)
                yield s.hex().encode()

    forms = [b"", b"A", b"plain text", b"\x00\x7F", b"''", b"'", b"'''", b"''''", b"\\\\", b"\\\\\\", b"\\N\\", b"\\T\\",
             b"\\PA\\", b"\\P'\\", b"\\P\\\\", b"\\P\xC3\\", b"\\S\\D", b"\\S\\''", b"\\S\\\\", b"\\S\\\xE2\x82\xAC", b"\\S\\\x00", b"\\S\\\xFF",
             b"\\X\\C4", b"\\X\\c4", b"\\X\\00", b"\\X\\7F", b"\\X\\80", b"\\X\\FF", b"\\X\\4", b"\\X\\4G", b"\\X\\G4", b"\\X\\''",
             # document 01's examples 7 and 8
             b"\\X2\\00C40042\\X0\\", b"\\X2\\0041ZZZZ\\X0\\",
             b"\\X2\\", b"\\X2\\\\X0\\", b"\\X2\\0041", b"\\X2\\0041\\X0", b"\\X2\\0041\\X0'", b"\\X2\\00410", b"\\X2\\0041004",
             b"\\X2\\''", b"\\X2\\0041''", b"\\X2\\00e4\\X0\\", b"\\X2\\D83DDE00\\X0\\", b"\\X2\\d83dde00", b"\\X2\\D83D", b"\\X2\\D83D\\X0\\",
             b"\\X2\\D83DDE0", b"\\X2\\D83DZ", b"\\X2\\DE00", b"\\X2\\DE00D83D\\X0\\", b"\\X2\\D83D0041\\X0\\", b"\\X2\\D83DE000\\X0\\",
             b"\\X2\\D83DD83DDE00\\X0\\", b"\\X2\\D7FF\\X0\\", b"\\X2\\E000\\X0\\", b"\\X2\\D800DC00\\X0\\", b"\\X2\\DBFFDFFF\\X0\\",
             b"\\X2\\FFFF\\X0\\", b"\\X2\\007F008007FF0800\\X0\\", b"\\X2\\0000\\X0\\", b"\\X2\\0041\\N\\0042", b"\\X2\\0041\\X4\\0001F600\\X0\\",
             b"\\X2\\0041\\X2\\0042\\X0\\", b"\\X2\\0041\\\\", b"\\X2\\0041\\Q", b"\\X2\\00Z1\\X0\\", b"\\X2\\004\\X0\\", b"\\X2\\+041",
             b"\\X2\\ 041", b"\\X2\\\xC3\xA9\xC3\xA9",
             b"\\X4\\", b"\\X4\\\\X0\\", b"\\X4\\0001F600\\X0\\", b"\\X4\\0001f600", b"\\X4\\0001F60", b"\\X4\\0000D83D0000DE00\\X0\\",
             b"\\X4\\0000D800", b"\\X4\\0000DFFF", b"\\X4\\0000E000", b"\\X4\\0010FFFF", b"\\X4\\00110000", b"\\X4\\FFFFFFFF", b"\\X4\\80000041",
             b"\\X4\\0000004Z", b"\\X4\\000000410000004Z", b"\\X4\\00000041\\X0", b"\\X4\\00000041\\X0X", b"\\X4\\0000\\X0\\", b"\\X4\\''",
             b"\\X4\\00000041\\N\\"]
    forms += UNKNOWN
    forms += BAD
    forms += page_forms()
    forms += [chr(c).encode() for c in EDGES + [0xE9, 0x20AC, 0xFEFF, 0x1F600, 0xCFFF, 0xD000, 0xFFFFF, 0x100000]]
    # each form alone, and among what would change it if it were read too far or not far enough
    arounds = [(b"", b""), (b"A", b"B"), (b"'", b"'"), (b"\\", b"\\"), (b"\\X2\\0041", b"0042\\X0\\"), (b"\xE2", b"\x80\x80")]
    yield from once(a + f + b for f in forms for a, b in arounds)
    yield from once([b"\\" * n for n in range(1, 9)])
    yield from once([b"\\X2\\Z" * 40, b"\\X2\\" + b"0041" * 60 + b"ZZZZ", b"\\X2\\D83D" * 20, b"a" * 300, b"\xE9" * 150, b"''" * 100])
    yield from once(bytes.fromhex(line.split(b":")[-1].decode()) for line in generated(400, Rng(1, 99)) if len(line) < 200)


def malformed():
    return [b"4", b"414", b"4G", b"zz", b" 41", b"41 ", b"41\r", b"-41", b":41", b"x:41", b"-1:41", b"+1:41", b"1 :41", b"65537:41",
            b"1000000000:41", b"18446744073709551616:41", b"1:4", b"1:4G", b"1:1:41", b"\xC3\xA9", b"65536:2727", b"000000001:2727",
            b"0000000001:2727", b"41" * 32767, b"A" * 65535, b"A" * 65536, b"A" * 200000, b"A9" * 32767]


def main():
    name = sys.argv[1] if len(sys.argv) > 1 else ""
    whole = {"exhaustive": exhaustive, "groups": groups, "pages": pages, "chosen": chosen, "malformed": malformed}
    if name in whole and len(sys.argv) == 2:
        lines = whole[name]()
    elif name == "generated" and len(sys.argv) == 4:
        lines = generated(int(sys.argv[2]), Rng(int(sys.argv[3]), 1))
    elif name == "paged" and len(sys.argv) == 4:
        lines = generated(int(sys.argv[2]), Rng(int(sys.argv[3]), 2), paged_string)
    else:
        sys.exit(__doc__)
    sys.stdout.buffer.writelines(line + b"\n" for line in lines)


if __name__ == "__main__":
    main()
