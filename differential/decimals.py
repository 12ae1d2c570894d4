#!/usr/bin/env python3
"""Writes decimals, one to a line, for decimals.sh.

    decimals.py chosen              the list for the replay
    decimals.py exhaustive          all lines of 0 to 6 bytes over `0 1 9 + - . e E`
    decimals.py class N SEED        of the class: each number of digits and each e in turn, in every form
    decimals.py ties N SEED         of the class: half-way between two f64s, one unit of the last digit beside that, or as near to
                                    it as a decimal comes
    decimals.py edges N SEED        around the class's bounds, inside and outside
    decimals.py outside N SEED      reals outside the class
    decimals.py malformed N SEED    decimals with bytes changed, put in or left out, and words that other readers take
    decimals.py wide N SEED         any reals: each e from -400 to 400 in turn, with 1 to 1,200 digits
    decimals.py halves N SEED       any reals: half-way between two f64s of each binade in turn, written in full, and their neighbours
    decimals.py hard N SEED         any reals: of up to 19 digits, those that come nearest to half-way without lying there, for e from -345 to 308
    decimals.py doubles N SEED      any reals: f64s of all binades in their fewest digits, and in more and fewer than name them
    decimals.py borders N SEED      any reals: where zero ends and infinity begins, powers of ten and of two, half-ways cut short, far exponents
    decimals.py tally <LINES        how many ties, neighbours of ties and others stand in these lines, by exponent; ends with status 1
                                    where an exponent that has ties lacks one, or its neighbours, or where one lacks decimals on a side
    decimals.py reach <LINES        how many of these lines have more than 19, 100 and 800 digits, and how many are ties of any f64s; which e occur
    decimals.py tried               tries all numbers of up to four digits with each exponent of the class, and of up to two with those of `hard`:
                                    the ties, and the nearest to half-way on either side, must be those that `ties` and `hard` compute

Only the standard library is used, and the numbers drawn depend on the seed and the stream alone.
"""

import functools
import itertools
import re
import struct
import sys
from fractions import Fraction
from typing import NamedTuple

from generate import Rng

POINT_NOWHERE = -1


class Class(NamedTuple):
    """Which reals are answered: m has at most `longest` digits, and e lies at most `farthest` from 0."""
    longest: int
    farthest: int


NOW = Class(19, 27)
FORMER = Class(15, 22)  # the replay's list still has what was drawn for it
EXPONENTS = range(-NOW.farthest, NOW.farthest + 1)
LEAST_NORMAL = Fraction(1, 2 ** 1022)
TOO_LARGE = 2 ** 1024
LIMIT = 10 ** NOW.longest  # the least m that is too long


# ---------------------------------------------------------------------------------------------------------------------
# Forms

def below(rng, n):
    """A number below n, which may have more bits than the generator draws at once."""
    return rng.below(n) if n <= 1 << 53 else (rng.next() << 64 | rng.next()) % n


def digits_of(rng, n):
    """A number of exactly n digits."""
    low = 10 ** (n - 1)
    m = low + (rng.next() << 64 | rng.next()) % (9 * low)
    # many decimals end in zeros or nines
    if rng.one_in(8):
        unit = 10 ** rng.below(n)
        m = max(low, m - m % unit)
    elif rng.one_in(16):
        unit = 10 ** rng.below(n)
        m = m - m % unit + unit - 1
    return m


def exponent(rng, x):
    """The exponent x, where it is 0 perhaps left out."""
    if x == 0 and not rng.one_in(3):
        return ""
    sign = "-" if x < 0 else rng.pick(["", "", "+"])
    if x == 0:
        sign = rng.pick(["", "+", "-"])
    zeros = "0" * rng.pick([0, 0, 0, 0, 1, 2, 25])
    return rng.pick("Ee") + sign + zeros + str(abs(x))


def written(rng, m, e, zeros=None, sign=None, places=None):
    """m times 10 to the e, with a point anywhere or nowhere, and the exponent that makes up for it."""
    text = str(m)
    if zeros is None:
        zeros = rng.pick([0, 0, 0, 0, 1, 3, 20])
    text = "0" * zeros + text
    if sign is None:
        sign = rng.pick(["", "", "", "-", "-", "+"])
    if places is None:
        if -len(text) <= e <= 0 and not rng.one_in(4):
            places = -e  # no exponent is needed
        else:
            places = rng.pick([POINT_NOWHERE, 0, len(text), rng.below(len(text) + 1), rng.below(len(text) + 1)])
    if places == POINT_NOWHERE:
        return sign + text + exponent(rng, e)
    if places > len(text):
        text = "0" * (places - len(text)) + text
    at = len(text) - places
    return sign + text[:at] + "." + text[at:] + exponent(rng, e + places)


# ---------------------------------------------------------------------------------------------------------------------
# Streams

def of_class(n, rng, bounds=NOW):
    kinds = [(digits, e) for digits in range(1, bounds.longest + 1) for e in range(-bounds.farthest, bounds.farthest + 1)]
    for i in range(n):
        digits, e = kinds[i % len(kinds)]
        m = 0 if rng.one_in(200) else digits_of(rng, digits)
        yield written(rng, m, e)


def tie_up(rng, k, cut, d, limit):
    """An m below the limit for which m * 10^k lies d units past half-way between two f64s, where m * 5^k has `cut` bits more than
    an f64 holds, and d 0 is a tie; or None. m * 5^k is 2^(cut-1) + d modulo 2^cut."""
    p = 5 ** k
    modulus = 1 << cut
    low = -((-1 << (52 + cut)) // p)
    high = min((1 << (53 + cut)) // p, limit - 1)
    m = ((modulus >> 1) + d) * pow(p, -1, modulus) % modulus
    return first_of(rng, m, modulus, low, high)


def tie_down(rng, k, shift, d, limit):
    """An m below the limit for which m / 10^k lies as near as d/2 parts of 5^k to half-way between two f64s (d is odd), where
    m * 2^shift / 5^k lies between 2^52 and 2^53; or None."""
    p = 5 ** k
    low = -((-p << 52) // (1 << shift))
    high = min((p << 53) // (1 << shift), limit - 1)
    m = (p + d) // 2 * pow(1 << shift, -1, p) % p
    return first_of(rng, m, p, low, high)


def first_of(rng, m, modulus, low, high):
    """A number of low..high that is m modulo the modulus."""
    least = low + (m - low) % modulus
    if least > high or least == 0:
        return None
    return least + modulus * below(rng, (high - least) // modulus + 1)


def by_remainder(rng, bounds=NOW):
    """Without end: decimals whose remainder is that of a tie, or next to it. Where the modulus is larger than m may be, few are found."""
    limit = 10 ** bounds.longest
    ups = [(k, cut) for k in range(1, bounds.farthest + 1) for cut in range(1, 80)
           if limit * 5 ** k > 1 << (52 + cut) and 5 ** k < 1 << (53 + cut)]
    downs = [(k, shift) for k in range(3, bounds.farthest + 1) for shift in range(1, 120)
             if limit << shift > 5 ** k << 52 and 1 << shift < 5 ** k << 53]
    turn = 0
    while True:
        turn += 1
        round_ = turn // 2
        if turn % 2:
            k, cut = ups[round_ % len(ups)]
            d = rng.pick([0, 0, 0, 1, -1, 2, -2, 3, rng.below(100) - 50])
            m = tie_up(rng, k, cut, d if cut > 20 else 0, limit)
        else:
            k, shift = downs[round_ % len(downs)]
            d = 2 * rng.pick([0, -1, 1, -2, 2, rng.below(100) - 50]) + 1
            m, k = tie_down(rng, k, shift, d if k > 9 else d % 4 - 2, limit), -k
        if m is not None:
            yield written(rng, m, k)


class Span(NamedTuple):
    """For m of low..high, m * 10^e is m * a / p units of the f64's last place, and a whole number of them more; a and p have no common
    factor, and p is not 1."""
    a: int
    p: int
    low: int
    high: int

    def tie(self, rng):
        """An m at which the rest of m * a / p is a half, or None."""
        if self.p % 2:
            return None
        return first_of(rng, self.p // 2 * pow(self.a, -1, self.p) % self.p, self.p, self.low, self.high)

    def first(self, start, above, width):
        """The first m from `start` on whose rest lies above (or below) a half by no more than `width` steps; or None."""
        least = self.p // 2 + 1 if above else (self.p - 1) // 2 - width
        least, most = max(0, least), min(self.p - 1, least + width)
        if least > most:
            return None
        m = start + first_between(self.a, self.p, (least - start * self.a) % self.p, (most - start * self.a) % self.p)
        return m if m <= self.high else None

    def beside(self, rng, above):
        """One of the eight or so of the span whose rests lie nearest to a half on that side; or None."""
        width = 8 * self.p // (self.high - self.low + 1)
        start = self.low + below(rng, self.high - self.low + 1)
        return self.first(start, above, width) or self.first(self.low, above, width)

    def next_to(self, above):
        """The m whose rest lies nearest to a half, above it or below; or None where none lies on that side."""
        width = min(self.p, 4 * self.p // (self.high - self.low + 1))
        best = found = self.first(self.low, above, width)
        while best is None and width < self.p:
            width = min(self.p, 4 * width + 1)
            best = found = self.first(self.low, above, width)
        least = -1  # so near, or nearer, lies none
        while found is not None:
            best, width = found, abs(2 * (found * self.a % self.p) - self.p) // 2 - 1 - (self.p % 2 == 0)
            found = self.first(self.low, above, width) if width >= 0 else None
            # where the rests go up by small steps there are very many to find, so that half of them is left out at once
            while found is not None and width - least > 1:
                half = (least + width) // 2
                nearer = self.first(self.low, above, half)
                if nearer is not None:
                    found = nearer
                    break
                least = half
        return best


def first_between(a, p, least, most):
    """The least x from 0 on with a * x modulo p between `least` and `most`, around p where `most` is less; a and p have no common
    factor, so that there is one. Euclid's way: what p leaves of a takes the place of a."""
    if least == 0 or least > most:
        return 0
    if 2 * a > p:
        a, least, most = p - a, p - most, p - least
    x = -(-least // a)
    if a * x <= most:
        return x
    y = first_between(-p % a, a, least % a, most % a)
    return -(-(least + p * y) // a)


@functools.lru_cache(maxsize=None)
def spans(e, digits):
    """The numbers m of so many digits by the power of two below m * 10^e, but for those that are f64s all and those that are too large for
    an f64. Below 2^-1021 the unit of the last place is one."""
    ten = Fraction(10) ** e
    out = []
    low, end = 10 ** (digits - 1), 10 ** digits
    while low < end and low * ten < TOO_LARGE:
        two = max(power_of_two_to(low * ten), LEAST_NORMAL)
        high = min(end, -(-2 * two // ten)) - 1
        unit = ten / (two / 2 ** 52)
        if unit.denominator != 1:
            out.append(Span(unit.numerator % unit.denominator, unit.denominator, low, high))
        low = high + 1
    return out


def power_of_two_to(x):
    """The largest power of two that is not above x."""
    two = Fraction(2) ** (x.numerator.bit_length() - x.denominator.bit_length())
    return two if two <= x else two / 2


@functools.lru_cache(maxsize=None)
def spans_with_ties(e):
    """Those that have a tie, of all numbers of digits."""
    rng = Rng(0)
    return [span for digits in range(1, NOW.longest + 1) for span in spans(e, digits) if span.tie(rng) is not None]


def by_exponent(rng):
    """Without end: for each exponent in turn a tie and the two decimals one unit of the last digit beside it, where the exponent has
    ties, and one decimal near to half-way on either side, each number of digits in turn; the nearest of all in one of four."""
    for turn in itertools.count():
        for e in EXPONENTS:
            with_ties = spans_with_ties(e)
            if with_ties:
                m = with_ties[turn % len(with_ties)].tie(rng)
                yield from (written(rng, x, e) for x in (m, m - 1, m + 1) if 0 < x < LIMIT)
            digits = 1 + turn % NOW.longest
            for above in (False, True):
                some = spans(e, digits)
                if some:
                    span = rng.pick(some)
                    m = span.next_to(above) if rng.one_in(4) else span.beside(rng, above)
                    if m is not None:
                        yield written(rng, m, e)


def ties(n, rng):
    """Three of four by exponent, one by remainder."""
    kinds = [by_exponent(rng)] * 3 + [by_remainder(rng)]
    for i in range(n):
        yield next(kinds[i % 4])


def edges(n, rng, bounds=NOW):
    longest, farthest = bounds
    for _ in range(n):
        digits = rng.pick([1, 2, 8, longest - 1, longest, longest, longest + 1, longest + 1, longest + 2])
        e = rng.pick([-farthest - 2, -farthest - 1, -farthest - 1, -farthest, -farthest, -farthest + 1, -1, 0, 1,
                      farthest - 1, farthest, farthest, farthest + 1, farthest + 1, farthest + 2])
        kind = rng.below(8)
        if kind == 0:
            m = 0
        elif kind == 1:
            m = 10 ** longest + rng.below(5) - 2
        elif kind == 2:
            m = 10 ** (digits - 1)
        else:
            m = digits_of(rng, digits)
        zeros = rng.pick([0, 0, 1, longest, 40])
        if rng.one_in(20):
            zeros = rng.below(300)
        places = None
        if rng.one_in(6):
            places = rng.below(60)  # a long fraction, and the exponent that makes up for it
        elif rng.one_in(20):
            places = 300 + rng.below(3000)
        yield written(rng, m, e, zeros=zeros, places=places)


WIDE = [100, 307, 308, 309, 324, 400, 2 ** 31, 2 ** 32, 2 ** 63 - 1, 2 ** 63, 2 ** 64 - 1, 2 ** 64, 2 ** 65,
        10 ** 19, 10 ** 20, 10 ** 40]


def outside(n, rng, bounds=NOW):
    longest, farthest = bounds
    wide = [0, farthest, farthest + 1] + WIDE
    for _ in range(n):
        kind = rng.below(4)
        if kind == 0:  # too many digits
            yield written(rng, digits_of(rng, longest + 1 + rng.below(25)), rng.below(61) - 30)
        elif kind == 1:  # too large or too small
            e = farthest + 1 + rng.below(400)
            yield written(rng, digits_of(rng, 1 + rng.below(longest)), e if rng.one_in(2) else -e)
        elif kind == 2:  # an exponent near a number at which a sum might wrap: a few are of the class after all
            e = rng.pick(wide) + rng.below(60) - 30
            yield written(rng, digits_of(rng, 1 + rng.below(longest)), e if rng.one_in(2) else -e, places=rng.below(40))
        else:  # zero, with an exponent outside
            e = farthest + 1 + rng.below(400)
            yield written(rng, 0, e if rng.one_in(2) else -e)


WORDS = ["inf", "-inf", "+inf", "INF", "Inf", "infinity", "-Infinity", "nan", "NaN", "-nan", "NAN", "+nan", "nan(1)", "0x1p3",
         "0X10", "0b1", "0o7", "1_0", "1,5", "1f", "1.0f64", "1d5", "1D5", "1e5x", "1.2.3", "+-1", "--1", "-+1", "1-", "1+",
         "1.-", "-", "+", "", ".", "-.", "+.", "E", "e5", ".E5", "-.e5", "1E", "1E+", "1E-", "1.E", "1.5E+-3", "1E5.", "1E5.0",
         "1E 5", "1 E5", "1. 5", "- 1", "$", "*", "#1", "'1'", "(1.)", "1.;", "1./**/", ".T.", "1\x00", "\x001", "1\r", "\t1",
         "1 ", " 1", "1\x0b", "\x0b1", "\xa01", "１", "1．5", "−1", "1e５", "\ufeff1", "٣", "1\u2028", "1/2", "1%", "1:5",
         "1E/5", "1E:", "/1", ":1"]


def malformed(n, rng, bounds=NOW):
    odd = [bytes([b]) for b in range(256) if b != 10]
    likely = [c.encode() for c in "+-.eE0_ xX\tinfa,;"]
    for _ in range(n):
        if rng.one_in(10):
            line = rng.pick(WORDS).encode()
            if rng.one_in(2):
                yield line
                continue
        else:
            line = written(rng, digits_of(rng, 1 + rng.below(bounds.longest + 2)), rng.below(2 * bounds.farthest + 6) - bounds.farthest - 3).encode()
        for _ in range(1 + rng.below(3)):
            at = rng.below(len(line) + 1)
            new = rng.pick(likely) if not rng.one_in(3) else rng.pick(odd)
            kind = rng.below(4)
            if kind == 0:
                line = line[:at] + new + line[at:]
            elif kind == 1:
                line = line[:at] + new + line[at + 1:]
            elif kind == 2:
                line = line[:at] + line[at + 1:]
            else:
                line = line[:at] + line[at:at + 1] + line[at:]
        yield line


# ---------------------------------------------------------------------------------------------------------------------
# Streams of any reals

FIVES = [1]
HARD = range(-345, 309)
FIELDS = 2047  # of a finite f64's exponent; the first is that of the subnormals


def fives(k):
    while len(FIVES) <= k:
        FIVES.append(5 * FIVES[-1])
    return FIVES[k]


def in_full(m, two):
    """m times 2 to the `two` as a whole number and a power of ten."""
    return (m << two, 0) if two >= 0 else (m * fives(-two), two)


def past(field, part, more=1):
    """Half a unit of the last place past the f64 with these exponent and significand fields, in full; `more` 0 for itself."""
    return in_full(2 * (part + (1 << 52 if field else 0)) + more, max(field, 1) - 1076)


def some_part(rng):
    """A significand field: any, or one at which rounding carries far."""
    part = rng.next() >> 12
    kind = rng.below(8)
    if kind == 0:
        return 0
    if kind == 1:
        return (1 << 52) - 1
    if kind == 2:
        return 1 << rng.below(52)
    if kind == 3:
        return part >> rng.below(52)
    if kind == 4:
        return part | (1 << rng.below(53)) - 1
    return part


def long_digits(rng, n):
    """A number of exactly n digits, of any n."""
    if n <= 36:
        return digits_of(rng, n)
    drawn = 0
    for _ in range(n // 19 + 1):
        drawn = drawn << 64 | rng.next()
    low = 10 ** (n - 1)
    return low + drawn % (9 * low)


def anywhere(rng, m, e):
    """m times 10 to the e in some form, now and then without an exponent."""
    if -1200 <= e <= 0 and rng.one_in(4):
        return written(rng, m, e, places=-e)
    if 0 < e <= 400 and rng.one_in(8):
        return written(rng, m * 10 ** e, 0)
    return written(rng, m, e)


def wide(n, rng):
    for i in range(n):
        e = i % 801 - 400
        drawn = rng.below(100)
        if drawn < 62:
            digits = 1 + rng.below(19)
        elif drawn < 90:
            digits = 20 + rng.below(21)
        elif drawn < 97:
            digits = 41 + rng.below(60)
        else:
            digits = 101 + rng.below(1100)
        m = long_digits(rng, digits)
        if digits > 19 and rng.one_in(2):
            e -= digits  # so that it is the number's size which is drawn
        yield anywhere(rng, m, e)


def halves(n, rng):
    return itertools.islice(all_halves(rng), n)


def all_halves(rng):
    """Without end: each binade in turn, and between two of its f64s the half-way itself, one unit of its last digit up and down, zeros behind it,
    a last digit far behind it, and as little below it; so too between two subnormals of any size for one binade of sixteen."""
    while True:
        for field in range(FIELDS):
            yield from around(rng, *past(field, some_part(rng)))
            if field % 16 == 0:
                yield from around(rng, *past(0, some_part(rng) >> rng.below(52)))


def around(rng, m, e):
    yield from (anywhere(rng, x, e) for x in (m, m + 1, m - 1))
    more = rng.pick([1, 2, 19, 20, 64]) if not rng.one_in(8) else 100 + rng.below(700)
    m, e = m * 10 ** more, e - more
    yield from (anywhere(rng, x, e) for x in (m, m + 1, m - 1))


def hard(n, rng):
    return itertools.islice(all_hard(rng), n)


def all_hard(rng):
    """Without end: for each e and each number of digits the spans' nearest to half-way on either side, and then others of the nearest."""
    kinds = [(e, digits) for e in HARD for digits in range(1, 20)]
    for turn in itertools.count():
        for i in range(len(kinds)):
            e, digits = kinds[i * 7919 % len(kinds)]
            for span in spans(e, digits):
                for above in (False, True):
                    m = span.next_to(above) if turn == 0 else span.beside(rng, above)
                    if m is not None:
                        yield written(rng, m, e)


def doubles(n, rng):
    for i in range(n):
        field = 0 if rng.one_in(8) else i % FIELDS
        part = some_part(rng)
        if field == 0 and rng.one_in(2):
            part >>= rng.below(52)
        x = struct.unpack("<d", struct.pack("<Q", field << 52 | part))[0]
        kind = rng.below(8)
        if kind < 3:
            line = repr(x)
        elif kind < 5:
            line = "%.16e" % x
        else:
            line = "%.*e" % (rng.pick([13, 14, 15, 17, 18, 19, 20, 25, 30]), x)
        if rng.one_in(3):
            line = "-" + line
        yield line.upper() if rng.one_in(2) else line


# Decimals that readers got wrong, or that are given for testing them, by m and e; those of Paxson's lists among them.
KNOWN = [in_full((1 << 53) - 1, -1075), (22250738585072011, -324), (22250738585072012, -324), (22250738585072014, -324), (6631236846766476, -316),
         (9007199254740993, 0), (9007199254740992, 0), (90071992547409929, -1), (90071992547409931, -1), (900719925474099200000001, -8),
         (100000000000000011102230246251565404236316680908203125, -53), (100000000000000011102230246251565404236316680908203124, -53),
         (100000000000000011102230246251565404236316680908203126, -53), (10000000000000001110223024625156540, -34),
         (10000000000000001110223024625156541, -34), (500000000000000166533453693773481063544750213623046875, -54),
         (3518437208883201171875, -8), (625364939768271845828, -19), (810109172351, -21), (150000000000000011102230246251565, -32),
         (90071992547409914999999999999999999999999999999995, -34), (30078505129381147446200, 0), (1777820000000000000001, 0),
         (500000000000000166547006220929549868969843373633921146392822265625, -66), (17976931348623157, 292), (17976931348623158, 292),
         (17976931348623159, 292), (179769313486231580, 291), (179769313486231581, 291), (5, -324), (49, -325), (3, -324), (2, -324),
         (24703282292062327, -340), (24703282292062328, -340), (247032822920623272, -341), (1, 23), (1, 22), (1, 308), (1, 309), (1, -323),
         (1, -324), (1, 19), (10000000000000000001, 0), (18446744073709551615, 0), (18446744073709551616, 0), (184467440737095516159, -1),
         (5, 125), (69, 267), (999, -26), (7861, -34), (75569, -254), (928609, -261), (9210917, 80), (84863171, 114), (653777767, 273),
         (5232604057, -298), (27235667517, -109), (653532977297, -123), (3142213164987, -294), (46202199371337, -72),
         (231010996856685, -73), (9324754620109615, 212), (78459735791271921, 49), (272104041512242479, 200), (6802601037806061975, 198),
         (20505426358836677347, -221), (836168422905420598437, -234), (4891559871276714924261, 222), (9, -265), (85, -37), (623, 100),
         (3571, 263), (81661, 153), (920657, -23), (4603285, -24), (87575437, -309), (245540327, 122), (6138508175, 120),
         (83356057653, 193), (619534293513, 124), (2335141086879, 218), (36167929443327, -159), (609610927149051, -255),
         (3743626360493413, -165), (94080055902682397, -242), (899810892172646163, 283), (7120190517612959703, 120),
         (25188282901709339043, -252), (308984926168550152811, -52), (6372891218502368041059, 64)]
HALF_LEAST = in_full(1, -1075)
HALF_LARGEST = in_full((1 << 54) - 1, 970)


def cut_short(rng, m, e):
    """The first digits of m, some or all, and perhaps one unit of the last of them more or less."""
    length = len(str(m))
    kept = min(length, rng.pick([rng.below(40), 17, 18, 19, 20, 21, rng.below(800), length, length - 1]) + 1)
    return m // 10 ** (length - kept) + rng.pick([0, 0, 1, 1, 2]) - rng.pick([0, 0, 0, 1]), e + length - kept


def borders(n, rng):
    for i in range(n):
        turn, kind = divmod(i, 8)
        if kind == 0:
            m, e = cut_short(rng, *rng.pick([HALF_LEAST, HALF_LARGEST]))
        elif kind <= 2:
            m, e = cut_short(rng, *past(turn % FIELDS, some_part(rng), rng.pick([0, 1, 1, 1])))
        elif kind == 3:
            zeros = rng.pick([0, 0, 1, 5, 19, 20, 21, 300])
            m, e = 10 ** zeros, turn % 801 - 400 - zeros
        elif kind == 4:
            m, e = in_full(1, turn % 2201 - 1120)
            m, e = (m + rng.pick([0, 0, 1, -1]), e) if rng.one_in(2) else cut_short(rng, m, e)
        elif kind == 5:
            m, e = KNOWN[turn % len(KNOWN)]
        elif kind == 6:  # an exponent of many digits
            m = 0 if rng.one_in(8) else long_digits(rng, 1 + rng.below(30))
            e = long_digits(rng, rng.pick([3, 4, 5, 10, 18, 19, 20, 20, 21, 25, 25, 40])) if rng.one_in(2) else rng.pick(WIDE) + rng.below(3) - 1
            e = e if rng.one_in(2) else -e
        else:  # digits and zeros by the hundred, and the exponent that makes up for them
            m, e = long_digits(rng, 1 + rng.below(25)), rng.below(680) - 350
            zeros = 100 * (1 + rng.below(9))
            yield rng.pick([written(rng, m, e, zeros=zeros), written(rng, m * 10 ** zeros, e - zeros), written(rng, m, e, places=3 * zeros)])
            continue
        yield anywhere(rng, m, e)


def exhaustive():
    for n in range(7):
        for line in itertools.product("019+-.eE", repeat=n):
            yield "".join(line)


def chosen():
    """Written by hand as forms that are multiplied out, and a few of each stream. No line occurs twice."""
    seen = set()

    def once(lines):
        for line in lines:
            if isinstance(line, str):
                line = line.encode()
            if line not in seen:
                seen.add(line)
                yield line

    yield from once(WORDS)
    mantissas = ["0", "1", "-0", "+0.", ".5", "5.", "-.5", "+5.", "-0.0", "000", "0.000", "25.4", "12.3456789", "1.0000000",
                 "123456789012345", "1234567890123456", "999999999999999", "1000000000000000", "999999999999999.",
                 ".999999999999999", "000000000123456789012345", "0.0000000123456789", "12345.6789012345",
                 "12345.67890123456", "100000000000000.0"]
    exponents = ["", "E0", "e-0", "E+0", "E1", "E22", "E23", "E-22", "E-23", "e+22", "e+23", "E21", "E-21", "E7", "E-7", "E8",
                 "E9", "E-8", "E37", "E38", "E0000000000000000000000022", "E-0000000000000000000000022",
                 "E+0000000000000000000000023", "E18446744073709551615", "E18446744073709551616", "E18446744073709551638",
                 "E-18446744073709551594", "E-18446744073709551615", "E-18446744073709551616", "E99999999999999999999999999"]
    yield from once(a + b for a in mantissas for b in exponents)
    for zeros in (21, 22, 23, 24, 36, 37, 38, 100):
        yield from once(["0." + "0" * zeros, "0." + "0" * zeros + "1", "0." + "0" * zeros + "1E" + str(zeros + 1),
                         "0." + "0" * zeros + "1E" + str(zeros + 23), "0." + "0" * zeros + "1E" + str(zeros + 24),
                         "1" + "0" * zeros, "1" + "0" * zeros + "E-" + str(zeros), "0" * zeros + "1", "0" * zeros + ".1",
                         "1." + "0" * zeros])
    # lines as long as the program's room, and longer: the answer is the program's own
    yield from once(["0" * 4095 + "7", "0" * 4095 + "x", "0" * 4096 + "7", "0" * 4097 + "7", "0" * 66000 + "7",
                     "0." + "0" * 4080 + "1E4090", "." + "0" * 4000 + "3E4001"])
    one = Rng(1, 99)
    yield from once(of_class(675, one, FORMER))
    yield from once(itertools.islice(by_remainder(one, FORMER), 400))
    yield from once(line for line in edges(200, one, FORMER) if len(line) < 200)
    yield from once(outside(150, one, FORMER))
    yield from once(malformed(300, one, FORMER))
    # what the wider class brought
    mantissas = mantissas + ["1234567890123456789", "12345678901234567890", "9999999999999999999", "10000000000000000000",
                             "1000000000000000000", "999999999999999999.9", ".9999999999999999999", "0.10000000000000000000",
                             "1.234567890123456789", "0000000001234567890123456789", "9223372036854775808",
                             "18446744073709551615", "18446744073709551616", "0.017453292519943295", "6.283185307179586",
                             "-1.025893950136", "9007199254740993", "-4503599627370496.5"]
    exponents = ["", "E27", "E28", "E-27", "E-28", "e+27", "e+28", "E26", "E-26", "E-17", "E46", "E-46",
                 "E0000000000000000000000027", "E-0000000000000000000000028", "E18446744073709551643", "E-18446744073709551589"]
    yield from once(a + b for a in mantissas for b in exponents)
    for zeros in (17, 18, 19, 26, 27, 28, 29, 45, 46):
        yield from once(["0." + "0" * zeros, "-0." + "0" * zeros, "0." + "0" * zeros + "1", "0." + "0" * zeros + "1E" + str(zeros + 1),
                         "0." + "0" * zeros + "1E" + str(zeros + 28), "0." + "0" * zeros + "1E" + str(zeros + 29),
                         "1" + "0" * zeros, "1" + "0" * zeros + "E-" + str(zeros), "0" * zeros + "1", "1." + "0" * zeros])
    two = Rng(2, 99)
    for e in EXPONENTS:
        with_ties = spans_with_ties(e)
        for k in range(8 if with_ties else 0):
            m = with_ties[k * len(with_ties) // 8].tie(two)
            yield from once(written(two, x, e) for x in (m, m - 1, m + 1) if 0 < x < LIMIT)
        for digits in range(1, NOW.longest + 1):
            if digits > 16 or (digits + e) % 2:
                nearest = [two.pick(spans(e, digits)).next_to(above) for above in (False, True)] if spans(e, digits) else []
                yield from once(written(two, m, e) for m in nearest if m is not None)
            if digits > 15:
                yield from once(written(two, digits_of(two, digits), e) for _ in range(2))
    yield from once(line for line in edges(150, two) if len(line) < 200)
    yield from once(outside(100, two))
    yield from once(malformed(150, two))
    # what the reading of any real brought
    yield from once(["-1.025893950136E-17", "1.025893950136E-17", "-1.2246467991473532E-16", "6.123233995736766E-17",
                     "4.440892098500626E-16", "-3.552713678800501E-15", "2.775557561562891E-17", "-8.67361737988404E-19", "1.E-30",
                     "-0.E-40", "-0.E+400", "0E-99999999999999999999", "99999999999999999999", "12345678901234567890.5", "10000000000000000000.0000000001",
                     "1" + "0" * 19 + "1", "9999999999999999999.9", "-123456789012345678901234567890.E-30"])
    # where zero ends, and the half-ways beside it
    for units in (1, 3, (1 << 53) - 1):
        m, e = in_full(units, -1075)
        yield from once(["0." + str(x).zfill(1075) for x in (m, m - 1, m + 1)])
        yield from once(["-%dE%d" % (m, e), "%d%sE%d" % (m, "0" * 100, e - 100), "%d%s1E%d" % (m, "0" * 99, e - 100),
                         "%dE%d" % (m * 10 ** 100 - 1, e - 100)])
    yield from once("%dE%d" % (m // 10 ** (len(str(m)) - k) + up, e + len(str(m)) - k)
                    for m, e in (HALF_LEAST, HALF_LARGEST) for k in (1, 2, 16, 17, 18, 19, 20, 21, 40, 300) for up in (0, 1))
    # where infinity begins
    m = HALF_LARGEST[0]
    yield from once(str(x) for x in (m, m - 1, m + 1, (1 << 1024) - (1 << 971), 1 << 1024, 1 << 1023))
    yield from once(["-%d" % m, "%d.%s" % (m, "0" * 50), "%d.%s1" % (m, "0" * 400), "%d.%s" % (m - 1, "9" * 400),
                     "%d.%dE+%d" % (m // 10 ** 308, m % 10 ** 308, 308)])
    # ties that a far digit decides
    tie = "1.00000000000000011102230246251565404236316680908203125"
    for places in (100, 700, 766, 767, 768, 769, 798, 799, 800, 1100):
        zeros = "0" * (places - 54)
        yield from once([tie + zeros + "0", tie + zeros + "1", tie[:-1] + "4" + "9" * (places - 53)])
    yield from once(["9007199254740993." + "0" * 784, "9007199254740993." + "0" * 783 + "1", "9007199254740992." + "9" * 784,
                     "9007199254740995." + "0" * 783 + "1", "900719925474099500000000000000000000E-20"])
    # far exponents
    yield from once(a + b + c for a in ("1", "-1", "0", "-0.", "123.456", "1" + "0" * 30) for b in ("E", "E-", "e+")
                    for c in ("12345678901234567890", "1234567890123456789012345", "400", "65536", "4294967296", "9223372036854775808"))
    # zeros and digits by the hundred
    yield from once(["0" * 300 + "1.5", "-" + "0" * 200 + ".25", "0." + "0" * 500 + "25E400", "0." + "0" * 500 + "25E500", "0" * 900 + "E5",
                     "0." + "0" * 900 + "E5", "0." + "0" * 400 + "123456789012345678901E90", "1" + "0" * 400, "1" + "0" * 400 + "E-400",
                     "1" + "0" * 400 + "E-401", "1" + "0" * 700 + "1E-700"])
    three = Rng(3, 99)
    for size in (0, -400, -900, -1200, -1500, -1520, -1535):
        yield from once(["%dE%d" % (long_digits(three, 1200), size)])
    yield from once(["-." + str(long_digits(three, 1200)), str(long_digits(three, 600)) + "." + str(long_digits(three, 600)) + "E-300"])
    yield from once("%dE%d" % pair for pair in KNOWN)
    yield from once(line for line in wide(300, three) if len(line) < 120)
    yield from once(line for line in itertools.islice(all_halves(three), 0, 6 * FIELDS, 6 * 97) if len(line) < 500)
    yield from once(hard(150, three))
    yield from once(doubles(100, three))
    yield from once(line for line in borders(160, three) if len(line) < 120)


# ---------------------------------------------------------------------------------------------------------------------
# How near to half-way the lines of a stream lie, told from the lines alone

DECIMAL = re.compile(rb"[+-]?([0-9]*)\.?([0-9]*)(?:[Ee]([+-]?[0-9]{1,80}))?\Z")


def has_ties(e):
    """Half-way lie the odd numbers of 54 bits times a power of two. m * 10^e is one for some m where an odd multiple of 5^e has 54 bits,
    or where the least odd number of 54 bits times 5^-e is an m."""
    return 5 ** e < 1 << 54 if e >= 0 else ((1 << 53) + 1) * 5 ** -e < LIMIT


def past_half(m, e):
    """How far m * 10^e lies past half-way between two f64s, in units of the last place: 0 for a tie, less than 0 below half-way."""
    over, under = (m * 10 ** e, 1) if e >= 0 else (m, 10 ** -e)
    up = min(53 - over.bit_length() + under.bit_length(), 1074)
    over, under = (over << up, under) if up >= 0 else (over, under << -up)
    if over >= under << 53:
        under *= 2
    return (2 * (over % under) - under) / (2 * under)


def tally(lines):
    ties, neighbours, sides, digits, others = {}, {}, {}, {}, 0
    for line in lines:
        found = DECIMAL.match(line)
        m = (found[1] + found[2]).lstrip(b"0") if found else b""
        e = int(found[3] or b"0") - len(found[2]) if found else 0
        if not m or len(m) > NOW.longest or e not in EXPONENTS:
            others += 1
            continue
        digits[len(m)] = digits.get(len(m), 0) + 1
        m = int(m)
        past = past_half(m, e)
        if past == 0:
            ties[e] = ties.get(e, 0) + 1
            continue
        if m > 1 and past_half(m - 1, e) == 0 or past_half(m + 1, e) == 0:
            neighbours[e] = neighbours.get(e, 0) + 1
        count, nearest = sides.get((e, past > 0), (0, 1))
        sides[e, past > 0] = count + 1, min(nearest, abs(past))
    print("exponent: ties, below and above half-way (neighbours of ties among them), the nearest on each side in units of the last place")
    lacking = []
    for e in EXPONENTS:
        (below_, near_below), (above, near_above) = sides.get((e, False), (0, 1)), sides.get((e, True), (0, 1))
        print("%d: %d, %d and %d (%d), %.1e and %.1e" % (e, ties.get(e, 0), below_, above, neighbours.get(e, 0), near_below, near_above))
        if (e in ties) != has_ties(e) or (e in neighbours) != has_ties(e) or not below_ or not above:
            lacking.append(e)
    print("digits " + ", ".join("%d: %d" % pair for pair in sorted(digits.items())))
    print("ties %d in %d exponents, beside half-way %d in %d, of these neighbours of ties %d in %d; zero or not of the class %d" % (
        sum(ties.values()), len(ties), sum(count for count, _ in sides.values()), len({e for e, _ in sides}),
        sum(neighbours.values()), len(neighbours), others))
    if lacking or len(digits) != NOW.longest:
        sys.exit("decimals.py: exponents that lack something: %s; numbers of digits: %d" % (lacking, len(digits)))


def is_tie(m, e):
    """Whether m * 10^e lies half-way between two f64s, or between the largest and 2^1024: whether it is an odd number of 54 bits times a power
    of two, or one of fewer bits times 2^-1075."""
    if m == 0 or e > 1100:
        return False
    if e < 0:
        if e < -1200 - 4 * m.bit_length():
            return False
        m, rest = divmod(m, 5 ** -e if e < -2000 else fives(-e))
        if rest:
            return False
    else:
        m *= fives(e)
    odd = (m & -m).bit_length() - 1
    bits, two = m.bit_length() - odd, e + odd
    return -1075 <= two <= 970 and (bits == 54 or two == -1075 and bits < 54)


def reach(lines):
    digits, exponents, ties, others = [], set(), 0, 0
    for line in lines:
        found = DECIMAL.match(line)
        if not found:
            others += 1
            continue
        m = (found[1] + found[2]).lstrip(b"0")
        e = int(found[3] or b"0") - len(found[2])
        digits.append(len(m))
        exponents.add(e)
        ties += is_tie(int(m or b"0"), e)
    print("digits: %d more than 19, %d more than 100, %d more than 800, at most %d; e: %d of -400 to 400, %d others; ties %d; lines not looked at %d" % (
        sum(n > 19 for n in digits), sum(n > 100 for n in digits), sum(n > 800 for n in digits), max(digits, default=0),
        sum(e in exponents for e in range(-400, 401)), sum(abs(e) > 400 for e in exponents), ties, others))


def tried():
    sides = 0
    kinds = [(e, 4) for e in EXPONENTS] + [(e, 2) for e in HARD if e not in EXPONENTS]
    for e, most in kinds:
        for span in (span for digits in range(1, most + 1) for span in spans(e, digits)):
            past = {m: past_half(m, e) for m in range(span.low, span.high + 1)}
            found = [m for m in past if past[m] == 0]
            tie = span.tie(Rng(e - HARD.start))
            assert tie in found if found else tie is None, (e, span, tie, found)
            for above in (False, True):
                side = [abs(past[m]) for m in past if past[m] and (past[m] > 0) == above]
                m = span.next_to(above)
                assert (m is None) == (not side) and (m is None or past[m] and (past[m] > 0) == above and abs(past[m]) == min(side)), (e, span, above, m)
                sides += m is not None
    print("tried: %d nearest" % sides)


STREAMS = {"class": (of_class, 1), "ties": (ties, 2), "edges": (edges, 3), "outside": (outside, 4), "malformed": (malformed, 5),
           "wide": (wide, 6), "halves": (halves, 7), "hard": (hard, 8), "doubles": (doubles, 9), "borders": (borders, 10)}


def main():
    name = sys.argv[1] if len(sys.argv) > 1 else ""
    if name == "tally" and len(sys.argv) == 2:
        tally(sys.stdin.buffer.read().removesuffix(b"\n").split(b"\n"))
        return
    if name == "reach" and len(sys.argv) == 2:
        reach(line.removesuffix(b"\n") for line in sys.stdin.buffer)
        return
    if name == "tried" and len(sys.argv) == 2:
        tried()
        return
    if name == "chosen" and len(sys.argv) == 2:
        lines = chosen()
    elif name == "exhaustive" and len(sys.argv) == 2:
        lines = exhaustive()
    elif name in STREAMS and len(sys.argv) == 4:
        make, number = STREAMS[name]
        lines = make(int(sys.argv[2]), Rng(int(sys.argv[3]), number))
    else:
        sys.exit(__doc__)
    out = sys.stdout.buffer
    before = b""
    for line in lines:
        out.write(before + (line.encode() if isinstance(line, str) else line))
        before = b"\n"
    if name != "chosen":  # its last line lacks the LF, which a reader must take too
        out.write(before)


if __name__ == "__main__":
    main()
