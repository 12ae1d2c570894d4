#!/usr/bin/env python3
"""Reads decimals, one to a line of standard input, and prints what decimals.rs prints: two answers, that of the class and that of any
real, each the 16 hex digits of the f64's bits, `12` for what is no real, or `13` for a real outside the class; and the program's own
words for a line that is too long for it.

    nearest.py <LINES

Written from the words of document 01 and of IEEE 754, with whole numbers only: no float occurs, nothing is parsed by another's
hand but digits, and no code is shared with decimals.py or the oracle.
"""

import sys

MOST_DIGITS = 19
MOST_EXPONENT = 27
ROOM = 4096
DIGITS = b"0123456789"


def digits_from(line, at):
    """Where the run of digits that begins at `at` ends."""
    while at < len(line) and line[at] in DIGITS:
        at += 1
    return at


def signed_from(line, at):
    """Whether a minus stands there, and the place after an optional sign."""
    sign = line[at:at + 1]
    return sign == b"-", at + (sign in (b"+", b"-"))


def read(line):
    """Optional sign; digits, at least one, with an optional point; optionally E or e, optional sign, digits. The sign, all digits without
    the point, and the exponent less the number of fraction digits; None for all else."""
    negative, at = signed_from(line, 0)
    end = digits_from(line, at)
    digits, fraction = line[at:end], b""
    if line[end:end + 1] == b".":
        at, end = end + 1, digits_from(line, end + 1)
        fraction = line[at:end]
    if not digits + fraction:
        return None
    exponent = 0
    if line[end:end + 1] in (b"E", b"e"):
        down, at = signed_from(line, end + 1)
        end = digits_from(line, at)
        if at == end:
            return None
        exponent = -int(line[at:end]) if down else int(line[at:end])
    if end != len(line):
        return None
    return negative, digits + fraction, exponent - len(fraction)


def bits(negative, m, e):
    """The bits of the f64 nearest to m times 10 to the e, of two that are equally near the even one: sign, exponent in 11 bits, the
    significand without its first bit in 52. From halfway between the largest and 2^1024 on it is infinity."""
    sign = 1 << 63 if negative else 0
    infinity = 0x7ff << 52
    if m == 0:
        return sign
    size = len(str(m)) + e  # 10^(size-1) <= m * 10^e < 10^size
    if size > 310:
        return sign | infinity
    if size < -330:
        return sign
    over, under = (m * 10 ** e, 1) if e >= 0 else (m, 10 ** -e)
    # The unit is 2^power: the least one, or the one of which there are 2^52 up to 2^53.
    power = max(-1074, over.bit_length() - under.bit_length() - 53)
    if not over << max(0, -53 - power) < under << max(0, 53 + power):
        power += 1
    if power < 0:
        over <<= -power
    else:
        under <<= power
    units = over // under
    twice = 2 * (over - units * under)  # the rest against half of `under`
    if twice > under or twice == under and units % 2 == 1:
        units += 1
    # Units of 2^52 and more have one in the exponent's place; where they are 2^53 the carry has made it two, of no units.
    found = (power + 1074 << 52) + units
    return sign | min(found, infinity)


def answer(line):
    if len(line) > ROOM:
        return "too long for this program"
    found = read(line)
    if found is None:
        return "12 12"
    negative, digits, e = found
    digits = digits.lstrip(b"0")
    value = "%016x" % bits(negative, int(digits or b"0"), e)
    if len(digits) > MOST_DIGITS or not -MOST_EXPONENT <= e <= MOST_EXPONENT:
        return "13 " + value
    return value + " " + value


def main():
    lines = sys.stdin.buffer.read().split(b"\n")
    if lines[-1] == b"":
        del lines[-1]
    sys.stdout.write("".join(answer(line) + "\n" for line in lines))


if __name__ == "__main__":
    main()
