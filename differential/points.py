#!/usr/bin/env python3
"""Asks the oracle, or a program, for answers that were written down by hand from document 01 and its open points.

    points.py PROGRAM [ARGUMENT..]      such as: points.py ORACLE --part all

Each point is a file, the line that is looked at, and its answer. Prints each that is another, and how many there are.
"""

import subprocess
import sys

sys.dont_write_bytecode = True

from unitrules import RULES  # noqa: E402

M = b"ISO-10303-21;"
D = M + b"DATA;"


def at(arguments):
    """The file with one record A of these arguments, which begin at 23."""
    return D + b"#1=A(" + arguments + b");"


def first(arguments, reader, answer):
    return at(arguments), reader.encode() + b" @", answer


def hexed(text):
    return (text.hex() or "-").encode()


ONE = b"3ff0000000000000"
POINTS = [
    # Document 01: parameters.
    first(b"", "skip", b"10/0@23"),
    first(b" /*c*/ ", "skip", b"10/0@30"),
    first(b" /*c*/ ,", "ref", b"12/0@30"),
    (at(b"'a"), b"refused ", b"4/0@23"),
    (at(b"\"'\""), b"refused ", b"4/0@24"),
    first(b"\"", "skip", b"11/0@23"),
    first(b" 1\"a", "f64", b"11/0@25"),
    first(b"\"'\",x'", "skip", b""),
    first(b".X.", "bool", b"12/0@23"),
    first(b" .X. ,1", "bool", b"12/0@24"),
    first(b".t.", "bool", b"12/0@23"),
    first(b"..", "enum", b"-"),
    first(b".T.", "bool", b"T"),
    first(b".U.", "bool", b"U"),
    first(b"#4294967295", "ref", b"4294967295"),
    first(b"#4294967296", "ref", b"12/0@23"),
    first(b"$", "opt_ref", b"$"),
    first(b"$", "opt_f64", b"$"),
    first(b"$", "str", b"-"),
    first(b"$", "ref", b"12/0@23"),
    first(b"9223372036854775807", "i64", b"9223372036854775807"),
    first(b"-9223372036854775808", "i64", b"-9223372036854775808"),
    first(b"9223372036854775808", "i64", b"12/0@23"),
    first(b"1\x0b", "i64", b"12/0@23"),
    first(b"\xc2\xa01.", "f64", b"12/0@23"),
    first(b"-0.", "f64", b"8000000000000000"),
    # Example 9 and the class.
    first(b"1E22", "f64", b"4480f0cf064dd592"),
    first(b"1E23", "f64", b"44b52d02c7e14af6"),
    first(b"1E27", "f64", b"4589d971e4fe8402"),
    first(b"1E28", "f64", b"13/0@23"),
    first(b"-1E-27", "f64", b"ba53ce9a36f23c10"),
    first(b"-1E-28", "f64", b"13/0@23"),
    first(b"123456789012345", "f64", b"42dc12218377de40"),
    first(b"1234567890123456", "f64", b"43118b54f22aeb00"),
    first(b"1234567890123456789", "f64", b"43b12210f47de981"),
    first(b"12345678901234567890", "f64", b"13/0@23"),
    first(b"10000000000000000000", "f64", b"13/0@23"),
    first(b"9999999999999999999E27", "f64", b"497c06a5ec5433c6"),
    first(b"9999999999999999999E28", "f64", b"13/0@23"),
    first(b"9007199254740993", "f64", b"4340000000000000"),
    first(b"0.017453292519943295", "f64", b"3f91df46a2529d39"),
    first(b"6.283185307179586", "f64", b"401921fb54442d18"),
    first(b"-1.025893950136E-17", "f64", b"13/0@23"),
    first(b"0E23", "f64", b"0000000000000000"),
    first(b"-0E27", "f64", b"8000000000000000"),
    first(b"0E28", "f64", b"13/0@23"),
    first(b"0." + b"0" * 27, "f64", b"0000000000000000"),
    first(b"0." + b"0" * 28, "f64", b"13/0@23"),
    first(b"1E0000000000000000022", "f64", b"4480f0cf064dd592"),
    first(b"1E0000000000000000027", "f64", b"4589d971e4fe8402"),
    first(b"1E", "f64", b"12/0@23"),
    first(b"inf", "f64", b"12/0@23"),
    first(b"nan", "opt_f64", b"12/0@23"),
    # Lists and grids.
    first(b"()", "f64_list", b"-"),
    first(b"( )", "f64_list", b"-"),
    first(b"(1,)", "f64_list", b"12/0@26"),
    first(b"(1, )", "f64_list", b"12/0@27"),
    first(b"(1)(2)", "f64_list", b"12/0@24"),
    first(b"(1,1E28,x)", "f64_list", b"13/0@26"),
    first(b"(1,x,1E28)", "f64_list", b"12/0@26"),
    first(b"((1,2),(3))", "f64_grid", b"3ff0000000000000,4000000000000000,4008000000000000|2,3"),
    first(b"((),())", "ref_grid", b"-|0,0"),
    first(b"((#1),#2)", "ref_grid", b"12/0@29"),
    first(b"(#1/*c*/)", "ref_list", b"12/0@24"),
    # Open point 1: measures.
    first(b"(1.)", "measure", ONE),
    first(b"$(1.)", "measure", ONE),
    first(b"'s'(1.)", "measure", ONE),
    first(b"K( 1. )", "measure", ONE),
    first(b"K/*(*/(1.)", "measure", b"12/0@23"),
    first(b"K(/**/1.)", "measure", b"12/0@23"),
    first(b"K(1E23)", "measure", b"44b52d02c7e14af6"),
    first(b"K(1E28)", "measure", b"13/0@23"),
    # Strings: examples 7 and 8, open point 2 and what the Rust settles.
    first(b"'\\X2\\00C40042\\X0\\'", "str", b"c38442"),
    first(b"'\\S\\D'", "str", b"c384"),
    first(b"'\\X\\C4'", "str", b"c384"),
    first(b"'\\X2\\0041ZZZZ\\X0\\'", "str", hexed(b"A\\X2\\0041ZZZZ\\X0\\")),
    first(b"'\\X2\\'''", "str", b"27"),
    first(b"'a'b", "str", b"6127"),
    first(b"'\\X2\\D83D'", "str", hexed(b"\\X2\\D83D")),
    first(b"'\\X2\\D83DDE00\\X0\\'", "str", b"f09f9880"),
    first(b"'\\X2\\D83D0041\\X0\\'", "str", b"efbfbd"),
    first(b"'\\X2\\D83DE000\\X0\\'", "str", b"efbfbd"),
    first(b"'\\X2\\D83D00410042\\X0\\'", "str", b"efbfbd42"),
    first(b"'\\X2\\D83D0041ZZZZ\\X0\\'", "str", hexed("\ufffd\\X2\\D83D0041ZZZZ\\X0\\".encode())),
    first(b"'\\X4\\0000D83D\\X0\\'", "str", b"efbfbd"),
    first(b"'\\S\\\xc3\x84'", "str", hexed("\u0143".encode()) + b"c284"),
    # Pages (request #109), and what the open points say of them.
    first(b"'\\PA\\\\S\\D'", "str", b"c384"),
    first(b"'\\Pb\\\\S\\!'", "str", hexed("\u0104".encode())),
    first(b"'\\PC\\\\S\\%'", "str", hexed("\ufffd".encode())),
    first(b"'\\PD\\\\S\\\x7f'", "str", hexed("\u02d9".encode())),
    first(b"'\\PE\\\\S\\p'", "str", hexed("\u2116".encode())),
    first(b"'\\PF\\\\S\\G'", "str", hexed("\u0627".encode())),
    first(b"'\\PG\\\\S\\D'", "str", hexed("\u0394".encode())),
    first(b"'\\PG\\\\S\\$\\S\\%\\S\\*'", "str", hexed("\u20ac\u20af\u037a".encode())),
    first(b"'\\Ph\\\\S\\}\\S\\~'", "str", hexed("\u200e\u200f".encode())),
    first(b"'\\PI\\\\S\\p'", "str", hexed("\u011f".encode())),
    first(b"'\\PJ\\\\S\\p'", "str", hexed("\u00f0".encode())),
    first(b"'\\PG\\\\P\\\\\\S\\D'", "str", b"c384"),
    first(b"'\\PG\\\\PA\\\\S\\D'", "str", b"c384"),
    first(b"'\\PG\\\\S\\D\\PE\\\\S\\D'", "str", hexed("\u0394\u0424".encode())),
    first(b"'\\PG\\\\X\\C4a\xc4''\\S\\D'", "str", hexed("\u00c4a\u00c4'\u0394".encode())),
    first(b"'\\PG\\\\S\\\x1f\\S\\\xc4'", "str", hexed("\u009f\u0144".encode())),
    first(b"'\\PG\\\\X2\\0041ZZZZ\\S\\D'", "str", hexed("A\\X2\\0041ZZZZ\u0394".encode())),
    first(b"'\\\\PG\\\\S\\D'", "str", hexed(b"\\PG\\S\\D")),
    (M + b"HEADER;FILE_NAME('\\PG\\\\S\\D',1,2,3,4,'\\S\\D');", b"name ", hexed("\u0394".encode())),
    (M + b"HEADER;FILE_NAME('\\PG\\\\S\\D',1,2,3,4,'\\S\\D');", b"system ", b"c384"),
    # Example 11.
    (D + b"#1=A((1);#2=B(2));", b"r 0 ", b"1 21 22 23 34 0"),
    (D + b"#1=A((1);#2=B(2));", b"r 1 ", b"2 30 31 32 33 0"),
    # Lookups: example 6, and ids that no table is sized by.
    (D + b"#1=A(1);#1=B(2);", b"l 1 ", b"1"),
    (D + b"#4294967295=A();", b"l 4294967295 ", b"0"),
    (D + b"#4294967295=A();", b"l 0 ", b"none"),
    (M + b"HEADER;FILE_NAME('a',1,2,3,4,'s');", b"name ", b"61"),
    (M + b"HEADER;file_name('a',1,2,3,4,'s');", b"system ", b"73"),
    (M + b"HEADER;FILE_NAME(5,1,2,3,4);", b"name ", b"-"),
    (M + b"HEADER;FILE_NAME(5,1,2,3,4);", b"system ", b"-"),
]

CONTEXT = b"#1=(GEOMETRIC_REPRESENTATION_CONTEXT(3)GLOBAL_UNIT_ASSIGNED_CONTEXT((#2)));"
DEFAULT = ONE + b" " + ONE + b" 3f50624dd2f1a9fc 0"


def units(records, answer):
    return D + records, b"units ", answer


def length(bits):
    return bits + b" " + ONE + b" 3f50624dd2f1a9fc 1"


def chain(steps):
    """Unit 2 and then `steps` conversions down to the metre; each unit's arguments begin where it says."""
    out, number = CONTEXT, 2
    for _ in range(steps):
        out += b"#%d=(LENGTH_UNIT()CONVERSION_BASED_UNIT('',#%d));#%d=M(1.,#%d);" % (number, number + 1, number + 1, number + 2)
        number += 2
    return out + b"#%d=(LENGTH_UNIT()SI_UNIT($,.METRE.));" % number


SEVENTEENTH = (D + chain(17)).index(b"#34=(") + 5
POINTS += [
    units(b"", DEFAULT),
    units(CONTEXT, DEFAULT),
    units(CONTEXT + b"#2=(LENGTH_UNIT()SI_UNIT(.MILLI.,.METRE.));", length(ONE)),
    units(CONTEXT + b"#2=(LENGTH_UNIT()SI_UNIT(.NANO.,.METRE.));", length(b"3eb0c6f7a0b5ed8e")),
    units(CONTEXT + b"#2=SI_UNIT(.MILLI.,.METRE.);", DEFAULT),
    units(CONTEXT + b"#2=(LENGTH_UNIT()CONVERSION_BASED_UNIT('',#3));#3=K(25.4,#4);#4=SI_UNIT(.MILLI.,.METRE.);", length(b"4039666666666666")),
    units(chain(16), length(b"408f400000000000")),
    units(chain(17), b"15/0@%d" % SEVENTEENTH),
    units(CONTEXT + b"#2=(LENGTH_UNIT()CONVERSION_BASED_UNIT('',#3));#3=M(1.,#2);", b"15/0@%d" % (len(D + CONTEXT) + 4)),
    units(CONTEXT + b"#2=(LENGTH_UNIT()CONVERSION_BASED_UNIT('',#3));#3=M(1E28,#9);", b"13/0@%d" % (len(D + CONTEXT) + 52)),
    units(CONTEXT + b"#2=(LENGTH_UNIT()CONVERSION_BASED_UNIT('',#3));#3=M(inf,#9);", DEFAULT),
    units(CONTEXT + b"#2=(LENGTH_UNIT()CONVERSION_BASED_UNIT('',#3));#3=M(1.,#9);", DEFAULT),
    # Open point 3: an angle's measure that is complex.
    units(
        CONTEXT.replace(b"#2)", b"#2,#4)")
        + b"#2=(PLANE_ANGLE_UNIT()CONVERSION_BASED_UNIT('',#3));#3=(M(0.5));#4=(LENGTH_UNIT()SI_UNIT(.MILLI.,.METRE.));",
        ONE + b" 3fe0000000000000 3f50624dd2f1a9fc 1",
    ),
    # Open point 4: a faulty record that nothing names refuses, unless it stands after the deciding context.
    units(b"#5=(A'('(1));" + CONTEXT + b"#2=(LENGTH_UNIT()SI_UNIT(.MILLI.,.METRE.));", b"4/0@%d" % (len(D) + 7)),
    units(CONTEXT + b"#2=(LENGTH_UNIT()SI_UNIT(.MILLI.,.METRE.));#5=(A'('(1));", length(ONE)),
    units(CONTEXT + b"#5=(A'('(1));", b"4/0@%d" % (len(D + CONTEXT) + 7)),
    # Open point 6: an unreadable conversion name is one that cannot be skipped.
    units(CONTEXT + b"#2=(LENGTH_UNIT()CONVERSION_BASED_UNIT());", b"10/0@%d" % (len(D + CONTEXT) + 39)),
    units(CONTEXT + b"#2=(LENGTH_UNIT()CONVERSION_BASED_UNIT(5,#3));", DEFAULT),
    units(CONTEXT + b"#2=(LENGTH_UNIT()CONVERSION_BASED_UNIT(5,6));", b"12/0@%d" % (len(D + CONTEXT) + 41)),
]


# One file and more for each rule of 'Units'.
POINTS += [(case, b"units ", answer) for case, answer in RULES]


def main():
    wrong = 0
    run = b"".join(b"%d\n" % len(case) + case for case, _, _ in POINTS)
    out = subprocess.run(sys.argv[1:], input=run, stdout=subprocess.PIPE, check=True).stdout
    told = out.split(b"case ")[1:]
    if len(told) != len(POINTS):
        sys.exit("points.py: %d answers to %d points" % (len(told), len(POINTS)))
    for (case, head, answer), one in zip(POINTS, told):
        lines = [line for line in one.splitlines() if line.startswith(head)]
        have = lines[0][len(head):] if lines else None
        if have is not None and head.endswith(b"@"):
            have = have.partition(b" ")[2]
        if have != answer:
            wrong += 1
            print("%r: %s is %r, wanted is %r" % (case, head.decode(), have, answer))
    print("points %d wrong %d" % (len(POINTS), wrong))
    sys.exit(wrong != 0)


if __name__ == "__main__":
    main()
