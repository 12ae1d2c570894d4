"""Unit files written by hand, one or more for each rule of document 01's 'Units', each with its answer.

The stream `unitrules` has the files, and `points.py` holds a program's answers against those that stand here."""

from draw import D

ONE = b"3ff0000000000000"
INCH = b"4039666666666666"
METRE = b"408f400000000000"
CENTIMETRE = b"4024000000000000"
HALF = b"3fe0000000000000"
THOUSANDTH = b"3f50624dd2f1a9fc"
HUNDREDTH = b"3f847ae147ae147b"
DEGREE = b"3f91df46a2529d39"
TEN_TO_23 = b"44b52d02c7e14af6"
TEN_TO_MINUS_27 = b"3a53ce9a36f23c10"
PREFIXES = [  # in millimetres and in radians, the f64 next to 1000.0 times the factor and to the factor
    (b"EXA", 1000.0 * 1e18, 1e18), (b"PETA", 1000.0 * 1e15, 1e15), (b"TERA", 1000.0 * 1e12, 1e12), (b"GIGA", 1000.0 * 1e9, 1e9),
    (b"MEGA", 1000.0 * 1e6, 1e6), (b"KILO", 1000.0 * 1e3, 1e3), (b"HECTO", 1000.0 * 1e2, 1e2), (b"DECA", 1000.0 * 1e1, 1e1),
    (b"DECI", 1000.0 * 1e-1, 1e-1), (b"CENTI", 1000.0 * 1e-2, 1e-2), (b"MILLI", 1000.0 * 1e-3, 1e-3), (b"MICRO", 1000.0 * 1e-6, 1e-6),
    (b"NANO", 1000.0 * 1e-9, 1e-9), (b"PICO", 1000.0 * 1e-12, 1e-12), (b"FEMTO", 1000.0 * 1e-15, 1e-15), (b"ATTO", 1000.0 * 1e-18, 1e-18),
    (b"MILI", 1000.0, 1.0),
]


def pattern(x):
    import struct
    return b"%016x" % struct.unpack("<Q", struct.pack("<d", x))


def told(length=ONE, angle=ONE, tolerance=THOUSANDTH, resolved=1):
    return b"%s %s %s %d" % (length, angle, tolerance, resolved)


DEFAULT = told(resolved=0)


def context(units, uncertainties=None, number=1, dimension=b"3"):
    out = b"#%d=(GEOMETRIC_REPRESENTATION_CONTEXT(%s)GLOBAL_UNIT_ASSIGNED_CONTEXT(%s)" % (number, dimension, units)
    if uncertainties is not None:
        out += b"GLOBAL_UNCERTAINTY_ASSIGNED_CONTEXT(%s)" % uncertainties
    return out + b");"


def si(number, prefix=b".MILLI.", name=b".METRE.", role=b"LENGTH_UNIT"):
    return b"#%d=(%s()SI_UNIT(%s,%s));" % (number, role, prefix, name)


def converted(number, measure, role=b"LENGTH_UNIT", name=b"'INCH'"):
    return b"#%d=(%s()CONVERSION_BASED_UNIT(%s,%s));" % (number, role, name, measure)


def radian(number, prefix=b"$", name=b".RADIAN."):
    return si(number, prefix, name, b"PLANE_ANGLE_UNIT")


def chain(steps):
    """A context, and unit 2 with so many conversions down to the metre."""
    out = context(b"(#2)")
    for number in range(2, 2 + 2 * steps, 2):
        out += converted(number, b"#%d" % (number + 1)) + b"#%d=M(1.,#%d);" % (number + 1, number + 2)
    return out + si(2 + 2 * steps, b"$")


def refused(number, records, before):
    """A refusal at the end of the first `before` in the file."""
    return D + records, b"%d/0@%d" % (number, (D + records).index(before) + len(before))


def answered(answer, *records):
    return D + b"".join(records), answer


MM = si(2)
FAULT = b"#9=(A'('(1));"  # the part's `(` lies in a string: the quote behind it opens one that never ends
REMARK = b"#9=(A'(/*'(1));"  # the same with a comment
DEEP = b"#9=(A/*((*/(1));"  # the part's `(` lies in a comment, and there is one `)` too few
L = context(b"(#2)")

RULES = [
    # "A unit context is a GEOMETRIC_REPRESENTATION_CONTEXT record, or a complex one with that part, whose first parameter reads as an
    # integer."
    answered(told(), L, MM),
    answered(DEFAULT, b"#1=GEOMETRIC_REPRESENTATION_CONTEXT(3);", MM),
    answered(DEFAULT, context(b"(#2)", dimension=b"'3'"), MM),
    answered(DEFAULT, context(b"(#2)", dimension=b""), MM),
    answered(DEFAULT, b"#1=(GLOBAL_UNIT_ASSIGNED_CONTEXT((#2)));", MM),
    # "The first, superseded ones included, whose units give a length factor decides"
    answered(told(METRE), L, context(b"(#3)", number=5), si(2, b"$"), si(3)),
    answered(told(), L, b"#1=A();", MM),
    answered(told(METRE), context(b"(#4)"), context(b"(#2)", number=5), si(2, b"$"), radian(4, b".CENTI.")),
    # "its later length unit overwrites an earlier, as with angles (1.0 without one)"
    answered(told(CENTIMETRE), context(b"(#2,#3)"), MM, si(3, b".CENTI.")),
    answered(told(), context(b"(#2,#3)"), MM, si(3, b".CENTI.", b".SECOND.")),
    answered(told(angle=HUNDREDTH), context(b"(#2,#3,#4)"), MM, radian(3), radian(4, b".CENTI.")),
    # "In a unit list the role is a complex record's first part of LENGTH_UNIT, PLANE_ANGLE_UNIT and SOLID_ANGLE_UNIT; a simple record
    # gives no factor there."
    answered(told(), L, b"#2=(LENGTH_UNIT()PLANE_ANGLE_UNIT()SI_UNIT(.MILLI.,.METRE.));"),
    answered(DEFAULT, L, b"#2=(PLANE_ANGLE_UNIT()LENGTH_UNIT()SI_UNIT(.MILLI.,.METRE.));"),
    answered(DEFAULT, L, b"#2=(SOLID_ANGLE_UNIT()LENGTH_UNIT()SI_UNIT(.MILLI.,.METRE.));"),
    answered(DEFAULT, L, b"#2=SI_UNIT(.MILLI.,.METRE.);"),
    answered(DEFAULT, L, b"#2=LENGTH_UNIT();"),
    # "Tolerance: the first listed simple UNCERTAINTY_MEASURE_WITH_UNIT that reads, else 1e-3."
    answered(told(tolerance=HUNDREDTH), context(b"(#2)", b"(#3)"), MM, b"#3=UNCERTAINTY_MEASURE_WITH_UNIT(LENGTH_MEASURE(0.01),#2);"),
    answered(
        told(tolerance=HUNDREDTH), context(b"(#2)", b"(#9,#3,#4,#5,#6)"), MM, b"#3=(UNCERTAINTY_MEASURE_WITH_UNIT(0.5,#2));", b"#4=M(0.5);",
        b"#5=UNCERTAINTY_MEASURE_WITH_UNIT($);", b"#6=UNCERTAINTY_MEASURE_WITH_UNIT(0.01);",
    ),
    answered(
        told(tolerance=HUNDREDTH), context(b"(#2)", b"(#3,#4)"), MM, b"#3=UNCERTAINTY_MEASURE_WITH_UNIT(0.01);", b"#4=UNCERTAINTY_MEASURE_WITH_UNIT(1E28);",
    ),
    answered(told(), context(b"(#2)", b"()"), MM),
    # "No such context: 1.0, 1.0, 1e-3, unresolved."
    answered(DEFAULT, MM),
    answered(DEFAULT, context(b"(#2)", b"(#3)"), b"#3=UNCERTAINTY_MEASURE_WITH_UNIT(0.01);"),
    # "An SI part goes before a conversion; an unreadable prefix is none, an unreadable name METRE or RADIAN, another name no factor; all in
    # either case."
    answered(told(CENTIMETRE), L, b"#2=(CONVERSION_BASED_UNIT('',#3)LENGTH_UNIT()SI_UNIT(.CENTI.,.METRE.));#3=M(25.4,#4);", si(4)),
    answered(DEFAULT, L, b"#2=(CONVERSION_BASED_UNIT('',#3)LENGTH_UNIT()SI_UNIT(.CENTI.,.SECOND.));#3=M(25.4,#4);", si(4)),
    answered(told(METRE), L, si(2, b"5")),
    answered(told(METRE), L, si(2, b"$")),
    answered(told(), L, si(2, name=b"5")),
    answered(told(), L, b"#2=(LENGTH_UNIT()SI_UNIT(.MILLI.));"),
    answered(told(METRE), L, b"#2=(LENGTH_UNIT()SI_UNIT());"),
    answered(told(angle=HUNDREDTH), context(b"(#2,#3)"), MM, radian(3, b".CENTI.", b"$")),
    answered(DEFAULT, L, si(2, name=b".METER.")),
    answered(DEFAULT, L, si(2, name=b".RADIAN.")),
    answered(told(), context(b"(#2,#3)"), MM, radian(3, b".CENTI.", b".METRE.")),
    answered(told(), L, si(2, b".milli.", b".Metre.")),
    answered(told(), L.lower(), MM.lower()),
    # "A conversion unit leads to a measure and the measure to its base unit, value times base factor"
    answered(told(INCH), L, converted(2, b"#3"), b"#3=LENGTH_MEASURE_WITH_UNIT(LENGTH_MEASURE(25.4),#4);", si(4)),
    answered(told(INCH), L, converted(2, b"#3"), b"#3=M(2.54,#4);", si(4, b".CENTI.")),
    answered(told(INCH), L, converted(2, b"#3"), b"#3=M(25.4,#4);", b"#4=SI_UNIT(.MILLI.,.METRE.);"),
    answered(told(pattern(0.3 * 1000.0)), L, converted(2, b"#3"), b"#3=M(0.3,#4);", si(4, b"$")),
    answered(told(pattern(-1.5)), L, converted(2, b"#3"), b"#3=M(-1.5,#4);", si(4)),
    # "a missing record, or an unreadable number or base, gives no factor, nor does a complex length measure lacking a
    # LENGTH_MEASURE_WITH_UNIT part"
    answered(DEFAULT, L),
    answered(DEFAULT, L, converted(2, b"#3")),
    answered(DEFAULT, L, converted(2, b"#3"), b"#3=M(25.4,#4);"),
    answered(DEFAULT, L, converted(2, b"#3"), b"#3=M('a',#4);", si(4)),
    answered(DEFAULT, L, converted(2, b"#3"), b"#3=M(25.4,4);", si(4)),
    answered(DEFAULT, L, converted(2, b"#3"), b"#3=(M(25.4,#4));", si(4)),
    answered(told(INCH), L, converted(2, b"#3"), b"#3=(M()LENGTH_MEASURE_WITH_UNIT(25.4,#4));", si(4)),
    # "An unreadable unit or uncertainty list, conversion name or measure reference in any context tried, or a fault in the parts of a
    # complex record met, refuses the whole answer."
    refused(10, context(b"") + MM, b"ASSIGNED_CONTEXT("),
    refused(11, context(b"\"") + MM, b"ASSIGNED_CONTEXT("),
    refused(12, context(b"(#2,5)") + MM, b"(#2,"),
    refused(12, context(b"(#2)", b"(#3,$)") + MM, b"(#3,"),
    refused(10, context(b"(#2)", b"") + MM, b"UNCERTAINTY_ASSIGNED_CONTEXT("),
    refused(11, context(b"(#2)", b"\"") + MM, b"UNCERTAINTY_ASSIGNED_CONTEXT("),
    refused(12, context(b"(5)") + context(b"(#2)", number=5) + MM, b"ASSIGNED_CONTEXT(("),
    refused(10, L + b"#2=(LENGTH_UNIT()CONVERSION_BASED_UNIT());", b"CONVERSION_BASED_UNIT("),
    refused(11, L + converted(2, b"#3", name=b"\""), b"CONVERSION_BASED_UNIT("),
    refused(10, L + b"#2=(LENGTH_UNIT()CONVERSION_BASED_UNIT('a'));", b"'a'"),
    refused(12, L + converted(2, b"5", name=b"*"), b"*,"),
    refused(12, L + converted(2, b"5", b"PLANE_ANGLE_UNIT"), b"'INCH',"),
    refused(3, REMARK + L + MM, b"#9=(A'("),
    refused(4, FAULT + L + MM, b"#9=(A'("),
    refused(6, DEEP + L + MM, b"#9=(A/*"),
    refused(4, L + b"#2=(LENGTH_UNIT()A'('(1));", b"LENGTH_UNIT()A'("),
    refused(4, L + converted(2, b"#3") + b"#3=(A'('(1));", b"#3=(A'("),
    refused(4, b"#1=(GEOMETRIC_REPRESENTATION_CONTEXT(3)GLOBAL_UNIT_ASSIGNED_CONTEXT((#2))A'('(1));" + MM, b"(#2))A'("),
    answered(told(), L, MM, FAULT),
    # "The seventeenth conversion unit on one chain is 15, before its name."
    answered(told(METRE), chain(15)),
    answered(told(METRE), chain(16)),
    refused(15, chain(17), b"#34=("),
    refused(15, chain(17).replace(b"#34=(LENGTH_UNIT()CONVERSION_BASED_UNIT('INCH',#35));", b"#34=(CONVERSION_BASED_UNIT());"), b"#34=("),
    refused(15, L + converted(2, b"#3") + b"#3=M(1.,#2);", b"#2=("),
    answered(told(CENTIMETRE), chain(16).replace(b"SI_UNIT($,.METRE.)", b"CONVERSION_BASED_UNIT()SI_UNIT(.CENTI.,.METRE.)")),
    # "An angle's conversion gives the measure's number alone."
    answered(told(angle=HALF), context(b"(#2,#3)"), MM, converted(3, b"#4", b"PLANE_ANGLE_UNIT"), b"#4=M(0.5,#5);", radian(5, b".CENTI.")),
    answered(told(angle=HALF), context(b"(#2,#3)"), MM, converted(3, b"#4", b"PLANE_ANGLE_UNIT"), b"#4=M(0.5,#9);"),
    answered(told(), context(b"(#2,#3)"), MM, converted(3, b"#4", b"PLANE_ANGLE_UNIT"), b"#4=M($,#9);"),
    answered(told(), context(b"(#2,#3)"), MM, converted(3, b"#4", b"PLANE_ANGLE_UNIT")),
    # Numbers that the class of fifteen digits left out: the degree as two exporters write it, and others inside the bounds of today.
    answered(told(angle=DEGREE), context(b"(#2,#3)"), MM, converted(3, b"#4", b"PLANE_ANGLE_UNIT"), b"#4=M(PLANE_ANGLE_MEASURE(0.017453292519943295),#5);", radian(5)),
    answered(told(TEN_TO_23), L, converted(2, b"#3"), b"#3=M(1E23,#4);", si(4)),
    answered(told(tolerance=TEN_TO_MINUS_27), context(b"(#2)", b"(#3)"), MM, b"#3=UNCERTAINTY_MEASURE_WITH_UNIT(1E-27);"),
    # "13 inside units refuses the whole answer."
    refused(13, L + converted(2, b"#3") + b"#3=M(1E28,#4);" + si(4), b"M("),
    refused(13, context(b"(#2,#3)") + MM + converted(3, b"#4", b"PLANE_ANGLE_UNIT") + b"#4=M(0.017453292519943295769,#5);", b"M("),
    refused(13, context(b"(#2,#3)") + MM + converted(3, b"#4", b"PLANE_ANGLE_UNIT") + b"#4=M(-1.025893950136E-17,#5);", b"M("),
    refused(13, context(b"(#2)", b"(#3)") + MM + b"#3=UNCERTAINTY_MEASURE_WITH_UNIT(1E28);", b"WITH_UNIT("),
]
# "Prefixes: EXA 1e18, .. any other 1.0."
RULES += [answered(told(pattern(mm)), L, si(2, b"." + word + b".")) for word, mm, _ in PREFIXES]
RULES += [answered(told(angle=pattern(factor)), context(b"(#2,#3)"), MM, radian(3, b"." + word + b".")) for word, _, factor in PREFIXES]


class UnitRules:
    """The files alone."""

    def __len__(self):
        return len(RULES)

    def __getitem__(self, i):
        return RULES[i][0]
