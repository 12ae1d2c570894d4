#!/usr/bin/env python3
"""Writes a hostile unit file to standard output.

    units.py KIND N

chain      a context that lists one unit N times; sixteen conversions lead from it to the metre
contexts   N contexts whose units give no length factor
units      a context that lists N complex units of 24 parts each, none of which gives a factor but the last
tolerances a context that lists N uncertainties that do not read
circle     a context that lists N units, each the first of sixteen conversions that all units share
wide       a context that lists one unit of N parts N times
long       a context that lists one uncertainty N times, whose first parameter is a string of N letters
many       N contexts that list one angle unit of N parts
"""

import sys

CONTEXT = "#%d=(GEOMETRIC_REPRESENTATION_CONTEXT(3)GLOBAL_UNCERTAINTY_ASSIGNED_CONTEXT((%s))GLOBAL_UNIT_ASSIGNED_CONTEXT((%s)));\n"
MM = "#2=(LENGTH_UNIT()NAMED_UNIT(*)SI_UNIT(.MILLI.,.METRE.));\n"


def listed(ids):
    return ",".join("#%d" % i for i in ids)


def chain(first):
    """Sixteen conversions from a unit down to the metre."""
    out = []
    for i in range(first, first + 32, 2):
        out.append("#%d=(LENGTH_UNIT()NAMED_UNIT(*)CONVERSION_BASED_UNIT('U',#%d));\n#%d=LENGTH_MEASURE_WITH_UNIT(LENGTH_MEASURE(1.),#%d);\n" % (i, i + 1, i + 1, i + 2))
    return "".join(out) + "#%d=(LENGTH_UNIT()NAMED_UNIT(*)SI_UNIT($,.METRE.));\n" % (first + 32)


def wide(number, role, n):
    return "#%d=(%s()%s);\n" % (number, role, "A(1)" * n)


def body(kind, n):
    if kind == "chain":
        return CONTEXT % (1, "", listed([3] * n)) + chain(3)
    if kind == "contexts":
        return "".join(CONTEXT % (i, "", "#2,#9") for i in range(10, 10 + n)) + "#2=(PLANE_ANGLE_UNIT()SI_UNIT($,.RADIAN.));\n"
    if kind == "units":
        units = range(10, 10 + n)
        return CONTEXT % (1, "", listed(units) + ",#2") + "".join(wide(i, "LENGTH_UNIT", 24) for i in units) + MM
    if kind == "tolerances":
        all_of = range(10, 10 + n)
        return CONTEXT % (1, listed(all_of), "#2") + "".join("#%d=UNCERTAINTY_MEASURE_WITH_UNIT($,#2,'a','b');\n" % i for i in all_of) + MM
    if kind == "circle":
        units = range(100, 100 + n)
        firsts = "".join("#%d=(LENGTH_UNIT()CONVERSION_BASED_UNIT('U',#6));\n" % i for i in units)
        return CONTEXT % (1, "", listed(units)) + firsts + chain(5)
    if kind == "wide":
        return CONTEXT % (1, "", listed([3] * n) + ",#2") + wide(3, "LENGTH_UNIT", n) + MM
    if kind == "long":
        return CONTEXT % (1, listed([3] * n), "#2") + "#3=UNCERTAINTY_MEASURE_WITH_UNIT('%s');\n" % ("a" * n) + MM
    if kind == "many":
        return "".join(CONTEXT % (i, "", "#3") for i in range(10, 10 + n)) + wide(3, "PLANE_ANGLE_UNIT", n)
    sys.exit(__doc__)


if __name__ == "__main__":
    if len(sys.argv) != 3:
        sys.exit(__doc__)
    sys.stdout.write("ISO-10303-21;\nDATA;\n" + body(sys.argv[1], int(sys.argv[2])) + "ENDSEC;\nEND-ISO-10303-21;\n")
