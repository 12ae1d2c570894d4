"""The stream `units`: unit contexts, units, conversions, measures and tolerances, and what can be wrong with each.

A file is a small graph: contexts that list units and uncertainties, units that are SI units or lead over conversions and measures
to other units. Chains have none to eighteen conversions, end in an SI unit, in nothing or in a circle; records are missing,
superseded, simple where they should be complex, faulty in their parts; the records stand in any order. Each file has its own
rate of odd things, so that most give factors and the others refuse in many ways."""

from draw import D, Rng, damage
from parameters import ODD_MEASURES, ODD_REALS, REALS

PREFIXES = [
    b"EXA", b"PETA", b"TERA", b"GIGA", b"MEGA", b"KILO", b"HECTO", b"DECA", b"DECI", b"CENTI", b"MILLI", b"MICRO", b"NANO", b"PICO", b"FEMTO", b"ATTO",
]
ODD_PREFIXES = [b".MILI.", b".DEKA.", b".milli.", b".Kilo.", b"..", b"*", b"", b"MILLI", b".MILLI", b"'MILLI'", b".MILLI .", b"5", b".YOTTA.", b".\xff.", b"#1", b"()", b".MILLI./*c*/"]
ODD_SI_NAMES = [b".metre.", b".Radian.", b".SECOND.", b"$", b"*", b"", b".METER.", b"METRE", b"'METRE'", b"..", b".STERADIAN.", b".METRE", b"5", b"\"", b".RADIAN.", b".METRE."]
NAMES = [b"'INCH'", b"'inch'", b"'a,b'", b"'FOOT'", b"'DEGREE'"]
ODD_NAMES = [b"$", b"5", b"*", b"", b" ", b"#1", b"('a')", b"\"", b"\"a", b"'a'/*c*/", b"K(1)", b"\"a\"", b".T."]
DIMENSIONS = [b"3", b"3", b"3", b"3", b"2", b"+3", b"-1", b"0", b"003", b"9223372036854775807"]
ODD_DIMENSIONS = [b"", b"$", b"'3'", b"3.", b"9223372036854775808", b"\x0b3", b"3\xc2\xa0", b"*", b"#3", b"(3)", b"\"", b" 3 ", b"/*c*/3", b"3/*c*/", b"3 4"]
VALUES = [
    b"25.4", b"1.", b"0.3048", b"1000.", b"0.0254", b"2.54", b"0.0174532925199433", b"1.E-3", b"12", b"0.1", b"3.", b"1.E22", b"1.E-22", b"999999999999999.E22", b"0.", b"-1.5", b"-0.", b"1E22", b"0.3",
    b"0.017453292519943295", b"6.283185307179586", b"1E23", b"1.E-23", b"0.E23", b"1234567890123456.", b"1E27", b"1.E-27", b"9999999999999999999.E27", b"1.234567890123456789",
]
TOLERANCES = [b"1.E-7", b"0.01", b"1.0E-05", b"0.001", b"5.E-3", b"1.E-22", b"0.", b"-1.", b"1.E-27", b"1.0000000000000001E-05"]
FAULTS = [b"'('", b"/*(*/", b"'(/*'", b"'(''", b"/*('*/", b"/*((*/", b"\"(\"'"]
ODD_LISTS = [b"", b"$", b"()", b"( )", b"*", b"(1)", b"(#)", b"(#1.)", b"(,)", b"(#4294967296)", b"(\"", b"\"", b"('", b"K(#1)", b"(#1)(#2)", b"((#1))", b"(#1,'a')", b"(/*c*/#1)"]


class File:
    def __init__(self, r):
        self.r = r
        self.rate = r.pick([0, 0, 200, 60, 25, 8])
        self.records = []
        self.next = 10
        kind = r.below(12)
        self.base, self.step = (4294960000, 7) if kind == 0 else (0, 1) if kind < 10 else (r.below(100), 1 + r.below(900))

    def odd(self):
        return self.rate != 0 and self.r.one_in(self.rate)

    def id(self):
        self.next += 1
        return self.base + self.step * self.next

    def ref(self, number):
        if self.odd():
            return self.r.pick([b"$", b"*", b"", b"5", b"#", b"#999999", b"'a'", b"#4294967296", b"(#1)", b"#0", b"#%d.", b"\""]).replace(b"%d", b"%d" % number)
        return b"#%d" % number

    def keyword(self, word):
        if self.odd() and self.r.one_in(3):
            return self.r.pick([word.lower(), word.title(), word + b"S", word[:-1], b" " + word, word + b" "])
        return word

    def white(self, often):
        return self.r.pick([b" ", b"\n", b"\t", b"  "]) if self.r.one_in(often) else b""

    def put(self, number, body):
        self.records.append(b"#%d=" % number + body + b";")
        if self.odd() and self.r.one_in(3):  # superseded, or supersedes
            self.records.append(b"#%d=" % number + self.r.pick([b"A()", b"(A())", b"SI_UNIT($,.METRE.)", b"(LENGTH_UNIT()SI_UNIT(.CENTI.,.METRE.))", body, b"LENGTH_MEASURE_WITH_UNIT(2.,#1)"]) + b";")

    def complex(self, parts):
        r = self.r
        parts = [self.keyword(word) + self.white(15) + b"(" + arguments + b")" for word, arguments in parts]
        if self.odd():
            parts.insert(r.below(len(parts) + 1), r.pick(FAULTS))
        if self.odd():
            parts.insert(r.below(len(parts) + 1), r.pick([b"A(1)", b"LENGTH_UNIT()", b"PLANE_ANGLE_UNIT()", b"SOLID_ANGLE_UNIT()", b"SI_UNIT(.KILO.,.METRE.)", b"SI_UNIT($,.SECOND.)", b"NAMED_UNIT(*)"]))
        if self.odd():
            del parts[r.below(len(parts))]
        return b"(" + r.pick([b"", b"", b"", b" ", b","]).join(parts) + b")"

    def shuffled(self, things):
        things = list(things)
        for k in range(len(things) - 1, 0, -1):
            j = self.r.below(k + 1)
            things[k], things[j] = things[j], things[k]
        return things

    def prefix(self):
        r = self.r
        if self.odd():
            return r.pick(ODD_PREFIXES)
        return b"$" if r.one_in(4) else b"." + r.pick(PREFIXES) + b"."

    def si(self, name):
        r = self.r
        return self.prefix() + b"," + (r.pick(ODD_SI_NAMES) if self.odd() else b"." + name + b".")

    def real(self):
        r = self.r
        if self.odd():
            return r.pick(r.pick([ODD_MEASURES, REALS, ODD_REALS, [b"$", b"", b"*", b"'a'", b"\x0b1.", b"1.\xc2\xa0", b"inf", b"1E28", b"12345678901234567890."]]))
        if self.rate and r.one_in(40):
            return r.pick([b"1E28", b"12345678901234567890.", b"0.E28", b"1.E-28", b"-1.025893950136E-17", b"-1E300"])
        return r.pick(VALUES) if r.below(4) else b"%d.%d" % (r.below(100), r.below(1000))

    def value(self, word):
        text = self.real()
        return text if self.r.one_in(5) else word + b"(" + self.white(12) + text + self.white(12) + b")"

    def si_unit(self, role, name):
        number = self.id()
        if self.odd():
            body = self.keyword(b"SI_UNIT") + b"(" + self.si(name) + b")"
        else:
            parts = [(role, b""), (b"NAMED_UNIT", b"*"), (b"SI_UNIT", self.si(name))]
            body = self.complex(self.shuffled(parts) if self.r.one_in(2) else parts)
        self.put(number, body)
        return number

    def measure(self, word, base):
        number = self.id()
        arguments = self.value(word[:-len(b"_WITH_UNIT")]) + b"," + self.ref(base) + (b",$" if self.odd() else b"")
        if self.r.one_in(8):
            parts = self.shuffled([(word, arguments), (b"MEASURE_REPRESENTATION_ITEM", b""), (b"REPRESENTATION_ITEM", b"''")])
            body = self.complex(parts[:1 + self.r.below(3)])
        else:
            body = (self.keyword(word) if not self.odd() else b"MEASURE_WITH_UNIT") + b"(" + arguments + b")"
        if not self.odd():
            self.put(number, body)
        return number

    def conversion(self, role, measure, number=None):
        r = self.r
        number = self.id() if number is None else number
        name = r.pick(ODD_NAMES) if self.odd() else r.pick(NAMES)
        arguments = name + b"," + self.ref(measure)
        if self.odd():
            arguments = r.pick([b"", name, arguments + b",1", b",", b" , "])
        if r.one_in(12):
            body = self.keyword(b"CONVERSION_BASED_UNIT") + b"(" + arguments + b")"
            self.put(number, body if r.one_in(2) else b"(" + body + role + b"())")
        else:
            parts = [(b"CONVERSION_BASED_UNIT", arguments), (role, b""), (b"NAMED_UNIT", b"#1")]
            self.put(number, self.complex(self.shuffled(parts) if r.one_in(2) else parts))
        return number

    def length(self):
        r = self.r
        steps = r.pick([r.below(19), 15 + r.below(3)]) if r.one_in(12) else r.pick([0, 0, 0, 1, 1, 2, 3])
        word, role = b"LENGTH_MEASURE_WITH_UNIT", b"LENGTH_UNIT"
        if r.one_in(60):  # a circle of conversions
            number = self.id()
            end = number
            for _ in range(r.below(4)):
                end = self.conversion(role, self.measure(word, end))
            return self.conversion(role, self.measure(word, end), number)
        if self.odd():
            unit = self.id()  # missing
        elif r.one_in(12):  # a simple base, which serves
            unit = self.id()
            self.put(unit, b"SI_UNIT(" + self.si(b"METRE") + b")")
        else:
            unit = self.si_unit(role, b"METRE")
        for _ in range(steps):
            unit = self.conversion(role, self.measure(word, unit))
        return unit

    def angle(self):
        r = self.r
        word, role = b"PLANE_ANGLE_MEASURE_WITH_UNIT", b"PLANE_ANGLE_UNIT"
        unit = self.si_unit(role, b"RADIAN")
        for _ in range(r.pick([0, 0, 1, 1, 2])):
            unit = self.conversion(role, self.measure(word, unit))
        return unit

    def unit(self):
        kind = self.r.below(8)
        if kind < 4:
            return self.length()
        if kind < 7:
            return self.angle()
        return self.si_unit(b"SOLID_ANGLE_UNIT", b"STERADIAN")

    def uncertainty(self, unit):
        r = self.r
        number = self.id()
        text = b"LENGTH_MEASURE(" + r.pick(TOLERANCES) + b")" if r.below(4) and not self.odd() else self.value(b"LENGTH_MEASURE")
        arguments = text + b"," + self.ref(unit) + b",'distance_accuracy_value','c'"
        if self.odd():
            body = b"(UNCERTAINTY_MEASURE_WITH_UNIT(" + arguments + b"))"
        elif self.odd():
            body = self.complex([(b"UNCERTAINTY_MEASURE_WITH_UNIT", arguments)])
        else:
            body = self.keyword(b"UNCERTAINTY_MEASURE_WITH_UNIT") + b"(" + (b"" if self.odd() else arguments) + b")"
        if not self.odd():
            self.put(number, body)
        return number

    def list(self, numbers):
        if self.odd():
            return self.r.pick(ODD_LISTS)
        return b"(" + b",".join(self.ref(n) if self.odd() else b"#%d" % n for n in numbers) + b")"

    def context(self):
        r = self.r
        number = self.id()
        units = [self.unit() for _ in range(r.pick([0, 1, 1, 2, 2, 2, 3, 4]))]
        if r.below(3):
            units.insert(r.below(len(units) + 1), self.length())
        tolerances = [self.uncertainty(units[0] if units else 1) for _ in range(r.pick([0, 1, 1, 1, 2, 3]))]
        dimension = r.pick(ODD_DIMENSIONS) if self.odd() or r.one_in(15) else r.pick(DIMENSIONS)
        if r.one_in(15):
            self.put(number, self.keyword(b"GEOMETRIC_REPRESENTATION_CONTEXT") + b"(" + dimension + b")")
            return
        parts = [(b"GEOMETRIC_REPRESENTATION_CONTEXT", dimension)]
        if not r.one_in(20):
            parts.append((b"GLOBAL_UNCERTAINTY_ASSIGNED_CONTEXT", self.list(tolerances)))
        if not r.one_in(20):
            parts.append((b"GLOBAL_UNIT_ASSIGNED_CONTEXT", self.list(units)))
        if r.one_in(20):
            parts.append((b"GLOBAL_UNIT_ASSIGNED_CONTEXT", self.list([self.length()])))
        parts.append((b"REPRESENTATION_CONTEXT", b"'',''"))
        self.put(number, self.complex(self.shuffled(parts) if r.one_in(2) else parts))


class UnitFiles:
    """Files with unit contexts."""

    def __init__(self, count, seed):
        self.count = count
        self.seed = seed

    def __len__(self):
        return self.count

    def __getitem__(self, i):
        r = Rng(6, self.seed, i)
        file = File(r)
        for _ in range(r.pick([1, 1, 1, 1, 2, 2, 3])):
            file.context()
        records = file.records
        kind = r.below(4)
        if kind == 0:
            records = file.shuffled(records)
        elif kind == 1:
            records = records[::-1]
        if r.one_in(6):
            records.insert(r.below(len(records) + 1), r.pick([b"#5=A();", b"#6=(A()B());", b"#7=SI_UNIT(.MILLI.,.METRE.);", b"#8=(A('(')B(1));", b"#9=(A(1)/*(*/B(2));", b"#1=DIMENSIONAL_EXPONENTS(1.,0.);"]))
        out = D + r.pick([b"", b"\n"]).join(records)
        if r.one_in(3):
            out += b"ENDSEC;END-ISO-10303-21;"
        if r.one_in(30):
            out = damage(r, out, 1)
        return out
