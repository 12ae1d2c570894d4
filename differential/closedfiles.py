"""Closed files: unit contexts and their units, repeated ids, records of all forms, several data sections, comments between records.

The unit graphs are those of the stream `units`, the other records and the headers those of `lookups`; a record that is not closed is
left out. To these come what the order of the records could touch: contexts whose units are refused in each way that a closed file
can have (10, 11, 12, 13, 15), ids that are given twice with other contents, contexts of one id, and between the records section
words, ignored records, headers and comments. A file is made as its gaps and its records' texts; cut.py must find the same."""

from cut import data_record, header_record
from draw import BOM, Rng
from lookups import EXTREMES, Lookups
from parameters import COMMENTS, WHITES
from unitfiles import File

NO_PARAMETER = [b"", b" ", b"/*c*/", b"\n/*(*/\t"]
OPEN_LITERAL = [b"\"", b"(\")", b"\"a,#1", b"(#1,\"0A)", b" \"", b"/*\"*/\""]
OTHER_TYPE = [b"$", b"*", b"5", b"#1", b"(1)", b"((#1))", b"(#1,$)", b"K(#1)", b"(#4294967296)", b"'a'", b"(,)"]
OUTSIDE_CLASS = [b"1E28", b"LENGTH_MEASURE(1.E-28)", b"12345678901234567890.", b"0.E28", b"K(-1.025893950136E-17)"]
BODIES = [
    b"A()", b"(A()B(1))", b"SI_UNIT($,.METRE.)", b"(LENGTH_UNIT()SI_UNIT(.CENTI.,.METRE.))", b"(LENGTH_UNIT()NAMED_UNIT(*)SI_UNIT(.KILO.,.METRE.))", b"LENGTH_MEASURE_WITH_UNIT(LENGTH_MEASURE(2.5),#11)",
    b"(PLANE_ANGLE_UNIT()SI_UNIT(.MILLI.,.RADIAN.))", b"UNCERTAINTY_MEASURE_WITH_UNIT(LENGTH_MEASURE(0.25),#11,'','')", b"GEOMETRIC_REPRESENTATION_CONTEXT(3)", b"B('a;b',(1,2))", b"A(1))",
    b"(geometric_representation_context(/*c*/+3 ,$)GLOBAL_UNIT_ASSIGNED_CONTEXT((#12,#13)))", b"(GEOMETRIC_REPRESENTATION_CONTEXT($)GEOMETRIC_REPRESENTATION_CONTEXT(3))", b"(A(GEOMETRIC_REPRESENTATION_CONTEXT(3)))",
]
IGNORED = [b"FOO;", b";", b"#1=A((;", b"'it''s; (ignored';", b"#4294967295=GEOMETRIC_REPRESENTATION_CONTEXT(3);", b"ENDSEC;", b"A/*;*/B;", b"#11=(LENGTH_UNIT()SI_UNIT(.EXA.,.METRE.));"]
AFTER_THE_END = [b"", b"", b"\n", b"'", b"#1=A((;", b"/*", b"DATA;#1=GONE();", b"\x00"]
NAMES = [b"DATA;", b"DATA;", b"DATA;", b"data;", b" Data ;", b"DATA('x;y',('S'));", b"Data\n( 'a' ) ;", b"/*c*/DATA;"]


class Maker(File):
    """The records of one file, in the order in which they are made."""

    def __init__(self, r, others):
        File.__init__(self, r)
        self.others = others

    def faulty_unit(self):
        """A unit whose conversion or measure refuses the whole answer, or whose chain does."""
        r = self.r
        kind = r.below(5)
        role, word = r.pick([(b"LENGTH_UNIT", b"LENGTH_MEASURE"), (b"LENGTH_UNIT", b"LENGTH_MEASURE"), (b"PLANE_ANGLE_UNIT", b"PLANE_ANGLE_MEASURE")])
        if kind == 4:
            return self.long_chain()
        number, measure = self.id(), self.id()
        base = self.si_unit(role, b"METRE")
        value = r.pick(OUTSIDE_CLASS) if kind == 3 else b"25.4"
        self.put(measure, word + b"_WITH_UNIT(" + value + b",#%d)" % base)
        name = [r.pick([b"", b"'INCH'", b" 'a' "]), r.pick(OPEN_LITERAL), b"'INCH'," + r.pick(OTHER_TYPE), b"'INCH',#%d" % measure][kind]
        parts = [(b"CONVERSION_BASED_UNIT", name), (role, b""), (b"NAMED_UNIT", b"*")]
        self.put(number, self.complex(self.shuffled(parts)))
        return number

    def long_chain(self):
        """A unit with seventeen conversions or more, or a circle of them."""
        r = self.r
        role, word = b"LENGTH_UNIT", b"LENGTH_MEASURE_WITH_UNIT"
        first = self.id()
        unit = first if r.one_in(3) else self.si_unit(role, b"METRE")
        for _ in range(r.below(3) if unit == first else 16 + r.below(4)):
            unit = self.conversion(role, self.measure(word, unit))
        return self.conversion(role, self.measure(word, unit), first)

    def faulty_list(self):
        r = self.r
        return r.pick(r.pick([NO_PARAMETER, OPEN_LITERAL, OTHER_TYPE]))

    def refused_context(self):
        """A context that refuses the units where it is tried."""
        r = self.r
        kind = r.below(6)
        units = self.faulty_list() if kind == 0 else b"(#%d)" % (self.faulty_unit() if kind < 4 else self.length())
        tolerance = self.id()
        self.put(tolerance, b"UNCERTAINTY_MEASURE_WITH_UNIT(" + (r.pick(OUTSIDE_CLASS) if kind == 4 else b"0.01") + b",#1,'','')")
        tolerances = self.faulty_list() if kind == 5 else b"(#%d)" % tolerance
        parts = [(b"GEOMETRIC_REPRESENTATION_CONTEXT", b"3"), (b"GLOBAL_UNIT_ASSIGNED_CONTEXT", units), (b"GLOBAL_UNCERTAINTY_ASSIGNED_CONTEXT", tolerances)]
        self.put(self.id(), self.complex(self.shuffled(parts) if r.one_in(2) else parts))

    def contexts(self):
        r = self.r
        refused = r.below(5) < 3
        at = r.pick([0, 0, 1, 2]) if refused else -1
        for k in range(max(r.pick([1, 1, 2, 2, 2, 3, 3, 4]), at + 1)):
            if k == at:
                self.refused_context()
            else:
                self.context()

    def other_records(self):
        r = self.r
        for number in self.others.ids(r)[:8]:
            self.records.append(self.others.record(r, number))

    def texts(self):
        """The closed records' texts, in one of several orders."""
        r = self.r
        texts = [text[:-1] for text in self.records if data_record(text[:-1])]
        kind = r.below(6)
        if kind == 0:
            return texts[::-1]
        return self.shuffled(texts) if kind < 3 else texts

    def repeated(self, texts):
        """Some ids a second time, more often before the record than behind it, with the body of another record or another one."""
        r = self.r
        for _ in range(r.pick([0, 1, 1, 2, 3, 5])):
            at = r.below(len(texts))
            head = b"#%s%d=" % (b"0" * r.below(3) if r.one_in(6) else b"", data_record(texts[at]).id)
            other = r.pick(texts)
            body = r.pick(BODIES) if r.one_in(3) else other[other.index(b"=") + 1:].lstrip()
            texts.insert(at if r.below(4) else r.below(len(texts) + 1), head + body)
        return texts


class Closed:
    """Closed files by number, each as its gaps and its records' texts."""

    def __init__(self, seed):
        self.seed = seed
        self.others = Lookups(0, seed)

    def trivia(self, r):
        return b"".join(r.pick(COMMENTS + [b"/* #1=A(); */", b"/*'*/"]) if r.one_in(3) else r.pick(WHITES) for _ in range(1 + r.below(3)))

    def header(self, r):
        out = r.pick([b"HEADER;", b"header;", b"\nHEADER ;"])
        for _ in range(r.pick([0, 1, 2, 3])):
            text = self.others.header(r)[:-1]
            out += text + b";" if header_record(text) else b"FILE_NAME('a','b');"
        return out + r.pick([b"ENDSEC;", b"ENDSEC;", b"endsec ;", b""])

    def section(self, r):
        """What leaves a section, and opens data again."""
        out = r.pick([b"ENDSEC;", b"ENDSEC;", b"EndSec\n;", b""])
        if out and r.one_in(3):
            out += r.pick(IGNORED)
        if r.one_in(4):
            out += self.header(r)
        return out + self.trivia(r) * r.below(2) + r.pick(NAMES)

    def front(self, r):
        out = (BOM if r.one_in(20) else b"") + (r.pick(WHITES) if r.one_in(20) else b"") + b"ISO-10303-21" + (b" and more" if r.one_in(20) else b"") + b";"
        if r.one_in(8):
            out += r.pick(IGNORED)
        for _ in range(r.pick([0, 0, 1, 1, 2])):
            out += self.header(r)
        return out + r.pick(NAMES)

    def gap(self, r, cuts, blanks):
        out = b";" + (self.trivia(r) if r.one_in(blanks) else r.pick([b"", b"", b"\n"]))
        if r.one_in(cuts):
            out += self.section(r)
        return out + (self.trivia(r) if r.one_in(blanks) else b"")

    def back(self, r):
        kind = r.below(4)
        if kind == 0:
            return b";"
        end = r.pick([b"END-ISO-10303-21;", b"end-iso-10303-21 ;"]) + r.pick(AFTER_THE_END)
        return b";" + self.trivia(r) * r.below(2) + [b"", b"ENDSEC;", b"ENDSEC;" + end, end][kind]

    def __getitem__(self, i):
        r = Rng(9, self.seed, i)
        maker = Maker(r, self.others)
        maker.contexts()
        if r.one_in(2):
            maker.other_records()
        if r.one_in(30):
            maker.put(r.pick(EXTREMES), b"A()")
        texts = maker.texts()
        if texts and r.below(4):
            texts = maker.repeated(texts)
        texts = [text for text in texts if data_record(text)] or [b"#1=A()"]
        cuts, blanks = r.pick([1000, 12, 5]), r.pick([1000, 10, 3])
        return [self.front(r)] + [self.gap(r, cuts, blanks) for _ in texts[1:]] + [self.back(r)], texts
