#!/usr/bin/env python3
"""Rearranges closed files within demand 3's premises, and holds what a reader answers before and after against each other.

    rearrange.py run COUNT SEED CHUNK SHOW WORK_FOLDER PROGRAM [ARGUMENT..]     called by rearrange.sh
    rearrange.py pair I SEED                      the file I and its rearrangement, as a run of two cases on standard output

PROGRAM reads a run of cases and prints the text form. Compared is what does not depend on places: that the file is accepted, the
counts and the largest id, the header records' bytes, for each id (and for 0, 1, the largest + 1, 4294967295) the keyword and argument
bytes and the mark of the record that is served, the header searches and texts, and the units: four values, or a refusal's number. Besides,
the rows must be those of cut.py, and of an id the last record must be served."""

import os
import subprocess
import sys
from heapq import heapify, heappop, heappush

from closedfiles import Closed
from cut import cut, filled
from draw import M, Rng

LINES = r"^(case|refused|scan|h|r|l|f|name|system|units|driver|panic|too)( |$)"
SAMPLED = 10  # of so many files one is rearranged against each premise too
SHARES = {"equal ids": 1.0, "contexts": 0.3, "closed": 0.99}  # of these at least so many must differ
ROWS = [
    "files", "accepted", "repeated ids", "several contexts", "units refused", "units resolved", "units unresolved", "units not told", "conversions",
    "several data sections", "complex records", "header records", "comments between records", "left as they were",
]


# ---------------------------------------------------------------------------------------------------------------------
# Rearrangements: within the premises, and against each of them.

def order(r, records):
    """An order of the records in which those of one id, and the contexts, follow each other as before."""
    waits, follow, last = [0] * len(records), [[] for _ in records], {}
    for k, record in enumerate(records):
        for chain in [record.id] + ["context"] * record.context:
            if chain in last:
                follow[last[chain]].append(k)
                waits[k] += 1
            last[chain] = k
    kind = r.below(5)  # any order; the reversed one as far as may be; neighbours
    keys = [r.next() if kind < 3 else -k if kind == 3 else k + r.below(5) for k in range(len(records))]
    ready = [(keys[k], k) for k in range(len(records)) if not waits[k]]
    heapify(ready)
    out = []
    while ready:
        _, k = heappop(ready)
        out.append(k)
        for other in follow[k]:
            waits[other] -= 1
            if not waits[other]:
                heappush(ready, (keys[other], other))
    return out


def rearranged(r, before):
    """The file with its records in another order, where there is another within the premises and it is found soon."""
    texts = before.texts()
    for _ in range(10):
        others = [texts[k] for k in order(r, before.records)]
        if others != texts:
            break
    return filled(before.gaps, others)


def swapped(gaps, texts, i, j):
    texts = list(texts)
    texts[i], texts[j] = texts[j], texts[i]
    return filled(gaps, texts)


def with_ids_swapped(r, before):
    """Two records of one id change places, no contexts: the last and an earlier one that says something else."""
    records = before.records
    last = {record.id: k for k, record in enumerate(records)}
    found = [(k, last[record.id]) for k, record in enumerate(records) if not record.context]
    found = [(k, j) for k, j in found if not records[j].context and records[k].content != records[j].content]
    return [swapped(before.gaps, before.texts(), *r.pick(found))] if found else []


def with_contexts_swapped(r, before):
    """Two contexts change places whose ids stand nowhere else."""
    ids = [record.id for record in before.records]
    found = [k for k, record in enumerate(before.records) if record.context and ids.count(record.id) == 1]
    if len(found) < 2:
        return []
    i = r.below(len(found) - 1)
    return [swapped(before.gaps, before.texts(), found[i], found[i + 1 + r.below(len(found) - 1 - i)])]


def with_open_record(r, before):
    """The file with one more record that closes only in a later one, and this file with the two in each other's places."""
    texts = before.texts()
    used = {record.id for record in before.records}
    one, two = [k for k in range(len(used) + 2) if k not in used][:2]
    i = r.below(len(texts))
    j = i + 1 + r.below(len(texts) + 1 - i)
    texts.insert(i, b"#%d=A((1)" % one)
    texts.insert(j, b"#%d=B(2))" % two)
    gaps = before.gaps[:1] + [b";", b";"] + before.gaps[1:]
    return filled(gaps, texts), swapped(gaps, texts, i, j)


def broken(before, after):
    """The premises that do not hold of two cuts."""
    if before is None or after is None:
        return ["closed"]
    out = [] if before.gaps == after.gaps and sorted(before.texts()) == sorted(after.texts()) else ["whole records"]
    chains = [{}, {}]
    for chain, file in zip(chains, (before, after)):
        for record in file.records:
            chain.setdefault(record.id, []).append(record.text)
    if chains[0] != chains[1]:
        out.append("equal ids")
    if [x.text for x in before.records if x.context] != [x.text for x in after.records if x.context]:
        out.append("contexts")
    return out


# ---------------------------------------------------------------------------------------------------------------------
# Answers, and what differs between two.

class Answer:
    """A reader's answer to one case, with the bytes of the file in place of places."""

    def __init__(self, file, lines):
        self.file, self.refused, self.counts, self.units = file, None, None, None
        self.rows, self.headers, self.served, self.found, self.texts, self.strange = [], [], {}, {}, [], []
        for line in lines:
            words = line.split()
            getattr(self, "on_" + words[0], self.on_other)(words)

    def span(self, start, end):
        start, end = int(start), int(end)
        if not 0 <= start <= end <= len(self.file):
            self.strange.append("a span outside the file")
        return self.file[start:end]

    def content(self, row):
        return (self.span(*row[1:3]), self.span(*row[3:5]), int(row[5]))

    def on_refused(self, words):
        self.refused = words[1]

    def on_scan(self, words):
        self.counts = tuple(words[1:])

    def on_h(self, words):
        self.headers.append((self.span(*words[2:4]), self.span(*words[4:6])))

    def on_r(self, words):
        self.rows.append(tuple(int(word) for word in words[2:]))

    def on_l(self, words):
        told = None if words[2] == "none" else self.content(self.rows[int(words[2])])
        if self.served.setdefault(int(words[1]), told) != told:
            self.strange.append("two answers for #" + words[1])

    def on_f(self, words):
        self.found[words[1]] = None if words[2] == "none" else self.headers[int(words[2])]

    def on_name(self, words):
        self.texts.append(words)

    on_system = on_name

    def on_units(self, words):
        self.units = tuple(words[1:]) if len(words) == 5 else (words[1].split("/")[0],)

    def on_other(self, words):
        self.strange.append(" ".join(words))


def shown(content):
    if content is None:
        return "none"
    keyword, args = content[0].decode("latin-1"), content[1].decode("latin-1")
    return "%s(%s)" % (keyword, args if len(args) < 60 else args[:57] + "..")


def shown_units(units):
    return "none" if units is None else "refused " + units[0] if len(units) == 1 else " ".join(units)


def difference(a, b):
    """What differs between the answers before and after, place-free: a kind and words each."""
    if a.refused or b.refused:
        return [("accepted", "%s -> %s" % tuple("refused " + x.refused if x.refused else "yes" for x in (a, b)))]
    out = [("strange", x) for x in a.strange + b.strange]
    if a.counts != b.counts:
        out.append(("counts", "%s -> %s" % (a.counts, b.counts)))
    for number in sorted(set(a.served) | set(b.served)):
        one, two = a.served.get(number, "not asked"), b.served.get(number, "not asked")
        if one != two:
            out.append(("served", "#%d %s -> %s" % (number, shown(one), shown(two))))
    for kind in ("headers", "found", "texts"):
        if getattr(a, kind) != getattr(b, kind):
            out.append((kind, "%s -> %s" % (getattr(a, kind), getattr(b, kind))))
    if a.units != b.units or a.units is None:  # a program that tells no units fails the run
        out.append(("units", "%s -> %s" % (shown_units(a.units), shown_units(b.units))))
    return out


def misread(answer, known):
    """Where the rows are not the cut's, or of an id another record is served than the last."""
    rows, last = [], {}
    for at, record in zip(known.at, known.records):
        spans = record.keyword_at + record.args_at
        rows.append((record.id,) + tuple(x + at if k > 1 or not record.complex else 0 for k, x in enumerate(spans)) + (record.complex,))
        last[record.id] = record.content
    top = max(last, default=0)
    asked = set(last) | {0, 1, 4294967295} | ({top + 1} if top < 4294967295 else set())
    out = [] if answer.rows == rows else [("rows", "not the cut's")]
    if answer.served != {number: last.get(number) for number in asked}:
        out.append(("served", "not the last record"))
    if answer.headers != [record.content[:2] for record in known.headers]:
        out.append(("headers", "not the cut's"))
    return out


# ---------------------------------------------------------------------------------------------------------------------
# The counterexamples of docs/AUDIT.md: one premise is broken in each, and something differs.

CONTEXT = b"#%d=(GEOMETRIC_REPRESENTATION_CONTEXT(3)GLOBAL_UNIT_ASSIGNED_CONTEXT(%s))"
MILLIMETRE, METRE = b"#3=(LENGTH_UNIT()SI_UNIT(.MILLI.,.METRE.))", b"#4=(LENGTH_UNIT()SI_UNIT($,.METRE.))"
# A context that is its own length unit.
OWN = b"#%d=(GEOMETRIC_REPRESENTATION_CONTEXT(3)GLOBAL_UNIT_ASSIGNED_CONTEXT((#%d))LENGTH_UNIT()SI_UNIT(%s,.METRE.))"

COUNTEREXAMPLES = [  # the premise, the records (the first two change places), what differs
    ("equal ids", [b"#1=A()", b"#1=B()"], ["served #1 B() -> A()"]),
    ("contexts", [CONTEXT % (1, b"(#3)"), CONTEXT % (2, b"(#4)"), MILLIMETRE, METRE], ["units 3ff0000000000000 3ff0000000000000 3f50624dd2f1a9fc 1 -> 408f400000000000 3ff0000000000000 3f50624dd2f1a9fc 1"]),
    ("contexts", [OWN % (1, 1, b".MILLI."), OWN % (2, 2, b"$")], ["units 3ff0000000000000 3ff0000000000000 3f50624dd2f1a9fc 1 -> 408f400000000000 3ff0000000000000 3f50624dd2f1a9fc 1"]),
    ("contexts", [CONTEXT % (1, b""), CONTEXT % (2, b"$")], ["units refused 10 -> refused 12"]),
    ("closed", [b"#1=A((1)", b"#2=B(2))"], ["accepted yes -> refused 6/0@31"]),
    ("closed", [b"#1=A/*(*/", b"#2=B())"], ["accepted yes -> refused 6/0@32"]),
    ("closed", [b"#1=(A/*((*/)", b"#2=B())"], ["units 3ff0000000000000 3ff0000000000000 3f50624dd2f1a9fc 0 -> refused 6"]),
]


def counterexamples(ask):
    """Asks for each, prints it, and tells how many do not show what they should."""
    files = []
    for _, texts, _ in COUNTEREXAMPLES:
        for some in (texts, [texts[1], texts[0]] + texts[2:]):
            files.append(M + b"DATA;" + b"".join(text + b";" for text in some) + b"ENDSEC;END-ISO-10303-21;")
    told = ask(files)
    wrong = 0
    for k, (premise, _, want) in enumerate(COUNTEREXAMPLES):
        before, after = files[2 * k], files[2 * k + 1]
        have = ["%s %s" % pair for pair in difference(told[2 * k], told[2 * k + 1])]
        good = have == want and broken(cut(before), cut(after)) == [premise]
        wrong += not good
        print("counterexample, not kept: %s\n  before  %s\n  after   %s\n  differs %s%s" % (premise, before.decode(), after.decode(), "; ".join(have) or "nothing", "" if good else "   WRONG: " + "; ".join(want)))
    return wrong


# ---------------------------------------------------------------------------------------------------------------------
# The run.

class Reader:
    """A program that answers runs of cases."""

    def __init__(self, program, work):
        self.program, self.stream = program, os.path.join(work, "stream")

    def __call__(self, files):
        with open(self.stream, "wb") as out:
            for file in files:
                out.write(b"%d\n" % len(file) + file)
        with open(self.stream, "rb") as run:
            reader = subprocess.Popen(self.program, stdin=run, stdout=subprocess.PIPE)
            kept = subprocess.Popen(["grep", "-aE", LINES], stdin=reader.stdout, stdout=subprocess.PIPE, env=dict(os.environ, LC_ALL="C"))
            reader.stdout.close()
            lines = kept.communicate()[0].decode("latin-1").split("\n")
        if reader.wait():
            sys.exit("rearrange.py: the program ended with status %d; its cases are in %s" % (reader.returncode, self.stream))
        starts = [k for k, line in enumerate(lines) if line.startswith("case ")]
        if len(starts) != len(files):
            sys.exit("rearrange.py: the program answered %d of %d cases; they are in %s" % (len(starts), len(files), self.stream))
        return [Answer(file, lines[k + 1:end]) for file, k, end in zip(files, starts, starts[1:] + [len(lines) - 1])]


class Run:
    def __init__(self, seed, show):
        self.seed, self.show, self.made = seed, show, Closed(seed)
        self.tally, self.faults = {}, 0

    def count(self, name, number=1):
        self.tally[name] = self.tally.get(name, 0) + number

    def pairs(self, i):
        """The file i before and after: within the premises, and against each of them."""
        r = Rng(10, self.seed, i)
        gaps, texts = self.made[i]
        file = filled(gaps, texts)
        before = cut(file)
        if before is None or before.gaps != gaps or before.texts() != texts:
            sys.exit("rearrange.py: file %d of seed %d is not closed, or is cut elsewhere than it was made" % (i, self.seed))
        out = [("same", file, rearranged(r, before))]
        if i % SAMPLED == 0:
            out += [("equal ids", file, other) for other in with_ids_swapped(r, before)]
            out += [("contexts", file, other) for other in with_contexts_swapped(r, before)]
            out.append(("closed", *with_open_record(r, before)))
        return out

    def chunk(self, ask, numbers):
        pairs = [(i, *pair) for i in numbers for pair in self.pairs(i)]
        files = list(dict.fromkeys(file for _, _, *both in pairs for file in both))
        told = dict(zip(files, ask(files)))
        for i, kind, before, after in pairs:
            off = broken(cut(before), cut(after))
            if off != ([] if kind == "same" else [kind]):
                sys.exit("rearrange.py: file %d of seed %d, %s: these premises are broken: %s" % (i, self.seed, kind, off))
            found = self.within(told[before], told[after]) if kind == "same" else self.against(kind, told[before], told[after])
            self.faults += bool(found)
            if found and self.faults <= self.show:
                print("file %d of seed %d, %s\n  before %r\n  after  %r" % (i, self.seed, kind, before, after))
                print("".join("  %s: %s\n" % pair for pair in found), end="")

    def within(self, one, two):
        """What differs though the premises hold."""
        before, after = cut(one.file), cut(two.file)
        self.describe(one, before, after)
        found = difference(one, two)
        return found if one.refused or two.refused else found + misread(one, before) + misread(two, after)

    def against(self, kind, one, two):
        """Counts what differs where a premise is broken; told is what then should differ and does not, or should not and does."""
        found = difference(one, two)
        self.count("against " + kind)
        self.count("against %s, differ" % kind, bool(found))
        if kind == "equal ids" and "served" not in {name for name, _ in found}:
            return [("served", "the same record")]
        return [pair for pair in found if pair[0] != "units"] if kind == "contexts" else []

    def describe(self, answer, before, after):
        """Counts what the file has."""
        ids = {}
        for record in before.records:
            ids.setdefault(record.id, set()).add(record.content)
        moved = sum(a != b for a, b in zip(before.texts(), after.texts()))
        self.count("files")
        self.count("accepted", not answer.refused)
        self.count("repeated ids", any(len(contents) > 1 for contents in ids.values()))
        self.count("several contexts", sum(record.context for record in before.records) > 1)
        self.count("conversions", any(b"CONVERSION_BASED_UNIT" in record.text.upper() for record in before.records))
        self.count("several data sections", before.sections > 1)
        self.count("complex records", any(record.complex for record in before.records))
        self.count("header records", bool(before.headers))
        self.count("comments between records", any(b"/*" in gap for gap in before.gaps[1:-1]))
        self.count("records", len(before.records))
        self.count("moved", moved)
        self.count("left as they were", moved == 0)
        self.describe_units(answer.units)

    def describe_units(self, units):
        if units is None:
            self.count("units not told")
        elif len(units) == 1:
            self.count("units refused")
            self.count("units refused, " + units[0])
        else:
            self.count("units resolved" if units[3] == "1" else "units unresolved")

    def table(self):
        n, has = max(1, self.tally.get("files", 0)), lambda name: self.tally.get(name, 0)
        numbers = ["units refused, %d" % k for k in range(1, 17) if has("units refused, %d" % k)]
        for name in ROWS[:5] + numbers + ROWS[5:]:
            print("%-28s %8d" % (name, has(name)))
        for name, of in (("records in a file, mean", "records"), ("records moved, mean", "moved")):
            print("%-28s %8.1f" % (name, has(of) / n))
        for kind in SHARES:
            print("%-28s %8d, of which %d differ" % ("rearranged against " + kind, has("against " + kind), has("against %s, differ" % kind)))

    def enough(self):
        """What the run has too few of."""
        n, has = self.tally.get("files", 0), lambda name: self.tally.get(name, 0)
        out = ["fewer than a third: " + name for name in ("repeated ids", "several contexts", "units refused") if 3 * has(name) < n]
        out += ["not all accepted"] * (has("accepted") != n)
        for kind, share in SHARES.items():
            if not has("against " + kind) or has("against %s, differ" % kind) < share * has("against " + kind):
                out.append("rearranged against %s, too few differ" % kind)
        return out


def run(count, seed, chunk, show, work, program):
    ask = Reader(program, work)
    wrong = counterexamples(ask)
    all = Run(seed, show)
    for start in range(0, count, chunk):
        all.chunk(ask, range(start, min(start + chunk, count)))
    all.table()
    for line in all.enough():
        print("TOO FEW: " + line)
    print("counterexamples              %8d, of which %d show their difference" % (len(COUNTEREXAMPLES), len(COUNTEREXAMPLES) - wrong))
    print("differences %d" % all.faults)
    return 1 if wrong or all.faults or all.enough() else 0


def main():
    arguments = sys.argv[1:]
    if len(arguments) >= 7 and arguments[0] == "run":
        sys.exit(run(*(int(word) for word in arguments[1:5]), arguments[5], arguments[6:]))
    if len(arguments) == 3 and arguments[0] == "pair":
        for file in Run(int(arguments[2]), 0).pairs(int(arguments[1]))[0][1:]:
            sys.stdout.buffer.write(b"%d\n" % len(file) + file)
        return
    sys.exit(__doc__)


if __name__ == "__main__":
    main()
