#!/usr/bin/env python3
"""Prints the figures of all.sh: cases of each stream, what was compared, and how often each answer occurred.

    figures.py TALLY_FOLDER REAL_FIGURES DIFFERENCES

Its status is 0 only where nothing differs that is not listed and each answer that is wanted occurred.
"""

import collections
import os
import re
import sys

READERS = "ref opt_ref i64 f64 opt_f64 measure enum bool str ref_list i64_list f64_list ref_grid f64_grid skip".split()
REALS = "f64 opt_f64 measure f64_list f64_grid".split()
ROOMS = "str ref_list i64_list f64_list ref_grid f64_grid".split()
# What must occur: a line's first word, and an answer or a refusal's number and reason.
WANTED = (
    [("refused", n) for n in "1/0 3/0 4/0 5/0 6/0 7/1 7/2 7/3 7/4 7/5 7/6 7/7".split()]
    + [(r, "answer") for r in READERS if r != "bool"]
    + [("bool", a) for a in "TFU"]
    + [("opt_ref", "unset"), ("opt_f64", "unset")]
    + [(r, n) for r in READERS for n in ("10/0", "11/0")]
    + [(r, "12/0") for r in READERS if r != "skip"]
    + [(r, "13/0") for r in REALS]
    + [(r, "16/0") for r in ROOMS]
    + [("units", a) for a in "resolved unresolved 3/0 4/0 6/0 10/0 11/0 12/0 13/0 15/0".split()]
    + [("u", a) for a in "resolved unresolved 3/0 4/0 6/0 10/0 11/0 12/0 13/0 15/0".split()]
    + [("part", a) for a in "answer 3/0 4/0 6/0".split()]
    + [("c", a) for a in "answer 3/0 4/0 6/0".split()]
    + [("l", "answer"), ("l", "none"), ("f", "answer"), ("f", "none"), ("h", "answer"), ("r", "answer")]
    + [("name", "answer"), ("name", "empty"), ("system", "answer"), ("system", "empty")]
    + [("count", "answer"), ("i", "answer"), ("i", "14/0"), ("w", "answer"), ("w", "empty"), ("y", "answer")]
    + [("n", "answer"), ("n", "10/0"), ("n", "11/0"), ("nine", "9/0"), ("full", "8/0")]
    + [("kept", a) for a in "answer 9/0 16/0".split()]
    + [("read", a) for a in "answer 9/0 16/0".split()]
    # Texts that the original has not: it forgets the page.
    + [("(listed)", "pages")]
)


def tallies(folder):
    """For each stream and part its counts; and how often each word came with each answer."""
    streams = collections.defaultdict(collections.Counter)
    said = collections.Counter()
    for name in sorted(os.listdir(folder)):
        stream, part, _ = name.rsplit(".", 2)
        with open(os.path.join(folder, name)) as lines:
            for line in lines:
                words = line.split()
                if words[0] == "said":
                    said[words[1], words[2]] += int(words[3])
                elif words[0] == "listed":
                    streams[stream, part]["listed"] += int(words[2])
                    said["(listed)", words[1]] += int(words[2])
                else:
                    streams[stream, part][words[0]] += int(words[1])
    return streams, said


def number(n):
    return format(n, ",")


def table(heads, rows):
    print("| " + " | ".join(heads) + " |")
    print("|" + "---|" * len(heads))
    for row in rows:
        print("| " + " | ".join(str(cell) for cell in row) + " |")
    print()


def main():
    folder, real, differences = sys.argv[1:4]
    streams, said = tallies(folder)
    if os.path.exists(real):
        with open(real) as lines:
            for line in lines:
                # Every real file has data rows.
                found = re.match(r"real: cases (\d+) differences (\d+) left out (\d+) \| accepted: (\d+)", line)
                if found:
                    counts = dict(zip(("cases", "differences", "out", "rows"), map(int, found.groups())))
                    streams["real", "all"].update(counts)
    columns = "cases rows lines listed differences out".split()
    rows = [[s, p] + [number(c[k]) for k in columns] for (s, p), c in sorted(streams.items())]
    for part in ("all", "asks"):
        total = sum((c for (_, p), c in streams.items() if p == part), collections.Counter())
        rows.append(["**together**", part] + [number(total[k]) for k in columns])
    table(["stream", "part", "cases", "with a data row", "lines", "listed", "not listed", "left out"], rows)

    words = sorted({w for w, _ in said})
    table(["line", "answers and how often"], [[w, ", ".join("%s: %s" % (a, number(n)) for (v, a), n in sorted(said.items()) if v == w)] for w in words])

    wrong = sum(c["differences"] for c in streams.values())
    lacking = [pair for pair in WANTED if said[pair] == 0]
    for word, told in lacking:
        print("never: %s %s" % (word, told))
    for word, told in said:
        if word == "driver" or told == "panic":
            print("driver or panic: %s %s" % (word, told))
            wrong += 1
    if os.path.getsize(differences):
        with open(differences, errors="replace") as shown:
            sys.stdout.write(shown.read(20000))
    print("differences %d" % wrong)
    sys.exit(0 if wrong == 0 and not lacking else 1)


if __name__ == "__main__":
    main()
