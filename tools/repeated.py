#!/usr/bin/env python3
"""Counts the text that stands again in sources, specs and proofs: repeated.py [--run N] [--list] [DIR]

Of the lines that count, those in a run of eight (or N) that stands at another place too. White space is folded; blank lines, comments, lone
brackets and imports do not count. With --list the files are named, those with most first. DIR is crates, or that of another tree.
"""
import os
import re
import sys
from collections import defaultdict


def lines(path):
    out = []
    skip = False
    for n, l in enumerate(open(path, encoding="utf-8"), 1):
        t = " ".join(l.split())
        if skip:
            if t.endswith(("}", "};")):
                skip = False
            continue
        if not t or t.startswith(("//", "--")) or not re.search(r"\w", t):
            continue
        if t.startswith("use ") or t.startswith("pub use "):
            if "{" in t and "}" not in t:
                skip = True
            continue
        out.append((n, t))
    return out


def kind(path):
    if path.endswith(".rt"):
        return "sources"
    if "/specs/" in path:
        return "specs"
    return "proofs"


def main():
    run, show, root = 8, False, "crates"
    a = sys.argv[1:]
    while a:
        x = a.pop(0)
        if x == "--run":
            run = int(a.pop(0))
        elif x == "--list":
            show = True
        else:
            root = x
    files = defaultdict(dict)
    for d, _, fs in os.walk(root):
        for f in sorted(fs):
            p = os.path.join(d, f)
            if (f.endswith(".rt") or f.endswith(".antt")) and "/target/" not in p and "/out/" not in p and "/declared" not in p:
                files[kind(p)][p] = lines(p)
    for k in ("sources", "specs", "proofs"):
        seen = defaultdict(list)
        for p, ls in files[k].items():
            for i in range(len(ls) - run + 1):
                seen[tuple(t for _, t in ls[i:i + run])].append((p, i))
        marked = defaultdict(set)
        for where in seen.values():
            if len(where) > 1:
                for p, i in where:
                    marked[p].update(range(i, i + run))
        all_ = sum(len(ls) for ls in files[k].values())
        rep = sum(len(m) for m in marked.values())
        whole = sum(1 for p in files[k] for _ in open(p, encoding="utf-8"))
        print(f"{k}: {whole} lines in {len(files[k])} files; {all_} count, {rep} repeated in runs of {run}: {100 * rep / max(all_, 1):.1f} %")
        if show:
            for p, m in sorted(marked.items(), key=lambda x: -len(x[1])):
                print(f"  {len(m):5} {p}")


main()
