#!/usr/bin/env python3
"""Takes out of the proofs what nothing reads: lean_proofs.py [--check] [CRATE..]

From each file of crates/*/proofs go the lines `-- src/FILE.rt:LINE:COLUMN`, which a printed skeleton has and which are wrong after the next
edit of the source, and the names in `use` lines that the rest of the file does not have; a `use` line without a name left goes with them.
From Answers.antt go the answers that say `search rules` and no more: the check tries that by itself at a goal that has no answer, so that the
answers are those which say something. What is left is proved again by the gate. With --check nothing is written, and the status is 1 where
something would be.
"""
import glob
import os
import re
import sys

ROOT = os.path.dirname(os.path.dirname(os.path.abspath(__file__)))
# An answer that says nothing of its goal, and the blank line after it.
IDLE = re.compile(r'^pub (\S+) : goal\.\1\n\1 c = search rules\n\n?', re.M)
USE = re.compile(r'^use (\S+?)(?:\.\{([^}]*)\}| as (\S+))?$', re.M)


def words(text):
    """The names of a text, without its comments and its `use` lines: what stands between blanks, brackets, commas and dots."""
    text = re.sub(r'^use [^{\n]*(\{[^}]*\})?.*$', '', text, flags=re.M)
    text = re.sub(r'--.*', '', text)
    return set(re.split(r'[\s(){};,.]+', text)), text


def named(name, known, text):
    """Whether a text has a name; an operator's parts stand apart, as those of `◌≡◌`."""
    if name in known:
        return True
    parts = [p for p in name.split('◌') if p]
    return '◌' in name and all(p in known or (not p.isalnum() and p in text) for p in parts)


def lean(text):
    text = re.sub(r'^ *-- src/\S+\.rt:\d+:\d+\n', '', text, flags=re.M)
    known, rest = words(text)

    def line(m):
        module, items, alias = m.groups()
        if items is not None:
            kept = [i for i in (x.strip() for x in items.split(',')) if i and named(i.split(' as ')[-1].strip(), known, rest)]
            return 'use %s.{%s}' % (module, ', '.join(kept)) if kept else '\0'
        if alias:
            return m.group(0) if alias in known else '\0'
        return m.group(0)
    return re.sub(r'\0\n', '', USE.sub(line, text))


def main(arguments):
    check = '--check' in arguments
    crates = [a for a in arguments if a != '--check'] or ['*']
    changed = 0
    for crate in crates:
        for path in sorted(glob.glob(os.path.join(ROOT, 'crates', crate, 'proofs', '**', '*.antt'), recursive=True)):
            with open(path, encoding='utf-8') as f:
                old = f.read()
            new = lean(IDLE.sub('', old))
            if new == old:
                continue
            changed += 1
            if check:
                print(os.path.relpath(path, ROOT))
            else:
                with open(path, 'w', encoding='utf-8') as f:
                    f.write(new)
    print('%d files %s' % (changed, 'have what nothing reads' if check else 'changed'))
    return 1 if check and changed else 0


if __name__ == '__main__':
    sys.exit(main(sys.argv[1:]))
