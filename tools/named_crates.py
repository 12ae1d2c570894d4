#!/usr/bin/env python3
"""Holds crates.txt to what each crate names itself: named_crates.py [--write]

A crate's line in crates.txt lists the crates that its own files name, in paths of Rattle (`scan::scan`, `use scan::..`) and of antt
(`Rattle.scan.`), and no others: the kit finds what these are built on by itself, and whatever a line lists besides is read again for
nothing. A type whose values a crate reaches without naming it counts as named (REACHED). Prints each line that differs; the status is
then 1. With --write it writes them, each line's crates in the order in which crates.txt has them.
"""
import glob
import os
import re
import sys

ROOT = os.path.dirname(os.path.dirname(os.path.abspath(__file__)))
KIT = ['io', 'bytes', 'check']
# Crates that declare a type of which a function has a value and no name: in `export_records` a kind goes from `host_numbers::kind_by` to
# `parts::complex_part`, and what that answers on to `host_numbers::put_part`; in `compare_output` a fault goes from `store::open` to what is put.
REACHED = {'export_records': ['statement', 'kinds'], 'compare_output': ['error']}


def text_of(crate):
    folder = os.path.join(ROOT, 'crates', crate)
    code, logic = '', ''
    for path in glob.glob(folder + '/**/*', recursive=True):
        if path.startswith(os.path.join(folder, 'out') + os.sep):
            continue  # what rt makes
        if path.endswith('.rt'):
            with open(path, encoding='utf-8') as f:
                code += re.sub(r'//[^\n]*', '', f.read())
        elif path.endswith('.antt'):
            with open(path, encoding='utf-8') as f:
                logic += re.sub(r'--[^\n]*', '', f.read())
    return code, logic


def modules(crate):
    """The crate's own modules, which a path may begin with too."""
    return {os.path.basename(p)[:-3] for p in glob.glob(os.path.join(ROOT, 'crates', crate, 'src', '**', '*.rt'), recursive=True)}


def named(crate, all_crates):
    code, logic = text_of(crate)
    own = modules(crate)
    found = []
    for name in all_crates:
        if name == crate:
            continue
        in_code = name not in own and re.search(r'(?<![\w:])%s::' % name, code)
        in_logic = re.search(r'Rattle\.%s\.' % name, code + logic)
        if in_code or in_logic or name in REACHED.get(crate, []):
            found.append(name)
    return found


def main(arguments):
    path = os.path.join(ROOT, 'crates.txt')
    with open(path, encoding='utf-8') as f:
        lines = f.read().split('\n')
    crates = [line.split(':')[0].split()[0] for line in lines if ':' in line and not line.startswith('#')]
    differ = 0
    for i, line in enumerate(lines):
        if ':' not in line or line.startswith('#'):
            continue
        head = line.split(':')[0]
        crate = head.split()[0]
        new = ('%s: %s' % (head, ' '.join(named(crate, crates + KIT)))).rstrip(' ')
        if new != line:
            differ += 1
            print(new)
            lines[i] = new
    if '--write' in arguments:
        with open(path, 'w', encoding='utf-8') as f:
            f.write('\n'.join(lines))
        return 0
    return 1 if differ else 0


if __name__ == '__main__':
    sys.exit(main(sys.argv[1:]))
