#!/usr/bin/env python3
"""Brings the repository's own definitions and lemmas to snake case, once, after the kit's port.py: snake_case.py.

Run it at the top of the repository. Definitions were in camel case (nearTen) and lemmas in words joined by dashes (near-ten); both are in snake case
now. Where the two would fall together the definition has the plain name, and the lemma that has its name ends in _lem. Names of types, modules and
functions of src/, exported names, strings and outputs stay. What Rattle makes of a function's name (a step `c.text-end` of a proof by hand) stays too.

It takes every name that a file of specs/ or proofs/ declares, and hands a table of old and new spellings to the kit's snake.py, which turns the code
of .antt files, the clauses of .rt files, and names in comments and pages. The must-fail edits are turned here.
"""
import collections
import os
import re
import subprocess
import sys
import tempfile

KIT = os.environ.get('RATTLE_KIT', '/opt/rattle')
SNAKE = os.path.join(KIT, 'port/notes/2026-11-18-names-are-in-snake-case/snake.py')
WORD = re.compile(r'[^\s(){}.;,@"«»\[\]]+')
W = r'[^\s(){}.;,@"«»\[\]]+'

# Lemmas whose name port.py brought to that of a definition elsewhere, because a library had the spelling: they get _lem back where they stand.
LEMMAS = {
    'row_in': ['parts/specs/Closed'],
    'number_in': ['factors/specs/Places'],
    'up_to': ['f64_rounding/specs/Bits', 'statement/specs/ClosedRight/Parts'],
    'last_of': ['words/specs/RulesRight'],
    'run_of': ['alike/specs/Closed'],
    'place_of': ['params/specs/RulesRight'],
    'put_in': ['long_reals/proofs/put/Proof', 'long_reals/specs/Steps'],
    'whole_of': ['statement/specs/TidyRight'],
    'place_in': ['statement/specs/Laws', 'statement/specs/TidyLaws'],
    'name_in': ['words/specs/Places', 'factors/specs/Laws', 'alike/specs/Readers'],
    'real_of': ['reals/specs/FormRight'],
    'told_text': ['strings/specs/Shown', 'strings/specs/Decoded'],
    'whole_back': ['reals/specs/Only'],
    'args_at': ['order/specs/Check'],
    'part_by': ['order/specs/Check'],
    'cut_step': ['order/specs/Check'],
    'part_in': ['argument_sizes/specs/Greatest'],
    'name_back': ['kinds/specs/Name'],
    'head_at': ['prefixes/specs/Prefix'],
    'text_in': ['words/specs/Places', 'file_name_texts/specs/Places'],
}
# Names that a rule would not find: a constructor beside a definition, and a lemma with the spelling of std's.
OWN = {'bad-record': 'bad_record_form'}
# Spellings that are std's, or local to one proof.
SKIP = ['zero-add', 'nearest-ge']
# Old lemmas whose new name another definition has.
LEM = ['any-of', 'unit-of', 'byte-at', 'name-at', 'closed-step']
# What Rattle makes of these functions' names stands behind a dot in proofs by hand.
STEPS = ['are-digits', 'four-at', 'eight-at', 'in-class', 'text-step', 'put-part', 'list-len', 'byte-at', 'binary-step', 'name-at', 'end-at', 'string-step',
         'in-room', 'row-there', 'lowered-cut', 'lifted-five', 'past-comma', 'first-open', 'with-record', 'by-id', 'text-length', 'sought-at']
# 'nearest-ge' of nearest/specs/Near and its users.
NEAREST_GE = 'nearest_ge'


def antt_files():
    for folder, dirs, files in os.walk('crates'):
        dirs[:] = sorted(d for d in dirs if d != 'out')
        for name in sorted(files):
            if name.endswith('.antt'):
                yield os.path.join(folder, name)


def declared():
    """The names that the files declare, but for those of the goals in a proof by hand."""
    names = set()
    goals = set()
    for path in antt_files():
        record = None
        for line in open(path, encoding='utf-8'):
            text = line.strip()
            indent = len(line) - len(line.lstrip())
            if not text or text.startswith('--'):
                continue
            if path.endswith('/Proof.antt'):
                goal = re.match(r'^(?:abbrev )?(?:pub )?(\S+) : tie\.', line)
                if goal:
                    goals.add(goal[1])
            kind = re.match(r'^\s*(?:(?:abbrev|unfoldable|opaque|pub)\s+)*(?:data|record)\s+(%s)' % W, line)
            if kind:
                record = indent
                continue
            if record is not None and indent <= record:
                record = None
            words = re.match(r'^\s*(?:(?:abbrev|unfoldable|opaque|pub|ruleset)\s+)*((?:%s)(?:\s+(?:%s))*)\s+:\s' % (W, W), line)
            if words and not text.startswith(('use ', 'let ', 'in ', 'module ', 'λ')):
                names.update(words[1].split())
            elif record is not None:
                field = re.match(r'^\s*(%s)\s*:' % W, line)
                if field:
                    names.add(field[1])
    return names - goals


def snake(name):
    name = name.replace('-', '_')
    if re.match('[a-z]', name):
        name = re.sub(r"([a-z0-9])([A-Z]+)(?=[a-z0-9'_]|$)", lambda m: m[1] + '_' + m[2].lower(), name)
    return name


def table():
    names = declared()
    odd = [n for n in names if '-' in n or re.match(r"[a-z][a-z0-9']*[A-Z]", n)]
    rows = {n: snake(n) for n in odd if n not in SKIP and not n.startswith('+')}
    rows.update(OWN)
    taken = collections.defaultdict(list)
    for old, new in rows.items():
        taken[new].append(old)
    for new, olds in taken.items():
        if len(olds) > 1:
            dashed = [o for o in olds if '-' in o]
            assert len(olds) == 2 and len(dashed) == 1, olds
            rows[dashed[0]] += '_lem'
    for name in LEM:
        rows[name] = snake(name) + '_lem'
    for old, new in rows.items():
        if new in names and old not in OWN:
            stays = [p for p in LEMMAS.get(new, [])]
            if not stays:
                print(f'look: {old} becomes {new}, a name that is there already')
    return rows


def turn(path, rows, dots=True):
    """The words of a file by a table; behind a dot they stay where dots is False."""
    text = open(path, encoding='utf-8').read()

    def one(m):
        if not dots and text[m.start() - 1:m.start()] == '.':
            return m[0]
        return rows.get(m[0], m[0])

    new = WORD.sub(one, text)
    if new != text:
        open(path, 'w', encoding='utf-8').write(new)


def edits(rows):
    for folder, dirs, files in os.walk('crates'):
        dirs[:] = sorted(d for d in dirs if d != 'out')
        for name in sorted(files):
            if name.endswith('.edit'):
                path = os.path.join(folder, name)
                lines = open(path, encoding='utf-8').read().split('\n')
                for i, line in enumerate(lines):
                    if line.startswith(('old:', 'new:')):
                        lines[i] = WORD.sub(lambda m: rows.get(m[0], m[0]), line)
                open(path, 'w', encoding='utf-8').write('\n'.join(lines))


def main():
    if not os.path.isfile('crates.txt'):
        sys.exit('run it at the top of the repository')
    for name, paths in LEMMAS.items():
        for path in paths:
            turn(f'crates/{path}.antt', {name: name + '_lem'}, dots=False)
    for path in antt_files():
        text = open(path, encoding='utf-8').read()
        if 'nearest-ge' in text and 'Nearest.{nearest-ge}' not in text:
            turn(path, {'nearest-ge': NEAREST_GE})
    rows = table()
    with tempfile.TemporaryDirectory() as top:
        at = lambda name: os.path.join(top, name)
        open(at('table'), 'w').write(''.join(f'{a}\t{b}\n' for a, b in sorted(rows.items())))
        open(at('steps'), 'w').write('\n'.join(STEPS) + '\n')
        ran = subprocess.run([sys.executable, SNAKE, '--table', at('table'), '--only', 'antt,rt,md', '--keep-after-dot', at('steps'),
                              *[p for p in ('crates', 'README.md', 'CONTRIBUTING.md', 'docs', 'differential', 'bench') if os.path.exists(p)]],
                             capture_output=True, text=True)
        print(ran.stdout, ran.stderr)
        subprocess.run([sys.executable, SNAKE, '--table', at('table'), '--only', 'text', 'tools/believe.txt'], check=False)
    edits(rows)
    if os.path.exists('crates/order/specs/Contracts.antt'):
        subprocess.run(['git', 'mv', 'crates/order/specs/Contracts.antt', 'crates/order/specs/Promised.antt'], check=True)
        for path in list(antt_files()) + [os.path.join(d, f) for d, _, fs in os.walk('crates') for f in fs if f.endswith('.rt')]:
            text = open(path, encoding='utf-8').read()
            new = text.replace('Rattle.order.specs.Contracts', 'Rattle.order.specs.Promised')
            if path == 'crates/order/specs/Lib.antt':
                new = new.replace('mod Contracts', 'mod Promised')
            if new != text:
                open(path, 'w', encoding='utf-8').write(new)
    print(len(rows), 'names')


main()
