#!/usr/bin/env python3
"""Lists what a change of design changed: public signatures, clauses, definitions and theorems, old and new, as markdown.

    python3 tools/design_changes.py COMMIT >LIST     the working tree beside that commit

It goes by the kit's own comparison (port/contracts.py), and leaves out what changed in a proof alone. A theorem or a definition that is gone is listed by
its name; docs/DESIGN-PASS.md says what states its promise now.
"""
import json
import pathlib
import re
import shutil
import subprocess
import sys
import tempfile

TOP = pathlib.Path(__file__).resolve().parent.parent


def contracts_tool():
    rt = pathlib.Path(shutil.which('rt')).resolve()
    return rt.parent.parent / 'port' / 'contracts.py'


def statement(name, text):
    """What a definition says: of a theorem its type alone, of anything else the whole."""
    text = re.sub(r'\s+', ' ', text)
    m = re.match(r'(?:(?:pub|abbrev|unfoldable|data|record) )*([^ :]+)', text)
    if re.match(r'(unfoldable )?(pub )?(data|record|abbrev|unfoldable)\b', text) or 'abbrev' in text[:12] or 'unfoldable' in text[:12]:
        return text
    head = text.split(':', 1)
    if len(head) < 2:
        return text
    body = re.search(r' (?:unfolding |%s(?: |$))' % re.escape(name), head[1])
    return head[0] + ':' + (head[1][:body.start()] if body else head[1])


def public_in(top):
    """The public functions below a folder, as the comparison names them: crate, file and name (of a method the last word)."""
    found = set()
    for path in pathlib.Path(top).glob('crates/*/src/**/*.rt'):
        parts = path.relative_to(pathlib.Path(top) / 'crates').parts
        for m in re.finditer(r'^\s*pub (?:const |unsafe |extern "C" )*fn (\w+)', path.read_text(), re.M):
            found.add((parts[0], '/'.join(parts[1:]), m.group(1)))
    return found


def main():
    commit = sys.argv[1]
    with tempfile.TemporaryDirectory() as old:
        tar = subprocess.run(['git', '-C', str(TOP), 'archive', commit], check=True, capture_output=True).stdout
        subprocess.run(['tar', '-x', '-C', old], input=tar, check=True)
        public = public_in(old)
        said = subprocess.run([sys.executable, str(contracts_tool()), old, str(TOP), '--json'], check=True, capture_output=True, text=True).stdout
    d = json.loads(said)

    def is_public(row):
        words = row.split(' (requires')[0].split(' ')
        return (words[0], words[1], words[-1]) in public

    def block(title, rows):
        if rows:
            print(f'\n### {title}\n')
            for r in rows:
                print(r)

    def pair(name, old, new):
        return f'- {name}\n  - old: `{old}`\n  - new: `{new}`'

    def clauses(cs):
        return '; '.join((f'{n}: ' if n else '') + c for n, c in cs) or '-'

    block('Public signatures', [pair(n, o, w) for n, o, w in d['signatures changed'] if is_public(n)])
    rows = []
    for n, ro, eo, rn, en in d['contracts changed']:
        if is_public(n) and (ro, eo) != (rn, en):
            rows.append(pair(n, f'requires {clauses(ro)} ensures {clauses(eo)}' if ro else f'ensures {clauses(eo)}',
                             f'requires {clauses(rn)} ensures {clauses(en)}' if rn else f'ensures {clauses(en)}'))
    block('Clauses of public functions', rows)
    block('Public functions that are gone', ['- ' + n for n in d['functions not found again'] if is_public(n)])
    g = d['ghost items and constants']
    block('Ghost items and constants', [f'- {" ".join(x)}: gone' for x in g['gone']] + [pair(' '.join(x[:3]), '; '.join(x[3]), '; '.join(x[4])) for x in g['changed']])
    rows = []
    for crate, name, old, new in d['definitions']['changed']:
        o, w = [statement(name, t) for t in old], [statement(name, t) for t in new]
        if o != w and any(re.match(r'(unfoldable |abbrev |record |data )*pub ', t) for t in o):
            rows.append(pair(f'{crate} {name}', ' | '.join(o), ' | '.join(w)))
    block('Definitions and theorems', rows)
    by_crate = {}
    for crate, name in d['definitions']['gone']:
        by_crate.setdefault(crate, []).append(name)
    block('Definitions and theorems that are gone', [f'- {c}: {", ".join(ns)}' for c, ns in by_crate.items()])


main()
