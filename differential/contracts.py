#!/usr/bin/env python3
"""What a change moved of what is promised and defined: contracts.py REV

Holds the working tree against the revision REV and prints a line for each public function that is new or gone, or whose signature,
`requires` or `ensures` has changed, and for each declaration in specs/ or right in proofs/ (definition, record, law with its proof) that is gone or has
another text. What stands elsewhere word for word is `moved`. The last line counts. Layout and comments do not count. Names that docs/NAMES.md
renames count as their new ones, and short names in a contract as what they stand for.
"""
import re
import subprocess
import sys

import names


def git(*words):
    return subprocess.run(('git',) + words, capture_output=True, text=True, check=True).stdout


def plain(text):
    return re.sub(r'\s+', ' ', text).strip()


def functions(text):
    """The public functions of a file of Rattle: name to signature and contract."""
    text = re.sub(r'//[^\n]*', '', text)
    found = {}
    for m in re.finditer(r'^ *(?:#\[(?:unsafe\()?no_mangle\)?\]\s*)?pub (?:unsafe )?(?:extern "C" )?fn (\w+)', text, re.M):
        rest = text[m.start():]
        # the body begins at a brace on a line of its own, or at one that ends a line before any clause
        end = re.search(r'\n *\{', rest)
        clause = re.search(r'\n *(?:requires|ensures)\b', rest)
        one = re.search(r'\{\s*$|\{\s*\}|\{[^{}\n]*\}$', rest[:clause.start()] if clause and end and clause.start() < end.start() else rest, re.M)
        stop = min(x.start() for x in (end, one) if x)
        found[m.group(1)] = plain(rest[:stop])
    return found


def declarations(text):
    """The declarations of a file of antt: name to text, the body among it. Those inside a `module _ (..) where` carry its premises."""
    found = {}
    block, name, inset, premises = [], None, 0, ['']
    for line in text.split('\n') + ['use end']:
        bare = re.sub(r'--.*', '', line).rstrip()
        if not bare:
            continue
        indent = len(bare) - len(bare.lstrip())
        words = bare.lstrip()
        if indent <= inset and not (name and words.startswith(name + ' ')):
            head = re.match(r'(?:unfoldable |abbrev |instance )*(?:pub )?(?:(?:record|data) (\S+)|([^\s(){}]+)(?= :))', words)
            opens = words.startswith('module ')
            if head or opens or words.startswith(('use ', 'mod ', 'pub mod ', 'ghost ')):
                if name:
                    found[name] = plain(' '.join(block))
                inset = indent
                premises = premises[:indent // 2 + 1]
                name, block = None, []
                if opens:
                    premises.append(words)
                    inset = indent + 2
                elif head:
                    name, block = head.group(1) or head.group(2), premises + [words]
                continue
        if name:
            block.append(bare)
    return found


def tree(rev):
    """path to text, of the revision or of the working tree"""
    if rev:
        names = git('ls-tree', '-r', '--name-only', rev, 'crates').split('\n')
    else:
        names = git('ls-files', '-co', '--exclude-standard', 'crates').split('\n')
    keep = [n for n in names if re.match(r'crates/\w+/(src/.*\.rt|specs/.*\.antt|proofs/[^/]*\.antt)$', n)]
    if rev:
        return {n: git('show', rev + ':' + n) for n in keep}
    out = {}
    for n in keep:
        try:
            out[n] = open(n, encoding='utf-8').read()
        except FileNotFoundError:
            pass
    return out


def all_of(files, reader, ending):
    """every name with its text"""
    return {pair for path, text in files.items() if path.endswith(ending) for pair in reader(text).items()}


def main():
    if len(sys.argv) != 2:
        sys.exit(__doc__)
    page = names.rows()
    old, new = names.renamed(tree(sys.argv[1]), page), tree(None)
    past, known = names.shorts(page, old), names.shorts(page, new)
    kinds = (('contract', functions, '.rt'), ('declaration', declarations, '.antt'))
    words = {kind: all_of(new, reader, ending) for kind, reader, ending in kinds}
    before = {kind: all_of(old, reader, ending) for kind, reader, ending in kinds}
    words['contract'] = {(name, names.spelt(text, known)) for name, text in words['contract']}
    before['contract'] = {(name, names.spelt(text, past)) for name, text in before['contract']}
    count = {}
    for kind, reader, ending in kinds:
        for path in sorted(set(old) | set(new)):
            if not path.endswith(ending):
                continue
            a, b = reader(old.get(path, '')), reader(new.get(path, ''))
            if kind == 'contract':
                a, b = ({n: names.spelt(x, k) for n, x in y.items()} for y, k in ((a, past), (b, known)))
            for name in sorted(set(a) | set(b)):
                if a.get(name) == b.get(name):
                    continue
                said = 'new' if name not in a else 'gone' if name not in b else 'changed'
                if said == 'gone' and (name, a[name]) in words[kind]:
                    said = 'moved'
                if said == 'new' and (kind == 'declaration' or (name, b[name]) in before[kind]):
                    continue
                print(f'{kind} {said}: {path}: {name}')
                count[kind, said] = count.get((kind, said), 0) + 1
    print(', '.join(f'{count.get((kind, how), 0)} {kind}s {how}' for kind, _, _ in kinds for how in ('changed', 'gone', 'moved')))


main()
