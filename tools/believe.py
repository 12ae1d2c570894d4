#!/usr/bin/env python3
"""Writes docs/BELIEVE.md, what an auditor reads and must believe: believe.py [--check]

A file of crates/*/specs is believed where its opening comment has the sentence MARK. Such a file holds definitions alone (`abbrev`,
`unfoldable`, `record`, `data`), no law and no proof, and takes names only from the libraries, from modules `declared` (the types of the
code), from other believed files, and from elsewhere what tools/believe.txt lists: computed names that theorems tie, and crates whose
definitions are not apart as yet. Theorems are those of crates/*/specs and of the files right in crates/*/proofs. What breaks this is
printed with file and line, and the status is 1.

With --check nothing is written, and the status is also 1 where docs/BELIEVE.md is not what would be written.
"""
import glob
import os
import re
import sys

ROOT = os.path.dirname(os.path.dirname(os.path.abspath(__file__)))
# the sentence of a believed file, a line of its opening comment
MARK = '-- Definitions to be believed: no law, and nothing computed that no theorem ties (docs/BELIEVE.md).'
LIBRARIES = {'Prim', 'mathlib', 'native', 'lib', 'borrow', 'denote'}
# of the kit's own library, whose paths begin as ours do
STD = 'Rattle.std.'
# words of proofs
PROOF = {'omega', 'rw', 'rw⁻¹', 'grw', 'simp', 'search', 'grind', 'cc', 'refl', 'sym', '∙', 'ap', 'subst', 'absurd', 'unfolding', 'unfold', 'axiom', '?'}
# endings of the names of theorems that tie
TIES = ('_is', '_only', '_one', '_are', '-is', '-only', '-one', '-are')
# characters of a line of the page
WIDTH = 150

USE = re.compile(r'^(?:pub )?use ([^\s{]+?)(?:\.\{([^}]*)\}|( as \S+))?$', re.S)
MODULE = re.compile(r'^Rattle\.([a-z_0-9]+)\.(?:specs|(proofs))\.(.+)$')
NAMED = re.compile(r'^( *)((?:(?:unfoldable|abbrev|pub|axiom) )*)(?:(data|record) (\S+)|([^\s:(){};,-][^\s:(){};,]*) :(?:\s|$))')


def read(path):
    with open(path, encoding='utf-8') as f:
        return f.read()


def crates():
    return [line.split(':')[0].split()[0] for line in read(os.path.join(ROOT, 'crates.txt')).split('\n') if ':' in line and not line.startswith('#')]


class Spec:
    """A file of specs or of lemmas: its opening comment, its `use` lines and what it declares, each with its line."""

    def __init__(self, crate, path):
        self.crate, self.path = crate, path
        inner = os.path.relpath(path, os.path.join(ROOT, 'crates', crate))[:-len('.antt')].replace(os.sep, '/')
        self.name = inner[len('specs/'):] if inner.startswith('specs/') else inner
        self.lines = read(path).split('\n')
        i = 0
        while i < len(self.lines) and self.lines[i].startswith('--'):
            i += 1
        self.marked = MARK in self.lines[:i]
        self.uses = []
        while i < len(self.lines):
            line = self.lines[i]
            if line.strip() == '' or re.match(r'^(pub )?mod\b', line):
                i += 1
            elif line.startswith('--') and re.match(r'(--[^\n]*\n)+pub use ', '\n'.join(self.lines[i:])):
                i += 1  # a comment above a name that is passed on
            elif re.match(r'^(pub )?use\b', line):
                j = i
                while '{' in line and '}' not in self.lines[j]:
                    j += 1
                self.uses.append((i + 1, '\n'.join(self.lines[i:j + 1])))
                i = j + 1
            else:
                break
        self.first = i
        self.declared = self.names()

    def names(self):
        """(name, line, marks, kind, indent) of each declaration, at the margin or in a `module _` block."""
        found, block, depth = [], False, 0
        for k in range(self.first, len(self.lines)):
            line = self.lines[k]
            if line.strip() == '' or line.lstrip().startswith('--'):
                continue
            if not line.startswith(' '):
                block = line.startswith('module ')
                depth = 2 if block else 0
            elif block and re.match(r'^ {%d}module ' % depth, line):
                depth += 2
                continue
            m = NAMED.match(line)
            if m and len(m.group(1)) in ({0} if not block else {2, 4} if depth == 4 else {2}):
                found.append((m.group(4) or m.group(5), k + 1, m.group(2).split(), m.group(3), len(m.group(1))))
        return found

    def size(self):
        """Lines of definitions and of the comments that go with them: no opening comment, no `use` line, no blank one."""
        return sum(1 for line in self.lines[self.first:] if line.strip() != '')

    def comments(self):
        """How many of these are comments."""
        return sum(1 for line in self.lines[self.first:] if line.lstrip().startswith('--'))

    def statement(self, name, line):
        """The words of a declaration's statement: up to its equations."""
        found = []
        for k in range(line - 1, len(self.lines)):
            text = code(self.lines[k])
            if k >= line and (text.strip() == '' or text.split()[0] in (name, 'unfolding')):
                break
            found += re.split(r'[\s(){};,.]+', text)
        return set(found)

    def where(self, line):
        return '%s:%d' % (os.path.relpath(self.path, ROOT), line)


def code(line):
    """A line without its comment and its quoted texts."""
    return re.sub(r'--.*', '', re.sub(r'"(?:[^"\\]|\\.)*"', '""', line))


def body_faults(spec):
    """What in a believed file is no definition."""
    defined = {n for n, line, marks, kind, indent in spec.declared if kind or 'abbrev' in marks or 'unfoldable' in marks}
    named = {line: n for n, line, marks, kind, indent in spec.declared}
    margin = 0
    for k in range(spec.first, len(spec.lines)):
        line = code(spec.lines[k])
        if line.strip() == '':
            continue
        bad = set(re.split(r'[\s(){};,]+', line)) & PROOF
        if bad:
            yield k + 1, 'a proof: `%s`' % sorted(bad)[0]
        if re.search(r'\bRattle\.', line):
            yield k + 1, 'a name by its whole path, and no `use` line'
        indent = len(line) - len(line.lstrip())
        if indent == 0:
            margin = 2 if line.startswith('module ') else 0
            if margin or re.match(r'^(pub )?mod\b|^infix', line):
                continue
        if indent != margin:
            continue
        if k + 1 in named:
            if named[k + 1] not in defined:
                yield k + 1, '`%s` is a law, or a definition that nobody can unfold' % named[k + 1]
        elif line.split()[0] not in defined and not line.lstrip().startswith(('}', ')')):
            yield k + 1, 'no definition'


def imports(spec):
    """(line, module, names) of what a file takes; no names where it takes the module itself."""
    for line, text in spec.uses:
        m = USE.match(text)
        if not m:
            yield line, text, None
            continue
        names = None if m.group(2) is None else [x.strip().split(' as ')[0] for x in m.group(2).split(',') if x.strip()]
        yield line, m.group(1), names


class Notes:
    """tools/believe.txt, which says itself what its lines are; each with its number."""

    def __init__(self):
        self.tied, self.theorems, self.inner = {}, {}, {}
        self.crates = {'later': {}, 'host': {}, 'program': {}}
        for number, line in enumerate(read(os.path.join(ROOT, 'tools', 'believe.txt')).split('\n'), 1):
            words = line.split('#')[0].replace(':', ' : ').split()
            if not words:
                continue
            if words[0] == 'tied' and ':' in words:
                k = words.index(':')
                for name in words[2:k]:
                    self.tied[words[1], name] = (words[k + 1:], number)
            elif words[0] == 'theorem':
                for name in words[2:]:
                    self.theorems[words[1], name] = number
            elif words[0] == 'inner':
                for name in words[2:]:
                    self.inner[words[1], name] = number
            elif words[0] in self.crates:
                for crate in words[1:]:
                    self.crates[words[0]][crate] = number
            else:
                raise SystemExit('tools/believe.txt:%d: no such line' % number)


def placed(module):
    """crate/FILE of a module of specs, crate/proofs/FILE of one of proofs, or none."""
    m = MODULE.match(module)
    return None if not m or module.startswith(STD) else '/'.join(x for x in m.groups() if x).replace('.', '/')


def use_faults(spec, specs, notes):
    for line, module, names in imports(spec):
        if module.split('.')[0] in LIBRARIES or module.startswith(STD):
            continue
        place = placed(module)
        if place is None:
            yield line, '`%s` is no library and no file of specs' % module
            continue
        if place.split('/')[1] == 'declared':
            continue
        home = place if place in specs else place.rsplit('/', 1)[0]
        if home not in specs:
            yield line, 'there is no %s' % place
        elif not specs[home].marked and specs[home].crate not in notes.crates['later']:
            for name in names if names is not None else ['(all)']:
                if (specs[home].crate, name) not in notes.tied:
                    yield line, '`%s` of %s, which is not believed' % (name, home)


def takes(spec, specs):
    """(line, file, names) of what a file takes from files that are not believed."""
    for line, module, names in imports(spec):
        place = placed(module)
        if place and place.split('/')[1] != 'declared':
            home = specs.get(place) or specs.get(place.rsplit('/', 1)[0])
            if home and not home.marked:
                yield line, home, names


def functions(path):
    """(name, line, contract) of each public function that promises something."""
    lines = read(path).split('\n')
    for k, line in enumerate(lines):
        m = re.match(r'^(\s*)pub (?:extern "C" )?fn (\w+)', line)
        if not m:
            continue
        contract = []
        for later in lines[k + 1:]:
            if later.startswith(m.group(1) + '{') or later.strip() == '':
                break
            if contract or re.match(r'^\s*(requires|ensures)\b', later):
                contract.append(later)
        if any(re.match(r'^\s*ensures\b', c) for c in contract):
            yield m.group(2), k + 1, contract


def cites(path, specs):
    """(line, file, name) of what the contracts of a source file's public functions name of files that are not believed."""
    names = {}
    for m in re.finditer(r'^ghost use ([^\s{;]+)\.\{([^}]*)\};', read(path), re.M):
        place = placed(m.group(1))
        home = place and (specs.get(place) or specs.get(place.rsplit('/', 1)[0]))
        if home and not home.marked:
            for item in m.group(2).split(','):
                if item.strip():
                    names[item.split(' as ')[-1].strip()] = (home, item.split(' as ')[0].strip())
    for name, line, contract in functions(path):
        for word in sorted(set(re.split(r'[\s(){};,.⌜⌝]+', '\n'.join(contract)))):
            if word in names:
                yield (line,) + names[word]


def sources(crate):
    return sorted(glob.glob(os.path.join(ROOT, 'crates', crate, 'src', '**', '*.rt'), recursive=True))


def laws_of(specs):
    """By its name, each declaration of a file that is not believed: (file, line)."""
    laws = {}
    for place in sorted(specs):
        for n, line, marks, kind, indent in specs[place].declared:
            if not specs[place].marked:
                laws.setdefault(n, []).append((specs[place], line))
    return laws


def by_theorems(taken, notes, laws):
    """What is taken by theorems, (crate, name): the theorems, and the file of the first of them."""
    items = []
    for crate, name in taken:
        by = notes.tied[crate, name][0]
        homes = ['%s/%s' % (s.crate, s.name) for s, line in laws.get(by[0], []) if name in s.statement(by[0], line)]
        items.append('`%s` (%s of %s)' % (name, ', '.join('`%s`' % t for t in by), homes[0] if homes else '?'))
    return wrapped(items, '  By theorems:') if items else []


def wrapped(items, lead):
    """Items after a lead, in lines of at most WIDTH characters; those after the first are indented under the lead's bullet."""
    out, line = [], lead
    for k, item in enumerate(items):
        piece = item + (',' if k + 1 < len(items) else '')
        if len(line) + 1 + len(piece) > WIDTH and line.strip():
            out.append(line)
            line = '  ' + piece
        else:
            line += ' ' + piece
    return out + [line]


def link(path):
    rel = os.path.relpath(path, ROOT).replace(os.sep, '/')
    return '[%s](../%s)' % ('/'.join(rel.split('/')[2:]).rsplit('.', 1)[0], rel)


OPENING = '''# What must be believed

For an auditor who asks what the proofs prove. `rt ci` says that every function keeps its contract; whether the contracts, and the
definitions that they rest on, say what the papers say, no program can tell. They are listed here, crate by crate, and nothing else
has to be read: no law, no proof and no definition that only computes.

The definitions stand in files of their own, which say so in their opening comment. Read a crate's definitions against the papers, whose
sentences stand above them, and then its public contracts. Where a contract or a definition names something that is computed elsewhere,
'By theorems' says which theorems tie it: that it is what a definition listed here says, and that there is no other answer. Of a theorem
the statement is to be read, and not the proof; all that are of this kind are listed with their places. Three go only so far: for id slots
that the index did not leave, `found_safe` says that what is served has the id, and `index/specs/Search` alone says what that is; `role_of_is`
and `seen_records_are` speak of records whose parts read, and of tables that a scan left.

`tools/believe.py` writes this page from the tree, and says where it does not hold: in a file that is listed nothing is a law or a
proof, and its definitions and the contracts of public functions name only what the libraries have, the types of the code (`declared`),
other files that are listed, and what theorems tie (`tools/believe.txt`). Not held to it are the crates of the programs, and what only crates
of the reader call (`inner` there). It reads words and trusts whoever writes a file: what must be believed of the page is that nobody hid a
law from it. Definitions of the kit's libraries are not on it. Lines are those of definitions and of the comments above
them; opening comments, imports and blank lines are not counted. The number behind a name is its line. docs/DESIGN.md says where each
sentence of the papers is.'''


def page(specs, notes):
    order, laws = crates(), laws_of(specs)
    rows, parts = [], []
    total, reader = [0] * 5, [0] * 5
    for crate in order:
        own = sorted((s for s in specs.values() if s.crate == crate), key=lambda s: s.name)
        believed = [s for s in own if s.marked]
        part = []
        lines, comments = sum(s.size() for s in believed), sum(s.comments() for s in believed)
        for s in believed:
            names = ['`%s` %d' % (n, line) for n, line, marks, kind, indent in s.declared if 'pub' in marks]
            part += wrapped(names, '- %s, %d lines:' % (link(s.path), s.size()))
            taken = dict.fromkeys((home.crate, n) for line, home, got in takes(s, specs) for n in got or [] if (home.crate, n) in notes.tied)
            part += by_theorems(taken, notes, laws)
        contracts, clauses = 0, 0
        told = []
        for path in sources(crate):
            found = list(functions(path))
            if found:
                contracts += len(found)
                clauses += sum(len(c) for n, line, c in found)
                told += wrapped(['`%s` %d' % (n, line) for n, line, c in found], '- %s, contracts of %d lines:' % (link(path), sum(len(c) for n, line, c in found)))
                taken = dict.fromkeys((home.crate, n) for line, home, n in cites(path, specs) if (home.crate, n) in notes.tied)
                told += by_theorems(taken, notes, laws)
        ties = 0
        tied = []
        for s in own:
            if s.marked:
                continue
            found = [(n, line) for n, line, marks, kind, indent in s.declared
                     if 'pub' in marks and not kind and 'abbrev' not in marks and 'unfoldable' not in marks
                     and (n.endswith(TIES) or (crate, n) in notes.theorems)]
            if found:
                ties += len(found)
                tied += wrapped(['`%s` %d' % (n, line) for n, line in found], '- %s:' % link(s.path))
        if not (believed or contracts or ties):
            continue
        rows.append((crate, lines, comments, contracts, clauses, ties))
        total = [a + b for a, b in zip(total, rows[-1][1:])]
        if crate not in notes.crates['host'] and crate not in notes.crates['program']:
            reader = [a + b for a, b in zip(reader, rows[-1][1:])]
        parts.append('\n'.join(['## %s' % crate, '']
                               + (['Definitions:', ''] + part + [''] if part else [])
                               + (['Public contracts:', ''] + told + [''] if told else [])
                               + (['Theorems:', ''] + tied + [''] if tied else [])).rstrip('\n'))
    late = {}
    for s in specs.values():
        for line, home, names in takes(s, specs) if s.marked else []:
            got = late.setdefault((order.index(home.crate), home.name), (home, set()))[1]
            got |= {n for n in names or [] if (home.crate, n) not in notes.tied}
    left = []
    for key in sorted(late):
        home, names = late[key]
        at = {n: line for n, line, marks, kind, indent in home.declared}
        if names:
            left += wrapped(['`%s`%s' % (n, ' %d' % at[n] if n in at else '') for n in sorted(names, key=lambda n: (at.get(n, 0), n))], '- %s of `%s`:' % (link(home.path), home.crate))
    table = ['| Crate | Lines of definitions | of these comments | Public functions | Lines of their contracts | Theorems |', '|---|---|---|---|---|---|']
    table += ['| [%s](#%s) | %s |' % (row[0], row[0], ' | '.join(str(n) for n in row[1:])) for row in rows]
    table += ['| all but hosts and programs | %s |' % ' | '.join(str(n) for n in reader)]
    table += ['| all | %s |' % ' | '.join(str(n) for n in total)]
    out = [OPENING, '\n'.join(table)]
    if left:
        out.append('\n'.join(['Not apart as yet: what definitions here take from files that hold more than definitions.', ''] + left))
    return '\n\n'.join(out + parts) + '\n', total


def main(arguments):
    specs = {}
    for crate in crates():
        folder = os.path.join(ROOT, 'crates', crate)
        for path in glob.glob(os.path.join(folder, 'specs', '**', '*.antt'), recursive=True) + glob.glob(os.path.join(folder, 'proofs', '*.antt')):
            if os.path.basename(path) != 'Lib.antt':
                s = Spec(crate, path)
                specs['%s/%s' % (crate, s.name)] = s
    notes = Notes()
    faults = []
    for place in sorted(specs):
        s = specs[place]
        if s.marked:
            faults += [(s.where(line), what) for line, what in body_faults(s)]
            faults += [(s.where(line), what) for line, what in use_faults(s, specs, notes)]
    used = {(home.crate, n) for s in specs.values() if s.marked for line, home, names in takes(s, specs) for n in names or []}
    for crate in crates():
        for path in sources(crate) if crate not in notes.crates['program'] else []:
            for line, home, n in cites(path, specs):
                used.add((home.crate, n))
                if (home.crate, n) not in notes.tied and (home.crate, n) not in notes.inner and home.crate not in notes.crates['later']:
                    faults.append(('%s:%d' % (os.path.relpath(path, ROOT), line), 'the contract names `%s` of %s/%s, which is not believed' % (n, home.crate, home.name)))
    laws = laws_of(specs)
    for key, (by, number) in notes.tied.items():
        if key not in used:
            faults.append(('tools/believe.txt:%d' % number, 'no believed file and no contract takes `%s` of %s' % (key[1], key[0])))
        faults += [('tools/believe.txt:%d' % number, 'there is no theorem `%s` that speaks of `%s`' % (n, key[1]))
                   for n in by if not any(key[1] in s.statement(n, line) for s, line in laws.get(n, []))]
    for (crate, name), number in notes.inner.items():
        if (crate, name) not in used:
            faults.append(('tools/believe.txt:%d' % number, 'no contract names `%s` of %s' % (name, crate)))
    for (crate, name), number in notes.theorems.items():
        if not any(s.crate == crate for s, line in laws.get(name, [])):
            faults.append(('tools/believe.txt:%d' % number, 'there is no theorem `%s` in %s' % (name, crate)))
    for where, what in faults:
        print('%s: %s' % (where, what))
    text, total = page(specs, notes)
    path = os.path.join(ROOT, 'docs', 'BELIEVE.md')
    stale = False
    if '--check' in arguments:
        stale = not os.path.exists(path) or read(path) != text
        if stale:
            print('docs/BELIEVE.md is not what tools/believe.py writes')
    else:
        with open(path, 'w', encoding='utf-8') as f:
            f.write(text)
    print('%d lines of definitions, %d of them comments; %d public functions with %d lines of contract, %d theorems' % tuple(total))
    return 1 if faults or stale else 0


if __name__ == '__main__':
    sys.exit(main(sys.argv[1:]))
