#!/usr/bin/env python3
"""Says which names the documents cite that the code has not: cited.py [--code ROOT]

Read are README.md, CONTRIBUTING.md, CHANGELOG.md, docs/*.md but BELIEVE.md, and NAMES.md, PORT.md, DESIGN-PASS.md and LOOK-BACK.md, which have old names, differential/README.md and
bench/README.md of this tree. The code is that of
ROOT/crates (default: this tree). Looked at is what stands in backticks:

  crate/specs/Module, crate/specs/Module.name, crate/proofs/Module, crates/..: the folder, the file, and the name in it
  specs/Module: the same, in the crate that the row or the paragraph names last
  crate::name, Type::Case: a function, type or constant of that crate; a case of that type
  Module.name: a module of a crate that is named before, and a name in it; `Module`: `name`, `name` likewise, and `name` in `crates/..`
  name: after a path, with commas alone between, a name of its crate. Farther from one, where it has a capital, a hyphen or an underscore, a name
    of a crate that the row or the paragraph names; where no path stands before it, of any crate. Other words are not looked at
  target/bin/NAME, ./step NAME, rt check NAME and its like, and what follows the words crate and program: a program, a crate

A row of a table that names no crate goes by the rows above it, and a paragraph by those before it in its section. The first column of the
table of crates in docs/DESIGN.md must have every crate once. Columns with the heading 'The Rust' speak of other code and are left out, as are
the words of OTHERS. What is missing is printed with file and line, and the status is 1.
"""
import glob
import os
import re
import sys

ROOT = os.path.dirname(os.path.dirname(os.path.abspath(__file__)))
# what stands before `::` and is no crate of ours: the Rust's, and the language's own
FOREIGN = {'std', 'str', 'char', 'f64', 'hooflift', 'StepFile'}
# tasks of the program desk
TASKS = {'list', 'scale', 'show', 'inspect'}
# names that are not ours: of the Rust original, of what the kit generates, of files and packages; and names of ours that are said to be gone
OTHERS = set('''
StepFile from_bytes DanglingRef args_checked next_value as_ref_id kind_histogram keyword_histogram is_surface is_curve Kind::Line
Lts.antt CLOCK_THREAD_CPUTIME_ID ISO-10303-21 END-ISO-10303-21 E-655360 kicad-packages3d
carried lex::far_text quick_at said_at unclosed_at
'''.split())
# headings of tables whose rows go on from those above them
GOING = {'Computed', 'Definition', 'Definition or theorem', 'Proved'}
NAME = r"[^\W\d_][\w\-′]*"
# a declaration, a field or a constructor: one name after `data` or `record`, else all before the colon
DECLARED = re.compile(r'^ *(?:(?:unfoldable|abbrev|pub|axiom) )*'
                      r'(?:(?:data|record) (\S+)|([^\s:(){};,-][^\s:(){};,]*(?: [^\s:(){};,→=]+)*) :(?:\s|$))')
CODED = re.compile(r'\b(?:fn|struct|enum|const|static|type|mod|trait)\s+(\w+)')


def read(path):
    with open(path, encoding='utf-8') as f:
        return f.read()


def declared(text):
    """The names that a file of definitions or proofs declares, fields and constructors among them."""
    names = set()
    for line in text.split('\n'):
        found = DECLARED.match(line)
        if found:
            names.update((found[1] or found[2]).split())
    return names


class Crate:
    """What a crate has: its modules with their names, its functions and types, and the cases, fields and functions of each type."""

    def __init__(self, folder):
        self.modules = {}  # of specs and of proofs, by path below that folder
        for kind in ('specs', 'proofs'):
            base = os.path.join(folder, kind)
            for path in glob.glob(os.path.join(base, '**', '*.antt'), recursive=True):
                self.modules[kind + '/' + os.path.relpath(path, base)[:-5]] = declared(read(path))
        source = '\n'.join(read(path) for path in glob.glob(os.path.join(folder, 'src', '*.rt')))
        source = re.sub(r'//.*', '', source)
        self.code = set(CODED.findall(source))
        self.types = {}
        for found in re.finditer(r'\b(?:enum|struct) (\w+)[^{;]*\{(.*?)\n\}', source, re.S):
            self.types.setdefault(found[1], set()).update(re.findall(r'\w+', found[2]))
        for found in re.finditer(r'^impl[^{]*?(\w+)(?:<[^{]*>)? \{(.*?)\n\}', source, re.S | re.M):
            self.types.setdefault(found[1], set()).update(CODED.findall(found[2]))

    def module(self, name, kind='specs'):
        """The names of a module, those of its submodules too; none where there is no such module."""
        path = kind + '/' + name
        found = [names for other, names in self.modules.items() if other == path or other.startswith(path + '/') or other.endswith('/' + name)]
        return set().union(*found) if found else None

    def has(self, name):
        """A function, a type or what is in one, a name of the definitions and laws, or a module."""
        return (name in self.code or name in self.types or any(name in words for words in self.types.values())
                or any(name in names for path, names in self.modules.items() if path.startswith('specs/'))
                or self.module(name) is not None or self.module(name, 'proofs') is not None)


class Check:
    """The code, and how much of what is cited it has not."""

    def __init__(self, code):
        self.code = code
        self.crates = {name: Crate(os.path.join(code, 'crates', name)) for name in sorted(os.listdir(os.path.join(code, 'crates')))}
        self.header = set(re.findall(r'(?:hooflift|HOOFLIFT)_\w+', read(os.path.join(code, 'include', 'hooflift.h'))))
        self.missing = 0

    def say(self, place, text):
        print('%s: %s' % (place, text))
        self.missing += 1

    def anywhere(self, name):
        return [crate for crate, it in self.crates.items() if it.has(name)]

    def path(self, place, path):
        """A path that begins with crates/."""
        parts = path.rstrip('/').split('/')
        if len(parts) < 2 or '*' in path or parts[1] == 'NAME':
            return
        if parts[1] not in self.crates:
            self.say(place, '%s: no such crate' % path)
        elif not os.path.exists(os.path.join(self.code, path)) and not os.path.exists(os.path.join(self.code, path + '.antt')):
            self.say(place, '%s: no such file' % path)

    def commands(self, place, line):
        """Paths and commands, in backticks or not."""
        for found in re.finditer(r"(?<![\w/.-])crates/[\w./*-]+\w", line):
            if not line[:found.start()].endswith(('native/', '../')):
                self.path(place, found[0])
        for found in re.finditer(r'target/bin/(\w+)', line):
            if not os.path.exists(os.path.join(self.code, 'crates', found[1], 'src', 'main.rt')):
                self.say(place, '%s: no such program' % found[0])
        for found in re.finditer(r'\./step ([a-z_]\w+)', line):
            if found[1] not in TASKS and not os.path.exists(os.path.join(self.code, 'crates', found[1], 'src', 'main.rt')):
                self.say(place, '%s: no such program' % found[0])
        for found in re.finditer(r'rt (?:ci|must-fail|check|verdict|lib|run|test|tidy) ([a-z_]\w+)', line):
            if found[1] not in self.crates:
                self.say(place, '%s: no such crate' % found[0])


class Block:
    """A row or a paragraph: which crates it names so far, the last of them last, and what the next name has to be of."""

    def __init__(self, check, before):
        self.check, self.before, self.named = check, before, []
        self.pathed = False  # a path stands before
        self.counted = False  # after the word crate or program, with commas alone between
        self.waiting = []  # names before `in` and a path
        self.chain = None  # after a path, with commas alone between: the modules that the names are of, () for any of the crate

    def crates(self):
        return self.named or self.before

    def name(self, crate):
        self.named = [other for other in self.named if other != crate] + [crate]

    def module(self, place, said, crates, kind, module, name=None, chain=None):
        """Looks a module up in these crates, and a name in it; false where none of them has the module."""
        known = [(crate, self.check.crates[crate].module(module, kind)) for crate in crates]
        known = [(crate, names) for crate, names in known if names is not None]
        if not known:
            return False
        having = [crate for crate, names in known if not name or name in names]
        if not having:
            self.check.say(place, '%s: %s has no %s' % (said, ' and '.join('%s/%s/%s' % (crate, kind, module) for crate, _ in known), name))
        self.name(having[0] if having else known[0][0])
        self.pathed, self.chain = True, () if name else (chain or ()) + (module,)
        return True

    def span(self, place, said, between, after):
        """What stands in backticks, with what stands between it and the one before, and what follows."""
        if between.strip() not in (':', ',', 'and', ', and', '('):
            self.chain = None
        chain, self.chain = self.chain, None
        waiting, self.waiting = self.waiting, []
        self.counted = bool(re.search(r'\b(crates?|programs?) \(?$', between)) or self.counted and between.strip() in (',', 'and', ', and')
        said = said.strip()
        if said in OTHERS:
            return
        if self.counted and re.match('^[a-z]\\w*$', said) and said not in self.check.crates and said not in TASKS:
            self.check.say(place, '%s: no such crate' % said)
            return
        for form, look in self.FORMS:
            found = re.match(form, said)
            if found and look(self, place, said, *found.groups()):
                if between.strip() == 'in' and self.chain:
                    also = re.match(r' and `(\w+)\.antt`', after)
                    chain = self.chain + ((also[1],) if also else ())
                    for name in waiting:
                        self.bare(place, name, chain, '')
                return
        if re.match('^%s$' % NAME, said):
            if re.match(r'(, `[^`]+`| and `[^`]+`)* in `(crates/[^`]*|[^`]*)\.antt`', after):
                self.waiting = waiting + [said]
            else:
                self.bare(place, said, chain, after)

    def crate_path(self, place, said, crate, module):
        """The path itself is looked at by `commands`."""
        if crate in self.check.crates:
            self.name(crate)
            self.pathed = True
            if module and re.match(r'^/specs/.*\.antt$', module):
                self.chain = (module[7:-5],)
        return True

    def path(self, place, said, crate, kind, module, name):
        if crate not in self.check.crates:
            self.check.say(place, '%s: no such crate' % said)
        elif not module or kind == 'src':
            self.name(crate)
            self.pathed, self.chain = True, ()
        elif not self.module(place, said, [crate], kind, module, name):
            self.check.say(place, '%s: no such module' % said)
        return True

    def own_path(self, place, said, kind, module, name):
        if not self.module(place, said, self.crates()[-1:], kind, module, name):
            self.check.say(place, '%s: not in %s' % (said, ''.join(self.crates()[-1:]) or 'any crate'))
        return True

    def coded(self, place, said, one, two):
        crates = self.check.crates
        if one in crates:
            self.name(one)
            self.pathed, self.chain = True, ()
            if two not in crates[one].code:
                self.check.say(place, '%s: no such function or type' % said)
        elif not any(two in it.types.get(one, ()) for it in crates.values()) and one not in FOREIGN:
            self.check.say(place, '%s: no such crate or type' % said)
        return True

    def dotted(self, place, said, module, name):
        if name in ('md', 'py', 'sh', 'rs', 'txt', 'rt'):
            return False
        name = None if name == 'antt' else name
        if not self.module(place, said, self.crates()[::-1], 'specs', module, name):
            having = [crate for crate, it in self.check.crates.items() if name in (it.module(module) or ())]
            where = ', '.join(self.crates()) or 'any crate'
            self.check.say(place, '%s: not in %s%s' % (said, where, '; but in ' + ', '.join(having) if having else ''))
        return True

    FORMS = (
        (r'^crates/(\w+)(/.*)?$', crate_path),
        (r'^([a-z]\w*)/(specs|proofs|src)(?:/([A-Za-z]\w*(?:/\w+)*))?(?:\.(%s))?$' % NAME, path),
        (r'^(specs|proofs)/([A-Z]\w*)(?:\.(%s))?$' % NAME, own_path),
        (r'^(\w+)::(\w+)(?:::<.*>)?$', coded),
        (r'^([A-Z]\w*)\.(%s)$' % NAME, dotted),
    )

    def bare(self, place, said, chain, after):
        crates = self.check.crates
        if after.startswith(':') and self.module(place, said, self.crates()[::-1], 'specs', said, None, chain):
            return
        self.chain = chain
        of = self.crates()
        if self.pathed and said[0].isupper() and re.match(': `[a-z]', after) and not any(said in crates[crate].types for crate in of):
            return self.check.say(place, '%s: no module of %s' % (said, ', '.join(of)))
        if chain and any(crates[crate].module(said) is not None for crate in of):
            self.chain = chain + (said,)
            return
        if chain:
            known = any(said in (crates[crate].module(module) or ()) for crate in of for module in chain)
        else:
            known = any(crates[crate].has(said) for crate in of)
        if known:
            return
        if said in crates:
            return self.name(said)
        if said in self.check.header or 'hooflift_' + said in self.check.header:
            return
        strict = '_' in said or '-' in said or re.search('.[A-Z]', said) and not said.isupper()
        having = self.check.anywhere(said)
        if chain is not None or strict and not having or self.pathed and (strict or said[0].isupper()):
            where = (' and '.join(chain) + ' of ' if chain else '') + (', '.join(of) or 'any crate')
            self.check.say(place, '%s: not in %s%s' % (said, where, '; but in ' + ', '.join(having) if having else ''))


def blocks(text):
    """The rows, paragraphs, list items, headings and lines of code of a document, each with its kind and its lines with their numbers."""
    block, code = [], False
    for n, line in enumerate(text.split('\n'), 1):
        bare = line.strip()
        if line.startswith('```'):
            code = not code
            continue
        if code or line.startswith('    ') and not block:
            yield 'code', [(n, line)]
            continue
        starts = bare.startswith(('|', '- ', '* ')) or not bare or line.startswith('#')
        if starts and block:
            yield 'text', block
            block = []
        if line.startswith('#'):
            yield 'head', [(n, line)]
        elif bare.startswith('|'):
            yield 'row', [(n, line)]
        elif bare:
            block.append((n, line))
    if block:
        yield 'text', block


def cells(line):
    """The cells of a row; a bar between backticks parts none."""
    parts, at, quoted = [], 0, False
    for i, c in enumerate(line):
        if c == '`':
            quoted = not quoted
        elif c == '|' and not quoted and line[i - 1:i] != '\\':
            parts.append(line[at:i])
            at = i + 1
    return parts[1:] + ([line[at:]] if line[at:].strip() else [])


def spans(text):
    """What stands in backticks, each with its line, with what stands between it and the one before, and with what follows."""
    at, whole = 0, text.replace('\n', ' ')
    for found in re.finditer(r'(`+)(.+?)\1', text):
        yield text.count('\n', 0, found.start()), found[2], whole[at:found.start()], whole[found.end():]
        at = found.end()


def document(check, path, shown):
    """Looks at a document, and gives what the first column of its table of crates has."""
    before, heads, first = [], [], True
    listed = []
    for kind, lines in blocks(read(path)):
        n, line = lines[0]
        place = '%s:%d' % (shown, n)
        for m, each in lines:
            check.commands('%s:%d' % (shown, m), each)
        if kind == 'code':
            continue
        if kind == 'head':
            before, first = [], True
            continue
        block = Block(check, before)
        if kind == 'row':
            parts = cells(line)
            if first:
                heads, first = [part.strip() for part in parts], False
                continue
            for i, part in enumerate(parts):
                if i < len(heads) and heads[i] == 'The Rust':
                    continue
                block.chain, block.waiting = None, []
                if i and before and (set(heads) & GOING):
                    block.pathed = True
                for _, said, between, after in spans(part):
                    if i == 0 and heads[0] == 'Crate':
                        listed.append(said)
                        if said in check.crates:
                            block.name(said)
                        continue
                    block.span(place, said, between, after)
        else:
            first = True
            for m, said, between, after in spans('\n'.join(each for _, each in lines)):
                block.span('%s:%d' % (shown, n + m), said, between, after)
        if block.named:
            before = [c for c in before if c not in block.named] + block.named if kind == 'text' else block.named
    return listed


def main():
    code = ROOT
    words = sys.argv[1:]
    if words[:1] == ['--code'] and len(words) == 2:
        code = words[1]
    elif words:
        sys.exit('usage: cited.py [--code ROOT]')
    check = Check(code)
    docs = {'docs/' + name for name in os.listdir(os.path.join(ROOT, 'docs')) if name.endswith('.md')}
    for path in ['README.md', 'CONTRIBUTING.md', 'CHANGELOG.md'] + sorted(docs - {'docs/BELIEVE.md', 'docs/NAMES.md', 'docs/PORT.md', 'docs/DESIGN-PASS.md', 'docs/LOOK-BACK.md'}) + ['differential/README.md', 'bench/README.md']:
        listed = document(check, os.path.join(ROOT, path), path)
        if path == 'docs/DESIGN.md':
            for crate in check.crates:
                if listed.count(crate) != 1:
                    check.say(path, 'the table of crates has %s %d times' % (crate, listed.count(crate)))
            for crate in listed:
                if crate not in check.crates:
                    check.say(path, 'the table of crates has %s, which is none' % crate)
    print('%d missing' % check.missing)
    sys.exit(1 if check.missing else 0)


if __name__ == '__main__':
    main()
