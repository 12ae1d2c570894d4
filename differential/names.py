"""Old names as new ones, by docs/NAMES.md: for contracts.py.

`renamed(files)` takes the files of an older tree, path to text, and gives them with the names of today: which declaration a name means is decided as
the logic does it, by what a file declares and imports. `spelt(text, shorts)` writes the short names of a contract out again, so that a contract
which only got shorter compares as equal.
"""
import re

WORD = r"\w′'₀-₉·\-"
USE = re.compile(r"use Rattle[·.]([a-z0-9_]+)(?:·specs)?\.specs\.([A-Za-z0-9_.\-]+?)(?:\.\{([^}]*)\}| as (\S+?))(?=[;\s]|$)", re.M)
SIGNS = {'⌜', '⌝', '≡', '×', '+', '-', '*', '<', '≤', '^', '++', '∷', '→', ',', '.', '=', '&&', '||', '⊎'}


def rows(path='docs/NAMES.md'):
    """The rows of the page's tables: kind, where, old, new."""
    found = []
    for line in open(path, encoding='utf-8'):
        cells = [c.strip().strip('`') for c in line.strip().strip('|').split(' | ')]
        if line.startswith('| ') and len(cells) >= 4 and cells[0] in ('crate', 'file', 'type', 'function', 'definition', 'short'):
            found.append(tuple(c.strip().strip('`') for c in cells[:4]))
    return found


def replaced(text, words):
    """A text with some of its words replaced, all at once."""
    if not words:
        return text
    return re.sub(r'(?<![%s.])(?:%s)(?![%s])' % (WORD, '|'.join(re.escape(w) for w in sorted(words, key=len, reverse=True)), WORD),
                  lambda m: words[m[0]], text)


def meant(path, text, table):
    """The words of a file that the table renames: those that it declares, and those that it imports."""
    words = {}
    if '/specs/' in path:
        crate, module = path.split('/')[1], path.split('/specs/')[1][:-len('.antt')].replace('/', '.')
        words.update(table.get((crate, module), {}))
    for crate, module, names, _ in USE.findall(text):
        here = table.get((crate, module), {})
        words.update({n: here[n] for n in (x.strip() for x in names.split(',')) if n in here})
    return words


def renamed(files, page):
    """The files of an older tree with the names of today."""
    table, crates, modules = {}, {}, {}
    for kind, where, old, new in page:
        if kind == 'definition':
            crate, module = where.split('/specs/')
            table.setdefault((crate, module.replace('/', '.')), {})[old] = new
        if kind == 'type':
            table.setdefault((where, 'declared.' + old), {})[old] = new
        if kind == 'crate':
            crates[old] = new
        if kind == 'file':
            modules[where, old] = new
    types = {}
    for kind, where, old, new in page:
        if kind == 'type':
            types.setdefault(where, {})[old] = new
    out = {}
    for path, text in files.items():
        own = path.split('/')[1]
        words = meant(path, text, table)
        if path.endswith('.rt'):
            for crate, ren in types.items():
                words.update({o: n for o, n in ren.items() if crate == own or re.search(r'\buse %s::%s\b' % (crate, o), text)})
            for kind, where, o, n in page:
                if kind == 'function' and where == own:
                    text = re.sub(r'\bfn %s\b' % o, 'fn ' + n, text)
        text = replaced(text, words)
        for (where, old), new in modules.items():
            crate = where.split('/')[0]
            text = re.sub(r'(Rattle[·.]%s(?:·specs)?\.specs\.)%s(?![%s])' % (crate, re.escape(old.replace('/', '.')), WORD), r'\g<1>' + new.replace('/', '.'), text)
            path = re.sub(r'^(crates/%s/specs/)%s(?=[./])' % (crate, re.escape(old)), r'\g<1>' + new, path)
        for old, new in crates.items():
            text = re.sub(r'(Rattle[·.])%s(?![%s])' % (old, r'\w\-'), r'\g<1>' + new, text)
            text = re.sub(r'\b%s::' % old, new + '::', text)
            path = re.sub('^crates/%s/' % old, 'crates/%s/' % new, path)
        out[path] = text
    return out


def parsed(text):
    """A term as nested lists of words."""
    stack = [[]]
    for word in re.findall(r'[()]|[^\s()]+', text):
        if word == '(':
            stack.append([])
        elif word == ')' and len(stack) > 1:
            done = stack.pop()
            stack[-1].append(done)
        else:
            stack[-1].append(word)
    while len(stack) > 1:
        done = stack.pop()
        stack[-1].append(done)
    return stack[0]


def bare(term):
    """Whether a group has no sign in it, so that brackets at the head of an application say nothing."""
    return not any(isinstance(t, str) and (t in SIGNS or t == 'λ') for t in term)


def opened(term, shorts):
    """A term with its short names written out, without brackets that say nothing."""
    term = [opened(t, shorts) if isinstance(t, list) else t for t in term]
    out, i = [], 0
    while i < len(term):
        word = term[i]
        if isinstance(word, str) and word in shorts:
            names, body = shorts[word]
            if len(term) - i > len(names):
                given = dict(zip(names, term[i + 1:i + 1 + len(names)]))
                rest = {k: v for k, v in shorts.items() if k != word}
                out.append(opened(filled(parsed(body), given), rest))
                i += 1 + len(names)
                continue
        out.append(word)
        i += 1
    flat = []
    for k, word in enumerate(out):
        head = k == 0 or (isinstance(out[k - 1], str) and out[k - 1] in SIGNS)
        alone = (k == 0 or out[k - 1] in ('⌜', '{')) and (k == len(out) - 1 or out[k + 1] in ('⌝', '}'))
        if isinstance(word, list) and (len(word) == 1 or alone or (head and bare(word))):
            flat += word
        else:
            flat.append(word)
    return flat


def filled(term, given):
    """A term with its variables replaced; of `x.old` the part before the dot."""
    def word(t):
        head, dot, rest = t.partition('.')
        return given.get(t, given[head] + dot + rest if dot and isinstance(given.get(head), str) else t)
    return [filled(t, given) if isinstance(t, list) else word(t) for t in term]


def shown(term):
    return ' '.join('(' + shown(t) + ')' if isinstance(t, list) else t for t in term)


def shorts(page, files):
    """The short names of the page: name to its arguments and what it stands for, as the files define it."""
    found = {}
    for kind, where, _, new in page:
        if kind != 'short':
            continue
        name = new.split()[0]
        text = files.get('crates/' + where + '.antt', '')
        lines = re.search(r'^ *%s((?: [^\s=]+)*) =((?: [^\n]*)?(?:\n +[^\n]+)*)' % re.escape(name), text, re.M)
        if lines:
            found[name] = (lines[1].split(), lines[2])
    return found


def spelt(text, known):
    """A contract with its short names written out."""
    term, before = parsed(re.sub(r'([⌜⌝{},])', r' \1 ', text)), None
    while term != before:
        term, before = opened(term, known), term
    return shown(term)
