#!/usr/bin/env python3
"""Counts the places of docs/DESIGN-PASS.md in crates/*/src: the older forms that it names, point by point.

    python3 tools/design_places.py            the counts, a line for each rule
    python3 tools/design_places.py 3          the places of point 3 besides, each with its file and line
    python3 tools/design_places.py 3 lex      those of one crate alone

The rules go by the text alone, so that they count the same before and after a change. A place that a rule finds is a place to look at; whether it
may stay, the page says.
"""
import collections
import pathlib
import re
import sys

TOP = pathlib.Path(__file__).resolve().parent.parent


def code_of(path):
    """The lines of a file without their comments, numbered as they stand."""
    lines = []
    for line in path.read_text().split('\n'):
        at = line.find('//')
        lines.append(line if at < 0 else line[:at].rstrip())
    return lines


def items(lines, word):
    """Each item that begins with this word: its name, its first line's number, its text up to the closing brace of its own indent."""
    found = []
    for i, line in enumerate(lines):
        m = re.match(r'^(\s*)(?:pub(?:\([a-z]+\))? )?(?:const |unsafe |extern "C" )*%s (\w+)' % word, line)
        if not m:
            continue
        indent = m.group(1)
        j = i
        while j < len(lines) and not (lines[j].startswith(indent + '}') and (len(lines[j]) == len(indent) + 1)):
            if j == i and line.rstrip().endswith((';', '}')):
                break
            j += 1
        found.append((m.group(2), i + 1, '\n'.join(lines[i:j + 1])))
    return found


def variants(text):
    """The variants of an enum: name and payload ('' where it has none)."""
    body = text[text.index('{') + 1:]
    flat = re.sub(r'\s+', ' ', body)
    return re.findall(r'\b([A-Z]\w*) ?(\([^)]*\)|\{[^}]*\})?,', flat)


LESS = {'Refused', 'Stopped', 'Never', 'Nothing', 'Absent', 'Over', 'Other', 'Unusual', 'Untidy', 'Open', 'Wrong', 'Outside', 'Bad', 'Malformed', 'Bare',
        'Unset', 'Missing', 'Short', 'Stop', 'Closed', 'NotWhole', 'NotReal', 'NotReference', 'NoHeader', 'NoRecord', 'Refuses', 'Unread', 'End', 'Known'}


def answer_shape(text):
    """An enum of the shape of an Option or a Result: a value in one variant; nothing, a fault or less than a value in another."""
    vs = variants(text)
    filled = [v for v, p in vs if p]
    if not filled or len(vs) < 2:
        return False
    bare = [v for v, p in vs if not p]
    if len(vs) == 2 and len(bare) == 1:
        return True
    return any('Fault' in p for v, p in vs) or any(v in LESS for v, p in vs)


def params_of(text):
    m = re.search(r'fn \w+(?:<[^(]*>)?\((.*?)\)\s*(?:->|ensures|requires|where|\{|$)', re.sub(r'\s+', ' ', text))
    if not m:
        return []
    return [p.strip() for p in re.split(r',(?![^<(\[]*[>)\]])', m.group(1)) if ':' in p]


def body_of(text):
    i = text.find('\n{\n')
    if i < 0:
        i = text.find('{\n')
    return text[i:] if 0 <= i else ''


def shape_of(text):
    """A function's head and body with names of types, numbers and bytes taken out, so that twins read alike."""
    head, body = re.sub(r'\s+', ' ', text.split('\n    ensures')[0].split('\n    requires')[0].split('{')[0]), body_of(text)
    t = head + body
    t = re.sub(r'fn \w+', 'fn F', t)
    t = re.sub(r"b?'(\\.|[^'\\])'|b\"[^\"]*\"|\b0x[0-9a-fA-F_]+\w*|\b\d[\d_]*\w*", 'N', t)
    t = re.sub(r'\b[ui](8|16|32|64|size)\b|\bf64\b', 'I', t)
    t = re.sub(r'\b(\w+::)+\w+', 'T', t)
    t = re.sub(r'\b[A-Z]\w*', 'T', t)
    return re.sub(r'\s+', ' ', t)


def main():
    point = sys.argv[1] if 1 < len(sys.argv) else ''
    only = sys.argv[2] if 2 < len(sys.argv) else ''
    files = sorted(p for p in TOP.glob('crates/*/src/*.rt') if not only or p.relative_to(TOP).parts[1] == only)
    rules = collections.OrderedDict()

    def note(rule, place, what):
        rules.setdefault(rule, []).append((place, what))

    for r in ('1 answers: enums of the shape of an Option or a Result', '1 flags: structs with a flag beside other values',
              '1 codes: numbers for a kind, a reason or a refusal', '2 twins: functions alike but for types, names called, numbers and bytes',
              '3 loops: `while` and `loop`', '4 casts: functions that only cast', '4 by hand: functions that compare, copy or convert by hand',
              '4 numbers: matches that only give a number to each variant', '5 clauses: the same `requires` in three functions or more',
              '5 parameters: three or more functions of a crate with the same two or more',
              '6 rooms: a buffer with a length beside it', '6 parallel: tables that are lent side by side', '7 switches: a flag or a kind that selects the step'):
        rules[r] = []
    clauses = collections.defaultdict(list)
    shapes = collections.defaultdict(list)
    groups = collections.defaultdict(list)
    for path in files:
        place = path.relative_to(TOP / 'crates')
        crate = place.parts[0]
        lines = code_of(path)
        for i, line in enumerate(lines):
            if re.match(r'^\s*(\'\w+: )?(while|loop)\b', line):
                note('3 loops: `while` and `loop`', f'{place}:{i + 1}', line.strip())
            if re.search(r'\bBad(Record)?\(u8', line) or re.match(r'^\s*(pub )?(why|reason|what|kind|complex|no): u(8|32|64),$', line):
                note('1 codes: numbers for a kind, a reason or a refusal', f'{place}:{i + 1}', line.strip())
        for name, at, text in items(lines, 'enum'):
            if answer_shape(text):
                note('1 answers: enums of the shape of an Option or a Result', f'{place}:{at}', name)
        for name, at, text in items(lines, 'struct'):
            fields = re.findall(r'^\s+(?:pub )?(\w+): ([^,\n]+),', text, re.M)
            if any(t == 'bool' for _, t in fields) and any(t != 'bool' for _, t in fields):
                note('1 flags: structs with a flag beside other values', f'{place}:{at}', name)
            if any(re.match(r'\[.*; ', t) or '&' in t and '[' in t for _, t in fields) and any(t == 'usize' for _, t in fields):
                note('6 rooms: a buffer with a length beside it', f'{place}:{at}', name)
        for name, at, text in items(lines, 'fn'):
            where = f'{place}:{at}'
            ps = params_of(text)
            for p in ps:
                if re.match(r'(why|reason|what|complex|no): u(8|32|64|size)$', p):
                    note('1 codes: numbers for a kind, a reason or a refusal', where, f'{name}: {p}')
                if re.match(r'(which|write|known|kind): (bool|Reals|Kind|u\d+)$', p):
                    note('7 switches: a flag or a kind that selects the step', where, f'{name}: {p}')
            body = body_of(text)
            if re.search(r'rows: &', text) and re.search(r'slots: &', text):
                note('6 parallel: tables that are lent side by side', where, name)
            flat = re.sub(r'\s+', ' ', body)
            if re.match(r'^\{ \(?\w+ as \w+\)? \}', flat.lstrip()):
                note('4 casts: functions that only cast', where, name)
            if re.match(r'(same_|differs|equal$|eq$|is_same|copy_|copied_|upper_of|within$|greate|less_one|excess|lowered|one_if)', name):
                note('4 by hand: functions that compare, copy or convert by hand', where, name)
            arms = re.findall(r'(\w+::\w+)(?:\(_(?:, _)*\))? => (\d+|b"[^"]*"),', body)
            if 3 <= len(arms):
                note('4 numbers: matches that only give a number to each variant', where, name)
            for c in re.findall(r'^\s+requires(?: \w+)? \{ (.*) \}$', text, re.M):
                clauses[(crate, c)].append((where, name))
            if 80 < len(body):
                shapes[shape_of(text)].append((where, name))
            for i in range(len(ps)):
                for j in range(i + 2, len(ps) + 1):
                    groups[(crate, tuple(ps[i:j]))].append((where, name))
    for (crate, c), fs in clauses.items():
        if 3 <= len(fs):
            note('5 clauses: the same `requires` in three functions or more', fs[0][0], f'{len(fs)} functions: {c}')
    for s, fs in shapes.items():
        if 2 <= len(fs):
            note('2 twins: functions alike but for types, names called, numbers and bytes', fs[0][0], ', '.join(n for _, n in fs))
    big = {k: v for k, v in groups.items() if 3 <= len(v)}
    for (crate, g), fs in big.items():
        wider = any(c == crate and len(h) > len(g) and set(fs) <= set(v) and any(h[k:k + len(g)] == g for k in range(len(h)))
                    for (c, h), v in big.items())
        if not wider:
            note('5 parameters: three or more functions of a crate with the same two or more', fs[0][0], f'{len(fs)} functions: {", ".join(g)}')
    for rule, places in rules.items():
        print(f'{len(places):4} {rule}')
        if point and rule.startswith(point):
            for place, what in places:
                print(f'       {place} {what}')


main()
