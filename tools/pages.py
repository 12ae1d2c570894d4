#!/usr/bin/env python3
"""Holds the pages to what a reader expects of them: pages.py

Read are all pages in Markdown of this tree. It says, with file and line, and status 1:

  a page that does not open with a title and then a paragraph, or a README.md of more than 120 lines
  a cell of a table with more than 300 characters
  a sentence with more than 60 words outside code, tables, landing notes and the generated docs/BELIEVE.md
  a link to a file or a heading that is not there, and a script, page or folder in backticks that is not there
  a section that is cited as docs/PAGE.md, 'Section', here or in a comment of the code, and that the page has not
  a word that no page may have (FORBIDDEN)

What cited.py looks at, names of the code, is not looked at here.
"""
import glob
import os
import re
import sys

ROOT = os.path.dirname(os.path.dirname(os.path.abspath(__file__)))
CELL, SENTENCE, FIRST = 300, 60, 120
FORBIDDEN = re.compile(r'\b(sessions?|helpers?|subagents?|prompts?)\b', re.I)
CITED = re.compile(r"([A-Za-z_/.]*[A-Za-z_]+\.md)\)?,? \(?'([^'\n]+)'(?: and '([^'\n]+)')?")
PATH = re.compile(r'^(?:\./)?((?:docs|tools|differential|bench|bindings|include|crates|\.ci)(?:/[\w.*-]+)+/?|[A-Z]+\.md|LICENSE|NOTICE|VERSION|KIT|crates\.txt|step)$')


def read(path):
    with open(os.path.join(ROOT, path), encoding='utf-8') as f:
        return f.read()


def pages():
    found = glob.glob(os.path.join(ROOT, '**', '*.md'), recursive=True)
    return sorted(os.path.relpath(p, ROOT) for p in found if not os.path.relpath(p, ROOT).startswith(('target', 'real', 'wip')) and '/out/' not in p)


def prose(text):
    """The lines of a page with their numbers, and whether each is code."""
    code = False
    for n, line in enumerate(text.split('\n'), 1):
        if line.startswith('```'):
            code = not code
            yield n, line, True
        else:
            yield n, line, code or line.startswith('    ')


def cells(line):
    """The cells of a row; a bar between backticks parts none."""
    parts, at, quoted = [], 0, False
    for i, c in enumerate(line):
        if c == '`':
            quoted = not quoted
        elif c == '|' and not quoted and line[i - 1:i] != '\\':
            parts.append(line[at:i].strip())
            at = i + 1
    return parts[1:] + ([line[at:].strip()] if line[at:].strip() else [])


def headings(text):
    return [re.sub(r'^#+ +', '', line).strip() for _, line, code in prose(text) if not code and line.startswith('#')]


def anchor(heading):
    """What a link to a heading is called."""
    return re.sub(r'[^\w\- ]', '', heading.replace('`', '').lower()).replace(' ', '-')


class Look:
    def __init__(self):
        self.wrong = 0
        self.heads = {page: headings(read(page)) for page in pages()}

    def say(self, place, text):
        print('%s: %s' % (place, text))
        self.wrong += 1

    def page(self, page):
        text = read(page)
        lines = text.split('\n')
        if not re.match(r'# \S', text) or len(lines) < 3 or not re.match(r"[\w`'\"\[!*]", lines[2]):
            self.say(page, 'does not open with a title and a paragraph')
        if page == 'README.md' and len(lines) - 1 > FIRST:
            self.say(page, '%d lines, more than %d' % (len(lines) - 1, FIRST))
        said, begun = '', 0
        for n, line, code in list(prose(text)) + [(len(lines) + 1, '', False)]:
            place = '%s:%d' % (page, n)
            if not code:
                self.words(place, line)
                self.links(place, page, line)
                for cell in cells(line) if line.startswith('|') else []:
                    if len(cell) > CELL:
                        self.say(place, 'a cell of %d characters: %s..' % (len(cell), cell[:40]))
            if code or not line.strip() or line.lstrip().startswith(('|', '#', '- ', '* ')) or re.match(r'\s*\d+\. ', line):
                self.sentences('%s:%d' % (page, begun), said)
                said, begun = '', n
            if not code and not line.startswith(('|', '#')):
                said, begun = said + ' ' + line, begun or n

    def sentences(self, place, said):
        if place.startswith(('docs/landings/', 'docs/BELIEVE.md')) and not place.startswith('docs/landings/README'):
            return
        for sentence in re.split(r'[.:!?](?=\s|$)', re.sub(r'`[^`]*`|\]\([^)]*\)', ' x ', said)):
            words = len(sentence.split())
            if words > SENTENCE:
                self.say(place, 'a sentence of %d words: %s..' % (words, ' '.join(sentence.split()[:8])))

    def words(self, place, line):
        found = FORBIDDEN.search(line)
        if found:
            self.say(place, 'the word %s' % found[0])

    def links(self, place, page, line):
        for target in re.findall(r'\]\(([^)\s]+)\)', line):
            path, _, part = target.partition('#')
            if re.match(r'\w+:', target):
                self.say(place, '%s: a link out of the repository' % target)
                continue
            full = os.path.normpath(os.path.join(os.path.dirname(page), path)) if path else page
            if not os.path.exists(os.path.join(ROOT, full)):
                self.say(place, '%s: no such file' % target)
            elif full in self.heads and part and part not in [anchor(h) for h in self.heads[full]]:
                self.say(place, '%s: no such heading' % target)
        for said in re.findall(r'`([^`\s]+)(?: [^`]*)?`', line):
            found = PATH.match(said)
            if found and '*' not in said and 'NAME' not in said and 'NNN' not in said:
                here = os.path.join(ROOT, found[1])
                if not os.path.exists(here) and not os.path.exists(here + '.antt'):
                    self.say(place, '%s: not there' % said)

    def cited(self, place, line):
        """Sections that are named behind a page's name."""
        for found in CITED.finditer(line.replace('`', '')):
            page = found[1] if found[1] in self.heads else 'docs/' + found[1].split('/')[-1]
            if page not in self.heads:
                self.say(place, '%s: no such page' % found[1])
                continue
            for section in (found[2], found[3]):
                if section and not any(h.replace('`', '').startswith(section) for h in self.heads[page]):
                    self.say(place, "%s has no section '%s'" % (page, section))


def main():
    look = Look()
    for page in pages():
        if page != 'docs/NAMES.md':
            look.page(page)
    code = [p for end in ('rt', 'antt', 'sh', 'py', 'rs', 'c', 'h', 'md', 'cpp') for p in glob.glob(os.path.join(ROOT, '**', '*.' + end), recursive=True)]
    for path in sorted(code) + [os.path.join(ROOT, 'step')]:
        shown = os.path.relpath(path, ROOT)
        if shown.startswith(('target', 'real')) or '/out/' in shown or shown == 'tools/pages.py' or shown.startswith('docs/landings/1') or 'landings/house' in shown or 'landings/once' in shown:
            continue
        for n, line in enumerate(read(shown).split('\n'), 1):
            look.cited('%s:%d' % (shown, n), line)
    print('%d wrong' % look.wrong)
    sys.exit(1 if look.wrong else 0)


if __name__ == '__main__':
    main()
