# The list docs/tried.txt: its rows, the edits that it names, and the page that is printed from it and from the tree.
import re
from pathlib import Path

SENTENCE = re.compile(r'\b[A-Z]\d+(?:\.\d+)?\b')
WORD = re.compile(r"[A-Za-z][\w′'-]*")


def rows(path):
    """Each row with its line, the heading above it, and its cells."""
    heading = ''
    for number, line in enumerate(Path(path).read_text(encoding='utf-8').splitlines(), 1):
        if line.startswith('## '):
            heading = line[3:]
        elif line.strip() and not line.startswith('#'):
            yield number, heading, [cell.strip() for cell in line.split(' | ')]


def sentences():
    """The sentences of the list, by name: their words, without a sentence's place and sum."""
    text = Path('docs/sentences.txt').read_text(encoding='utf-8')
    return dict(re.findall(r'^([A-Z]\d+(?:\.\d+)?) (?:\d+\.\d+(?:-\d+)? [0-9a-f]{8} )?(.+)$', text, re.M))


def edits():
    """What is wrong in each edit, by CRATE/LABEL."""
    found = {}
    for path in sorted(Path('crates').glob('*/must-fail/*.edit')):
        found[f'{path.parts[1]}/{path.stem}'] = path.read_text(encoding='utf-8').split('\n')[0].lstrip('# ')
    return found


def named(cell, known):
    """The edits that a cell names, and the words of it that name none, or more than one."""
    found, wrong = [], []
    for word in cell.split():
        crate, _, label = word.rpartition('/')
        those = [edit for edit in known if crate in ('', edit.split('/')[0]) and label in ('*', edit.split('/')[1])]
        found += those
        if not those or len(those) > 1 and label != '*':
            wrong.append(word)
    return found, wrong


def functions(cell):
    """Each function of a cell, as its crate and its name; a type is one of the crate of its name."""
    owner = ''
    for word in cell.split(';')[0].split():
        owner, name = word.split('::') if '::' in word else (owner, word)
        yield owner.lower(), name
