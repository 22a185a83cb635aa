# The list docs/standard.txt: the rows of the standard's sections, what is wrong with them, and the page that is printed
# from them.
import re
from pathlib import Path

import papers

LIST = Path('docs/standard.txt')
# what paper 01 takes its rules from: chapters 3 and 4, each with what stands above its first section, and 6.1.2
SECTIONS = ('3 3.1 3.2 3.3 3.4 3.5 3.6 3.7 3.8 3.8.1 3.8.2 3.8.3 3.8.4 3.9 3.10 4 4.1 4.2 4.3 4.4 4.5 4.5.1 4.5.2 4.5.3'
            ' 4.5.4 4.5.5 4.5.6 4.5.7 4.5.8 4.5.9 4.5.10 4.5.11 4.5.12 4.5.13 4.5.14 4.5.15 4.5.16 4.6 4.7 4.8 4.8.1'
            ' 4.8.1.1 4.8.1.2 4.8.1.3 4.8.1.4 4.8.1.5 4.8.2 4.9 4.9.1 4.9.2 4.9.3 6.1.2').split()
PLACE = r'(\d+(?:\.\d+)*)-(\d+)(?:\.(\d+))?'
ROW = re.compile(rf'{PLACE} ([0-9a-f]{{8}}) (.+)')
NOTE = re.compile(rf'note {PLACE} ([0-9a-f]{{8}})')
# what answers a row, each with the names that it may have
KINDS = {'claims': r'Claim-\d+', '01 decides': r'[A-Z]\d+', 'left open': r'D\d+', 'not here': r'[A-Z]\d+',
         'no claim': None}
ANSWER = re.compile(rf'  ({"|".join(KINDS)}): (.+)')
TOP = """# The standard, and what answers each paragraph

The rules of the project come from the RISC-V Advanced Interrupt Architecture 1.0 (June 2023), chapters 3 and 4 and
section 6.1.2. Here is each paragraph of them, by section and number, with what it asks in our own words; a paragraph
that asks several things has several rows. Printed by `scripts/sentences --standard` from `docs/standard.txt`.

How to read a row: *claims* are the proved statements that say it; that they do was judged by reading. *01 decides*
names the sentence of paper 01 that says otherwise, or picks one of the ways that the standard allows:
[SENTENCES](SENTENCES.md) has it, with its claims. *Left open* names the decided point of [DECISIONS](DECISIONS.md) on
what both leave open. *Not here* names the sentence of paper 01 that leaves the thing out. *No claim* says that none of
these answers it, and why. A paragraph that explains, advises, or speaks of software asks nothing, and its number stands
below the table.

The text is its authors' and is not in the repository. The list has a sum of each paragraph: whoever has the text sees
with `scripts/sentences --compare standard=FILE` that none is left out and none has changed.
"""


class Row:
    def __init__(self, section, place, sub, number, words, line):
        self.section, self.place, self.sub, self.sum = section, place, sub, number
        self.words, self.line, self.answers = words, line, []
        self.name = f'{section}-{place}' + (f'.{sub}' if sub else '')

    def counts(self, kind):
        """A row counts by what stands first in it, and among those left open wherever it names a decided point."""
        kinds = [kind for kind, _ in self.answers] or ['note']
        return kind in kinds if kind == 'left open' else kind == kinds[0]


def read():
    """Each section's heading with its rows, notes among them; and what is wrong with the list."""
    found, wrong = [], []
    for number, line in enumerate(LIST.read_text(encoding='utf-8').splitlines(), 1):
        row, note, answer = ROW.fullmatch(line), NOTE.fullmatch(line), ANSWER.fullmatch(line)
        if line.startswith('## '):
            found.append((line[3:], []))
        elif (row or note) and found:
            words = row[5] if row else ''
            found[-1][1].append(Row(*(row or note).groups()[:4], words, number))
        elif answer and found and found[-1][1] and found[-1][1][-1].words:
            found[-1][1][-1].answers.append((answer[1], answer[2]))
        elif line.strip() and not line.startswith('# '):
            wrong.append(f'{LIST}:{number}: is no heading, row, answer or note')
    return found, wrong


def units(text):
    """What the rows are held to, of the standard's own text."""
    return papers.standard(text, SECTIONS)


def places(found):
    return [(row.name, row.section, row.place, row.sum) for _, rows in found for row in rows]


def findings(found, sentences, decisions, claims):
    """What the list has that the tree has not, and what it leaves out as far as that can be told with no text."""
    listed = [heading.split()[0] for heading, _ in found]
    if listed != SECTIONS:
        yield f'{LIST}:1: does not have the sections of scripts/audit.d/standard.py, each once and in order'
    known, names = {'claims': claims, 'left open': decisions}, set()
    for heading, rows in found:
        for row in rows:
            where = f'{LIST}:{row.line}: {row.name}'
            if row.section != heading.split()[0]:
                yield f'{where} is no paragraph of {heading.split()[0]}'
            if row.name in names:
                yield f'{where} has a row already'
            names.add(row.name)
            before = f'{row.section}-{row.place}.{int(row.sub or 1) - 1}'
            if row.sub and row.sub != '1' and before not in names:
                yield f'{where} stands where {before} is missing'
            if row.words and not row.answers:
                yield f'{where} has nothing that answers it'
            for kind, those in row.answers:
                pattern = KINDS[kind]
                if pattern and not re.fullmatch(rf'{pattern}(?: {pattern})*', those):
                    yield f"{where} has a '{kind}' that names something else: {those}"
                elif pattern:
                    yield from (f'{where} names {name}, which there is not'
                                for name in those.split() if name not in known.get(kind, sentences))
    yield from (f'{LIST}:1: {gap}' for gap in papers.gaps(places(found)))


def counted(found):
    """How many rows there are, and what answers them, as README says it."""
    rows = [row for _, rows in found for row in rows if row.words]
    of = {kind: sum(row.counts(kind) for row in rows) for kind in KINDS}
    return (f'{len(rows)} rows: {of["claims"]} with claims, {of["01 decides"]} that paper 01 decides, {of["not here"]} '
            f'that it leaves out, {of["no claim"]} with no claim; {of["left open"]} rest on a decided point')


def answered(row):
    """What answers a row, each sentence of paper 01 a link to it."""
    for kind, those in row.answers:
        if kind in ('01 decides', 'not here'):
            those = ', '.join(f'[{name}](SENTENCES.md#{name})' for name in those.split())
        elif kind != 'no claim':
            those = those.replace(' ', ', ')
        yield those if kind == 'claims' else f'{kind}: {those}'


def numbers(found):
    kinds = [*KINDS, 'note']
    table = [(heading.split()[0], *(sum(row.counts(kind) for row in rows) for kind in kinds))
             for heading, rows in found]
    table.append(('all', *(sum(line[k] for line in table) for k in range(1, len(kinds) + 1))))
    yield '\n## In numbers\n\nA row counts by what stands first in it, as left open if it names a decided point.\n\n'
    yield f'| section | {" | ".join(kinds)} |\n'
    yield '|---' * (len(kinds) + 1) + '|\n'
    yield from ('| ' + ' | '.join(map(str, line)) + ' |\n' for line in table)


def page(found):
    yield TOP
    for heading, rows in found:
        asked = [row for row in rows if row.words]
        yield f'\n## {heading}\n'
        if asked:
            yield '\n| paragraph | what answers it |\n|---|---|\n'
        for row in asked:
            yield f'| {row.name} {row.words} | {"; ".join(answered(row))} |\n'.replace('\\|', '|')
        notes = [row.place for row in rows if not row.words]
        if notes:
            yield f'\nParagraphs that ask nothing: {", ".join(notes)}.\n'
    yield from numbers(found)
