# The units of paper 01 and of the standard, each with its place: what the lists docs/sentences.txt and
# docs/standard.txt are held to by whoever has the texts, which are not in the repository.
import hashlib
import re

# a section of the standard, by its number, and a chapter; the table of contents has a tab before each page
SECTION = re.compile(r'(?:Chapter (\d+)|(\d+(?:\.\d+)+) [A-Z][^\t]*)')


def sum_of(unit):
    """The first eight digits of the sha256 of a unit, with one space between two words."""
    return hashlib.sha256(' '.join(unit.split()).encode()).hexdigest()[:8]


def blocks(lines):
    """Paragraphs, which a blank line ends; a row of a table, a point of a list and fenced lines are each one of their
    own. What only draws a table is none."""
    found, open_block, fenced = [], False, False
    for line in lines:
        fence, row = line.startswith('```'), line.startswith('|') or '\t' in line
        if fence or fenced:
            if not fenced:
                found.append('')
            found[-1] += '' if fence else ' ' + line
            fenced, open_block = fenced != fence, False
        elif not line.strip() or re.fullmatch(r'[|:\s-]+', line):
            open_block = False
        elif row or re.match(r'- |\d+\. ', line) or not open_block:
            found.append(line)
            open_block = not row
        else:
            found[-1] += ' ' + line
    return found


def sentences_of(block):
    """A point's dash or number is no part of it; a full stop and a space end a sentence; a row of a table is one."""
    text = ' '.join(re.sub(r'^(- |\d+\. )', '', block).split())
    return [text] if text.startswith('|') else re.split(r'(?<=\.) ', text)


def paper_01(text):
    """The sentences of paper 01 by their section and their place in it, BLOCK.SENTENCE. What stands above the first
    section is 'The opening'; what stands in parentheses in a heading is its 0.1."""
    parts, units = {'The opening': []}, {}
    for line in text.splitlines():
        if line.startswith('## '):
            name, _, inside = line[3:].partition(' (')
            parts[name] = []
            units.update({(name, '0.1'): inside.rstrip(')')} if inside else {})
        elif not line.startswith('# '):
            parts[list(parts)[-1]].append(line)
    for name, lines in parts.items():
        for at, block in enumerate(blocks(lines), 1):
            units.update({(name, f'{at}.{k}'): said for k, said in enumerate(sentences_of(block), 1)})
    return units


def standard(text, wanted):
    """The paragraphs of the wanted sections of the standard by their section and their number in it."""
    parts, section = {}, ''
    for line in text.splitlines():
        heading = SECTION.fullmatch(line)
        if heading:
            section = heading[1] or heading[2]
        else:
            parts.setdefault(section, []).append(line)
    return {(section, str(at)): block
            for section in wanted for at, block in enumerate(blocks(parts.get(section, [])), 1)}


def places(place):
    """A place of several sentences, 4.1-2, as theirs: 4.1 and 4.2."""
    block, first, last = re.fullmatch(r'(?:(\d+)\.)?(\d+)(?:-(\d+))?', place).groups()
    return [f'{block}.{k}' if block else str(k) for k in range(int(first), int(last or first) + 1)]


def differences(rows, units, paper):
    """What rows, each with its name, section, place and sum, and the units of the text do not share."""
    covered = set()
    for name, section, place, number in rows:
        those = [(section, one) for one in places(place)]
        covered.update(those)
        if not all(one in units for one in those):
            yield f'{name}: {paper} has nothing at {section}, {place}'
        elif sum_of(' '.join(units[one] for one in those)) != number:
            yield f'{name}: {section}, {place}, is not what it was: {paper} has another text there'
    yield from (f'{section}, {place}: {paper} has a text here that no row has'
                for section, place in units if (section, place) not in covered)


def gaps(rows):
    """Places that rows leave out, as far as they can be told with no text: each section goes from 1 on, or from 0.1."""
    last = {}
    for name, section, place, _ in rows:
        for one in places(place):
            at, was = tuple(map(int, one.split('.'))), last.get(section)
            begins = [(0, 1), (1, 1)] if len(at) == 2 else [(1,)]
            follows = begins if was is None else [was, was[:-1] + (was[-1] + 1,)] + [(was[0] + 1, 1)] * (len(at) == 2)
            if at not in follows:
                yield f'{name}: there is no row for what stands before {section}, {one}'
            last[section] = max(at, was or at)
