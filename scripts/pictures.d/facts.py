# What a picture may name: the definitions of specs/, the claims, the functions that C calls, the files of the
# tree. Whatever a picture names is looked up here, so that a name or a number that is gone stops the drawing
# and does not live on in a picture.
import ast
import operator
import re
from functools import lru_cache
from pathlib import Path

HEAD = re.compile(r"(?:(?:unfoldable|abbrev) )?pub (?:record |data )?([A-Za-z][\w′'-]*)")
STATED = re.compile(r'((?:^--.*\n)+)unfoldable pub ((?:Claim|Demand|Request)-\d+) :', re.M)
WORD = re.compile(r"[A-Za-z][\w′'-]*")


class Gone(Exception):
    """A picture cannot be drawn: what it names or rests on is not there, or a text has no room."""


def stop(what):
    raise Gone(what)


@lru_cache(None)
def text_of(path):
    if not Path(path).is_file():
        stop(f'there is no file {path}')
    return Path(path).read_text(encoding='utf-8')


@lru_cache(None)
def definitions():
    """The file of each definition; the claims are no definitions."""
    found = {}
    for path in sorted(Path('crates').glob('*/specs/**/*.antt')):
        if not path.parts[1].startswith('claims'):
            for line in text_of(path).splitlines():
                head = HEAD.match(line)
                if head and head[1] not in ('use', 'mod'):
                    found.setdefault(head[1], path)
    return found


def meaning(name, path):
    """What the header of its file says of a definition, on one line; or nothing."""
    said = []
    for line in text_of(path).splitlines():
        entry = re.match(r'--   (\S.*?)(?:  +(\S.*))?$', line)
        if entry:
            if said:
                break
            said = [entry[2] or ''] if name in WORD.findall(entry[1]) else []
        elif said and re.match(r'--  {3,}\S', line):
            said.append(line[2:].strip())
        elif said or not line.startswith('--'):
            break
    return ' '.join(said).strip()


@lru_cache(None)
def claims():
    """The sentence and the file of each claim and demand."""
    found = {}
    for path in sorted(Path('crates').glob('claims*/specs/*.antt')):
        for comment, name in STATED.findall(text_of(path)):
            said = ' '.join(line[2:].strip() for line in comment.splitlines() if not line.startswith('-- [0'))
            said = said[:1].upper() + said[1:] + ('' if said.endswith('.') else '.')
            found[name] = f'{said} ({path.parts[1]}/{path.name})'
    return found


def claim(number):
    """What a reader is told of a claim: its name, sentence and file."""
    name = f'Claim-{number}'
    if name not in claims():
        stop(f'{name} is in a picture and no crate of claims states it')
    return f'{name}: {claims()[name]}'


def crate(name):
    """What a reader is told of a crate: its name and its sentence."""
    said = re.search(rf'^# {name}: (.+)$', text_of('crates.txt'), re.M)
    return f'{name}: {said[1]}' if said else stop(f'crates.txt has no line "# {name}: what it is"')


def named(name):
    """What a reader is told of a name in backquotes: a definition, a word of the C header, or a path."""
    if name in definitions():
        path = definitions()[name]
        said = meaning(name, path)
        return f'{name} of {path}' + (f': {said}' if said else '')
    if name in WORD.findall(text_of('include/varskumo.h')):
        return f'{name} of include/varskumo.h'
    if list(Path().glob(name)):
        return name
    stop(f'{name} is in a picture: no definition of crates/*/specs, no word of the C header, no path')


def stated(path, *words):
    """Stops if a file no longer has the words that a picture rests on."""
    for word in words:
        if word not in text_of(path):
            stop(f'a picture rests on "{word}" in {path}, which no longer has it')


def computed(expression, known, where):
    """The value of a sum or product of numbers and of names that are known."""
    operators = {ast.Add: operator.add, ast.Mult: operator.mul}

    def value(node):
        if isinstance(node, ast.Constant):
            return node.value
        if isinstance(node, ast.Name) and node.id in known:
            return known[node.id]
        if isinstance(node, ast.BinOp) and type(node.op) in operators:
            return operators[type(node.op)](value(node.left), value(node.right))
        stop(f'{where}: {expression} is no sum or product of what stands above it')

    return value(ast.parse(expression, mode='eval').body)


@lru_cache(None)
def sizes():
    """Every count, size and place of the block, by its name."""
    path, found = 'crates/sizes/specs/Sizes.antt', {}
    for name, expression in re.findall(r'^(\w+) = (.+)$', text_of(path), re.M):
        found[name] = computed(expression, found, path)
    return found


def size(name):
    if name not in sizes():
        stop(f'crates/sizes/specs/Sizes.antt has no {name}')
    return sizes()[name]


@lru_cache(None)
def refusals():
    """The name of each refusal in the C header, by its number."""
    return {int(number): name for name, number in
            re.findall(r'^    (VSK_\w+) = (\d+)', text_of('include/varskumo.h'), re.M)}
