# The sources as pages: where each name is defined, and the files of claims in pieces.
import glob
import html
import os
import re

ROOT = os.path.dirname(os.path.dirname(os.path.dirname(os.path.abspath(__file__))))
DEFINED = re.compile(r'^((?:unfoldable |abbrev )?pub (?:record |data )?)([\w′·-]+)(?= ?[:(]| .*:)')
IMPORTED = re.compile(r'^use Rattle\.(\w+?)\.specs\.declared\.(?:\w+\.)*?(\w+)(\.TheVariants)?\.\{(.*?)\}',
                      re.M | re.S)
WORD = re.compile(r"[A-Za-z][\w′]*(?:-[\w′]+)*")


def claim_files():
    found = glob.glob(os.path.join(ROOT, 'crates/claims*/specs/*.antt'))
    order = sorted(os.path.relpath(f, ROOT) for f in found if not f.endswith('/Lib.antt'))
    return sorted(order, key=lambda f: f != 'crates/claims/specs/Demands.antt')


TYPED = re.compile(r'pub (?:enum|struct) (\w+)|\s*(?:pub )?(?:extern "C" )?fn (\w+)')


def defines(path, line):
    """The name that a line of a source defines, by which a link finds it; or nothing."""
    m = (TYPED if path.endswith('.rt') else DEFINED).match(line) if path.endswith(('.rt', '.antt')) else None
    name = m and (m.group(2) or m.group(1))
    return name if name and not re.match(r'(use|mod)$', name) else ''


def names():
    """The place of each definition of specs/, as PATH#NAME. One of one or two letters is a variable more often."""
    found = {}
    for path in sorted(glob.glob(os.path.join(ROOT, 'crates/*/specs/*.antt'))):
        name = os.path.relpath(path, ROOT)
        for line in open(path):
            defined = defines(name, line)
            if len(defined) > 2:
                found.setdefault(defined, '%s#%s' % (name, defined))
    return found


def index(place_of):
    """The same places in the folder."""
    return {name: '%s#%s' % (place_of(place.split('#')[0]), name) for name, place in names().items()}


def declared(text, place_of):
    """The place in src/ of each type of the program that a file imports, and of each case of one."""
    found = {}
    for crate, kind, cases, names in IMPORTED.findall(text):
        for path in sorted(glob.glob(os.path.join(ROOT, 'crates', crate, 'src/*.rt'))):
            lines = open(path).read().splitlines()
            head = next((k for k, line in enumerate(lines) if re.match(r'pub (enum|struct) %s\b' % kind, line)), None)
            for name in re.findall(r'[\w-]+', names) if head is not None else []:
                own = re.compile(r'\s+%s\b' % name if cases else '')
                at = next((k for k in range(head, len(lines)) if own.match(lines[k])), head)
                found[name] = '%s#L%d' % (place_of(os.path.relpath(path, ROOT)), at + 1)
    return found


def meanings():
    """What the header of a file of specs/ says of each name that it lists."""
    found = {}
    for path in sorted(glob.glob(os.path.join(ROOT, 'crates/*/specs/*.antt'))):
        header = re.match(r'(--.*\n)*', open(path).read()).group(0)
        rows = re.findall(r'^--   (\S.*?)\s{2,}(\S.*\n(?:-- {10,}\S.*\n)*)', header, re.M)
        for left, right in rows:
            for name in re.findall(r'(?:^|, )([\w′·-]+)', left):
                found.setdefault(name, '%s: %s' % (left, ' '.join(re.sub(r'^--', '', right, flags=re.M).split())))
    return found


def leads(word, line, start):
    """Whether a word of a line is a name there: not a field, and in a comment only what no plain word looks like."""
    if line[max(0, start - 1):start] in ('.', '·', '-', '_', '/'):
        return False
    comment = re.match(r'\s*(--|//|#|/?\*)', line)
    return not comment or bool(re.search(r'[a-z][A-Z]|-\d', word))


def linked(text, index, here, meant):
    """The text for a page: each name that is defined somewhere leads there, and tells what it means."""
    folder = os.path.dirname(here) or '.'
    rows = []
    for line in text.splitlines():
        out, last = [], 0
        for m in WORD.finditer(line):
            place = index.get(m.group(0))
            if place and leads(m.group(0), line, m.start()):
                title = ' title="%s"' % html.escape(meant[m.group(0)]) if m.group(0) in meant else ''
                out += [html.escape(line[last:m.start()], quote=False),
                        '<a href="%s"%s>%s</a>' % (os.path.relpath(place, folder), title, m.group(0))]
                last = m.end()
        rows.append(''.join(out) + html.escape(line[last:], quote=False))
    return '\n'.join(rows)


def blocks(path):
    """The pieces of a file between empty lines, without its imports, each with the names that it defines."""
    text = open(os.path.join(ROOT, path)).read()
    for piece in re.split(r'\n{2,}', text.strip()):
        lines = [l for l in piece.split('\n') if not re.match(r'(unfoldable pub )?use ', l)]
        if lines:
            names = [m.group(2) for m in map(DEFINED.match, lines) if m]
            yield names, '\n'.join(lines)


def claims():
    """The names of the demands, the requests and the claims, in their order."""
    found = [n for path in claim_files() for names, _ in blocks(path) for n in names
             if re.match(r'(Claim|Demand|Request)-\d+$', n)]
    return sorted(found, key=lambda n: (n.startswith('Claim'), int(n.split('-')[1])))
