# Boxes, arrows and text as SVG. A text is wrapped by the widths of the widest of the usual fonts, so that it
# stays in its box with any other; what is drawn is remembered, so that clashes.py finds what lies on a text.
# A string is marked so:
#   `name`   a definition, a word of the C header or a path, in a fixed width; it is looked up
#   @name    a crate, likewise
#   #97      the number of a claim; it is looked up
#   *text*   bold
import re
from xml.sax.saxutils import escape, quoteattr

import facts

INK, LINE, WHITE, PALE = '#1a1a1a', '#444444', '#ffffff', '#f3f3f3'
BLUE, BLUE_INK = '#e4eefa', '#174a86'
GREEN, GREEN_INK = '#e5f2e3', '#25602a'
AMBER, AMBER_INK = '#fdf2d8', '#7a4e00'
RED, RED_INK = '#fbe8e5', '#9a261b'
SIZE, SMALL, LEAD, ASCENT = 14, 13, 1.3, 0.95

# widths in hundredths of the size: DejaVu Sans, wider than Arial, Helvetica or Liberation Sans
WIDTHS = {28: "'ijl", 29: 'IJ', 32: ' ,.’', 34: '/:;|', 36: 'f-', 39: '()[]t', 41: '!r', 46: '"', 50: '*_`–',
          52: 'sz', 55: 'c?', 58: 'FLk', 59: 'vxy', 61: 'PTYao', 64: '0123456789ESbdeghnpqu', 69: 'ABKRVXZ',
          73: 'CU', 79: 'DGHNOQ&', 84: '+<=>w×→≤', 99: 'MW%m'}
WIDTH_OF = {c: width / 100 for width, letters in WIDTHS.items() for c in letters}
BOLD, FIXED = 1.14, 0.605
PIECE = re.compile(r'`([^`]+)`|@(\w+)|#(\d+)|(\*)|(\s+)|([^\s`*#@]+)')


class Piece:
    """A part of a word in one style, with what a reader is told who points at it."""

    def __init__(self, text, bold, fixed=False, told=None):
        self.text, self.bold, self.fixed, self.told = text, bold, fixed, told

    def width(self, size):
        if self.fixed:
            return len(self.text) * FIXED * size
        return sum(WIDTH_OF.get(c, 1) for c in self.text) * size * (BOLD if self.bold else 1)

    def svg(self):
        style = ' font-family="monospace"' if self.fixed else ''
        style += ' font-weight="bold"' if self.bold else ''
        style += f' fill="{BLUE_INK}"' if self.told else ''
        told = f'<title>{escape(self.told)}</title>' if self.told else ''
        return f'<tspan{style}>{told}{escape(self.text)}</tspan>' if style else escape(self.text)


def words_of(string, bold=False):
    """The words of a marked string, each a list of pieces."""
    words = [[]]
    for name, crate, number, star, space, plain in PIECE.findall(string):
        if name:
            words[-1].append(Piece(name, bold, True, facts.named(name)))
        elif crate:
            words[-1].append(Piece(crate, bold, True, facts.crate(crate)))
        elif number:
            words[-1].append(Piece(number, bold, False, facts.claim(number)))
        elif star:
            bold = not bold
        elif space:
            words.append([])
        else:
            words[-1].append(Piece(plain, bold))
    return [word for word in words if word]


def width_of(words, size):
    return sum(piece.width(size) for word in words for piece in word) + 0.32 * size * (len(words) - 1)


def wrapped(string, width, size, bold=False):
    """The lines of a string, each a list of words; a line break in it is one."""
    lines = []
    for part in string.split('\n'):
        lines.append([])
        for word in words_of(part, bold):
            if width_of([word], size) > width:
                facts.stop(f'a word of "{part}" is wider than its place of {width:.0f}')
            if lines[-1] and width_of(lines[-1] + [word], size) > width:
                lines.append([])
            lines[-1].append(word)
    return lines


def height_of(string, width, size=SIZE, bold=False):
    return len(wrapped(string, width, size, bold)) * size * LEAD


def number(value):
    return f'{value:.1f}'.removesuffix('.0')


class Box:
    def __init__(self, x, y, w, h):
        self.x, self.y, self.w, self.h = x, y, w, h
        self.right, self.bottom, self.cx, self.cy = x + w, y + h, x + w / 2, y + h / 2


class Picture:
    def __init__(self, title, described, width=1000):
        self.title, self.described, self.width, self.height = title, described, width, 0
        self.under, self.over = [], []  # shapes lie under all texts
        self.texts, self.edges = [], []  # what clashes.py looks at

    def grow(self, bottom):
        self.height = max(self.height, bottom)

    def rect(self, x, y, w, h, fill=WHITE, stroke=LINE, dash='', thick=1.2, round=5):
        box = Box(x, y, w, h)
        self.grow(box.bottom)
        if stroke != 'none':
            corners = [(x, y), (box.right, y), (box.right, box.bottom), (x, box.bottom), (x, y)]
            self.edges += zip(corners, corners[1:])
        dash = f' stroke-dasharray="{dash}"' if dash else ''
        line = f' stroke="{stroke}" stroke-width="{thick}"' if stroke != 'none' else ''
        self.under.append(f'<rect x="{number(x)}" y="{number(y)}" width="{number(w)}" height="{number(h)}" '
                          f'rx="{round}" fill="{fill}"{line}{dash}/>')
        return box

    def shade(self, points, fill=PALE):
        """A filled shape with no border, for what stands behind texts."""
        path = ' '.join(f'{number(x)},{number(y)}' for x, y in points)
        self.under.insert(0, f'<polygon points="{path}" fill="{fill}"/>')

    def line(self, points, dash='', thick=1.6, stroke=LINE, head=False, round=False):
        """A line through points, with an arrow's head at its end if asked."""
        self.edges += zip(points, points[1:])
        self.grow(max(y for x, y in points))
        dash = f' stroke-dasharray="{dash}"' if dash else ''
        dash += ' stroke-linecap="round"' if round else ''
        if head:
            points = points[:-1] + [self.head(*points[-2:], stroke, thick)]
        path = ' '.join(f'{number(x)},{number(y)}' for x, y in points)
        self.under.append(f'<polyline points="{path}" fill="none" stroke="{stroke}" '
                          f'stroke-width="{thick}"{dash}/>')

    def head(self, before, tip, stroke, thick):
        """Draws an arrow's head; the point where its line ends."""
        (a, b), (x, y) = before, tip
        far = ((x - a) ** 2 + (y - b) ** 2) ** 0.5
        u, v = (x - a) / far, (y - b) / far
        size, half = 7 + 2 * thick, 3 + thick
        back = (x - size * u, y - size * v)
        corners = [tip, (back[0] - half * v, back[1] + half * u), (back[0] + half * v, back[1] - half * u)]
        path = ' '.join(f'{number(x)},{number(y)}' for x, y in corners)
        self.under.append(f'<polygon points="{path}" fill="{stroke}"/>')
        return back

    def arrow(self, *points, **style):
        self.line(list(points), head=True, **style)

    def text(self, x, y, string, width=None, size=SIZE, anchor='start', bold=False, ink=INK):
        """A text with its top at y, wrapped if a width is given; where it ends below."""
        for words in wrapped(string, width or self.width, size, bold):
            long = width_of(words, size)
            left = {'start': x, 'middle': x - long / 2, 'end': x - long}[anchor]
            self.texts.append((left, y + 0.2 * size, left + long, y + 1.15 * size, words))
            place = f'x="{number(x)}" y="{number(y + ASCENT * size)}" font-size="{size}"'
            place += '' if anchor == 'start' else f' text-anchor="{anchor}"'
            place += '' if ink == INK else f' fill="{ink}"'
            self.over.append(f'<text {place}>{runs(words)}</text>')
            y += size * LEAD
        self.grow(y)
        return y

    def box(self, x, y, w, string, h=None, size=SIZE, pad=9, anchor='middle', bold=False, ink=INK, **style):
        """A box with a text in its middle, as high as the text needs if no height is given."""
        need = height_of(string, w - 2 * pad, size, bold)
        h = h or need + 2 * pad - 2
        if need > h:
            facts.stop(f'"{string}" is higher than its box of {h:.0f}')
        box = self.rect(x, y, w, h, **style)
        at = box.cx if anchor == 'middle' else x + pad
        self.text(at, box.cy - need / 2, string, w - 2 * pad, size, anchor, bold, ink)
        return box

    def heading(self, string):
        """The title of the picture with a text under it; where they end."""
        below = self.text(20, 12, self.title, size=20, bold=True)
        return self.text(20, below + 2, string, self.width - 40) + 12

    def svg(self, margin=16):
        w, h = self.width, round(self.height + margin)
        head = (f'<svg xmlns="http://www.w3.org/2000/svg" width="{w}" height="{h}" viewBox="0 0 {w} {h}" '
                f'role="img" aria-labelledby="title desc" font-family="sans-serif" fill={quoteattr(INK)}>')
        return '\n'.join([head, f'<title id="title">{escape(self.title)}</title>',
                          f'<desc id="desc">{escape(self.described)}</desc>',
                          f'<rect width="{w}" height="{h}" fill="{WHITE}"/>', *self.under, *self.over,
                          '</svg>']) + '\n'


def runs(words):
    """The words of a line as SVG, neighbours of one style together. A space is bold only between two bold words:
    librsvg drops one that a bold part begins with."""
    merged = []
    for n, word in enumerate(words):
        for piece in ([Piece(' ', word[0].bold and words[n - 1][-1].bold)] if n else []) + word:
            last = merged[-1] if merged else None
            if last and not (last.told or piece.told) and last.bold == piece.bold:
                merged[-1] = Piece(last.text + piece.text, last.bold)
            else:
                merged.append(piece)
    return ''.join(piece.svg() for piece in merged)
