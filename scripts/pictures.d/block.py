# The block of a board to scale, with one file and one domain blown up, the log and the saved numbers of a move. The
# numbers are read from crates/sizes/specs/Sizes.antt, the places of the saved numbers from the definitions of the move.
import re

import facts
from drawing import AMBER, AMBER_INK, BLUE, BLUE_INK, GREEN, GREEN_INK, LINE, PALE, SMALL, WHITE, Picture
from facts import size

LEFT, WIDE, TINY, SHADE, BITS = 20, 960, 12, '#ececec', 32
HART, FILE = 2, 2  # the file that is blown up: that of the station in examples/station.c
STEPS = 'crates/board_move_steps/specs/Steps.antt'


def place(name):
    """A place of the record of a move, the first one where there are several."""
    said = re.search(rf'^{name}(?: k)? = (\d+)', facts.text_of(STEPS), re.M)
    return int(said[1]) if said else facts.stop(f'{STEPS} has no {name}')


def station():
    """The number of the file that is blown up."""
    return size('hart_files') * HART + FILE


def zoom(picture, words, strip, y):
    """A shade from some words of the block, at the height of their edge, to where they are blown up."""
    left, right = (LEFT + word * WIDE / size('block_size') for word in words)
    picture.shade([(left, strip), (right, strip), (LEFT + WIDE, y), (LEFT, y)], SHADE)


def file(picture, y):
    """One file, word by word; where it ends."""
    wide, high, many = WIDE / size('file_size'), 60, size('file_set_size')
    y = picture.text(LEFT, y, f'*A message file:* {size("file_size")} words. File {FILE} of hart {HART} is '
                     f'number {station()} and begins at word {station() * size("file_size")}: `file_at`, '
                     '`files_of`, Claims #34, #176', size=SMALL) + 4
    for at, label in ((0, 'delivery'), (size('threshold_place'), 'thres-\nhold')):
        picture.box(LEFT + at * wide, y, wide, label, high, size=TINY, pad=0, fill=PALE, round=0)
    for at, label, fill in ((size('pending_place'), 'pending', GREEN), (size('enable_place'), 'enable', WHITE)):
        x = LEFT + at * wide
        picture.box(x, y, many * wide, f'{label} bits of the identities', 24, size=TINY, fill=fill, round=0)
        for k in range(many):
            picture.box(x + k * wide, y + 24, wide, f'{BITS * k} to\n{BITS * k + BITS - 1}', high - 24,
                        size=TINY, pad=1, fill=fill, round=0)
    for at in range(size('file_size')):
        picture.text(LEFT + (at + 0.5) * wide, y + high + 1, str(at), size=TINY, anchor='middle')
    return y + high + 20


def harts(picture, y):
    """Which files of the strip are whose; where the strip begins."""
    wide = size('hart_files') * size('file_size') * WIDE / size('block_size')
    for hart in range(size('hart_count')):
        x, end = LEFT + hart * wide + 2, LEFT + (hart + 1) * wide - 2
        picture.text((x + end) / 2, y, f'hart {hart}, its {size("hart_files")} files', size=TINY,
                     anchor='middle')
        picture.line([(x, y + 24), (x, y + 19), (end, y + 19), (end, y + 24)], thick=1)
    return y + 28


def block(picture, y):
    """The strip of all words: the files, the wires and the domains; where it ends."""
    scale, high = WIDE / size('block_size'), 44
    own, wired = size('file_size') * scale, LEFT + size('wired_place') * scale
    for number in range(size('file_count')):
        kind = number % size('hart_files')
        guest = kind - size('first_guest') + 1
        name, fill = (f'g{guest}', WHITE) if guest > 0 else ('ms'[kind], GREEN)
        picture.box(LEFT + number * own, y, own, f'{number}\n{name}', high, size=TINY, pad=2, fill=fill,
                    stroke=GREEN_INK, round=0)
    picture.rect(LEFT + station() * own, y, own, high, 'none', GREEN_INK, thick=3, round=0)
    wires = picture.rect(wired, y, size('machine_place') * scale, high, AMBER, AMBER_INK, round=0)
    picture.line([(wires.cx, y - 9), (wires.cx, y)], thick=1)
    picture.text(wires.cx - 6, y - 26, f'wires: {size("machine_place")} words', size=TINY)
    for name, at in (('machine domain', 'machine_place'), ('supervisor’s domain', 'child_place')):
        picture.box(wired + size(at) * scale, y, size('domain_size') * scale,
                    f'{name}\n{size("domain_size")} words', high, size=SMALL, pad=2, fill=BLUE,
                    stroke=BLUE_INK, round=0)
    numbers(picture, y + high)
    return y + high


def numbers(picture, y):
    """The first words of the parts of the strip, below it."""
    of_hart, wired = size('hart_files') * size('file_size'), size('wired_place')
    marks = [(n * of_hart, 'middle' if n else 'start') for n in range(size('hart_count'))]
    marks += [(wired, 'end'), (wired + size('machine_place'), 'start'), (wired + size('child_place'), 'middle'),
              (size('block_size'), 'end')]
    for word, anchor in marks:
        x = LEFT + word * WIDE / size('block_size')
        picture.line([(x, y), (x, y + 5)], thick=1)
        picture.text(x, y + 5, str(word), size=TINY, anchor=anchor)


def domain(picture, y):
    """One domain to scale, its narrow parts named below it; where it ends."""
    scale, last, high = WIDE / size('domain_size'), size('source_count'), 44
    for at, label in ((1, 'sourcecfg'), (size('targets_place') + 1, 'target')):
        picture.box(LEFT + at * scale, y, last * scale,
                    f'{label}[1] to [{last}]\nwords {at} to {at + last - 1}', high, size=SMALL, pad=2,
                    fill=BLUE, stroke=BLUE_INK, round=0)
    sets, four, below = size('source_set_size'), size('structures_place'), y + high
    parts = [(0, 1, 'domaincfg', 0, 'start', PALE), (size('targets_place'), 1, 'genmsi', 0, 'middle', PALE),
             (size('pendings_place'), sets, 'pending', 230, 'middle', GREEN),
             (size('enables_place'), sets, 'enable', 137, 'middle', WHITE)]
    for at, count, label, aside, anchor, fill in parts:
        picture.rect(LEFT + at * scale, y, count * scale, high, fill, LINE, round=0)
        x = LEFT + (at + count / 2) * scale
        picture.line([(x, below), (x, below + 8), (x - aside, below + 20)], thick=1)
        words = f'word {at}' if count == 1 else f'words {at}, {at + count - 1}'
        picture.text(x - aside if at else LEFT, below + 20, f'*{label}*\n{words}', size=TINY, anchor=anchor)
    box = picture.box(LEFT + four * scale, y, size('structures_size') * scale,
                      f'harts 0 to {size("hart_count") - 1}', high, size=TINY, pad=2, fill=AMBER,
                      stroke=AMBER_INK, round=0)
    picture.line([(box.cx, below), (box.cx, below + 20)], thick=1)
    return picture.text(LEFT + WIDE, below + 20, f'*idelivery, iforce,*\n*ithreshold:* {four} +\n'
                        f'{size("structure_size")} × hart on', size=TINY, anchor='end')


def log(picture, y):
    """A word of the log."""
    picture.text(LEFT, y, f'*The log:* {size("log_size")} words; the messages of a call come first: '
                 '`logged`, Claim #171. A word by its bits: `log_word`, #146', 440, SMALL)
    x, y = LEFT, y + 46
    for bits, label, wide in (('31 to 13', '0', 88), ('12, 11', 'hart', 88), ('10 to 8', 'file', 88),
                              ('7 to 0', 'identity', 176)):
        picture.box(x, y, wide, label, 34, size=SMALL, pad=2, fill=AMBER, stroke=AMBER_INK, round=0)
        picture.text(x + wide / 2, y + 35, bits, size=TINY, anchor='middle')
        x += wide
    picture.text(LEFT, y + 54, 'hart × 2048 + file × 256 + identity', size=TINY)


def record(picture, y):
    """The numbers that a move saves, each with the accesses that write and use it."""
    count, x, wide = size('saved_size'), LEFT + 480, 480
    picture.text(x, y, f'*The saved numbers of a move:* {count} numbers of 64 bits, lent beside the blocks: '
                 '`act_of`, Claim #102', wide, SMALL)
    parts = [(place('delivery_at'), 1, 'deli-\nvery', '1', '89'),
             (place('threshold_at'), 1, 'thres-\nhold', '2', '88'),
             (place('pending_at'), 4, 'pending bits of old', '72 to 75', '80 to 83'),
             (place('enable_at'), 4, 'enable bits of old', '76 to 79', '84 to 87')]
    if sum(part[1] for part in parts) != count:
        facts.stop(f'the saved numbers of a move has {count} numbers, and not those of the picture')
    facts.stated(STEPS, 'leb n 75)', 'leb n 79)', 'leb n 83)', 'leb n 87)', 'eqb n 88')
    one, y = wide / count, y + 46
    for at, many, label, written, used in parts:
        picture.box(x + at * one, y, many * one, label, 34, size=TINY, pad=0, round=0)
        for k in range(many):
            picture.text(x + (at + k + 0.5) * one, y + 35, str(at + k), size=TINY, anchor='middle')
        picture.text(x + (at + many / 2) * one, y + 54, f'{written}\n{used}', size=TINY, anchor='middle')
    picture.text(x - 8, y + 54, 'written by access\nused by access', size=TINY, anchor='end')


def draw():
    guests, first = size('hart_files') - size('first_guest'), size('wired_place') + size('machine_place')
    picture = Picture(f'The block of {size("block_size")} words', (
        f'{size("file_count")} message files of {size("file_size")} words each, {size("hart_files")} for each '
        f'hart; the levels of the wires in {size("machine_place")} words; the machine domain and the '
        f'supervisor’s domain with {size("domain_size")} words each. One file and one domain are shown word '
        f'by word, then the log of {size("log_size")} words and the saved numbers of a move, '
        f'{size("saved_size")} numbers.'))
    y = picture.heading(
        f'{size("file_count")} files of {size("file_size")} words, then the wired controller with '
        f'{size("wired_size")}: no word is padding. A board has one block, and a block one board: `board_of`, '
        f'`block_of`, Claims #88, #176. The files of a hart: m machine, s supervisor, g1 to g{guests} guests.')
    below = file(picture, y + 4)
    strip = harts(picture, below + 40)
    zoom(picture, (station() * size('file_size'), (station() + 1) * size('file_size')), strip, below)
    end = block(picture, strip)
    y = picture.text(LEFT, end + 36, f'*A domain:* {size("domain_size")} words: `domain_of`, `wired_of`, '
                     'Claims #66, #67, #176', size=SMALL) + 4
    zoom(picture, (first, first + size('domain_size')), end, y)
    y = domain(picture, y) + 16
    log(picture, y)
    record(picture, y)
    return picture
