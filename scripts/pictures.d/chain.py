# The chain from a sentence of paper 01 to the archives that a monitor calls, each link marked as proved, run
# or trusted: whoever relies on the proofs has to know where they end and what stands there instead.
import facts
from drawing import AMBER, BLUE, BLUE_INK, INK, PALE, SMALL, WHITE, Picture, height_of, width_of, words_of

RAIL, BOX, ARROW, TOLD, SIDE = 54, (102, 330), 142, (192, 312), (530, 454)
HIGH, GAP, PILL = 40, 66, 22
# how a link is drawn, by what it is: its line, and the style and ink of its word
LINKS = {
    'proved': ({'thick': 4, 'stroke': BLUE_INK}, {'fill': BLUE_INK, 'stroke': BLUE_INK}, WHITE),
    'run': ({'thick': 2.2, 'dash': '9 5', 'stroke': INK}, {'stroke': INK, 'dash': '6 3'}, INK),
    'trusted': ({'thick': 2.4, 'dash': '0.1 6', 'round': True}, {'fill': PALE, 'dash': '1.5 3'}, INK),
}
DESCRIBED = (
    'A sentence of paper 01 is read beside its definition and its claims, which is trusted. That the claims '
    'hold of the definitions, that the contracts say what the definitions say, and that the code meets its '
    'contracts is proved. The compiler, its back end and the prototypes in C are trusted; a second program '
    'written from the papers, recorded cases and examples in C are run and compared with what they make.')
HEADING = (
    'Each link is *proved*, *run* or *trusted*. Where the proofs end, at the compiler, what it makes is '
    'compared with a second program that comes from the papers by another way.')
# a box, its fill, and the link below it with what it is
CHAIN = [
    ('*a sentence* of paper 01, or of the standard', PALE, 'trusted',
     'read by a person: `docs/sentences.txt` has each sentence, and its mark stands at its definition'),
    ('*a definition*, `crates/*/specs`', BLUE, 'proved',
     'a claim says in plain numbers and bits what the sentence says; T1 to T11 are computed: '
     'Claims #163, #170'),
    ('*a claim*, `docs/CLAIMS.md`', BLUE, 'proved',
     'what a contract allows is `outcome`, for every call: Claims #80, #81, #82, #93, #100; it allows one '
     'result: #83, #162'),
    ('*a contract*, the ensures of a function', BLUE, 'proved',
     'the code meets it, is safe, and ends; for each function that C calls this is Claim #114'),
    ('*the code*, `crates/*/src`', BLUE, 'trusted', 'the compiler of Rattle lowers it'),
    ('*one module of LLVM*', AMBER, 'trusted',
     'the back end, clang, compiles it for each target; an archive is stamped with the sum of its module'),
    ('*the archives*: x86-64, aarch64, RISC-V', AMBER, 'trusted',
     'the prototypes of `include/varskumo.h`, and what it asks of C: true lengths, no overlap, one call at '
     'a time'),
    ('*the monitor*, in C', AMBER, None, None),
]
SECOND = ('*the second program*, `second/`\na plain model, written from the papers, the decided points, the '
          'header and the layout: nothing of crates/ was read for it')
RANDOM = ('*random calls*, on the machine at hand\ntwo million in each gate, half of them from a fresh seed; '
          'after each call the answer and every word are compared')
RECORDED = ('*recorded cases*, T1 to T11 first, and fresh ones: made on each archive that the machine can '
            'run, another machine\'s in an emulator; the same, byte for byte, as the second program has them')
EXAMPLES = ('*two monitors in C*, `examples/station.c` and `examples/move.c`, are built for the machine at hand '
            'and for the others and run, those in an emulator, qemu; what they print is compared')
LEGEND = [
    ('proved', 'the checker of Rattle has read a proof of it; the checker itself is trusted'),
    ('run', 'the gate runs it and compares what comes out'),
    ('trusted', 'read by a person, or left to a tool'),
]


def pill(picture, x, y, kind):
    """The word of a link, with its middle at x, y; its box."""
    _, style, ink = LINKS[kind]
    wide = width_of(words_of(kind, True), SMALL) + 14
    return picture.box(x - wide / 2, y - PILL / 2, wide, kind, PILL, size=SMALL, pad=4, bold=True, ink=ink,
                       round=11, **style)


def link(picture, kind, points, at=0, down=0):
    """A link through points, with its word in the middle of its piece number at, or so much further down."""
    (a, b), (x, y) = points[at], points[at + 1]
    line, word = LINKS[kind][0], pill(picture, (a + x) / 2, (b + y) / 2 + down, kind)
    if a == x:
        ends = [(a, word.y), (a, word.bottom)] if b < y else [(a, word.bottom), (a, word.y)]
    else:
        ends = [(word.x, b), (word.right, b)] if a < x else [(word.right, b), (word.x, b)]
    picture.line(points[:at + 1] + ends[:1], **line)
    picture.line(ends[1:] + points[at + 1:], head=True, **line)


def chain(picture, y):
    """The boxes of the chain from the top, with the links between them."""
    boxes = []
    for n, (text, fill, kind, told) in enumerate(CHAIN):
        box = picture.box(BOX[0], y + n * (HIGH + GAP), BOX[1], text, HIGH, fill=fill, pad=6)
        boxes.append(box)
        if kind:
            link(picture, kind, [(ARROW, box.bottom), (ARROW, box.bottom + GAP)])
            high = height_of(told, TOLD[1], SMALL)
            picture.text(TOLD[0], box.bottom + (GAP - high) / 2, told, TOLD[1], SMALL)
    sentence, claim = boxes[0], boxes[2]
    link(picture, 'trusted', [(sentence.x, sentence.cy), (RAIL, sentence.cy), (RAIL, claim.cy),
                              (claim.x, claim.cy)], 1)
    picture.text(RAIL, claim.cy + 10, 'and each sentence beside its claims', 84, SMALL, 'middle')
    return boxes


def beside(picture, boxes):
    """What is run beside the chain: the second program, what it is compared by, and the examples."""
    sentence, archive, monitor, half = boxes[0], boxes[6], boxes[7], (SIDE[1] - 16) / 2
    second = picture.box(SIDE[0], boxes[1].y, SIDE[1], SECOND, fill=PALE, size=SMALL)
    link(picture, 'trusted', [(sentence.right, sentence.cy), (second.cx, sentence.cy), (second.cx, second.y)])
    high = max(height_of(text, half - 18, SMALL) for text in (RANDOM, RECORDED)) + 18
    for text, x, dy in ((RANDOM, SIDE[0], -9), (RECORDED, SIDE[0] + half + 16, 9)):
        box = picture.box(x, boxes[3].y - 24, half, text, high, size=SMALL, fill=PALE)
        picture.line([(box.cx, second.bottom), (box.cx, box.y)], thick=1.2)
        end = archive.cy + dy
        link(picture, 'run', [(box.cx, box.bottom), (box.cx, end), (archive.right, end)], down=-dy / 2)
    high = height_of(EXAMPLES, SIDE[1] - 18, SMALL) + 18
    example = picture.box(SIDE[0], monitor.cy - high / 2, SIDE[1], EXAMPLES, high, size=SMALL, fill=PALE)
    link(picture, 'run', [(example.x, example.cy), (monitor.right, example.cy)])


def draw():
    facts.stated('scripts/compare', 'calls=${1:-1000000}')
    facts.stated('scripts/archives', "('riscv64-lp64d', 'riscv64'")
    picture = Picture('From a sentence of the paper to the archives that a monitor calls', DESCRIBED)
    boxes = chain(picture, picture.heading(HEADING) + 4)
    beside(picture, boxes)
    y = boxes[-1].bottom + 26
    picture.line([(16, y), (984, y)], thick=1)
    for n, (kind, text) in enumerate(LEGEND):
        link(picture, kind, [(20, y + 24 + 28 * n), (184, y + 24 + 28 * n)])
        picture.text(198, y + 15 + 28 * n, text, size=SMALL)
    return picture
