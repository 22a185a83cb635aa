# The path of one scan, from the wire to the claim, with the definitions and the claims of each step. The
# example is the scanner of examples/station.c, and its numbers are held to what that program prints.
import re

import facts
from drawing import AMBER, BLUE, GREEN, PALE, SMALL, WHITE, Picture, height_of

# columns: left edge and width
CALLS, LANE, BOX, TOLD = (16, 118), (146, 112), (266, 286), (588, 396)
HIGH, GAP = 50, 68

DESCRIBED = (
    'A wire rises; its rectified value rises; the source becomes pending in its domain; the domain sends a '
    'message to the file that the target names and logs it; the identity becomes pending in that file; '
    'it is the top of the file and is claimed. Beside each step stand its definitions and the claims '
    'that hold them to the papers.')
HEADING = (
    'The scanner of `examples/station.c`. Beside each arrow: the definitions that say what happens there '
    '(`crates/*/specs`), and the claims that hold them to the papers (`docs/CLAIMS.md`).')
STATES = [
    '*wire {wire}*, the scanner’s\nrises: 0 → 1',
    '*rectified value*, mode Edge1\nrises: low → high',
    '*pending bit of source {wire}*\n0 → 1; 0 again once it is sent',
    '*target[{wire}]* = {target}\nhart {hart}, guest {guest}, identity {identity}',
    '*log word 0* = {word}; count 1\n{hart} × 2048 + {file} × 256 + {identity}',
    '*pending bit of identity {identity}*\n0 → 1',
    '*top* = {top}\nand the file signals hart {hart}',
    '*claim* answers {top}\npending bit 1 → 0; the top is 0',
]
STEPS = [
    '`is_rectified`\nin mode Edge1 the wire itself, in Edge0 its opposite\nClaim #139',
    '`wire_set`, `wire_changed`\na rise sets the pending bit, in the domain where the source is active; '
    'the causes are those of section 4.7\nClaims #40, #41, #59, #141',
    '`candidate`, `sends`, `sent`\nactive, pending and enabled, in a domain with IE and DM; sending clears '
    'the pending bit\nClaims #50, #53, #147, #151',
    '`message_of`, `log_word`, `logged`\nto file 1 + guest index of that hart, with that identity, logged in '
    'its order\nClaims #52, #146, #171; case T8',
    '`named_by`, `reached`, `arrived`\nthe file that it names, that identity, and nothing else\n'
    'Claims #25, #26, #152',
    '`qualifies`, `top_identity`, `top_of`, `signals`\nlowest pending and enabled, below a nonzero '
    'threshold\nClaims #20, #21, #22, #33',
    '`claimed`\nanswers the top and clears its pending bit alone\nClaims #6, #23, #24',
]
PAGE = ('or a device writes {identity} to its page: `vsk_page_write`, `page_written`; not logged. '
        'Claims #126, #154')
LANES = [
    (0, 0, PALE, '*the line*'),
    (1, 3, BLUE, '*wired controller* (APLIC): the domain of the supervisor'),
    (4, 4, AMBER, '*message*'),
    (5, 7, GREEN, '*message file* {file} of hart {hart} (IMSIC): guest {guest}'),
]
CALLED = [
    (0, 5, '*one call,* `vsk_wire`: the message is in its file when it returns\n\n'
     '*All of it:* this source, the file that its target names, once. Claims #97, #99'),
    (6, 6, '`vsk_top`\n`vsk_signals`'),
    (7, 7, '`vsk_claim`'),
]


def example():
    """The numbers of the example, and the target, log word and top that follow from them."""
    source = facts.text_of('examples/station.c')
    read = [re.search(rf'#define {name} (\d+)', source) for name in ('SCANNER', 'SCANNED')]
    target = re.search(r'VSK_TARGET_MESSAGE\((\d), (\d), SCANNED\)', source)
    if not all(read) or not target:
        facts.stop('examples/station.c has no longer the scanner of the picture')
    (wire, identity), (hart, guest) = (int(found[1]) for found in read), map(int, target.groups())
    word, top = hart * 2048 + (1 + guest) * 256 + identity, f'0x{identity * 65536 + identity:08X}'
    facts.stated('examples/station.c', 'VSK_SOURCECFG(SCANNER), VSK_SOURCE_EDGE1')
    facts.stated('examples/station.expected', f'value {top}',
                 f'the log has {word}: hart {hart}, file {1 + guest}, identity {identity}')
    return {'wire': wire, 'hart': hart, 'guest': guest, 'file': 1 + guest, 'identity': identity,
            'target': f'0x{hart << 18 | guest << 12 | identity:08X}', 'word': word, 'top': top}


def beside(picture, column, y, bottom, text, less=0):
    """A text in a column, half-way between two heights."""
    x, wide = column
    picture.text(x, (y + bottom - height_of(text, wide - less, SMALL)) / 2, text, wide - less, SMALL)


def draw():
    shown = example()
    picture = Picture('The path of one scan', DESCRIBED)
    start = picture.heading(HEADING) + 8

    def top(n):
        return start + n * (HIGH + GAP)

    for first, last, fill, label in LANES:
        y, bottom = top(first) - 8, top(last) + HIGH + 8
        picture.rect(LANE[0] - 8, y, sum(BOX) + 18 - LANE[0], bottom - y, fill, 'none')
        beside(picture, LANE, y, bottom, label.format(**shown))
    for n, state in enumerate(STATES):
        picture.box(BOX[0], top(n), BOX[1], state.format(**shown), HIGH, fill=WHITE, pad=6)
    for n, step in enumerate(STEPS):
        y, x = top(n) + HIGH, BOX[0] + BOX[1] / 2
        picture.arrow((x, y), (x, y + GAP))
        picture.line([(x, y + GAP / 2), (TOLD[0] - 8, y + GAP / 2)], dash='1 4', thick=1.2)
        beside(picture, TOLD, y, y + GAP, step)
    arrives = top(5) + HIGH / 2
    page = picture.box(TOLD[0], arrives - 21, TOLD[1], PAGE.format(**shown), 42, size=SMALL, dash='4 3')
    picture.arrow((page.x, arrives), (sum(BOX), arrives), dash='5 3')
    for first, last, text in CALLED:
        y, bottom, x = top(first), top(last) + HIGH, sum(CALLS) - 2
        picture.line([(x - 6, y), (x, y), (x, bottom), (x - 6, bottom)])
        beside(picture, CALLS, y, bottom, text, 14)
    return picture
