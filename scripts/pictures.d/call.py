# One call from the lengths of what it is lent to its answer, with the refusal at each exit. Which test comes
# when is what paper 01 asks ("the lowest number that applies is given"), and a table shows it badly.
import facts
from drawing import AMBER, AMBER_INK, BLUE, GREEN, GREEN_INK, PALE, RED, RED_INK, SMALL, Picture, height_of

# columns: left edge and width; and the lines beside them
RESET, MAIN, EXIT = (16, 132), (186, 382), (640, 296)
RAIL_LEFT, RAIL_RIGHT, GAP = 164, 962, 26

DESCRIBED = (
    'A call is tested in the order of the refusals: length of the state block, length of the log, state '
    'rules, what it names, address, select number. The first test that fails gives its number, with '
    'value 0 and count 0, and nothing changes. Else the call makes its change, each domain sends, the '
    'messages reach their files and stand in the log, and the value and the count are answered. Reset '
    'takes only the first two tests.')
HEADING = (
    'One definition, `outcome`, says all of it. The contract of every call says the same: Claims #80, #81, '
    '#82, #93, #100; it settles every number and word: #83, #162; the code meets it: #114. Of the '
    'refusals that apply the lowest is given: `refusal_of`, #84, #92.')
LENT = ('*a call* with any numbers; lent: the state block, the log, and to a move its saved numbers, whatever '
        'they hold')
TESTS = [
    '1. the *state block* has {block_size} words: `block_tests`',
    '2. the *log* has {log_size} words: `block_tests`',
    '3. the *state rules* hold: `board_sound`\nClaims #73, #118, #127',
    '4. *what it names is there:* hart, file, domain, wire, level, kind of access; a move access is not '
    'barred: `present`\nClaims #101, #115',
    '5. where it has an *address*, that is a multiple of 4, in its region or page: `addressed`\nClaim #116',
    '6. where it has a *select number*, that is legal: `selected`\nClaims #30, #116',
]
DONE = [
    '*the change:* what the call itself does to the board, and its value: `change`\n'
    'Claims #150, #153, #172, #173',
    '*each domain sends* what is to be sent, the machine domain first: `flushed`, `sent`\nClaims #77, #151',
    '*each message is in its file:* `all_reached`\nClaim #152',
    '*the log* has the messages first, in order, and its later words stay: `logged`\nClaim #171',
]
ANSWER = ('*done:* refusal 0, the value, the count of messages; the block is that of the board after the '
          'call, and the next call takes it: `done_as`\nClaims #86, #104, #171')
REFUSED = ('*refused:* that number, value 0, count 0; the state block, the log and the saved numbers of a move '
           'stay as they were: `refused_as`\nClaim #85')
SENDERS = ('Only `vsk_wire` and `vsk_domain_write` send; a write to genmsi sends its own message at once.\n'
           'Claims #54, #154')
RESETS = ('*reset* takes only tests 1 and 2: `tests_rules`\nClaims #84, #116\n\n'
          'It leaves the board of paper 01, whatever the block held.\nClaims #87, #160')


def tests(picture, y):
    """The tests one below the other, each with its exit; the boxes of the tests and of the refusals."""
    asked, exits, names = [], [], facts.refusals()
    for n, test in enumerate(TESTS, 1):
        if n not in names:
            facts.stop(f'include/varskumo.h has no refusal {n}')
        box = picture.box(MAIN[0], y, MAIN[1], test.format(**facts.sizes()), fill=PALE, size=SMALL)
        way = picture.box(EXIT[0], box.cy - 17, EXIT[1], f'*refusal {n}* `{names[n]}`', 34, fill=RED,
                          stroke=RED_INK, size=SMALL)
        picture.arrow((box.right, box.cy), (way.x, way.cy), stroke=RED_INK)
        picture.text((box.right + way.x) / 2, box.cy - 20, 'no', size=SMALL, anchor='middle')
        picture.line([(way.right, way.cy), (RAIL_RIGHT, way.cy)], stroke=RED_INK)
        picture.arrow((box.cx, box.bottom), (box.cx, box.bottom + GAP))
        picture.text(box.cx + 10, box.bottom + 3, 'yes', size=SMALL)
        asked.append(box)
        exits.append(way)
        y = box.bottom + GAP
    return asked, exits


def effects(picture, y):
    """What an accepted call does, and its answer; their boxes."""
    boxes = []
    for text in DONE:
        box = picture.box(MAIN[0], y, MAIN[1], text, fill=BLUE, size=SMALL)
        picture.arrow((box.cx, box.bottom), (box.cx, box.bottom + GAP))
        boxes.append(box)
        y = box.bottom + GAP
    picture.box(MAIN[0], y, MAIN[1], ANSWER, fill=GREEN, stroke=GREEN_INK, size=SMALL, thick=2)
    return boxes


def beside(picture, asked, exits, done):
    """What stands left and right of the tests and effects: reset, the refused call, who sends."""
    change, sends, wide = done[0], done[1], EXIT[1] + 48
    picture.arrow((asked[1].x, asked[1].cy), (RAIL_LEFT, asked[1].cy), (RAIL_LEFT, change.cy),
                  (change.x, change.cy), dash='7 4')
    high = height_of(RESETS, RESET[1], SMALL)
    picture.text(RESET[0], asked[3].cy - high / 2, RESETS, RESET[1], SMALL)
    end = picture.box(EXIT[0], exits[-1].bottom + 24, wide, REFUSED, fill=RED, stroke=RED_INK, size=SMALL,
                      thick=2)
    picture.arrow((RAIL_RIGHT, exits[0].cy), (RAIL_RIGHT, end.y), stroke=RED_INK)
    high = height_of(SENDERS, wide - 18, SMALL) + 16
    note = picture.box(EXIT[0], max(end.bottom + 14, sends.cy - high / 2), wide, SENDERS, high, fill=AMBER,
                       stroke=AMBER_INK, size=SMALL, dash='4 3')
    picture.line([(sends.right, sends.cy), (note.x, sends.cy)], dash='1 4', thick=1.2)


def draw():
    picture = Picture('One call, from what it is lent to its answer', DESCRIBED)
    lent = picture.box(MAIN[0], picture.heading(HEADING) + 4, MAIN[1], LENT, size=SMALL)
    picture.arrow((lent.cx, lent.bottom), (lent.cx, lent.bottom + GAP))
    asked, exits = tests(picture, lent.bottom + GAP)
    beside(picture, asked, exits, effects(picture, asked[-1].bottom + GAP))
    return picture
