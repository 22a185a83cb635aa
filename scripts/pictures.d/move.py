# The move of a station on a time line: its six steps, what may happen between them, the same shift with no
# move, and what is the same at the end. The numbers of the accesses are held to the definitions.
import facts
from drawing import (AMBER, AMBER_INK, BLUE, BLUE_INK, GREEN, GREEN_INK, PALE, SMALL, WHITE, Picture,
                     height_of)

LEFT, LABEL, START = 16, 128, 156
BEFORE, AFTER = 56, 64  # the time before access 1 and after the last one

# the last access of each step, how wide the step is drawn, and what it does
STEPS = [
    (3, 106, 'save old’s delivery and threshold; set old’s delivery to 0'),
    (8, 106, 'set new’s delivery to 0; clear new’s pending bits'),
    (71, 188, 'in the supervisor’s domain, a target that names old is rewritten to name new, with the same '
     'identity: one access for each source'),
    (79, 104, 'read old’s pending and enable bits into the saved numbers'),
    (87, 104, '*set* the saved pending bits in new; write the enable bits'),
    (89, 100, 'write threshold and delivery to new'),
]
DESCRIBED = (
    'The 89 accesses of a move in six steps on a time line. Wires change and devices write to pages '
    'anywhere between them; each device changes over from the page of the old file to that of the new '
    'one once, after access 8 and before access 72; the other stations go on, and the moved one claims and '
    'writes nothing. Below it the same shift with no move. At the end the new file is the one that the station '
    'would have had: no scan is dropped, doubled or handed to another station.')
CONDITIONS = (
    '*At the start* the state has its length and keeps its rules (`Started`), old and new are two different '
    'guest files (`TwoGuests`), the supervisor’s domain is by messages (`ByMessages`), and no active source’s '
    'target names new (`NoneNamesNew`). *Then* the accesses are made once each, in order (`with_move`, '
    '`AllAccesses`), each with the saved numbers that the last one gave (`HandedOn`), and every call with a log '
    'of 63 words (`Makes`); pages are written and calls made as shown (`PagesKept`, `CallsKept`). In plain '
    'numbers: Claims #175, #184; they can be met: #111; each is needed: #112, #186.')
ENDS = [
    '*the same file:* Claim #105\nnumber for number; and every other file, every wire, and both domains '
    'but for the targets of old',
    '*none refused:* Claim #106\neach of the 89 accesses is done',
    '*none dropped:* Claim #107\nwhat would be pending with no move is pending in new',
    '*none doubled:* Claim #108\nwhat is pending in new would be pending with no move; claimed once, it '
    'is gone',
    '*none to another station:* Claim #109\nevery file but old and new has the same pending bits',
    '*the shift goes on:* Claim #110\nevery call on a file then answers, and new signals, as with no move, '
    'while old is left alone (`LaterKept`)',
]
NOT_SAID = ('*Not compared:* the logs, whose words name the files; time. A target of the supervisor’s domain that '
            'names old with no move names new: Claim #105. What new held before is lost; what is still pending in old is '
            'pending in new: Claim #180.')
ANYWHERE = 'anywhere: before, after, and between any two accesses, also of one step'
GOES_ON = 'anywhere, and they answer as with no move: Claim #185; what only reads, of any file: Claim #181'
HELD_BACK = ('the moved station’s claims and register writes, writes to the domains, reads of a claimi, other moves, '
             'a reset: `CallsKept`')
CHANGED_OVER = 'each device changes over in here, once, from old’s page to new’s'
COMPARED = 'the same wires, page writes and calls, page writes to new going to old, and no access: `without_move`'

MAY, NOBODY = {'fill': AMBER, 'stroke': AMBER_INK}, {'dash': '3 3'}
PLAIN, QUIET, WORKS = {}, {'fill': PALE}, {'fill': GREEN}


def checked():
    """Stops if the accesses are no longer those of the time line."""
    facts.stated('crates/board_move_steps/specs/Steps.antt', 'accesses = 89', 'eqb n 3', 'eqb n 4', 'leb '
                                                                                                    'n 8)',
                 'leb n 71)', 'leb n 79)', 'leb n 87)', 'eqb n 88')
    facts.stated('crates/move_laws/specs/Premises.antt', '8 ≤ n', 'n < 72')


def at(made):
    """Where the time is at which so many accesses are made, at the end of a step."""
    return START + BEFORE + sum(wide for last, wide, _ in STEPS if last <= made)


END = at(89) + AFTER


def steps(picture, y):
    """The time, and the steps in it; where they end."""
    picture.arrow((START, y + 8), (END, y + 8), thick=1.2)
    picture.text(LEFT, y, 'time', size=SMALL)
    first, y = 1, y + 22
    high = max(height_of(text, wide - 12, SMALL) for _, wide, text in STEPS) + 16
    picture.text(LEFT, y + 4, '*steps, accesses*\n`act_of`, `acted`\nClaims #102, #103', LABEL, SMALL)
    for n, (last, wide, text) in enumerate(STEPS, 1):
        x, numbers = at(last) - wide, f'{first} to {last}' if last - first > 1 else f'{first}, {last}'
        picture.text(x + wide / 2, y, f'*step {n}*\n{numbers}', size=SMALL, anchor='middle')
        picture.box(x, y + 38, wide, text, high, size=SMALL, pad=6, fill=BLUE, stroke=BLUE_INK, round=0)
        first = last + 1
    return y + 38 + high


def lane(picture, y, label, parts):
    """A lane of the time line: its label, and parts from one time to another; where it ends."""
    text = height_of(label, LABEL, SMALL)
    high = max(30, text + 4)
    picture.text(LEFT, y + (high - text) / 2, label, LABEL, SMALL)
    for begin, end, words, style in parts:
        picture.box(begin, y + (high - 30) / 2, end - begin, words, 30, size=SMALL, pad=5, round=0, **style)
    return y + high + 8


def pages(picture, y):
    """Who writes to the pages of old and new, and when a device changes over."""
    (first, last), top = (at(8), at(71)), y
    middle = (first + last) / 2
    y = lane(picture, y + 10, 'devices write to *old’s page*', [
        (START, last, '', MAY), (last, END, 'nobody', NOBODY)])
    picture.text(middle, y - 35, 'until access 72 is made', size=SMALL, anchor='middle')
    y = lane(picture, y, 'devices write to *new’s page*', [
        (START, first, 'nobody', NOBODY), (first, END, '', MAY)])
    picture.text(middle, y - 35, 'once access 8 is made', size=SMALL, anchor='middle')
    for x in (first, last):
        picture.line([(x, top), (x, y + 12)], dash='6 3', thick=1.4)
        picture.arrow((middle, y + 6), (x, y + 6), thick=1.2)
    return picture.text(middle, y + 12, CHANGED_OVER, 180, SMALL, 'middle') + 6


def lanes(picture, y):
    """What happens between the accesses, and what old and new are meanwhile."""
    y = pages(picture, y)
    y = lane(picture, y, '*wires*, and writes to *other pages*', [(START, END, ANYWHERE, MAY)])
    y = lane(picture, y, 'calls on *other files*', [(START, END, GOES_ON, MAY)])
    y = lane(picture, y, '*held back*', [(START, END, HELD_BACK, NOBODY)]) + 4
    y = lane(picture, y, 'so the file *old*', [
        (START, at(3), 'is at work', PLAIN), (at(3), at(71), 'is silent, and takes messages', QUIET),
        (at(71), END, 'is left silent, with what it held: Claim #180', PLAIN)])
    return lane(picture, y, 'and the file *new*', [
        (START, at(8), 'is emptied by access 8', PLAIN), (at(8), at(79), 'is silent, and takes messages', QUIET),
        (at(79), at(89), 'what was saved is added', PLAIN), (at(89), END, 'at work', WORKS)]) + 4


def ending(picture, y):
    """What is the same at the end, a cell for each claim."""
    wide, good = 380, {'fill': GREEN, 'stroke': GREEN_INK, 'thick': 2}
    picture.text(LEFT, y + 9, '*at the end*', LABEL, SMALL)
    one = picture.box(START, y, wide, '*with the move:* the file *new*', 36, **good)
    other = picture.box(END - wide, y, wide, '*with no move:* the file *old*', 36, **good)
    picture.text((one.right + other.x) / 2, y + 2, '=', size=24, anchor='middle', bold=True)
    y, across = y + 50, (END - START - 2 * 12) / 3
    for row in (ENDS[:3], ENDS[3:]):
        high = max(height_of(text, across - 16, SMALL) for text in row) + 14
        for n, text in enumerate(row):
            cell = picture.rect(START + n * (across + 12), y, across, high, WHITE)
            picture.text(cell.x + 8, y + 6, text, across - 16, SMALL)
        y += high + 10
    picture.text(START, y + 4, NOT_SAID, END - START, SMALL)


def draw():
    checked()
    picture = Picture('A station is moved in the middle of a shift', DESCRIBED)
    y = lanes(picture, steps(picture, picture.heading(CONDITIONS) + 2))
    picture.line([(LEFT, y), (END, y)], thick=1)
    y = lane(picture, y + 12, '*the same shift with no move*', [(START, END, COMPARED, MAY)]) + 4
    picture.line([(LEFT, y), (END, y)], thick=1)
    ending(picture, y + 14)
    return picture
