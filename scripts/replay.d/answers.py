# Runs the program that is named on the record that is open as descriptor 3, and passes its answers on as they come.
# Says how many lines cannot be read, gives the faults that the program tells an exit status, and shows on a terminal
# how far it is. A part of scripts/replay.
import os
import re
import signal
import stat
import subprocess
import sys
import time

RECORD, OUTPUT, PIECE = 3, 1, 65536
# an answer that is the line's number alone
ALONE = re.compile(rb'\n([0-9]+)(?=\n)')


class Progress:
    """How far a record is: a line of a terminal that is written anew every second, and wiped at the end."""

    def __init__(self):
        there = os.fstat(RECORD)
        self.size = there.st_size if stat.S_ISREG(there.st_mode) else 0
        self.shown = sys.stderr.isatty() and not os.isatty(RECORD) and not os.isatty(OUTPUT)
        self.next, self.width = time.monotonic() + 1, 0

    def tell(self, lines):
        if not self.shown or time.monotonic() < self.next:
            return
        text = f'replay: {lines} lines'
        if self.size:
            # the program reads through the same open file, so that its place is known here
            text += f', {100 * os.lseek(RECORD, 0, os.SEEK_CUR) // self.size} %'
        self.write(text)
        self.next = time.monotonic() + 1

    def write(self, text):
        print('\r' + text.ljust(self.width), end='', file=sys.stderr, flush=True)
        self.width = len(text)

    def wipe(self):
        if self.width:
            self.write('')
            print('\r', end='', file=sys.stderr, flush=True)


class Answers:
    """Counts the answers that pass, and those that are a number alone."""

    def __init__(self):
        self.lines, self.unreadable, self.first, self.begun = 0, 0, None, b'\n'

    def take(self, piece):
        text = self.begun + piece
        end = text.rfind(b'\n')
        alone = ALONE.findall(text, 0, end + 1)
        self.lines += piece.count(b'\n')
        self.unreadable += len(alone)
        if alone and self.first is None:
            self.first = int(alone[0])
        self.begun = text[end:]

    def told(self):
        lines = '1 line' if self.unreadable == 1 else f'{self.unreadable} lines'
        return f'{lines} of {self.lines} cannot be read, the first is line {self.first}'


def end_quietly(program):
    """As any filter ends whose reader has had enough."""
    program.kill()
    signal.signal(signal.SIGPIPE, signal.SIG_DFL)
    os.kill(os.getpid(), signal.SIGPIPE)


def write_all(piece):
    while piece:
        piece = piece[os.write(OUTPUT, piece):]


def run(program, answers, progress):
    """Passes all answers on, and gives the fault that ended them, or nothing."""
    while piece := os.read(program.stdout.fileno(), PIECE):
        try:
            write_all(piece)
        except BrokenPipeError:
            progress.wipe()
            end_quietly(program)
        except OSError:
            program.kill()
            return f'replay: standard output cannot be written, after line {answers.lines}'
        answers.take(piece)
        progress.tell(answers.lines)
    told = program.stderr.read().decode(errors='replace').strip()
    status = program.wait()
    if not told and status != 0:
        how = f'status {status}' if status > 0 else f'signal {-status}'
        told = f'replay: the program ended with {how}, after line {answers.lines}'
    return told


def main(name):
    signal.signal(signal.SIGINT, signal.SIG_DFL)
    answers, progress = Answers(), Progress()
    program = subprocess.Popen([name], stdin=RECORD, stdout=subprocess.PIPE, stderr=subprocess.PIPE, bufsize=0)
    fault = run(program, answers, progress)
    progress.wipe()
    if fault:
        print(fault, file=sys.stderr)
    elif answers.unreadable:
        print('replay: ' + answers.told(), file=sys.stderr)
    return 2 if fault else 1 if answers.unreadable else 0


sys.exit(main(sys.argv[1]))
