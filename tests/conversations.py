"""Conversations: lines of a script, and what is printed of their answers. Each row of rows/*.rows is held in these ways:

- in memory: by one run of `script :memory:`;
- on a file: by one run of `script` on a file that `create` made;
- line by line: by one run of `script` on the file for each line, where the row says `reopened` or changes rows by hand;
- explained: what `explain` prints of the row's lines and answers, read again as a row, is the row;
- served: by a run of `serve` on a file, asked over a connection to each of its doors, its clock at the moment of each line;
- served in pieces: by one in memory, or on a file where rows are changed by hand, with each request and line in up to 40 pieces.

`> LINE` is handed in, at MOMENT if it names no moment, and `> N times LINE` so often. `< LINE` is printed. The lines of a message
beneath either (notation.spell) stand on it as digits. `opened` stands for the lines of OPENED. `sql TEXT` and `next-job ACCOUNT N`
change rows by hand, between two runs of the program; such a row is not held in memory. Where the store fails, `failed` is printed:
a run of `script` then ends with status 3, and `serve` answers a request with internal-error. There is no line of a row that `serve`
can't be asked.
"""
import functools
import itertools
import os

from database import FILE, change, create, is_by_hand
from doors import Room
from notation import cases_of_kind, says_nothing, spell
from program import MOMENT, expect, run, run_well

OPENED = ['> open alice', '< ok', '> open bob', '< ok', '> device d1 on', '< ok']
# How many characters are told of a line that differs.
SHOWN = 160


class Conversation:
    """The lines that a row hands in, each once for each time, and those that it expects."""

    def __init__(self, text):
        self.asked, self.printed, self.is_reopened = [], [], False
        times, latest = [], None
        for line in self.lines_of(text):
            if line.startswith('> '):
                latest = self.asked
                often, asked = timed(line[2:])
                times.append(often)
                latest.append(before_message(with_moment(asked)))
            elif line.startswith('< '):
                latest = self.printed
                latest.append(before_message(line[2:]))
            else:
                latest[-1] += spell(line.strip()).hex()
        self.asked = [line for line, often in zip(self.asked, times) for _ in range(often)]

    def lines_of(self, text):
        """The lines that say something. `reopened` is noted, and `opened` is put in full."""
        for line in text.split('\n'):
            if line == 'reopened':
                self.is_reopened = True
            elif line == 'opened':
                yield from OPENED
            elif not says_nothing(line):
                yield line

    def is_by_hand(self):
        return any(is_by_hand(line) for line in self.asked)


def timed(asked):
    times, is_timed, line = asked.partition(' times ')
    return (int(times), line) if is_timed else (1, asked)


def with_moment(asked):
    return asked if asked[0].isdigit() or is_by_hand(asked) else f'{MOMENT} {asked}'


def before_message(line):
    """The line as it stands before its message's digits, if it is one with a message."""
    return f'{line} ' if 'ipp' in line.split(' ') else line


def parts(lines):
    """The lines up to each change by hand and that change, and those behind the last one with none."""
    part = []
    for line in lines:
        if is_by_hand(line):
            yield part, line
            part = []
        else:
            part.append(line)
    yield part, None


def script(folder, path, lines):
    """The lines that a run of `script` prints, which has to end as they say."""
    ended = run(folder, 'script', path, given='\n'.join(lines).encode())
    printed = ended.printed.decode().split('\n')
    expect(printed.pop(), '', 'behind the last line that is printed')
    due = (3, b'ipp-room: store\n') if 'failed' in printed else (0, b'')
    expect((ended.status, ended.told), due, f'how `script` ended behind {printed[-1:]}')
    return printed


def script_in_parts(folder, pieces):
    """The lines that one run of `script` for each piece prints, on the file, with the changes by hand behind them."""
    printed = []
    for lines, by_hand in pieces:
        if lines:
            printed += script(folder, FILE, lines)
        if by_hand:
            change(f'{folder}/{FILE}', by_hand)
    return printed


def serve(path, folder, lines, is_cut=False):
    """The lines that a script would print, as a run of `serve` answers them."""
    with Room(path, folder, is_cut) as room:
        printed = [answer for line in lines for answer in room.ask(line)]
        room.end()
    return printed


def expect_lines(found, due):
    """Expects these lines, and tells the first that differs, from shortly before where it does."""
    for at, (line, other) in enumerate(zip(found, due)):
        if line != other:
            begin = max(0, len(os.path.commonprefix([line, other])) - SHOWN // 4)
            expect(line[begin:begin + SHOWN], other[begin:begin + SHOWN], f'printed line {at + 1}, from character {begin + 1} on')
    expect(found[len(due):], due[len(found):], f'printed lines from {min(len(found), len(due)) + 1} on')


def hold_in_memory(conversation, folder):
    expect_lines(script(folder, ':memory:', conversation.asked), conversation.printed)


def hold_on_a_file(conversation, folder):
    create(folder)
    expect_lines(script_in_parts(folder, parts(conversation.asked)), conversation.printed)


def hold_line_by_line(conversation, folder):
    create(folder)
    each = (([], line) if is_by_hand(line) else ([line], None) for line in conversation.asked)
    expect_lines(script_in_parts(folder, each), conversation.printed)


def hold_explained(conversation, folder):
    said = conversation.asked + conversation.printed
    explained = run_well(folder, 'explain', given='\n'.join(said).encode()).decode()
    marks = itertools.chain(['> '] * len(conversation.asked), itertools.repeat('< '))
    again = Conversation('\n'.join(line if line.startswith('  ') else next(marks) + line for line in explained[:-1].split('\n')))
    expect_lines(again.asked + again.printed, said)


def hold_served(conversation, folder):
    create(folder)
    expect_lines(serve(f'{folder}/{FILE}', folder, conversation.asked), conversation.printed)


def hold_served_in_pieces(conversation, folder):
    path = ':memory:'
    if conversation.is_by_hand():
        create(folder)
        path = f'{folder}/{FILE}'
    expect_lines(serve(path, folder, conversation.asked, is_cut=True), conversation.printed)


def ways(conversation):
    """The ways in which the row is held."""
    yield 'on a file', hold_on_a_file
    yield 'explained', hold_explained
    yield 'served', hold_served
    yield 'served in pieces', hold_served_in_pieces
    if not conversation.is_by_hand():
        yield 'in memory', hold_in_memory
    if conversation.is_reopened or conversation.is_by_hand():
        yield 'line by line', hold_line_by_line


def hold_fronts(folder):
    """Each proper front of a request is short or malformed (RFC 8010 section 3.1.1)."""
    whole = spell('Validate-Job 1 alice 03')
    requests = [whole[:length] for length in range(1, len(whole) + 1)]
    given = f'{MOMENT} open alice\n' + ''.join(f'{MOMENT} ipp alice {request.hex()}\n' for request in requests)
    malformed, valid = (f'ipp {answer.hex()}' for answer in (spell('refused 0400 00000001 malformed'), spell('successful-ok 1 03')))
    due = ['ok', *['short'] * 7, *[malformed] * (len(whole) - 8), valid]
    expect_lines(run_well(folder, 'script', ':memory:', given=given.encode()).decode().split('\n')[:-1], due)


def cases_of(row):
    conversation = Conversation(row)
    for way, hold in ways(conversation):
        yield way, functools.partial(hold, conversation)


def cases():
    yield 'each front of a request', hold_fronts
    yield from cases_of_kind('.rows', cases_of)
