r"""Runs of the program, one after another, and what is done to their file between them (rows/NAME.runs).

Each run has to print, tell on standard error and end with what its row says. The lines of a row, in which \xNN is a byte:

- `$ WORDS` begins a run of the words, which prints nothing and ends well if nothing else is said of it; `script ? LINE` and
  `station ? LINE` are one in memory whose second line is this bad one;
- `clock MOMENT` is its clock, or with `none` one before 1970;
- `> TEXT` is a line of its input, `>. TEXT` one without its end, `* N TEXT` so many;
- `< TEXT` is a line that it prints, `<~ PATTERN` a regular expression that is found in what it prints;
- `status N TEXT` is its exit status and the line on standard error, `usage` the status 1 and any text.

Steps between runs are about the file room.db:

- `sql TEXT` gives SQL to Python's SQLite, in a transaction if it is no query; `read NAME` gives it a file of rows/. The file is
  made where there is none. `< TEXT` behind it is a row that it finds, or `refused`;
- `ask LINE` asks a run of `serve` over the file, at the door of operators or of stations, and ends that; `< TEXT` behind it is a
  line that it is answered;
- `stopped LINE` is the line of a script, which a run of `serve` was told of and has answered when it is killed;
- `hold` begins a run of `serve` over the file, `let go` ends it;
- `text TEXT` makes the file of this text;
- `is TEXT`: the file is this text, `no file`: there is none, `a log`: a log lies beside it in which something is left.

A run that ends with the status 3 and prints nothing has to leave the file as it was, byte for byte, but for one without bytes,
which becomes a database without tables.
"""
import contextlib
import functools
import os
import re
import sqlite3

from database import FILE
from doors import door_of
from notation import Unread, cases_of_kind, says_nothing, unescaped
from program import MOMENT, NO_MOMENT, ROWS, Clock, Serving, converse, expect, run

# A log is a mark of so many bytes once its file was closed.
BYTES_OF_CLOSED_LOG = 41
# The run whose second line is bad: its words, and the good lines around it.
BAD_LINES = {
    'script ? ': ('script :memory:', '1000 open alice', '1000 open bob'),
    'station ? ': ('station :memory:', 'start d1 alice 1', 'start d1 alice 1'),
}


def cases_of(row):
    yield 'run', functools.partial(do_steps, read_steps(row))


def cases():
    yield from cases_of_kind('.runs', cases_of)


def read_steps(lines):
    """The steps of a row. A line begins one, says something of the one before it, or goes on with the line before it."""
    steps = []
    for line in lines.replace('\n  ', ' ').split('\n'):
        if says_nothing(line):
            continue
        begun = begun_run(line)
        if begun:
            steps.append(begun)
        elif not (steps and steps[-1].read(line)):
            steps.append(FileStep(line))
    return steps


def begun_run(line):
    """The run that a line begins, or None."""
    if line == '$' or line.startswith('$ '):
        return Run(line[2:])
    for prefix, (words, first, third) in BAD_LINES.items():
        if line.startswith(prefix):
            bad = Run(words)
            for text in (first, line[len(prefix):], third):
                bad.read(f'> {text}')
            bad.read('status 2 ipp-room: line 2')
            return bad
    return None


def do_steps(steps, folder):
    with Room(folder) as room:
        for step in steps:
            step.do(room)


class Run:
    """A run of the program, and how it should end."""

    def __init__(self, words):
        self.words = unescaped(words).split(b' ') if words else []
        self.moment, self.input = MOMENT, b''
        self.status, self.printed, self.told = 0, b'', b''

    def read(self, line):
        """Reads what a line says of the run. Answers whether it says something."""
        kind, _, text = line.partition(' ')
        if kind == 'clock':
            self.moment = NO_MOMENT if text == 'none' else int(text)
        elif kind == '>':
            self.input += unescaped(text) + b'\n'
        elif kind == '>.':
            self.input += unescaped(text)
        elif kind == '*':
            times, _, text = text.partition(' ')
            self.input += (unescaped(text) + b'\n') * int(times)
        elif kind == '<':
            self.printed += unescaped(text) + b'\n'
        elif kind == '<~':
            self.printed = re.compile(text.encode())
        elif kind == 'status':
            status, _, told = text.partition(' ')
            self.status, self.told = int(status), told.encode() + b'\n'
        elif line == 'usage':
            self.status, self.told = 1, re.compile(b'.')
        else:
            return False
        return True

    def do(self, room):
        what = b' '.join(self.words).decode(errors='backslashreplace')
        before = bytes_of(room.path)
        ended = run(room.folder, *self.words, given=self.input, clock=Clock(room.folder, self.moment))
        expect((ended.status, ended.printed, ended.told),
               (self.status, due(ended.printed, self.printed), due(ended.told, self.told)), what)
        if self.status == 3 and not self.printed and before != b'':
            expect(bytes_of(room.path) == before, True, f'{what}: the file is as it was')


def due(found, expected):
    """What is due: the bytes that are expected, or where that is a pattern whatever has it in it."""
    return found if isinstance(expected, re.Pattern) and expected.search(found) else expected


def bytes_of(path):
    if not os.path.exists(path):
        return None
    with open(path, 'rb') as file:
        return file.read()


class FileStep:
    """What is done to the row's file, or looked for, and the lines that are found."""

    def __init__(self, line):
        self.kind = line if line in STEPS else line.partition(' ')[0]
        self.text = line[len(self.kind) + 1:]
        self.due = ''
        if self.kind not in STEPS:
            raise Unread(line)

    def read(self, line):
        """Reads a line that is due. Answers whether it is one."""
        if line.startswith('< '):
            self.due += f'{line[2:]}\n'
        return line.startswith('< ')

    def do(self, room):
        words = [self.text] if self.text else []
        expect(STEPS[self.kind](room, *words) or '', self.due, f'{self.kind} {self.text}')


class Room:
    """The file of a row, in the row's folder, and a run of `serve` that may hold it. Each step answers the lines that it finds."""

    def __init__(self, folder):
        self.folder, self.path = folder, f'{folder}/{FILE}'
        self.held = contextlib.ExitStack()

    def __enter__(self):
        return self

    def __exit__(self, *_):
        self.held.close()

    def run_sql(self, text):
        with contextlib.closing(sqlite3.connect(self.path)) as connection:
            try:
                if not text.startswith('SELECT '):
                    connection.executescript(f'BEGIN; {text}; COMMIT')
                    return ''
                return ''.join(f'{"|".join(map(str, row))}\n' for row in connection.execute(text))
            except sqlite3.Error:
                return 'refused\n'

    def read_sql(self, name):
        with open(f'{ROWS}/{name}', encoding='utf-8') as file:
            return self.run_sql(file.read())

    def serving(self, moment=MOMENT):
        return Serving(self.path, self.folder, moment=moment)

    def ask(self, line):
        with self.serving() as server:
            told = tell(server, line)
            server.end()
        return told

    def stop_behind(self, line):
        moment, _, line = line.partition(' ')
        with self.serving(int(moment)) as server:
            return tell(server, line)

    def hold(self):
        self.server = self.held.enter_context(self.serving())

    def let_go(self):
        self.server.end()

    def make_text(self, text=''):
        with open(self.path, 'w', encoding='utf-8') as file:
            file.write(text)

    def expect_text(self, text):
        expect(bytes_of(self.path), text.encode(), 'the file')

    def expect_no_file(self):
        expect(bytes_of(self.path), None, 'the file')

    def expect_log(self):
        log = bytes_of(f'{self.path}-wal')
        expect(log is not None and len(log) > BYTES_OF_CLOSED_LOG, True, 'a log with more in it than its mark')


STEPS = {
    'sql': Room.run_sql, 'read': Room.read_sql, 'ask': Room.ask, 'stopped': Room.stop_behind, 'hold': Room.hold,
    'let go': Room.let_go, 'text': Room.make_text, 'is': Room.expect_text, 'no file': Room.expect_no_file, 'a log': Room.expect_log,
}


def tell(server, line):
    """What a run of `serve` answers to the line, at the door that takes such."""
    return converse(getattr(server, door_of(line)), line.encode() + b'\n').decode()
