"""What the doors of `serve` are sent, one connection after another, and what they have to answer, as NAME.served have it.

An empty line stands between two connections of a row. How one ends names its door:

- `= answered`: that of clients
- `= shown`: that of browsers; `= shown with FILE` where the file's bytes come behind, and `= shown first` where what goes out
  begins so
- `= at the desk`: that of operators' browsers, likewise with a file or first
- `= told an operator`, `= told a station`: those of lines; `= told the station of d1 and d3`: the bound door of these devices

`= the pages need a PIN` stands by itself: from there on a run of `serve` on the same file has the pages take no file without one.

A connection of HTTP is an exchange (exchanges.py). In one of lines, `> LINE` is sent, and `< LINE` is told. alice's account is open,
and the clock stands at the moment of rows. Each row is sent whole, and cut: lines into bytes, and requests of clients into some
300 pieces. What browsers send is whole: between two pieces accounts might be gathered for a page.
"""
import functools

from database import FILE
from exchanges import Exchange, Sockets, expect_bytes
from notation import Unread, cases_of_kind, says_nothing
from program import ROWS, Serving, converse, expect, run_well

NEEDS_PIN = '= the pages need a PIN\n'

# The doors by the end of a connection.
OF_LINES = {'= told an operator': 'operators', '= told a station': 'stations', '= told the station of d1 and d3': 'station'}
OPTIONS = ['--pages', '0', '--desk', '0', '--host', 'printroom.example,other.example:8443', '--station', 'd1,d3=0']
WAYS = {'whole': False, 'cut': True}

# A read of fewer bytes has brought all that was there, the program takes it: what comes behind it, the system tells. So the reads
# of an input may be cut shorter only where all of it, and its end, find room in the system's buffers: then the end is still to come.
LEAST_READ = 4096
MOST_BUFFERED = 32768


class Connection:
    """What one connection sends to a door, and what has to come, or how that has to begin."""

    def __init__(self, text):
        end = text.rsplit('\n', 1)[-1]
        if end in OF_LINES:
            self.door = OF_LINES[end]
            self.sent, self.due = lines_behind('>', text), lines_behind('<', text)
        elif end == '= answered' or end.startswith(('= shown', '= at the desk')):
            self.door = 'clients' if end == '= answered' else 'pages' if end.startswith('= shown') else 'desk'
            exchange = Exchange(text)
            self.sent, self.due = exchange.sent(), exchange.due() + named_file(end)
        else:
            raise Unread(f'a connection ends with {end}')
        self.is_first = end.endswith(' first')

    def piece(self):
        """How many bytes are sent and read at once, where a row is cut."""
        if self.door in ('pages', 'desk'):
            return None
        if self.door != 'clients':
            return 1
        piece = len(self.sent) // 300 + 1
        return piece if len(self.sent) <= MOST_BUFFERED else max(piece, LEAST_READ)

    def expect_from(self, serving, piece):
        address = dict(reversed(serving.doors))[self.door]
        told = converse(address, self.sent, piece)
        expect_bytes(told[:len(self.due)] if self.is_first else told, self.due, f'told to {self.sent[:300]!r}')


def lines_behind(mark, text):
    lines = [line for line in text.split('\n')[:-1] if not says_nothing(line)]
    if any(line[0] not in '<>' for line in lines):
        raise Unread(f'of {lines} one is neither sent nor told')
    return ''.join(line[1:].lstrip() + '\n' for line in lines if line[0] == mark).encode()


def named_file(end):
    """The bytes of the file that an end names, if it does."""
    _, is_named, name = end.partition(' with ')
    if not is_named:
        return b''
    with open(f'{ROWS}/{name}', 'rb') as file:
        return file.read()


def connections_of(part):
    return [Connection(text) for text in (text.strip('\n') for text in part.split('\n\n')) if text]


def expect_row(row, is_cut, folder):
    """Makes the connections of a row, in memory, or on a file where the pages come to need a PIN: from there on `serve` runs anew."""
    parts = row.split(NEEDS_PIN)
    path = ':memory:' if len(parts) == 1 else f'{folder}/{FILE}'
    if path != ':memory:':
        run_well(folder, 'create', path)
    for number, part in enumerate(parts):
        sockets = Sockets(folder)
        options = OPTIONS + (['--pages-pin', 'required'] if number else [])
        with Serving(path, folder, options, loaded=['sockets'], **sockets.variables()) as serving:
            expect(converse(serving.operators, b'open alice\n'), b'exists\n' if number else b'ok\n', 'open alice')
            for connection in connections_of(part):
                piece = connection.piece() if is_cut else None
                sockets.ask(most_given=piece or 0)
                connection.expect_from(serving, piece)
            sockets.ask()
            serving.end()


def cases_of(row):
    for way, is_cut in WAYS.items():
        yield way, functools.partial(expect_row, row, is_cut)


def cases():
    yield from cases_of_kind('.served', cases_of)
