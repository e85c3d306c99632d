"""Visitors of a run of `serve`: connections that stay, what they send, and what is due to them."""
import select
import socket
from contextlib import contextmanager

from database import FILE
from messages import message
from notation import spell
from program import MOST_SECONDS, Differs, Serving, connect, converse, expect, read_all, run_well


def validate(number=1):
    return message('alice', spell(f'Validate-Job {number} alice 03'))


def print_job(account='alice', number=2, document=b'Hello'):
    return message(account, spell(f'Print-Job {number} {account} 03') + document)


def answered(*lines):
    """The answer of HTTP with this message."""
    body = b''.join(spell(line) for line in lines)
    return b'HTTP/1.1 200 OK\r\ncontent-type: application/ipp\r\ncontent-length: %d\r\n\r\n' % len(body) + body


def valid(number=1):
    return answered(f'successful-ok {number} 03')


def printed(account='alice', number=2, job=1):
    return answered(f'successful-ok {number}', f'job {account} {job} 4 job-hold-until-specified', '03')


CONTINUED = b'HTTP/1.1 100 Continue\r\n\r\n'
REFUSED = b'HTTP/1.1 400 Bad Request\r\nconnection: close\r\ncontent-length: 0\r\n\r\n'


@contextmanager
def serving(folder, *options, lines=b'open alice\n'):
    """A run of `serve` whose operator was told `ok` to each of these lines. Its door `web` takes clients at a path."""
    run_well(folder, 'create', FILE)
    with Serving(f'{folder}/{FILE}', folder, ('--clients', f'{folder}/web', *options)) as room:
        room.web = f'{folder}/web'
        expect(converse(room.operators, lines), b'ok\n' * lines.count(b'\n'), 'the first lines')
        yield room


class Visitor:
    """A connection that stays until the end of the block."""

    def __init__(self, address):
        self.stream = connect(address)

    def __enter__(self):
        return self

    def __exit__(self, *_):
        self.stream.close()

    def send(self, text):
        self.stream.settimeout(MOST_SECONDS)
        self.stream.sendall(text)

    def send_what_goes(self, room, text):
        """Sends as much as goes until no more does though others are answered. How many bytes went."""
        self.stream.setblocking(False)
        went = 0
        while went < len(text):
            try:
                went += self.stream.send(text[went:])
            except BlockingIOError:
                ask_others(room)
                if not select.select([], [self.stream], [], 0)[1]:
                    break
        return went

    def end(self):
        self.stream.shutdown(socket.SHUT_WR)

    def expect(self, due, what=''):
        """Expects that this comes next."""
        self.stream.settimeout(MOST_SECONDS)
        told = b''
        while told != due and due.startswith(told):
            try:
                more = self.stream.recv(len(due) - len(told))
            except TimeoutError:
                break
            if not more:
                break
            told += more
        expect(told, due, what)

    def expect_end(self, what):
        """Expects that nothing comes but the end."""
        expect(read_all(self.stream, MOST_SECONDS), (b'', True), what)

    def expect_quiet(self, room, what):
        """Expects that nothing has come once others, who asked later, were answered."""
        ask_others(room)
        self.stream.setblocking(False)
        try:
            raise Differs(f'{what}: {self.stream.recv(1 << 16)!r} came')
        except BlockingIOError:
            pass

    def hangs_up(self, seconds):
        """Whether `serve` lets a connection to a path go within so many seconds."""
        gone = select.poll()
        gone.register(self.stream, 0)
        return bool(gone.poll(1000 * seconds))


def ask_others(room):
    """Has others ask and be answered, so that all who asked before had their turn."""
    for _ in range(3):
        expect(converse(room.operators, b'ping\n'), b'ok\n', 'others')


def lines_of(path):
    with open(path, encoding='utf-8') as file:
        return file.read().splitlines()
