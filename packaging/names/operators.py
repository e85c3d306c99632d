"""Lines to the operators' socket of `ipp-room serve`, and what they are answered (docs/PROTOCOL.md)."""
import contextlib
import io
import re
import socket
import threading
from collections.abc import Iterable, Iterator

OPERATORS = '/run/ipp-room/operators'
# Seconds: that a connection or an answer may take. Connections: the server answers 64 operators at once.
PATIENCE, CONNECTIONS = 60, 16
# What an answer has at most: bytes of a line, lines.
MOST_LINE, MOST_LINES = 65536, 100000
LISTS = {'accounts': 'accounts', 'grants': 'grants', 'jobs': 'jobs'}


class Lost(Exception):
    """No whole answer came. What was asked may have been done."""


class Connection:
    """One connection to the socket at a path, or to a port of this machine."""

    def __init__(self, address: str):
        self.address = address
        try:
            if address.isdigit():
                self.stream = socket.create_connection(('127.0.0.1', int(address)), PATIENCE)
            else:
                self.stream = socket.socket(socket.AF_UNIX)
                self.stream.settimeout(PATIENCE)
                self.stream.connect(address)
            self.answers: io.BufferedReader = self.stream.makefile('rb')
        except OSError as error:
            raise Lost(f'{address}: {error.strerror or error}') from error

    def __enter__(self) -> 'Connection':
        return self

    def __exit__(self, *_: object) -> None:
        with contextlib.suppress(OSError):
            self.answers.close()
            self.stream.close()

    def ask(self, line: str) -> list[str]:
        """The lines that it is answered: one, or of a list its first and those that it counts."""
        try:
            self.stream.sendall(line.encode('ascii') + b'\n')
            first = self.read()
            counted = re.fullmatch('([a-z]+) ([0-9]{1,6})', first)
            if not counted or counted[1] != LISTS.get(line.split(' ')[0]):
                return [first]
            if int(counted[2]) > MOST_LINES:
                raise Lost(f'{self.address}: an answer of {counted[2]} lines')
            return [first, *(self.read() for _ in range(int(counted[2])))]
        except OSError as error:
            raise Lost(f'{self.address}: {error.strerror or error}') from error

    def read(self) -> str:
        line = self.answers.readline(MOST_LINE)
        if not line.endswith(b'\n'):
            raise Lost(f'{self.address}: the connection ended before an answer was whole')
        return line[:-1].decode('ascii', 'replace')


def ask_all(address: str, lines: Iterable[str], connections: int = CONNECTIONS) -> list[list[str]]:
    """What each line is answered, over several connections, so that they share commits. In which order they are done is open.

    Lost, once no connection asks any more, where one of them got no answer: some of the lines may have been done.
    """
    wanted = list(lines)
    told: list[list[str]] = [[] for _ in wanted]
    numbers, lost = Numbers(len(wanted)), []

    def ask_some() -> None:
        try:
            with Connection(address) as connection:
                for number in numbers:
                    told[number] = connection.ask(wanted[number])
        except Lost as error:
            lost.append(error)
            numbers.stop()

    running = [threading.Thread(target=ask_some) for _ in range(min(connections, len(wanted)))]
    for thread in running:
        thread.start()
    for thread in running:
        thread.join()
    if lost:
        raise lost[0]
    return told


class Numbers:
    """The numbers below `count`, each once, for several threads."""

    def __init__(self, count: int):
        self.left, self.lock = iter(range(count)), threading.Lock()

    def __iter__(self) -> Iterator[int]:
        return self

    def __next__(self) -> int:
        with self.lock:
            return next(self.left)

    def stop(self) -> None:
        with self.lock:
            self.left = iter(())


def accounts(address: str) -> set[str]:
    """The names of all accounts."""
    found: set[str] = set()
    with Connection(address) as connection:
        behind = '-'
        while True:
            first, *lines = connection.ask(f'accounts {behind}')
            names = [words[1] for words in map(str.split, lines) if len(words) == 2]
            if not first.startswith('accounts ') or any(name <= behind for name in names if behind != '-'):
                raise Lost(f'{address}: no list of accounts: {first[:100]}')
            found.update(names)
            if not names:
                return found
            behind = names[-1]
