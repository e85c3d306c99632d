"""The print server, as operators, stations and browsers ask it (docs/PROTOCOL.md)."""
import contextlib
import http.client
import re
import socket
import time
from typing import NamedTuple
from urllib.parse import parse_qs, unquote_to_bytes, urlencode, urlsplit

from lines import MOST_LINE, count_behind

# Seconds for an answer, and bytes of one.
SECONDS, MOST_ANSWER = 120, 64 << 20
MOST_DOCUMENT = 1 << 20


class Lost(Exception):
    """No whole answer came. What was asked may have been done."""


class Refused(Exception):
    """The server refused what was asked. Nothing was done."""

    def __init__(self, word: str):
        super().__init__(word)
        self.word = word


class Job(NamedTuple):
    number: int
    state: str
    device: str
    reserved: int
    charged: int
    name: bytes


def connect(address: str, seconds: float = SECONDS) -> socket.socket:
    """A connection to a port of this machine, or to the socket at a path."""
    if address.isdigit():
        return socket.create_connection(('127.0.0.1', int(address)), seconds)
    stream = socket.socket(socket.AF_UNIX)
    stream.settimeout(seconds)
    try:
        stream.connect(address)
    except BaseException:
        stream.close()
        raise
    return stream


class Lines:
    """A connection that asks lines, one after another. It is made with the first."""

    def __init__(self, address: str):
        self.address, self.stream, self.unread = address, None, b''

    def __enter__(self) -> 'Lines':
        return self

    def __exit__(self, *_) -> None:
        self.close()

    def close(self) -> None:
        if self.stream:
            self.stream.close()
        self.stream, self.unread = None, b''

    def ask(self, line: bytes) -> list[bytes]:
        """The lines of the answer, without their line feeds. Lost where no whole one came; the connection is closed then."""
        try:
            self.send(line)
            first = self.line()
            return [first, *(self.line() for _ in range(count_behind(line, first)))]
        except (OSError, ValueError) as error:
            self.close()
            raise Lost(str(error)) from error

    def told(self, line: str) -> str:
        """The answer, which has one line."""
        return self.ask(line.encode())[0].decode('ascii', 'replace')

    def ask_documents(self, line: str) -> str:
        """The first line of the answer to a station's start. What documents it has is read, and not kept."""
        try:
            self.send(line.encode())
            first = self.line().decode('ascii', 'replace')
            found = re.fullmatch('documents ([1-8])', first)
            for _ in range(int(found[1]) if found else 0):
                length = int(self.line().split(b' ')[4])
                if not 0 <= length <= MOST_DOCUMENT:
                    raise ValueError('a document that is too long')
                self.skip(length + 1)
            return first
        except (OSError, ValueError, IndexError) as error:
            self.close()
            raise Lost(str(error)) from error

    def send(self, line: bytes) -> None:
        if self.stream is None:
            self.stream = connect(self.address)
        self.bytes, self.end = 0, time.monotonic() + SECONDS
        self.stream.settimeout(SECONDS)
        self.stream.sendall(line + b'\n')

    def line(self) -> bytes:
        while b'\n' not in self.unread:
            if len(self.unread) > MOST_LINE:
                raise ValueError('an answer that is too long')
            self.more()
        line, _, self.unread = self.unread.partition(b'\n')
        if len(line) > MOST_LINE:
            raise ValueError('an answer that is too long')
        return line

    def skip(self, count: int) -> None:
        while len(self.unread) < count:
            self.more()
        self.unread = self.unread[count:]

    def more(self) -> None:
        seconds = self.end - time.monotonic()
        if seconds <= 0:
            raise TimeoutError('an answer that takes too long')
        self.stream.settimeout(seconds)
        piece = self.stream.recv(MOST_LINE)
        self.bytes += len(piece)
        if not piece:
            raise OSError('the connection ended before an answer was whole')
        if self.bytes > MOST_ANSWER:
            raise ValueError('an answer that is too long')
        self.unread += piece

    def wait_for_end(self, seconds: float) -> None:
        """Returns once the server has closed the connection, as behind `end`."""
        with contextlib.suppress(OSError):
            self.stream.settimeout(seconds)
            while self.stream.recv(MOST_LINE):
                pass
        self.close()


def listed(lines: Lines, asked: str, word: bytes) -> list[bytes]:
    """The lines of a list. Refused where the answer is another; Lost where it may be none but now."""
    first, *rest = lines.ask(asked.encode())
    if first == b'failed':
        raise Lost('failed')
    if not first.startswith(word):
        raise Refused(first.decode('ascii', 'replace'))
    return rest


def grants_of(lines: Lines, account: str) -> dict[str, int]:
    """The pages of each month that has a grant. Refused where there is no account."""
    rest = listed(lines, f'grants {account}', b'grants ')
    try:
        return {month: int(pages) for _, month, pages in (line.decode().split(' ') for line in rest)}
    except ValueError as error:
        raise Lost('a grant that is none') from error


def jobs_of(lines: Lines, asked: str) -> list[Job]:
    """The jobs that an operator's `jobs` or `ended` is answered with. Refused where it has none of the account."""
    rest = listed(lines, asked, b'jobs ')
    try:
        return [job_of(line) for line in rest]
    except ValueError as error:
        raise Lost('a job that is none') from error


def job_of(line: bytes) -> Job:
    (_, number, state, device, _, _, _, _, _, _, reserved, charged, _, name) = line.split(b' ')
    return Job(int(number), state.decode(), device.decode(), int(reserved), int(charged), unquote_to_bytes(name))


class SocketConnection(http.client.HTTPConnection):
    """A connection of HTTP by a port of this machine or a socket's path."""

    def __init__(self, address: str):
        super().__init__('localhost', timeout=SECONDS)
        self.address = address

    def connect(self) -> None:
        self.sock = connect(self.address)


def print_page(address: str, account: str, name: str, impressions: int, pin: str) -> int:
    """Makes a job as its owner does at the pages, by a POST; its number. The document is the name."""
    query = urlencode({'name': name, 'copies': 1, 'pages': impressions})
    connection = SocketConnection(address)
    try:
        connection.request('POST', f'/{account}/print?{query}', body=name.encode(),
                           headers={'Sec-Fetch-Site': 'none', 'Job-Password': pin, 'Connection': 'close'})
        answer = connection.getresponse()
        status, place = answer.status, answer.getheader('location', '')
    except (OSError, ValueError, http.client.HTTPException) as error:
        raise Lost(str(error)) from error
    finally:
        connection.close()
    return number_in(status, parse_qs(urlsplit(place).query))


def number_in(status: int, came: dict[str, list[str]]) -> int:
    """The number of the job that a POST made, by what it is answered."""
    if status == 404:
        raise Refused('no-account')
    if status == 303 and came.get('done') == ['print'] and re.fullmatch('[1-9][0-9]{0,5}', came.get('job', [''])[0]):
        return int(came['job'][0])
    if status == 303 and 'refused' in came:
        raise Refused(came.get('why', ['refused'])[0])
    if status in (400, 403, 413, 415, 503):
        raise Refused(f'status-{status}')
    raise Lost(f'status {status} of HTTP')
