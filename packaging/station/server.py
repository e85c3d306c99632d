"""The lines by which a station speaks with `ipp-room serve` (docs/PROTOCOL.md)."""
import collections
import io
import re
import socket
from urllib.parse import unquote_to_bytes

import ticket
from harmless import harmless
from reading import Bounded

# Seconds, and the bytes for which an answer gets a second more: those that `serve` gives.
SECONDS, PACE = 30, 16384
# What an answer has at most: bytes of a line, jobs, documents, bytes of a document and of all of it.
MOST_LINE, MOST_JOBS, MOST_DOCUMENTS, MOST_BYTES = 65536, 1000, 8, 16 << 20
MOST_ANSWER = MOST_DOCUMENTS * (MOST_BYTES + MOST_LINE)
# The last moment, in seconds, and the largest of other numbers.
LAST, MOST = 4102444799, (1 << 31) - 1
# Of one job, in units: impressions, copies and rate.
MOST_RESERVED = MOST * 999 * 100
# Letters of a name: those that are read, and those that are shown.
MOST_NAME, MOST_SHOWN = 1024, 60

Row = collections.namedtuple('Row', 'job state device created has_password copies impressions reserved name ticket')
Document = collections.namedtuple('Document', 'copies format data')


class Lost(Exception):
    """No whole answer came. What was asked may have been done."""


class Refused(Exception):
    """The server's answer is a word of refusal."""

    def __init__(self, word):
        super().__init__(word)
        self.word = word


class Server:
    """The server at a port of this machine, or at the socket at a path."""

    def __init__(self, address):
        self.address = address

    def connect(self):
        if self.address.isdigit():
            return socket.create_connection(('127.0.0.1', int(self.address)), SECONDS)
        stream = socket.socket(socket.AF_UNIX)
        stream.settimeout(SECONDS)
        stream.connect(self.address)
        return stream

    def answer(self, line, read):
        """Sends a line, and answers what `read` makes of the first line of the answer and of what follows it."""
        try:
            with self.connect() as stream:
                stream.sendall(line.encode() + b'\n')
                with io.BufferedReader(Bounded(stream, MOST_ANSWER, SECONDS, PACE)) as answers:
                    return read(read_first(answers), answers)
        except (OSError, ValueError, IndexError) as error:
            raise Lost(str(error)) from error

    def ask(self, line):
        """The answer, which is one line."""
        return self.answer(line, lambda first, _: first)

    def jobs(self, device, account):
        """The jobs of the account that the device could print."""
        return self.answer(f'list {device} {account}', read_jobs)

    def documents(self, line):
        """The documents that a line `start` or `again` is answered with."""
        return self.answer(line, read_documents)

    def settle(self, line):
        """The units that were charged, and those that are left."""
        return self.answer(line, read_charge)


def read_line(answers):
    line = answers.readline(MOST_LINE)
    if not line.endswith(b'\n'):
        raise OSError('the connection ended before an answer was whole')
    return line[:-1].decode('ascii', 'replace')


def read_first(answers):
    """The first line, which is a word and perhaps what belongs to it."""
    line = read_line(answers)
    if not re.fullmatch('[a-z-]+( [a-z0-9-]+)*', line):
        raise ValueError('an answer that is no word')
    return line


def read_jobs(first, answers):
    words = first.split(' ')
    if words[0] != 'jobs':
        raise Refused(first)
    return [row(read_line(answers)) for _ in range(number(words[1], MOST_JOBS))]


def row(line):
    (_, job, state, device, created, _, _, password, copies, impressions, reserved, _, _, name) = line.split(' ')
    title, chosen = ticket.split(unquote_to_bytes(name).decode('utf-8', 'replace')[:MOST_NAME])
    return Row(number(job), state, device, number(created, LAST), password != '-', number(copies), number(impressions) or None,
               number(reserved, MOST_RESERVED), harmless(title, MOST_SHOWN), chosen)


def number(word, most=MOST):
    if not re.fullmatch('[0-9]{1,20}', word) or int(word) > most:
        raise ValueError(f'{word[:20]} is no number up to {most}')
    return int(word)


def read_charge(first, _):
    if first.split(' ')[0] != 'ok':
        raise Refused(first)
    charged = re.fullmatch('ok charged ([0-9]{1,20}) left (-?[0-9]{1,20})', first)
    if not charged:
        raise ValueError('a settling that tells no charge')
    return charged.groups()


def read_documents(first, answers):
    words = first.split(' ')
    if words[0] != 'documents':
        raise Refused(first)
    return [read_document(answers) for _ in range(number(words[1], MOST_DOCUMENTS))]


def read_document(answers):
    _, _, copies, kind, length = read_line(answers).split(' ')
    length = number(length, MOST_BYTES)
    data = answers.read(length)
    if len(data) != length or answers.read(1) != b'\n':
        raise OSError('the connection ended before a document was whole')
    return Document(number(copies), kind, data)
