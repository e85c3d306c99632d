"""A run of `serve` that is asked the lines of a script, each at the door that takes such, with the clock at its moment. Answers are
told as a script prints them.
"""
import contextlib

from database import change, is_by_hand
from messages import message
from notation import spell
from program import Differs, Serving, connect, expect

OF_STATIONS = ('release', 'start', 'settle', 'list', 'again')
INTERNAL_ERROR = spell('refused 0500 00000000 internal-error')
MOST_PIECES = 40


class Doors:
    """A connection to each door of a run of `serve`. What is sent goes at once, or in pieces."""

    def __init__(self, serving, is_cut=False):
        self.serving, self.is_cut, self.open = serving, is_cut, {}

    def __enter__(self):
        return self

    def __exit__(self, *_):
        for door in list(self.open):
            self.close(door)

    def close(self, door):
        for end in self.open.pop(door):
            end.close()

    def ask(self, line):
        """The lines that a script would print of the line, by what its door answers at its moment."""
        self.send(line)
        return self.answer(line)

    def send(self, line):
        moment, event = line.split(' ', 1)
        self.serving.clock.set(int(moment))
        self.send_bytes(door_of(event), bytes_of(event))

    def answer(self, line):
        door = door_of(line.split(' ', 1)[1])
        return [self.answer_of_client()] if door == 'port' else self.answer_of_line(door)

    def send_bytes(self, door, sent):
        if door not in self.open:
            stream = connect(getattr(self.serving, door))
            self.open[door] = stream, stream.makefile('rb')
        size = len(sent) // MOST_PIECES + 1 if self.is_cut else len(sent)
        for at in range(0, len(sent), size):
            self.open[door][0].sendall(sent[at:at + size])

    def answer_of_client(self):
        told = self.open['port'][1]
        status = told.readline().decode().strip()
        head = b''.join(iter(told.readline, b'\r\n') if status else ())
        fields = dict(field.split(': ', 1) for field in head.decode().splitlines())
        answer = told.read(int(fields.get('content-length', 0)))
        if fields.get('connection') == 'close':
            self.close('port')
        if (status, fields.get('content-type')) == ('HTTP/1.1 200 OK', 'application/ipp'):
            return 'failed' if answer[2:4] + answer[8:] == INTERNAL_ERROR[2:4] + INTERNAL_ERROR[8:] else f'ipp {answer.hex()}'
        refused = {'HTTP/1.1 400 Bad Request': 'short', 'HTTP/1.1 404 Not Found': 'no-account'}.get(status)
        if refused is None or answer:
            raise Differs(f'a request is answered {status!r} {fields} {answer}')
        return refused

    def answer_of_line(self, door):
        told = self.open[door][1]
        answer = told.readline().decode()
        expect(answer[-1:], '\n', f'the end of the answer {answer!r}')
        word, *words = answer.split()
        return [line for _ in range(int(words[0])) for line in document(told)] if word == 'documents' else [answer[:-1]]


def door_of(event):
    """The name that a run of `serve` has for the address of the door that takes this line, without its moment."""
    word = event.split(' ')[0]
    return 'port' if word == 'ipp' else 'stations' if word in OF_STATIONS else 'operators'


def bytes_of(event):
    """What is sent of the line: its request by HTTP, or the line itself."""
    if door_of(event) != 'port':
        return f'{event}\n'.encode()
    _, account, digits = event.split(' ')
    return message(account, bytes.fromhex(digits))


def document(told):
    """The two lines that a script prints of a document, by its line and its bytes."""
    line = told.readline().decode()
    printed = [line[:-1], told.read(int(line.split(' ')[-1])).hex()]
    expect(told.read(1), b'\n', f'behind the bytes of {line}')
    return printed


class Room:
    """A run of `serve`. It ends, and another begins, where rows of its file are changed by hand."""

    def __init__(self, path, folder, is_cut=False):
        self.path, self.folder, self.is_cut = path, folder, is_cut
        self.blocks = contextlib.ExitStack()

    def __enter__(self):
        self.serving = self.blocks.enter_context(Serving(self.path, self.folder))
        self.doors = self.blocks.enter_context(Doors(self.serving, self.is_cut))
        return self

    def __exit__(self, *_):
        self.blocks.close()

    def ask(self, line):
        if not is_by_hand(line):
            return self.doors.ask(line)
        self.end()
        change(self.path, line)
        self.__enter__()
        return []

    def end(self):
        self.serving.end()
        self.blocks.close()
