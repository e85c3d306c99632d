"""Exchanges: what one connection of `listen` is sent and has to be answered, as NAME.exchanges have it.

Lines of an exchange:

- `> TEXT` is sent with CR LF after it, and `< TEXT` is written so. The lines under each spell further bytes (notation.py).
- `= END` ends what one message comes to: `again` where the connection goes on behind it, `close` where it ends, `ended` where it
  has ended and nothing more is read; `= END N times` says that this comes so often.
- `refused STATUS PHRASE` is what is written of a refusal, and the end of the message, which is `close`.
- `at MOMENT` is the clock's. `failing` says that the exchange is also made over connections of which a call fails.

alice and bob have accounts, and the device d1 is on. Each exchange is made with all bytes at once, and with one byte a read and a
write of the program. What is written has to be the row's bytes. Behind the last of them the program has to ask for more, or not, as
the row says, and to tell the end. One byte at a time it has to read what the row says, and no byte more.

Where a read or a write fails, for each in turn, the program asks nothing more of that connection, waits for nobody there, and takes
the next one. What was written is a front of what is due. Behind a failed read the rows are those before the message that was read;
behind a failed write those before it where no more than its 100 text was told, else those behind it. There each connection is one
to an account of its own, in whose name the row's account is written.
"""
import bisect
import contextlib
import functools
import os
import re
import select
import socket
import sqlite3
import subprocess
import tempfile
from collections import namedtuple

import notation
from database import FILE
from program import MOMENT, MOST_SECONDS, PROGRAM, Clock, Differs, Numbers, connect, expect, read_all, run_well, variables

# How many bytes a read gives and a write takes at most; 0 is any number.
WAYS = {'whole': 0, 'a byte at a time': 1}

ENDS = {'again', 'close', 'ended'}

GO_ON = b'HTTP/1.1 100 Continue\r\n\r\n'

# Kinds of calls that fail, by their numbers in system/sockets.c. A full write takes nothing, and tells no fault.
READS, WRITES, FULL_WRITES = 1, 2, 3
KINDS = {READS: 'read', WRITES: 'write', FULL_WRITES: 'write that takes nothing'}

# What system/sockets.c counts of a connection.
Counts = namedtuple('Counts', 'reads writes given taken reads_behind failed calls_behind parted')


class Call:
    """What one message reads and writes, and its end."""

    def __init__(self):
        self.read, self.written, self.end = b'', b'', None


class Exchange:
    """The calls on one connection, the moment, and whether the exchange is also made with each read and write failing."""

    def __init__(self, lines):
        self.calls, self.moment, self.is_failing = [], MOMENT, False
        self.call, self.is_written = Call(), False
        for line in lines.split('\n'):
            if not notation.says_nothing(line):
                self.read_line(line)
        if self.call.read or self.call.written:
            raise notation.Unread('the last message has no end')

    def read_line(self, line):
        word, _, rest = line.partition(' ')
        if line == 'failing':
            self.is_failing = True
        elif word == 'at':
            self.moment = int(rest)
        elif word == '=':
            self.end_call(*re.fullmatch(r'(.*?)(?: (\d+) times)?', rest).groups('1'))
        elif word == 'refused':
            self.call.written += f'HTTP/1.1 {rest}\r\nContent-Length: 0\r\nConnection: close\r\n\r\n'.encode()
            self.end_call('close')
        elif line[0] in '<>':
            self.is_written = line[0] == '<'
            self.add(line[1:].lstrip().encode() + b'\r\n')
        else:
            self.add(notation.spell(line.strip()))

    def add(self, spelled):
        if self.is_written:
            self.call.written += spelled
        else:
            self.call.read += spelled

    def end_call(self, end, times='1'):
        self.call.end = end
        self.calls += [self.call] * int(times)
        self.call, self.is_written = Call(), False

    def sent(self):
        return b''.join(call.read for call in self.calls)

    def due(self):
        return b''.join(call.written for call in self.calls)

    def answered(self):
        """The calls that are made while the connection goes on."""
        return [call for call in self.calls if call.end != 'ended']

    def goes_on(self):
        """Whether the program asks for more behind the last that it writes."""
        return [call.end for call in self.calls if call.written][-1:] != ['close']


class Sockets(Numbers):
    """What system/sockets.c is to do to the next connection, and what it counted of the last."""

    def __init__(self, folder):
        super().__init__(f'{folder}/sockets', [0] * 12)

    def ask(self, most_given=0, most_taken=0, failing=0, first=0):
        for at, number in enumerate((most_given, most_taken, failing, first)):
            self.set(at, number)

    def counts(self):
        return Counts(*self.all()[4:])

    def variables(self):
        return {'SOCKETS': self.path}


class Listening:
    """A run of `listen` on the folder's room for so many connections. They all have to be made up to the end of the block."""

    def __init__(self, folder, connections, moment=MOMENT):
        self.clock, self.sockets = Clock(folder, moment), Sockets(folder)
        # It is kept for the program, which may bind it beside this socket, and for nobody else.
        self.kept = socket.socket()
        self.kept.setsockopt(socket.SOL_SOCKET, socket.SO_REUSEADDR, 1)
        self.kept.bind(('127.0.0.1', 0))
        self.port = self.kept.getsockname()[1]
        self.words = [PROGRAM, 'listen', f'{folder}/{FILE}', str(self.port), str(connections)]

    def __enter__(self):
        handed = variables('clock', 'sockets', **self.clock.variables(), **self.sockets.variables())
        self.process = subprocess.Popen(self.words, stdout=subprocess.PIPE, stderr=subprocess.PIPE, env={**os.environ, **handed})
        can_be_read, _, _ = select.select([self.process.stdout], [], [], MOST_SECONDS)
        self.line = self.process.stdout.readline() if can_be_read else b''
        return self

    def __exit__(self, failed, *_):
        if failed:
            self.process.kill()
        try:
            printed, told = self.process.communicate(timeout=MOST_SECONDS)
        finally:
            self.process.kill()
            self.kept.close()
        if not failed:
            expect((self.process.returncode, self.line + printed, told), (0, b'listening %d\n' % self.port, b''), 'how listen ended')

    def converse(self, sent, awaited=0):
        """What is told up to the end of a connection, whose input ends behind what is sent, once so many bytes came."""
        told = b''
        with connect(self.port) as stream:
            # Where the program ended the connection before, what it did not read is lost.
            with contextlib.suppress(OSError):
                stream.sendall(sent)
                while len(told) < awaited and (more := stream.recv(1 << 16)):
                    told += more
                stream.shutdown(socket.SHUT_WR)
            rest, has_ended = read_all(stream)
        if not has_ended:
            raise Differs(f'the connection goes on behind {(told + rest)[-200:]!r}')
        return told + rest


def expect_bytes(found, due, what):
    if found != due:
        at = len(os.path.commonprefix([found, due]))
        shown = slice(max(0, at - 40), at + 200)
        raise Differs(f'{what}: {len(found)} bytes, {len(due)} are due, of which {at} are the same; around them\n'
                      f'  found {found[shown]!r}\n  due   {due[shown]!r}')


def make_room(folder, accounts=0):
    """Makes a room of alice, bob and so many further accounts in the folder, in which the device d1 is on."""
    path = f'{folder}/{FILE}'
    run_well(folder, 'create', path)
    names = ['alice', 'bob', *map(name_of, range(accounts))]
    lines = [f'{MOMENT} open {name}' for name in names] + [f'{MOMENT} device d1 on', '']
    run_well(folder, 'script', path, given='\n'.join(lines).encode())


@functools.cache
def room_of_two():
    """The file of a room of alice and bob."""
    with tempfile.TemporaryDirectory() as folder:
        make_room(folder)
        with open(f'{folder}/{FILE}', 'rb') as file:
            return file.read()


def expect_exchange(exchange, most, folder):
    """Makes the exchange, of so many bytes a call at most. Expects what the row says."""
    with open(f'{folder}/{FILE}', 'wb') as file:
        file.write(room_of_two())
    with Listening(folder, 1, exchange.moment) as listening:
        listening.sockets.ask(most, most)
        told = listening.converse(exchange.sent(), len(exchange.due()) if exchange.goes_on() else 0)
        counts = listening.sockets.counts()
    expect_bytes(told, exchange.due(), 'what is written')
    expect(counts.parted, True, 'whether the client is told of the end')
    expect(counts.reads_behind > 0, exchange.goes_on(), 'whether more is asked for behind what is written last')
    if most == 1:
        expect(counts.given, sum(len(call.read) for call in exchange.answered()), 'how many bytes are read')


def name_of(number):
    """An account of which one connection alone asks. Its name is as long as alice's."""
    return f'a{number:04}'


def in_name_of(number, text):
    return text.replace(b'alice', name_of(number).encode())


def rows_of(folder):
    """The rows of each account in the folder's room, without its name. Under '' stand those of none."""
    rows = {}
    with contextlib.closing(sqlite3.connect(f'{folder}/{FILE}')) as room:
        tables = [table for table, in room.execute("SELECT name FROM sqlite_master WHERE type = 'table'")]
        for table in tables:
            found = room.execute(f'SELECT * FROM {table}')
            is_of_account = table == 'account' or found.description[0][0] == 'account'
            for row in found:
                account, kept = (row[0], row[1:]) if is_of_account else ('', row)
                rows.setdefault(account, []).append((table, kept))
    return {account: sorted(kept) for account, kept in rows.items()}


class Progress:
    """How an exchange stands behind each number of its calls: the bytes read and written, and the account's rows."""

    def __init__(self, exchange, most, folder):
        self.calls = exchange.answered()
        numbers = range(len(self.calls) + 1)
        self.read = [sum(len(call.read) for call in self.calls[:number]) for number in numbers]
        self.written = [sum(len(call.written) for call in self.calls[:number]) for number in numbers]
        make_room(folder, len(numbers))
        with Listening(folder, len(numbers), exchange.moment) as listening:
            listening.sockets.ask(most, most)
            for number in numbers:
                sent = b''.join(call.read for call in self.calls[:number])
                told = listening.converse(in_name_of(number, sent))
                expect_bytes(told, in_name_of(number, exchange.due()[:self.written[number]]), f'what {number} calls write')
            self.counts = listening.sockets.counts()
        rows = rows_of(folder)
        self.rows = [rows[name_of(number)] for number in numbers]
        self.others = {account: rows[account] for account in ('', 'alice', 'bob')}

    def go_on(self, number):
        """The 100 text of a call, or nothing where it has none."""
        return GO_ON if number < len(self.calls) and self.calls[number].written.startswith(GO_ON) else b''


def expect_failures(exchange, most, kind, folder):
    """Makes the exchange with each of its calls of the kind failing in turn, one connection for each. Expects what is due."""
    os.mkdir(f'{folder}/progress')
    progress = Progress(exchange, most, f'{folder}/progress')
    calls = range(progress.counts.reads if kind == READS else progress.counts.writes)
    least = (progress.read if kind == READS else progress.written)[-1] if most == 1 else 1
    expect(len(calls) >= least, True, f'whether {len(calls)} calls are {least} at least')
    make_room(folder, len(calls))
    with Listening(folder, len(calls), exchange.moment) as listening:
        counts = []
        for first in calls:
            listening.sockets.ask(most, most, kind, first)
            counts.append(expect_cut_off(listening, exchange, first))
    rows = rows_of(folder)
    expect({account: rows[account] for account in progress.others}, progress.others, 'the rows of others')
    for first in calls:
        expect_state(progress, kind, counts[first], rows[name_of(first)], f'call {first} fails')


def expect_cut_off(listening, exchange, first):
    """Makes a connection of which this call fails. Expects that nothing is asked of it behind that, and answers its counts."""
    told = listening.converse(in_name_of(first, exchange.sent()))
    counts = listening.sockets.counts()
    expect((counts.failed, counts.calls_behind, counts.parted), (1, 0, False),
           f'call {first} fails: calls that failed, calls behind the first of them, and whether the client is waited for')
    expect_bytes(told, in_name_of(first, exchange.due())[:counts.taken], f'call {first} fails: what is written')
    return counts


def expect_state(progress, kind, counts, rows, what):
    """Expects that no answer is told behind a failed read, and the rows of before it, or those behind the answer that was cut off."""
    if kind == READS:
        before = bisect.bisect_right(progress.read, counts.given) - 1
        told = counts.taken - progress.written[before]
        expect(told in (0, len(progress.go_on(before))), True, f'{what}: whether no answer is told behind {before} calls')
        is_applied = False
    else:
        before = bisect.bisect_right(progress.written, counts.taken) - 1
        is_applied = counts.taken - progress.written[before] >= len(progress.go_on(before))
    expect(rows, progress.rows[before + is_applied], f'{what}: rows behind {before} calls')


def cases_of(row):
    exchange = Exchange(row)
    if not ENDS.issuperset(call.end for call in exchange.calls):
        raise notation.Unread(f'an end is none of {ENDS}')
    for way, most in WAYS.items():
        yield way, functools.partial(expect_exchange, exchange, most)
        for kind, call in KINDS.items() if exchange.is_failing else ():
            yield f'{way}, each {call} failing', functools.partial(expect_failures, exchange, most, kind)


def cases():
    yield from notation.cases_of_kind('.exchanges', cases_of)
