"""Memory that is refused: one request for it at a time, in runs of the program and in one run of `serve` or `listen` after another.

- A script, in memory and on a file: a run ends as usual, or it tells `memory` with status 3. Then nothing was done, or one event
  failed, and all else is answered as if that had not been asked. On a file the rows are those of the events that were answered.
- Commands on a file: a run ends as usual, or tells `memory` with status 3, and what it did not do the next run does.
- Events asked of `serve` on a file, over connections that were greeted: who is told `failed`, or internal-error, finds nothing of
  it done, and is answered as usual at last. Who is told 500, or of the end, is then answered as usual, or as one who asks twice.
  All else of the row is answered as usual, and at the end each account has the rows that it has where nothing is refused.
- Whole connections to `serve`, also of browsers, and to `listen`: what is due is told, or internal-error, 500, `failed` or nothing;
  and once more, what is due.

Of those who ask `serve` and `listen` each request for memory is refused in turn; of runs of the program MOST_RUNS a case, evenly
spread. Where the variable REFUSE_ALL is set each of theirs is, too, which takes long.
"""
import functools
import itertools
import os
import re
import string
import subprocess

from database import FILE
from doors import door_of
from exchanges import Exchange, Listening
from notation import refusal, rows
from program import MOMENT, ROWS, Clock, Numbers, Serving, converse, expect, run, run_well, variables
from rounds import STARTED, Peer, make, rows_of
from served import connections_of
from stops import Script, contents_of, found_next, of_statements, put, tells_refusal

IS_ALL = 'REFUSE_ALL' in os.environ
MOST_RUNS = 25
# Of a row as many are asked in one run of `serve`.
EVENTS_EACH = 8
# Places of what system/memory.c counts and does.
REQUESTS, REFUSED = range(2)

SCRIPTS = {
    'requests.rows': ['first answer', 'print job answer', 'create and send', 'printer state', 'completed order', 'eight documents'],
    'stations.rows': ['reserve and settle', 'hold gives back', 'device rates'],
    'jobs.rows': ['all attributes of a held job', 'unsupported attributes before the job, copies with each of its values'],
    'printers.rows': ['all attributes of a printer that prints'],
}
EXCHANGES = {
    'bodies.exchanges': ['a body of eight bytes', 'three chunks, digits in either case, zeros in front', '64 trailers',
                         'line 6: a first chunk of all that a body may have, and then the end'],
    'heads.exchanges': ['a job of the account'],
    'connections.exchanges': ['the 100 text'],
}
CONNECTIONS = {
    'taken.served': ['the first worked example', 'taken: an absolute target', 'taken: HTTP/1.0', 'the 100 text: 100-continue',
                     'a line of a chunk: 77', 'a line of a chunk: zeros, a tab and an extension'],
    'limits.served': ['trailers of the most fields'],
    'refusals.served': ['fields and body: Content-Length: 119a'],
}
PAGES = ('GET /alice', 'GET /alice/statement', 'GET /style.css', 'GET /nobody')
NO_MEMORY = 'HTTP/1.1 500 Internal Server Error\r\n'
QUESTIONS = ('ping', 'left alice 2026-09', 'statement alice 2026-09', 'jobs alice', 'ended alice 9', 'grants alice', 'accounts -',
             'check alice', 'devices', 'list d1 alice', 'again d1 alice 1')
GO_ON = b'HTTP/1.1 100 Continue\r\n\r\n'
# More than are made.
MOST_CONNECTIONS = 100000
LETTERS = string.digits + string.ascii_lowercase


def chosen(names):
    """The path, the title and the text of each row that is named by its file."""
    for name, titles in names.items():
        texts = dict(rows(f'{ROWS}/{name}'))
        for title in titles:
            yield name, title, texts[title]


def spread(first, last):
    """Numbers of requests behind the first, up to the last, MOST_RUNS at most."""
    return range(first + 1, last + 1, 1 if IS_ALL else max(1, (last - first) // MOST_RUNS))


class Refused:
    """Runs of the program in a folder, in each of which one request for memory is refused."""

    def __init__(self, folder):
        os.mkdir(folder)
        self.folder, self.path, self.clock = folder, f'{folder}/memory', Clock(folder)

    def run(self, number, *words, given=b''):
        """How a run ended, of which the request of this number is refused, or none if it is 0; and how many it made."""
        numbers = Numbers(self.path, [0, number, 0])
        ended = run(self.folder, *words, given=given, handed=variables('clock', 'memory', MEMORY=self.path, **self.clock.variables()))
        return ended, numbers.all()[REQUESTS]


def expect_script(script, ended, number):
    """Expects that a run of the script, of which this request was refused, ended as it may. Answers the lines that it did."""
    what = f'request {number}: {vars(ended)}'
    if ended.printed or (ended.status, ended.told) == (0, b''):
        answers = script.parted(ended.printed)
        done = tuple(line for line, answer in zip(script.lines, answers) if answer != ['failed'])
        script.answered(answers, what)
    else:
        answers, done = [['failed']], ()
    failed = answers.count(['failed'])
    expect((failed, tells_refusal(ended) if failed else (ended.status, ended.told)), (1, True) if failed else (0, (0, b'')), what)
    return done


def in_memory(script, folder):
    refused, given = Refused(f'{folder}/memory'), '\n'.join(script.lines).encode()
    _, opened = refused.run(0, 'script', ':memory:')
    usual, last = refused.run(0, 'script', ':memory:', given=given)
    expect(expect_script(script, usual, 'none'), tuple(script.lines), 'where nothing is refused')
    for number in spread(opened if script.lines else 0, last):
        ended, _ = refused.run(number, 'script', ':memory:', given=given)
        expect_script(script, ended, number)


@functools.cache
def rows_behind(lines, folder):
    """The rows of a new file behind these lines."""
    place = f'{folder}/behind'
    put(place, (None, None))
    make(place, lines)
    return rows_of(f'{place}/{FILE}')


def on_a_file(script, folder):
    refused, given = Refused(f'{folder}/file'), '\n'.join(script.lines).encode()
    put(refused.folder, (None, None))
    make(refused.folder, [])
    contents = contents_of(refused.folder)
    _, opened = refused.run(0, 'script', FILE)
    usual, last = refused.run(0, 'script', FILE, given=given)
    expect(expect_script(script, usual, 'none'), tuple(script.lines), 'where nothing is refused')
    for number in spread(opened if script.lines else 0, last):
        put(refused.folder, contents)
        ended, _ = refused.run(number, 'script', FILE, given=given)
        done = expect_script(script, ended, number)
        expect(found_next(refused.folder), (True, rows_behind(done, folder)), f'request {number}: the next run')


# Of a command its words, its input, and what it prints.
COMMANDS = {
    'create': (('create', FILE), b'', b'ok\n'),
    'migrate': (('migrate', FILE), b'', b'ok\n'),
    'open': (('open', FILE, 'carol'), b'', b'ok\n'),
    'copy': (('copy', FILE, 'copy.db'), b'', b'ok\n'),
    'grants': (('grants', FILE), b'alice,2026-09,5\n"alice",2026-10,x\nalice,2026-10,7\n', b'1 ok\n2 bad\n3 ok\n'),
}
# What a command tells, with its status. `copy` names a file behind it, or tells that a path could not be resolved.
MEMORY = [(3, b'ipp-room: memory\n')]
TOLD = {'copy': [*MEMORY, *((3, b'ipp-room: memory: %b\n' % file) for file in (b'room.db', b'copy.db', b'copy.db.part')),
                 (4, b'ipp-room: io\n')]}


def command(name, folder):
    words, given, due = COMMANDS[name]
    place = f'{folder}/file'
    refused = Refused(place)
    put(place, (None, None))
    if name == 'migrate':
        of_statements(place)
    elif name != 'create':
        make(place, ['open alice', 'open bob'])
    contents = contents_of(place)
    usual, last = refused.run(0, *words, given=given)
    expect((usual.status, usual.printed, usual.told), (0, due, b''), name)
    behind = found_next(place)
    for number in spread(0, last):
        put(place, contents)
        remove_copies(place)
        ended, _ = refused.run(number, *words, given=given)
        if (ended.status, ended.printed, ended.told) != (0, due, b''):
            what = f'request {number}: {vars(ended)}'
            expect(((ended.status, ended.told) in TOLD.get(name, MEMORY), copies(place)), (True, []), what)
            done = [line for line in due.splitlines(True) if line in ended.printed.splitlines(True)]
            expect(len(done), len(due.splitlines()) - 1 if ended.printed else 0, what)
            again = b''.join(line.replace(b'ok', b'same') if line in done else line for line in due.splitlines(True))
            expect(run_well(place, *words, given=given, clock=refused.clock), again, f'{what}, once more')
        expect(found_next(place), behind, f'request {number}: the next run')
        if name == 'copy':
            expect(rows_of(f'{place}/copy.db'), behind[1], f'request {number}: the copy')


def copies(folder):
    return sorted(name for name in os.listdir(folder) if name.startswith('copy.db'))


def remove_copies(folder):
    for name in copies(folder):
        os.remove(f'{folder}/{name}')


class Served:
    """A run of `serve` on a file, of whose requests for memory one may be refused while somebody asks."""

    def __init__(self, folder, path, lines=(), options=()):
        if path == FILE:
            make(folder, lines)
        self.numbers = Numbers(f'{folder}/memory', [0, 0, 0])
        path = f'{folder}/{FILE}' if path == FILE else path
        self.serving = Serving(path, folder, options, loaded=('memory',), MEMORY=self.numbers.path)

    def __enter__(self):
        self.serving.__enter__()
        return self

    def __exit__(self, *_):
        self.serving.__exit__()

    def ask(self, line, number=0):
        """The lines that a script prints of what is told of its line, and whether a request was refused."""
        moment, event = line.split(' ', 1)
        self.serving.clock.set(int(moment))
        peer = Peer(self.serving, event)

        def ask():
            peer.ask()
            return peer.told()
        try:
            return refusing(self.numbers, number, ask)
        finally:
            peer.close()


def refusing(numbers, number, ask):
    """What is told where the request of this number is refused, of those that are made meanwhile; and whether so many were."""
    before = numbers.all()[REQUESTS]
    numbers.set(REFUSED, before + number if number else 0)
    told = ask()
    is_refused = 0 < number <= numbers.all()[REQUESTS] - before
    numbers.set(REFUSED, 0)
    return told, is_refused


def renamed(text, names):
    """The text with each account's name, also where it stands in the digits of a message, in the place of another."""
    for name, other in names:
        text = re.sub(rf'\b{name}\b', other, text).replace(name.encode().hex(), other.encode().hex())
    return text


class Row:
    """A row that is asked of `serve` again and again, each time with accounts and devices of other names: those of the number."""

    def __init__(self, script, room):
        self.script, self.room, self.number, self.whole = script, room, 0, []
        self.answers = script.parted('\n'.join(script.printed).encode())

    def names(self):
        """The accounts of the row, and those in their places, whose names have the same lengths."""
        return [('alice', f'a{self.number:04}'), ('bob', f'b{LETTERS[self.number // 36]}{LETTERS[self.number % 36]}')]

    def ask(self, at, number=0):
        line = re.sub(r'\bd([1-9])\b', rf'd\1-{self.number}', renamed(self.script.lines[at], self.names()))
        told, is_refused = self.room.ask(line, number)
        return [renamed(line, [(other, name) for name, other in self.names()]) for line in told], is_refused

    def ask_well(self, first, end):
        for at in range(first, end):
            expect(self.ask(at)[0], self.answers[at], f'event {at + 1}, where nothing is refused')

    def begin(self, at):
        """Asks all events before this one, by other names than before. The devices of those are turned off."""
        for device in sorted(set(re.findall(r'\bd[1-9]\b', '\n'.join(self.script.lines)))):
            self.room.ask(f'{MOMENT} device {device}-{self.number} off')
        self.number += 1
        self.ask_well(0, at)

    def told_twice(self, at):
        """What is told of an event that is asked once more."""
        self.begin(at + 1)
        return self.ask(at)[0]

    def refuse(self, at):
        """Asks an event with one request for memory refused, then another, up to a time when none is. Goes on to the row's end."""
        twice = self.told_twice(at)
        self.begin(at)
        for number in itertools.count(1):
            told, is_refused = self.ask(at, number)
            what = f'event {at + 1}, request {number}: {told}'
            if told == self.answers[at]:
                if not is_refused:
                    break
                self.begin(at)
            elif told == ['failed']:
                expect(is_refused, True, what)
            else:
                expect((is_refused, told in ([], [NO_MEMORY])), (True, True), what)
                expect(self.ask(at)[0] in (self.answers[at], twice), True, f'{what}, once more')
                self.begin(at)
        self.ask_well(at + 1, len(self.script.lines))
        self.whole.append(self.names())


def served(script, events, folder):
    """Has requests refused to those who ask these events of the script."""
    with Served(folder, FILE) as room:
        row = Row(script, room)
        for at in events:
            row.refuse(at)
        room.serving.end()
    tables = rows_of(f'{folder}/{FILE}')
    due = rows_behind(tuple(script.lines), folder)
    for names in row.whole:
        for name, other in names:
            expect(rows_without_names(tables, other), rows_without_names(due, name), f'the rows of {name}, as {other}')


def rows_without_names(tables, account):
    """The rows of an account, without its name and those of devices."""
    return [(table, re.sub(r"'(d[1-9])(-\d+)?'", r"'\1'", repr(row[1:]))) for table, found in tables.items() for row in found
            if row[0] == account]


def is_told(told, due):
    """Whether this may be told where memory is refused: the end, behind a 100 text that is due, or what is due; or an answer that
    says internal-error, or 500."""
    go_on = GO_ON if due.startswith(GO_ON) else b''
    if told in (b'', go_on, due):
        return True
    head, _, body = told.removeprefix(go_on).partition(b'\r\n\r\n')
    version, status = head.split(b' ')[:2]
    due_head, _, due_body = due.removeprefix(go_on).partition(b'\r\n\r\n')
    is_whole = b'content-length: %d\r\n' % len(body) in head.lower() + b'\r\n' and due_head.startswith(version)
    return is_whole and (status == b'500' or body == refusal('0500', due_body[4:8].hex(), 'internal-error'))


def expect_connection(numbers, ask, due, what, may_be_told=is_told):
    """Has somebody ask with one request for memory refused, then another, up to a time when none is. Who asks once more is told
    what is due."""
    for number in itertools.count(1):
        told, is_refused = refusing(numbers, number, ask)
        if not is_refused:
            break
        expect(may_be_told(told, due), True, f'{what}, request {number}: {told}')
        expect(ask(), due, f'{what}, request {number}, once more')
    expect((told, number > 1), (due, True), what)


def at_doors(name, title, lines, folder):
    with Served(folder, ':memory:') as room:
        expect(converse(room.serving.operators, b'open alice\n'), b'ok\n', 'open alice')
        for connection in connections_of(lines):
            expect(connection.door, 'clients', f'{name}: {title}')
            expect_connection(room.numbers, lambda: converse(room.serving.port, connection.sent), connection.due, title)


def at_pages(folder):
    with Served(folder, FILE, ['open alice'], ['--pages', '0']) as room:
        pages = dict(room.serving.doors)['pages']
        for asks in PAGES:
            sent = f'{asks} HTTP/1.1\r\nHost: localhost\r\nConnection: close\r\n\r\n'.encode()
            expect_connection(room.numbers, lambda: converse(pages, sent), converse(pages, sent), asks)


def at_lines(folder):
    """Questions of operators and of stations about an account that has jobs."""
    with Served(folder, FILE, STARTED) as room:
        for question in QUESTIONS:
            ask = functools.partial(converse, getattr(room.serving, door_of(question)), f'{question}\n'.encode())
            due = ask()
            expect(due.startswith(b'failed'), False, question)
            expect_connection(room.numbers, ask, due, question, lambda told, due: told in (b'', b'failed\n', due))


class Listens(Listening):
    """A run of `listen` up to the end of the block, of whose requests for memory some may be refused."""

    def __init__(self, folder, moment):
        super().__init__(folder, MOST_CONNECTIONS, moment)
        self.numbers = Numbers(f'{folder}/memory', [0, 0, 0])

    def __enter__(self):
        handed = variables('clock', 'memory', MEMORY=self.numbers.path, **self.clock.variables())
        self.process = subprocess.Popen(self.words, stdout=subprocess.PIPE, env={**os.environ, **handed})
        expect(self.process.stdout.readline(), f'listening {self.port}\n'.encode(), 'listen')
        return self

    def __exit__(self, *_):
        self.process.kill()
        self.process.wait()
        self.process.stdout.close()
        self.kept.close()


def listening(title, lines, folder):
    make(folder, ['open alice', 'open bob', 'device d1 on'])
    exchange = Exchange(lines)
    with Listens(folder, exchange.moment) as room:
        expect_connection(room.numbers, lambda: converse(room.port, exchange.sent()), exchange.due(), title)


def cases():
    scripts = {'nothing': Script('')}
    scripts.update({f'{name}: {title}': Script(lines) for name, title, lines in chosen(SCRIPTS)})
    for title, script in scripts.items():
        yield f'{title}, in memory', functools.partial(in_memory, script)
        yield f'{title}, on a file', functools.partial(on_a_file, script)
        parts = -(-len(script.lines) // EVENTS_EACH)
        for part in range(parts):
            events = range(part, len(script.lines), parts)
            yield f'{title}, served, part {part + 1} of {parts}', functools.partial(served, script, events)
    for name in COMMANDS:
        yield name, functools.partial(command, name)
    for name, title, lines in chosen(CONNECTIONS):
        yield f'{name}: {title}, served', functools.partial(at_doors, name, title, lines)
    yield 'questions, served', at_lines
    yield 'pages, served', at_pages
    for name, title, lines in chosen(EXCHANGES):
        yield f'{name}: {title}, listened to', functools.partial(listening, title, lines)
