"""Rounds of `serve`: what several peers ask in one pass of its loop shares a commit (docs/DECISIONS.md, One process for everybody).

The server is stopped by a signal while each peer sends one request or line, so that it finds all of them at once when it goes on.
How often it then syncs the log tells how many commits that was. A commit is lost where one write to the log fails (system/disk.c).
Held are the answers, the rows of the file as Python's SQLite reads them, and the lines of the log of events.
"""
import functools
import os
import sqlite3

from conversations import Conversation
from database import FILE
from doors import bytes_of, document, door_of
from notation import rows, spell
from program import MOMENT, ROWS, Numbers, Serving, connect, expect, run_well

# Places of what disk.c counts.
CHANGES_OF_FILE, CHANGES_OF_LOG, SYNCS_OF_FILE, SYNCS_OF_LOG = range(4)
# Accounts that are opened one by one; the first commit behind the opening of a file syncs the log more often.
ALONE = ('first', 'second')
# The bytes of a document for which a write to the log fails.
MARK = b'Fault'
ASKS_TO_CLIENTS = b'GET / HTTP/1.1\r\nHost: localhost\r\n\r\n'
TOLD_BY_CLIENTS = b'HTTP/1.1 405 Method Not Allowed\r\nallow: POST\r\ncontent-length: 0\r\n\r\n'
# A door, and what is asked there that changes nothing, with its answer.
GREETINGS = {
    'port': (ASKS_TO_CLIENTS, TOLD_BY_CLIENTS),
    'stations': (b'list d1 nobody\n', b'no-account\n'),
    'operators': (b'ping\n', b'ok\n'),
}
OF_OTHERS = {b'HTTP/1.1 400 Bad Request\r\n': 'short', b'HTTP/1.1 404 Not Found\r\n': 'no-account'}
INTERNAL_ERROR = b'\x05\x00'


class Peer:
    """Who came in by the door for a line, and was told something there. The line is one of a script without its moment, or a
    question."""

    def __init__(self, serving, line):
        self.door, self.sends = door_of(line), bytes_of(line)
        self.stream = connect(getattr(serving, self.door))
        self.file = self.stream.makefile('rb')
        self.greet()

    def greet(self):
        asks, told = GREETINGS[self.door]
        self.stream.sendall(asks)
        expect(self.file.read(len(told)), told, f'a greeting at {self.door}')

    def ask(self):
        self.stream.sendall(self.sends)

    def close(self):
        self.file.close()
        self.stream.close()

    def told(self):
        """The lines that a script prints of what it is told, or none where the connection ended."""
        try:
            first = self.file.readline()
            if not first:
                return []
            return [self.answer_behind(first)] if self.door == 'port' else self.lines_behind(first.decode())
        except ConnectionError:
            return []

    def answer_behind(self, first):
        fields = dict(field.decode().strip().lower().split(': ', 1) for field in iter(self.file.readline, b'\r\n'))
        body = self.file.read(int(fields['content-length']))
        if first != b'HTTP/1.1 200 OK\r\n':
            return OF_OTHERS.get(first, first.decode())
        return 'failed' if body[2:4] == INTERNAL_ERROR else f'ipp {body.hex()}'

    def lines_behind(self, first):
        words = first.split()
        if words[0] == 'documents':
            return [line for _ in range(int(words[1])) for line in document(self.file)]
        jobs = int(words[1]) if words[0] == 'jobs' else 0
        return [first[:-1]] + [self.file.readline().decode()[:-1] for _ in range(jobs)]


class Room:
    """A database in the folder, on which the lines of a script were run, and which is served; with what its disk counts.
    `handed` are variables for disk.c."""

    def __init__(self, folder, lines, **handed):
        self.path = f'{folder}/{FILE}'
        make(folder, lines)
        self.counts = Numbers(f'{folder}/counts', [0] * 4)
        self.serving = Serving(self.path, folder, ('--log', f'{self.path}.log'), loaded=('disk',), DISK=FILE, COUNTS=self.counts.path,
                               **handed)

    def __enter__(self):
        self.serving.__enter__()
        return self

    def __exit__(self, *_):
        self.serving.__exit__()

    def peers(self, lines):
        return [Peer(self.serving, line) for line in lines]

    def told(self, line):
        """What somebody is told who asks this alone."""
        peer = Peer(self.serving, line)
        peer.ask()
        told = peer.told()
        peer.close()
        return told

    def told_in_one_commit(self, peers):
        """What each peer is told, where all ask in one pass. Opens the accounts ALONE, which shows how often the log is synced for
        one event; it has to be as often for all."""
        behind_opening, alone = ALONE
        self.told(f'open {behind_opening}')
        syncs = self.syncs(lambda: self.told(f'open {alone}'))
        told = []

        def ask():
            ask_in_one_pass(self.serving, peers)
            told.extend(peer.told() for peer in peers)
        expect(self.syncs(ask), syncs, f'syncs of the log for {len(peers)} events')
        return told

    def syncs(self, do):
        """How often the log is synced while this is done."""
        before = self.counts.all()[SYNCS_OF_LOG]
        do()
        return self.counts.all()[SYNCS_OF_LOG] - before

    def logged(self):
        """The lines of the log of events, without those of greetings, which are refused."""
        with open(f'{self.path}.log', encoding='ascii') as file:
            return [line for line in file.read().splitlines() if ' refused ' not in line]

    def end(self):
        self.serving.end()


def make(folder, lines):
    """Makes the file, and runs the lines of a script, or of one that names no moments, on it."""
    expect(run_well(folder, 'create', FILE), b'ok\n', 'create')
    return run_well(folder, 'script', FILE, given='\n'.join(with_moment(line) for line in lines).encode()).decode()


def with_moment(line):
    return line if line[:1].isdigit() else f'{MOMENT} {line}'


def ask_in_one_pass(serving, peers, leaves=None):
    """Has each peer ask while the server is stopped, so that one pass of its loop takes all; at last one who leaves at once."""
    with serving.paused():
        for peer in peers:
            peer.ask()
        if leaves:
            leaves.ask()
            leaves.close()


def rows_of(path):
    """The rows of each table of a database that no program has open, sorted. The file has to be sound."""
    database = sqlite3.connect(f'file:{path}?mode=ro&immutable=1', uri=True)
    try:
        tables = [name for name, in database.execute("SELECT name FROM sqlite_schema WHERE type = 'table' ORDER BY name")]
        expect(database.execute('PRAGMA integrity_check').fetchall(), [('ok',)], 'integrity_check')
        return {table: sorted(database.execute(f'SELECT * FROM {table}')) for table in tables}
    finally:
        database.close()


def ipp(account, text):
    """The line of a request that is spelled so."""
    return f'ipp {account} ' + b''.join(spell(line) for line in text.split('\n')).hex()


def prints(account, document=b'Hello'):
    return ipp(account, f'Print-Job 2 {account} 03 {document.hex()}')


def printed(account, job=1):
    return ipp(account, f'successful-ok 2\njob {account} {job} 4 job-hold-until-specified\n03').replace(f'{account} ', '', 1)


def listed(account, *jobs):
    """What Get-Jobs answers."""
    groups = '\n'.join(f'02\njob-uri = "ipp://localhost/ipp/print/{account}/{job}"\njob-id = {job}' for job in jobs)
    return ipp(account, f'successful-ok 3\n{groups}\n03').replace(f'{account} ', '', 1)


def asks_jobs(account):
    return ipp(account, f'Get-Jobs 3 {account} 03')


def without(tables, accounts):
    """The rows of tables, but for those of the accounts."""
    return {**tables, 'account': [row for row in tables['account'] if row[0] not in accounts]}


def as_each_alone(conversation, folder):
    """All events of a row in one round: the answers and the rows are as if each were asked alone."""
    alone, events = f'{folder}/alone', [line.split(' ', 1)[1] for line in conversation.asked]
    os.mkdir(alone)
    expect(make(alone, conversation.asked).splitlines(), conversation.printed, 'each alone')
    with Room(folder, []) as room:
        peers = room.peers(events)
        told = room.told_in_one_commit(peers)
        for peer in peers:
            peer.greet()
        room.end()
    expect([line for lines in told for line in lines], conversation.printed, 'in a round')
    expect(without(rows_of(f'{folder}/{FILE}'), ALONE), rows_of(f'{alone}/{FILE}'), 'the rows behind a round')


def answer_alone(account):
    """The whole answer to `prints` where its round was lost: the connection ends with it."""
    body = bytes.fromhex(printed(account).split(' ')[1])
    return (b'HTTP/1.1 200 OK\r\nContent-Type: application/ipp\r\nContent-Length: %d\r\nConnection: close\r\n\r\n' % len(body)) + body


def lost(folder):
    """Four ask in a round that is lost. Each is told once what it came to by itself and is let go, and so is the last, who ended
    before it could be told. Each thing was done once."""
    with Room(folder, ['open alice', 'open brian', 'open carol'], MARK=MARK.decode()) as room:
        peers = room.peers(['open diane', prints('alice'), prints('brian'), prints('carol', MARK)])
        ask_in_one_pass(room.serving, peers, leaves=peers.pop())
        told = [peer.file.read() for peer in peers]
        expect(told, [b'ok\n', answer_alone('alice'), answer_alone('brian')], 'what each is told up to its end')
        for account in ('alice', 'brian', 'carol'):
            expect(room.told(asks_jobs(account)), [listed(account, 1)], f'the jobs of {account}')
        expect(room.told('open diane'), ['exists'], 'open diane')
        room.end()
        expect(room.logged()[:4], [f'{MOMENT} operators open diane ok'] + [
            f'{MOMENT} clients {account} Print-Job 1 0x0000 successful-ok' for account in ('alice', 'brian', 'carol')], 'the log')


def what_comes_behind(folder):
    """Of two lines or requests that come at once the second is done where the round goes well. Behind a lost one it is not, and
    has to be sent again."""
    lines, requests = 'open diane\nopen erin', [prints('alice', b'first'), prints('alice', b'second')]
    for is_lost in (False, True):
        place = f'{folder}/{is_lost}'
        os.mkdir(place)
        with Room(place, ['open alice', 'open carol'], **({'MARK': MARK.decode()} if is_lost else {})) as room:
            peers = room.peers([lines, requests[0], prints('carol', MARK)])
            peers[1].sends += bytes_of(requests[1])
            ask_in_one_pass(room.serving, peers)
            for peer, first, second in zip(peers, (['ok'], [printed('alice')]), (['ok'], [printed('alice', 2)])):
                expect((peer.told(), peer.told()), (first, [] if is_lost else second), f'the answers, {is_lost=}')
            expect(room.told('open erin'), ['ok' if is_lost else 'exists'], f'open erin, {is_lost=}')
            expect(room.told(asks_jobs('alice')), [listed('alice', *([1] if is_lost else [1, 2]))], f'the jobs, {is_lost=}')


def questions(folder):
    """A question is answered behind the round in whose pass it was asked, by what that has committed."""
    with Room(folder, ['open alice', 'device d1 on']) as room:
        asked = {
            'left alice 2026-09': ['ok granted 100 reserved 0 charged 0 left 100'],
            'left nobody 2026-09': ['no-account'],
            'left bob 2026-09': ['ok granted 0 reserved 0 charged 0 left 0'],
            'list d1 alice': ['jobs 1', f'job 1 held - {MOMENT} - - - 1 0 0 0 1 untitled'],
            'grant alice 2026-09 100': ['ok'],
            'open bob': ['ok'],
            prints('alice'): [printed('alice')],
        }
        expect(room.told_in_one_commit(room.peers(asked)), list(asked.values()), 'questions before the events')


def questions_in_a_lost_round(folder):
    """Where the round is lost a question is answered in its turn, while the events are asked again one by one, and its connection
    goes on."""
    left = 'left alice 2026-09'
    with Room(folder, ['open alice', 'open carol'], MARK=MARK.decode()) as room:
        peers = room.peers([left, 'grant alice 2026-09 100', left, prints('carol', MARK)])
        ask_in_one_pass(room.serving, peers)
        first, grant, second, document = [peer.told() for peer in peers]
        expect((first, second), (['ok granted 0 reserved 0 charged 0 left 0'], ['ok granted 100 reserved 0 charged 0 left 100']), left)
        expect((grant, document, peers[1].told()), (['ok'], [printed('carol')], []), 'the events')
        peers[0].greet()
        peers[2].greet()


# A job of which 10 pages were released, and that is printed.
STARTED = ['open alice', 'device d1 on', 'grant alice 2026-09 100', ipp('alice', 'Print-Job 2 alice\njob-impressions = 10\n03 61'),
           'release d1 alice 1 - -', 'start d1 alice 1', 'open carol']
SETTLES = 'settle d1 alice 1 14 done'
SETTLED = f'{MOMENT} stations d1 settle alice 1 14 done'
BEYOND = f'{MOMENT} stations d1 beyond alice 1 4'
PRINTED = f'{MOMENT} clients carol Print-Job 1 0x0000 successful-ok'


def settle_in_a_round(folder, **handed):
    """What is told and logged of a settlement beside another event, and how many changes the files had before, in a new room."""
    os.mkdir(folder)
    with Room(folder, STARTED, **handed) as room:
        peers = room.peers([SETTLES, prints('carol', MARK)])
        changes = room.counts.all()
        ask_in_one_pass(room.serving, peers)
        told = [line for peer in peers for line in peer.told()]
        return told, room.logged(), changes[CHANGES_OF_FILE] + changes[CHANGES_OF_LOG]


def beyond(folder):
    """That a settlement counted more than was released is logged once: behind the lines of its commit; where that is lost, behind
    its own line, once it is done again; and where that fails too, not at all."""
    well = ['ok charged 14 left 86', printed('carol')]
    told, logged, changes = settle_in_a_round(f'{folder}/well')
    expect((told, logged), (well, [f'{SETTLED} {well[0]}', PRINTED, BEYOND]), 'a round that goes well')
    told, logged, _ = settle_in_a_round(f'{folder}/lost', MARK=MARK.decode())
    expect((told, logged), (well, [f'{SETTLED} {well[0]}', BEYOND, PRINTED]), 'a round that is lost')
    told, logged, _ = settle_in_a_round(f'{folder}/stopped', STOPS='both', BEHIND=changes)
    failed = [f'{SETTLED} failed', f'{MOMENT} clients carol Print-Job - failed']
    expect((told, logged), (['failed', 'failed'], failed), 'a round that is lost on a disk that has stopped')


def cases():
    for title, lines in rows(f'{ROWS}/storage.stops'):
        if not lines.startswith('migrated\n'):
            yield f'all events in a round: {title}', functools.partial(as_each_alone, Conversation(lines))
    for case in (lost, what_comes_behind, questions, questions_in_a_lost_round, beyond):
        yield case.__name__.replace('_', ' '), case
