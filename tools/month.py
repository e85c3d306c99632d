"""A print room over a month, by a clock of its own, and the ledger of what was done in it, for tools/room-month and
tools/people-month."""
import contextlib
import copy
import csv
import datetime
import os
import random
import sqlite3
import subprocess
import sys
import threading
import time

from messages import (CANCEL_JOB, CREATE_JOB, HOLD_JOB, OK, PRINT_JOB, PROGRAM, RELEASE_JOB, SEND_DOCUMENT, TOP, answer_to, attribute,
                      integer, message, request)
from serving import Serving, connect

UTC = datetime.timezone.utc
FIRST = datetime.datetime(2027, 3, 1, 8, tzinfo=UTC)
# Those that clerks use, and all, with their rates.
DEVICES = {'hall': 1, 'studio': 5, 'attic': 2}
RATES = {**DEVICES, 'desk': 1}
MOST_DOCUMENT, MOST_WAITING = 30000, 100
# In each password, name of a job and document, and in nothing else.
SECRET = 'hush'
OPERATIONS = {PRINT_JOB: 'Print-Job', CREATE_JOB: 'Create-Job', SEND_DOCUMENT: 'Send-Document', CANCEL_JOB: 'Cancel-Job',
              HOLD_JOB: 'Hold-Job', RELEASE_JOB: 'Release-Job'}
BRING = ('Print-Job', 'Create-Job', 'Send-Document')
DONE, FAILED, NO_SPACE = '0x0000 successful-ok', '0x0500 internal-error', '503'
STATES = {3: ('pending',), 4: ('held',), 5: ('processing', 'stopping'), 7: ('canceled',), 8: ('aborted',), 9: ('completed',)}
WAITING = 'account,job,state,device,made,password,copies,impressions,documents,name'.split(',')
REPORT = 'account,granted,refunded,reserved,charged,charged_in_month,jobs_in_month,left,beyond_in_month'.split(',')


class Wrong(Exception):
    """What was seen is not what has to be."""


def want(is_so, *seen):
    if not is_so:
        raise Wrong(*seen)


class Clock:
    """What those take for the time of day that run with `variables` (tests/system/clock.c). It goes on from where a day begins."""

    def __init__(self, folder):
        self.path, library = f'{folder}/clock', f'{folder}/clock.so'
        subprocess.run(['cc', '-shared', '-fPIC', '-o', library, f'{TOP}/tests/system/clock.c'], check=True)
        self.variables = {'LD_PRELOAD': library, 'CLOCK': self.path}
        self.moment, self.begun = FIRST, time.monotonic()
        self.tell()
        threading.Thread(target=self.go_on, daemon=True).start()

    def begin(self, day, hours=0):
        """Day 1 is the first of the month."""
        self.moment, self.begun = FIRST + datetime.timedelta(days=day - 1, hours=hours), time.monotonic()
        self.date, self.month = self.moment.date().isoformat(), self.moment.strftime('%Y-%m')
        self.tell()

    def tell(self):
        with open(self.path, 'r+b' if os.path.exists(self.path) else 'w+b', buffering=0) as file:
            file.write(int(self.moment.timestamp() + time.monotonic() - self.begun).to_bytes(8, sys.byteorder))

    def go_on(self):
        while True:
            time.sleep(1)
            with contextlib.suppress(FileNotFoundError):
                self.tell()


def date_of(seconds):
    return datetime.datetime.fromtimestamp(int(seconds), UTC).date().isoformat()


class Job:
    """A job in the ledger. Its moments are dates, and '-' where there is none yet."""

    def __init__(self, made, name, password, copies, impressions, documents, is_open):
        self.made, self.name, self.password, self.copies, self.impressions = made, name, password, copies, impressions
        self.documents, self.is_open, self.taken = documents, is_open, len(documents)
        self.state, self.device, self.rate, self.reserved, self.charged, self.beyond = 'held', '-', 1, 0, 0, 0
        self.started = self.ended = '-'

    def told(self):
        """What `jobs` and `ended` tell of it behind its number."""
        password = 'password' if self.password else '-'
        return [self.state, self.device, self.made, self.started, self.ended, password,
                *map(str, (self.copies, self.impressions, self.reserved, self.charged, self.taken)), self.name]

    def need(self, rate, impressions):
        return (impressions or self.impressions) * self.copies * rate

    def hold(self):
        self.state, self.device, self.rate, self.reserved = 'held', '-', 1, 0

    def release(self, device, rate, impressions):
        self.reserved, self.impressions = self.need(rate, impressions), impressions or self.impressions
        self.state, self.device, self.rate = 'pending', device, rate

    def start(self, device, date):
        self.state, self.device, self.started = 'processing', device, date

    def end(self, state, date, charged=0):
        self.state, self.ended, self.reserved, self.charged, self.is_open, self.documents = state, date, 0, charged, False, []

    def settle(self, impressions, failed, date):
        state = 'canceled' if self.state == 'stopping' else 'aborted' if failed else 'completed'
        self.beyond = self.beyond_reserved(impressions)
        self.end(state, date, impressions * self.rate)

    def beyond_reserved(self, impressions):
        """What a settlement of so many impressions charges beyond what is reserved."""
        return max(0, impressions * self.rate - self.reserved)

    def cancel(self, date):
        if self.state == 'processing':
            self.state = 'stopping'
        else:
            self.end('canceled', date)

    def take(self, document, is_last):
        self.documents, self.taken, self.is_open = [*self.documents, document], self.taken + 1, not is_last


class Act:
    """What is asked of an account at a door; what the log has to tell of it, in `fields` and `outcome`; and what it does to the
    ledger. `change` takes an account, and is None where nothing changes."""

    def __init__(self, account, door, asked, fields, outcome, change=None):
        self.account, self.door, self.asked, self.fields, self.outcome, self.change = account, door, asked, fields, outcome, change

    def brings(self):
        return self.fields.split()[1] in BRING

    def due(self):
        """What it has to be answered. An operator who cancels or holds is told what is behind the status."""
        if self.door == 'operators' and self.outcome.startswith('0x'):
            return 'ok' if self.outcome == DONE else self.outcome.split()[1]
        return self.outcome

    def apply(self):
        if self.change:
            self.change(self.account)


class Account:
    """The ledger of an account. `lines` are what the log has to tell of it: the date, the line, and whether it has to be there."""

    def __init__(self, name):
        self.name, self.jobs, self.grants, self.lines = name, {}, {}, []

    def with_state(self, *states):
        return [number for number, job in self.jobs.items() if job.state in states]

    def waiting(self):
        return self.with_state('held', 'pending')

    def ended(self, month=''):
        return [job for job in self.jobs.values() if job.ended.startswith(month) and job.ended != '-']

    def granted(self, first, last):
        return sum(pages for month, pages in self.grants.items() if first <= month <= last)

    def reserved(self):
        return sum(job.reserved for job in self.jobs.values())

    def charged(self, month=''):
        return sum(job.charged for job in self.ended(month))

    def beyond(self, month):
        return sum(job.beyond for job in self.ended(month))

    def left(self, month):
        return self.granted('', month) - self.reserved() - self.charged()

    def statement(self, month):
        held, pending, processing = (len(self.with_state(*STATES[state])) for state in (4, 3, 5))
        return (f'ok granted {self.granted("", month)} reserved {self.reserved()} charged {self.charged()} left {self.left(month)} '
                f'month {self.charged(month)} held {held} pending {pending} processing {processing} ended {len(self.ended(month))} '
                f'beyond {self.beyond(month)}')

    def report(self, month):
        return [self.name, self.granted('2000-01', month), self.granted('', '1999-12'), self.reserved(), self.charged(),
                self.charged(month), len(self.ended(month)), self.left(month), self.beyond(month)]

    def note(self, date, act, is_sure=True):
        self.lines.append((date, f'{act.door} {act.fields} {act.outcome}', is_sure))

    # What an act comes to, by the rules of the room.

    def ipp(self, operation, number, outcome, change, *attributes, data=b'', door='clients'):
        """A request; where an operator asks, the line for it."""
        if outcome != DONE and not outcome.startswith('0x'):
            outcome = f'{"0x0406" if outcome == "no-job" else "0x0404"} {outcome}'
        word = OPERATIONS[operation]
        fields = f'{self.name} {word} {number or "-"}'
        if door == 'operators':
            asked = f'{word[:-4].lower()} {self.name} {number}\n'.encode()
        else:
            asked = message(self.name, request(self.name, operation, *attributes, data=data))
        return Act(self, door, asked, fields, outcome, change if outcome == DONE else None)

    def of_job(self, operation, number, outcome, change, *attributes, data=b'', door='clients'):
        return self.ipp(operation, number, outcome, change, integer(b'job-id', number), *attributes, data=data, door=door)

    def make(self, operation, date, name, password, copies, impressions, documents):
        """Print-Job or Create-Job."""
        if len(self.waiting() + self.with_state(*STATES[5])) >= MOST_WAITING:
            return self.ipp(operation, None, '0x0506 not-accepting', None)
        number = len(self.jobs) + 1
        attributes = [attribute(0x42, b'job-name', name.encode())]
        if impressions:
            attributes.append(integer(b'job-impressions', impressions))
        if password:
            attributes += [attribute(0x30, b'job-password', password.encode()), attribute(0x44, b'job-password-encryption', b'none')]
        attributes.append(b'\x02' + integer(b'copies', copies))

        def change(account):
            account.jobs[number] = Job(date, name, password, copies, impressions, documents, operation == CREATE_JOB)
        return self.ipp(operation, number, DONE, change, *attributes, data=b''.join(documents))

    def send(self, number, document, is_last):
        job = self.jobs.get(number)
        outcome = 'no-job' if job is None else DONE if job.is_open else 'closed'
        if outcome == DONE and job.taken == 8:
            outcome = '0x0509 too-many-documents'
        return self.of_job(SEND_DOCUMENT, number, outcome, lambda it: it.jobs[number].take(document, is_last),
                           attribute(0x22, b'last-document', bytes([is_last])), data=document)

    def cancel(self, number, date, door='clients'):
        job = self.jobs.get(number)
        outcome = 'no-job' if job is None else 'stopping' if job.state == 'stopping' else 'ended' if job.ended != '-' else DONE
        return self.of_job(CANCEL_JOB, number, outcome, lambda it: it.jobs[number].cancel(date), door=door)

    def hold(self, number, door='clients'):
        job = self.jobs.get(number)
        outcome = 'no-job' if job is None else 'ended' if job.ended != '-' else 'printing' if job.state in STATES[5] else DONE
        return self.of_job(HOLD_JOB, number, outcome, lambda it: it.jobs[number].hold(), door=door)

    def refusal(self, job, month, password, impressions, rate):
        """Why a held job is not released, or None."""
        if job.is_open or not job.taken:
            return 'incomplete'
        if job.password and job.password != password:
            return 'password'
        need, left = job.need(rate, impressions), self.left(month)
        return 'impressions-unknown' if not need else f'quota {need} {left}' if need > left else None

    def release_at_any(self, number, month):
        job = self.jobs.get(number)
        if job is None or job.ended != '-':
            outcome = 'no-job' if job is None else 'ended'
        elif job.state != 'held':
            return self.of_job(RELEASE_JOB, number, DONE, None)
        else:
            outcome = self.refusal(job, month, '', 0, 1) or DONE
        return self.of_job(RELEASE_JOB, number, outcome, lambda it: it.jobs[number].release('-', 1, 0))

    def at_station(self, device, act, number, words, outcome, change, fields=''):
        asked = ' '.join([act, device, self.name, str(number), *words]) + '\n'
        return Act(self, 'stations', asked.encode(), f'{device} {act} {self.name} {number}{fields}', outcome,
                   change if outcome.split()[0] in ('ok', 'documents') else None)

    def release(self, number, device, password, impressions, month):
        job, rate = self.jobs.get(number), RATES[device]
        outcome = 'no-job' if job is None else 'not-held' if job.state != 'held' else self.refusal(job, month, password, impressions, rate)
        if outcome is None:
            need = job.need(rate, impressions)
            outcome = f'ok reserved {need} left {self.left(month) - need}'
        words = [password.encode().hex() or '-', str(impressions or '-')]
        return self.at_station(device, 'release', number, words, outcome, lambda it: it.jobs[number].release(device, rate, impressions))

    def start(self, number, device, date):
        job = self.jobs.get(number)
        if job is None or job.state != 'pending':
            outcome = 'no-job' if job is None else 'not-pending'
        elif job.device not in ('-', device):
            outcome = 'other-device'
        else:
            outcome = 'rate' if job.rate != RATES[device] else f'documents {len(job.documents)}'
        return self.at_station(device, 'start', number, [], outcome, lambda it: it.jobs[number].start(device, date))

    def settle(self, number, device, impressions, failed, date, month):
        job = self.jobs.get(number)
        if job is None or job.state not in STATES[5]:
            outcome = 'no-job' if job is None else 'not-processing'
        elif job.device != device:
            outcome = 'other-device'
        else:
            charged = impressions * job.rate
            outcome = f'ok charged {charged} left {self.left(month) + job.reserved - charged}'
        words = [str(impressions), 'failed' if failed else 'done']
        return self.at_station(device, 'settle', number, words, outcome, lambda it: it.jobs[number].settle(impressions, failed, date),
                               ' ' + ' '.join(words))

    def grant(self, month, pages):
        has = self.grants.get(month)
        outcome = 'ok' if has is None else 'same' if has == pages else f'conflict {has}'
        line = f'grant {self.name} {month} {pages}'
        return Act(self, 'operators', f'{line}\n'.encode(), line, outcome,
                   (lambda it: it.grants.update({month: pages})) if has is None else None)

    def open(self, outcome='exists'):
        return Act(self, 'operators', f'open {self.name}\n'.encode(), f'open {self.name}', outcome)


class Room:
    """The program on a file of its own file system, with its log, up to the end of the block. `is_full` while somebody else's
    file may fill the disk."""

    def __init__(self, disk, clock, sockets=('0', '0'), options=()):
        self.disk, self.path, self.log, self.clock = disk, f'{disk}/room.db', f'{disk}/room.log', clock
        # Stations and operators, at free ports or sockets.
        self.sockets, self.options = sockets, options
        self.is_full = self.is_killed = False

    def __enter__(self):
        self.command('create', self.path)
        self.begin()
        return self

    def __exit__(self, *_):
        self.serving.__exit__()

    def begin(self):
        options = ['--log', self.log, *self.options]
        self.serving = Serving(self.path, *self.sockets, options=options, variables=self.clock.variables).__enter__()
        self.is_killed = False

    def kill(self):
        self.is_killed = True
        self.serving.__exit__()

    def end(self):
        want(self.command('end', self.serving.operators) == 'ok\n', 'end')
        want(self.serving.process.wait(timeout=30) == 0, self.serving.process.returncode)
        self.serving.__exit__()

    def command(self, *words, status=0):
        """What a command prints, by the month's clock."""
        told = subprocess.run([PROGRAM, *map(str, words)], stdout=subprocess.PIPE, env={**os.environ, **self.clock.variables})
        want(told.returncode == status, words, told.returncode)
        return told.stdout.decode()

    def ask(self, *lines):
        """What an operator is answered to each line."""
        with Lines(self.serving.operators) as stream:
            return [stream.ask(f'{line}\n'.encode()) for line in lines]

    def fill(self):
        """Somebody's file takes all that is left of the disk."""
        with open(f'{self.disk}/other', 'wb', buffering=0) as file:
            for piece in (1 << 16, 1 << 12):
                try:
                    while file.write(bytes(piece)) == piece:
                        pass
                except OSError:
                    pass


class Lines:
    """A connection of an operator or of a station. An answer is its line; `items` are the lines of a list, or the documents."""

    def __init__(self, address):
        self.socket = connect(address)
        self.read = self.socket.makefile('rb')

    def __enter__(self):
        return self

    def __exit__(self, *_):
        self.read.close()
        self.socket.close()

    def line(self):
        line = self.read.readline()
        if not line.endswith(b'\n'):
            raise OSError('the connection ended')
        return line[:-1].decode()

    def ask(self, text):
        self.socket.sendall(text)
        told, self.items = self.line(), []
        words = told.split()
        if words[0] in ('jobs', 'grants', 'documents'):
            for _ in range(int(words[1])):
                self.items.append(self.line())
                if words[0] == 'documents':
                    length = int(self.items[-1].split()[-1])
                    document = self.read.read(length + 1)
                    if len(document) <= length:
                        raise OSError('the connection ended')
                    self.items[-1] = document[:-1]
        return told


def ipp_told(answer):
    """The status and its word, as the log tells them; and the job of a success."""
    head, body = answer
    if not head.startswith(b'HTTP/1.1 200 '):
        return head[9:12].decode(), None
    status = int.from_bytes(body[2:4], 'big')
    if status != OK:
        length = int.from_bytes(body[88:90], 'big')
        return f'{status:#06x} {body[90:90 + length].decode()}', None
    name = body.find(b'job-id')
    return DONE, int.from_bytes(body[name + 8:name + 12], 'big') if name >= 0 else None


class Clerk:
    """Who asks for accounts of their own, one thing after another. `pending` was asked and not answered."""

    def __init__(self, room, number, seed, names):
        self.room, self.random = room, random.Random(f'{seed}-{number}')
        self.accounts = [Account(name) for name in names]
        self.doors, self.pending, self.wrong = {}, None, None
        self.acts, self.dropped, self.refused = 0, 0, {NO_SPACE: 0, FAILED: 0}

    def ask(self, act):
        """What an act is answered, as the log would tell it."""
        serving = self.room.serving
        if act.door not in self.doors:
            self.doors[act.door] = serving.client() if act.door == 'clients' else Lines(getattr(serving, act.door))
        stream = self.doors[act.door]
        if act.door != 'clients':
            return stream.ask(act.asked)
        answer = answer_to(stream, act.asked)
        if b'\r\nconnection: close\r\n' in answer[0].lower():
            self.doors.pop(act.door).close()
        told, job = ipp_told(answer)
        if told == DONE and act.brings():
            want(str(job) == act.fields.split()[2], act.fields, job)
        return told

    def do(self, act):
        """Answers whether it was done; a document may be refused where the disk is full."""
        self.pending = act
        try:
            told = self.ask(act)
        except OSError:
            # Where a commit failed that several share, their connections end behind the answer, and drop what was sent since.
            if not self.room.is_full or not self.room.serving.is_running():
                raise
            self.leave()
            told, self.dropped = self.ask(act), self.dropped + 1
        self.pending = None
        self.acts += 1
        if self.room.is_full and act.brings() and told in self.refused:
            self.refused[told] += 1
            return False
        want(told == act.due(), act.door, act.fields, f'told {told}, due {act.due()}')
        if told.startswith('documents'):
            job = act.account.jobs[int(act.fields.split()[3])]
            want(self.doors[act.door].items == job.documents, 'documents', act.fields)
        self.note(act)
        return True

    def note(self, act, is_sure=True):
        act.apply()
        act.account.note(self.room.clock.date, act, is_sure)

    def work(self, acts):
        """So many acts, or those up to a kill."""
        try:
            for _ in range(acts):
                self.do(self.choose())
        except OSError as error:
            if not self.room.is_killed:
                self.wrong = Wrong(self.pending and self.pending.fields, error)
        except Wrong as wrong:
            self.wrong = wrong
        self.leave()

    def leave(self):
        for stream in self.doors.values():
            stream.close() if hasattr(stream, 'close') else stream.__exit__()
        self.doors = {}

    def document(self):
        length = self.random.randrange(40 * MOST_DOCUMENT if self.room.is_full else MOST_DOCUMENT)
        return SECRET.encode() + self.random.randbytes(length)

    def job_of(self, account, *states):
        """Mostly one in these states, else any number up to the next."""
        jobs = account.with_state(*states)
        return self.random.choice(jobs) if jobs and self.random.random() < 0.9 else self.random.randint(1, len(account.jobs) + 1)

    def choose(self):
        weights = {self.print_job: 24, self.create: 3, self.send: 5, self.cancel: 8, self.hold: 5, self.release_at_any: 6,
                   self.release: 22, self.start: 22, self.settle: 22, self.grant: 2, self.open: 1}
        return self.random.choices([*weights], weights.values())[0](self.random.choice(self.accounts))

    def print_job(self, account, operation=PRINT_JOB):
        name, password = (f'{SECRET}-{self.random.randrange(1000)}' for _ in range(2))
        documents = [self.document()] if operation == PRINT_JOB else []
        return account.make(operation, self.room.clock.date, name, password if self.random.random() < 0.3 else '',
                            self.random.randint(1, 2), self.random.randrange(6), documents)

    def create(self, account):
        return self.print_job(account, CREATE_JOB)

    def send(self, account):
        jobs = [number for number, job in account.jobs.items() if job.is_open] or [self.job_of(account, 'held')]
        return account.send(self.random.choice(jobs), self.document(), self.random.random() < 0.5)

    def cancel(self, account):
        return account.cancel(self.job_of(account, 'held', 'pending', 'processing'), self.room.clock.date, self.a_door())

    def hold(self, account):
        return account.hold(self.job_of(account, 'pending'), self.a_door())

    def a_door(self):
        return self.random.choice(['clients', 'operators'])

    def release_at_any(self, account):
        return account.release_at_any(self.job_of(account, 'held'), self.room.clock.month)

    def release(self, account):
        number = self.job_of(account, 'held')
        job = account.jobs.get(number)
        password = job.password if job and self.random.random() < 0.9 else self.random.choice(['', f'{SECRET}-wrong'])
        return account.release(number, self.random.choice([*DEVICES]), password, self.random.choice([0, 0, 3]), self.room.clock.month)

    def device_of(self, account, number):
        """Mostly the one that the job is bound to."""
        job = account.jobs.get(number)
        return job.device if job and job.device in DEVICES and self.random.random() < 0.9 else self.random.choice([*DEVICES])

    def start(self, account):
        number = self.job_of(account, 'pending')
        return account.start(number, self.device_of(account, number), self.room.clock.date)

    def settle(self, account):
        number = self.job_of(account, *STATES[5])
        return account.settle(number, self.device_of(account, number), self.random.randrange(9), self.random.random() < 0.2,
                              self.room.clock.date, self.room.clock.month)

    def grant(self, account):
        return account.grant(self.random.choice(['2026-12', '2027-01', self.room.clock.month, '2027-04']), self.random.choice([20, 30]))

    def open(self, account):
        return account.open()


def fits(stream, account, month):
    """Whether the room tells of an account what this ledger has."""
    told = stream.ask(f'statement {account.name} {month}\n'.encode())
    if told != account.statement(month):
        return f'told {told}, due {account.statement(month)}'
    stream.ask(f'grants {account.name}\n'.encode())
    if stream.items != [f'grant {grant} {pages}' for grant, pages in sorted(account.grants.items())]:
        return f'told {stream.items}, due {account.grants}'
    stream.ask(f'jobs {account.name}\n'.encode())
    told = stream.items
    stream.ask(f'ended {account.name} 100\n'.encode())
    if len(stream.items) != min(100, len(account.ended())):
        return f'{len(stream.items)} have ended'
    for line in told + stream.items:
        _, number, *words = line.split()
        words[2:5] = ['-' if word == '-' else date_of(word) for word in words[2:5]]
        job = account.jobs.get(int(number))
        if job is None or words != job.told():
            return f'told {line}, due {job and job.told()}'
    return None if len(told) == len(account.jobs) - len(account.ended()) else f'{len(told)} have not ended'


def look(room, clerks):
    """Of each account what the ledger has, and to a station the documents of what it prints."""
    with Lines(room.serving.operators) as operator, Lines(room.serving.stations) as station:
        for account in (account for clerk in clerks for account in clerk.accounts):
            why = fits(operator, account, room.clock.month)
            want(why is None, account.name, why)
            for number in account.with_state('processing'):
                told = station.ask(f'again {account.jobs[number].device} {account.name} {number}\n'.encode())
                want(station.items == account.jobs[number].documents, 'again', account.name, number, told)


def find_out(room, clerks):
    """Takes what was asked before a kill and not answered for done, or for not done, as the room tells. Answers how many were done."""
    done = 0
    with Lines(room.serving.operators) as stream:
        for clerk in clerks:
            act, clerk.pending = clerk.pending, None
            if act is None:
                continue
            before, after = act.account, copy.deepcopy(act.account)
            if act.change:
                act.change(after)
            reasons = [fits(stream, ledger, room.clock.month) for ledger in (before, after)]
            want(None in reasons, 'neither done nor not done', act.fields, *reasons)
            # What changes nothing may have been answered, and had a line, or not.
            if reasons[1] is None:
                clerk.note(act, is_sure=False)
                done += act.change is not None
    return done


def work(clerks, acts, until=None):
    """All clerks at once, so many acts each; `until` is done beside them."""
    threads = [threading.Thread(target=clerk.work, args=(acts,)) for clerk in clerks]
    for thread in threads:
        thread.start()
    if until:
        until()
    for thread in threads:
        thread.join()
    for clerk in clerks:
        if clerk.wrong:
            raise clerk.wrong


def play_killed(room, clerks, chance, acts):
    """A day on which the process is killed: answers what became of what was asked and not answered."""
    last = sum(clerk.acts for clerk in clerks) + chance.randrange(len(clerks) * acts // 2)

    def kill():
        end = time.monotonic() + 60
        while sum(clerk.acts for clerk in clerks) < last and time.monotonic() < end:
            time.sleep(0.0002)
        room.kill()
    work(clerks, acts, kill)
    room.begin()
    asked = sum(clerk.pending is not None for clerk in clerks)
    done = find_out(room, clerks)
    work(clerks, acts // 2)
    return f'killed: of {asked} that had no answer {done} had changed something'


def records(text, names):
    """The records of a table."""
    want(text.endswith('\r\n'), text[-80:])
    head, *rest = csv.reader(text.split('\r\n')[:-1], strict=True)
    want(head == names, head)
    return rest


def same(what, told, due):
    """Compares two lists, and tells it."""
    for one, other in zip(told, due):
        want(one == other, what, f'told {one}, due {other}')
    want(len(told) == len(due), what, f'told {len(told)}, due {len(due)}')
    print(f'{what}: {len(due)}', flush=True)


def waiting_due(accounts, latest='9'):
    """What the ledger has of jobs that wait and were made on that date or before."""
    rows = []
    for account in accounts:
        for number in account.waiting():
            job = account.jobs[number]
            state, device, made, _, _, password, copies, impressions, _, _, documents, name = job.told()
            if made <= latest:
                rows.append([account.name, str(number), state, device, made, password, copies, impressions, documents, name])
    return [['' if word == '-' else word for word in row] for row in rows]


def told_waiting(room, *words):
    rows = records(room.command('waiting', room.serving.operators, *words), WAITING)
    return [[*row[:4], date_of(row[4]), *row[5:]] for row in rows]


SUMS = """
SELECT name, given, back, reserved, charged, charged_then, ended_then, given + back - reserved - charged, beyond_then FROM (SELECT name,
  (SELECT coalesce(sum(pages), 0) FROM grants WHERE account = name AND month >= 24000 AND month <= :month) AS given,
  (SELECT coalesce(sum(pages), 0) FROM grants WHERE account = name AND month < 24000) AS back,
  (SELECT coalesce(sum(reserved), 0) FROM job WHERE account = account.name) AS reserved,
  (SELECT coalesce(sum(charged), 0) FROM job WHERE account = account.name) AS charged,
  (SELECT coalesce(sum(charged), 0) FROM job WHERE account = account.name AND ended >= :first AND ended < :next) AS charged_then,
  (SELECT count(*) FROM job WHERE account = account.name AND ended >= :first AND ended < :next) AS ended_then,
  (SELECT coalesce(sum(max(charged - impressions * copies * rate, 0)), 0) FROM job
    WHERE account = account.name AND ended >= :first AND ended < :next) AS beyond_then
FROM account ORDER BY name)"""


def check_file(room, path, accounts):
    """What sqlite3 adds up in the database, and the documents, which are those of jobs that have not ended."""
    year, month = map(int, room.clock.month.split('-'))
    following = datetime.datetime(year + month // 12, month % 12 + 1, 1, tzinfo=UTC)
    words = {'month': year * 12 + month - 1, 'first': FIRST.replace(hour=0).timestamp(), 'next': following.timestamp()}
    with sqlite3.connect(path) as file:
        want(file.execute('PRAGMA integrity_check').fetchall() == [('ok',)], 'integrity_check')
        same("sqlite3's sums", [list(row) for row in file.execute(SUMS, words)], [account.report(room.clock.month) for account in accounts])
        states = file.execute('SELECT account, state, count(*) FROM job GROUP BY account, state ORDER BY account, state').fetchall()
        due = [(account.name, state, len(account.with_state(*words))) for account in accounts for state, words in STATES.items()]
        same("sqlite3's counts of jobs", states, [row for row in due if row[2]])
        documents = file.execute('SELECT account, job, number, bytes FROM document ORDER BY account, job, number').fetchall()
        due = [(account.name, number, place, document) for account in accounts for number, job in account.jobs.items()
               for place, document in enumerate(job.documents, 1)]
        same('documents in the file', documents, due)


def log_lines(room):
    """All lines of the log, also of the files that were moved away."""
    moved = sorted((name for name in os.listdir(room.disk) if name.startswith('room.log.')), key=lambda name: int(name.split('.')[2]))
    text = ''
    for name in [*moved, 'room.log']:
        with open(f'{room.disk}/{name}') as file:
            text += file.read()
    want(text.endswith('\n'), 'the log ends within a line')
    return moved, text.splitlines()


def account_of(door, words):
    """Whose line it is, or None where it is a device's."""
    if door == 'stations':
        return words[2]
    return None if words[0] in ('device', 'rate') else words[1] if words[0] in ('open', 'grant') else words[0]
