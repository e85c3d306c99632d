"""Corrections of an account's quota, by what the print server has events for.

A credit is a grant for a month before 2000-01, as of `ipp-room refund`: the first from 1970-01 on that has none. A debit is a job of
the account that the device `desk`, whose rate is 1, is settled to have printed: more than is left is refused by the release. The job has
a password that nobody is told, so that it is charged here alone, and the reason in its name, which its owner sees.

What is begun stands in a file before the print server is asked, and is carried on after whatever stopped it. A job is settled once
and a month has one grant, so nothing is done twice: but where somebody sends a grant of that month and of as many units by hand while
a credit waits to be carried on, that is taken for the credit.
"""
import secrets
import sqlite3
import threading
import time
from typing import Callable, NamedTuple

from lines import written
from room import Job, Lines, Lost, Refused, grants_of, jobs_of, print_page

DEVICE = 'desk'
# How long a second correction of the same account, units and reason is taken for the first, in seconds.
SAME = 86400
# Steps of a debit, months that are tried, and seconds that a correction waits for another's end.
MOST_STEPS, MOST_MONTHS, MOST_WAIT = 12, 5, 60
MONTHS = [f'{year}-{month:02}' for year in range(1970, 2000) for month in range(1, 13)]
TABLE = '''CREATE TABLE IF NOT EXISTS correction (number INTEGER PRIMARY KEY, moment INTEGER NOT NULL, role TEXT NOT NULL,
user TEXT NOT NULL, account TEXT NOT NULL, units INTEGER NOT NULL, reason TEXT NOT NULL, mark TEXT NOT NULL, pin TEXT NOT NULL, month TEXT,
job INTEGER, state TEXT NOT NULL, told TEXT NOT NULL) STRICT'''
COLUMNS = 'number, moment, role, user, account, units, reason, mark, pin, month, job, state, told'
Said = Callable[['Correction', str], None]


class Correction(NamedTuple):
    number: int
    moment: int
    role: str
    user: str
    account: str
    # Above 0 a credit, below a debit.
    units: int
    reason: str
    # In the job's name, by which it is found again.
    mark: str
    pin: str
    month: str | None
    job: int | None
    # `open`, `done`, `refused`, or `unknown`: its job has ended so long ago that the server tells it no more.
    state: str
    told: str


class Desk:
    """Who makes corrections at a print server, one after another. `said` hears what came of each that was carried on later."""

    def __init__(self, path: str, operators: str, stations: str, pages: str, said: Said):
        self.operators, self.stations, self.pages, self.said = operators, stations, pages, said
        self.lock = threading.Lock()
        self.file = sqlite3.connect(path, isolation_level=None, check_same_thread=False)
        self.file.execute('PRAGMA synchronous = FULL')
        self.file.execute(TABLE)

    def correct(self, role: str, user: str, account: str, units: int, reason: str, is_again: bool = False) -> str:
        """What a correction came to: `ok ..`, or a word of refusal. `begun` where it is carried on later."""
        if not self.lock.acquire(timeout=MOST_WAIT):
            return 'busy'
        try:
            self.carry_on()
            known = None if is_again else self.same(account, units, reason)
            if known:
                return {'open': 'begun', 'unknown': 'unknown'}.get(known.state, f'same {known.moment} {written(known.user)}')
            return self.run(self.begin(role, user, account, units, reason))
        except sqlite3.Error:
            # Before it was begun. What was begun is answered by `run`.
            return 'failed'
        finally:
            self.lock.release()

    def try_to_carry_on(self) -> None:
        """Ends what is open, unless somebody is at it."""
        if self.lock.acquire(blocking=False):
            try:
                self.carry_on()
            except sqlite3.Error:
                pass
            finally:
                self.lock.release()

    def carry_on(self) -> None:
        for correction in self.found("state = 'open' ORDER BY number"):
            told = self.run(correction)
            if told != 'begun':
                self.said(correction, told)

    def found(self, where: str, *values: object) -> list[Correction]:
        return [Correction(*row) for row in self.file.execute(f'SELECT {COLUMNS} FROM correction WHERE {where}', values)]

    def same(self, account: str, units: int, reason: str) -> Correction | None:
        """One that was asked in the same words within a day, and was not refused."""
        found = self.found("account = ? AND units = ? AND reason = ? AND state != 'refused' AND moment > ? ORDER BY number DESC LIMIT 1",
                           account, units, reason, int(time.time()) - SAME)
        return found[0] if found else None

    def begin(self, role: str, user: str, account: str, units: int, reason: str) -> Correction:
        values = (int(time.time()), role, user, account, units, reason, secrets.token_hex(4), secrets.token_hex(16), 'open', '')
        number = self.file.execute('INSERT INTO correction (moment, role, user, account, units, reason, mark, pin, state, told) '
                                   'VALUES (?, ?, ?, ?, ?, ?, ?, ?, ?, ?)', values).lastrowid
        return self.found('number = ?', number)[0]

    def keep(self, correction: Correction, **values: object) -> Correction:
        """The correction with these values, once they are on the disk."""
        columns = ', '.join(f'{name} = ?' for name in values)
        self.file.execute(f'UPDATE correction SET {columns} WHERE number = ?', (*values.values(), correction.number))
        return correction._replace(**values)

    def run(self, correction: Correction) -> str:
        """Does what is left to do of an open one."""
        try:
            state, told = self.outcome(correction)
            self.keep(correction, state=state, told=told)
        except (Lost, sqlite3.Error):
            return 'begun'
        return told

    def outcome(self, correction: Correction) -> tuple[str, str]:
        with Lines(self.operators) as operators, Lines(self.stations) as stations:
            try:
                if correction.units > 0:
                    return 'done', self.credit(correction, operators)
                return 'done', self.debit(correction, operators, stations)
            except Refused as refused:
                return ('unknown' if refused.word == 'unknown' else 'refused'), refused.word

    def credit(self, correction: Correction, operators: Lines) -> str:
        asked = correction.month is not None
        for _ in range(MOST_MONTHS):
            if not asked:
                correction = self.keep(correction, month=self.unused_month(correction.account, operators))
            told = operators.told(f'grant {correction.account} {correction.month} {correction.units}')
            if told == 'ok' or told == 'same' and asked:
                return f'ok granted {correction.units} month {correction.month} left {left(correction.account, operators)}'
            if told == 'failed':
                raise Lost(told)
            if told != 'same' and not told.startswith('conflict '):
                raise Refused(told)
            # Somebody else has this month since.
            asked = False
        raise Refused('busy')

    def unused_month(self, account: str, operators: Lines) -> str:
        used = grants_of(operators, account)
        free = [month for month in MONTHS if month not in used]
        if not free:
            raise Refused('no-month')
        return free[0]

    def debit(self, correction: Correction, operators: Lines, stations: Lines) -> str:
        for _ in range(MOST_STEPS):
            job = self.job_of(correction, operators)
            if job is None and correction.job is not None:
                raise Refused('unknown')
            if job is None:
                check_left(correction, operators)
                number = print_page(self.pages, correction.account, name_of(correction), -correction.units, correction.pin)
                correction = self.keep(correction, job=number)
            else:
                correction = correction if correction.job else self.keep(correction, job=job.number)
                told = self.step(correction, job, operators, stations)
                if told:
                    return told
        raise Lost('a job that does not end')

    def job_of(self, correction: Correction, operators: Lines) -> Job | None:
        """The job of a debit, as the server tells it; None where it tells none."""
        for asked in (f'jobs {correction.account}', f'ended {correction.account} 100'):
            # An account's first job of this name: its owner sees the mark, and can make others.
            for job in sorted(jobs_of(operators, asked)):
                is_named = job.name == name_of(correction).encode()
                if job.number == correction.job or correction.job is None and is_named:
                    return job
        return None

    def step(self, correction: Correction, job: Job, operators: Lines, stations: Lines) -> str | None:
        """Brings the job one step on. Tells what the debit came to, once it has."""
        units, which = -correction.units, f'{correction.account} {job.number}'
        match job.state:
            case 'held':
                self.release(units, which, correction.pin, operators, stations)
            case 'pending' if (job.device, job.reserved) == (DEVICE, units):
                stations.ask_documents(f'start {DEVICE} {which}')
            case 'processing' | 'stopping' if (job.device, job.reserved) == (DEVICE, units):
                stations.told(f'settle {DEVICE} {which} {units} done')
            case 'completed' | 'canceled' | 'aborted' if job.charged == units:
                return f'ok charged {units} job {job.number} left {left(correction.account, operators)}'
            case 'canceled' if job.charged == 0:
                # By its owner.
                raise Refused('canceled')
            case 'pending':
                # Another rate, or another device: somebody else had a hand in it.
                withdraw(which, operators)
                raise Refused('rate')
            case _:
                raise Refused('unknown')
        return None

    def release(self, units: int, which: str, pin: str, operators: Lines, stations: Lines) -> None:
        for line in (f'device {DEVICE} on', f'rate {DEVICE} 1'):
            if operators.told(line) != 'ok':
                raise Lost(line)
        told = stations.told(f'release {DEVICE} {which} {pin.encode().hex()} {units}')
        if told == 'failed':
            raise Lost(told)
        if not told.startswith('ok ') and told != 'not-held':
            withdraw(which, operators)
            raise Refused(told)


def withdraw(which: str, operators: Lines) -> None:
    """Cancels a job of which nothing was charged."""
    if operators.told(f'cancel {which}') not in ('ok', 'ended'):
        raise Lost('cancel')


def left(account: str, operators: Lines) -> str:
    """What is left to an account this month."""
    told = operators.told(f'left {account} {time.strftime("%Y-%m", time.gmtime())}')
    return told.rpartition(' ')[2] if told.startswith('ok ') else '-'


def check_left(correction: Correction, operators: Lines) -> None:
    """Makes no job of a debit that its release would refuse."""
    units, rest = -correction.units, left(correction.account, operators)
    if rest != '-' and int(rest) < units:
        raise Refused(f'quota {units} {rest}')


def name_of(correction: Correction) -> str:
    """The name of a debit's job: with a mark as the front's jobs have, which a station leaves out."""
    return f'Correction: {correction.reason} #{correction.mark}'
