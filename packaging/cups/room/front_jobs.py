"""The jobs at the front, as its cupsd tells them over its socket to the user that this process has (RFC 8011, `PeerCred` of cupsd).

That user may look at everybody's jobs, let a held one go on and start a stopped one again, by two lines of cupsd.conf, and nothing else.
"""
import http.client
import os
import pwd
import threading
import time

from names import load
from server import CHARSET, END, GET_JOBS, JOB, KEYWORD, LANGUAGE, OPERATION, URI, SocketConnection, attribute, number_of, read_groups

RELEASE_JOB, RESTART_JOB = 0x0D, 0x0E
HELD, STOPPED, CANCELED, ABORTED = 4, 6, 7, 8
# A job that waits for room in its account: its backend says these words, and gives a reason by which cupsd 2.4.2 leaves job-hold-until as it
# was. Whoever else holds a job, as its owner, changes that; cupsd itself does not, of a job that it tries again.
FULL, NOT_HELD_BY_OWNER = '100 jobs wait in the account ', b'no-hold'
# One whose documents still come.
INCOMING = b'job-incoming'
# What cupsd 2.4.2, begun anew, gives for the reason of each held job that nobody has held.
NO_REASON = b'none'
# Of an answer: seconds and bytes. cupsd keeps 10000 jobs, each with at most a kilobyte of what is asked.
SECONDS, MOST_ANSWER = 10, 64 << 20
# For so long what came of asking cupsd serves all who ask, also that it did not answer.
KEPT = 3
WANTED = ('job-id', 'job-name', 'job-originating-user-name', 'job-state', 'job-state-reasons', 'job-printer-state-message', 'time-at-creation',
          'time-at-completed', 'job-hold-until')


class NoFront(Exception):
    """cupsd gives no answer, or none that can be read."""


class Job:
    """A job as cupsd tells it. `user` is who signed in, `made` and `ended` are moments."""

    def __init__(self, told: dict):
        self.number, self.state = number_of(told['job-id']), number_of(told['job-state'])
        self.user, self.title = told.get('job-originating-user-name', b''), told.get('job-name', b'').decode(errors='replace')
        self.until, self.reason = told.get('job-hold-until', b''), told.get('job-state-reasons', b'')
        self.why = told.get('job-printer-state-message', b'').decode(errors='replace')
        self.made, self.ended = number_of(told.get('time-at-creation', b'')), number_of(told.get('time-at-completed', b''))

    @property
    def is_full(self) -> bool:
        """Whether it waits for room in its account, and its owner has not held it since."""
        return self.may_go_on and self.until == NOT_HELD_BY_OWNER and self.why.startswith(FULL)

    @property
    def is_left_held(self) -> bool:
        """Whether nobody holds it: it was to be tried again, or its last document had just come, when cupsd was killed.

        One that cupsd lets go by itself, since it still knows when, is so too, for the JobRetryInterval.
        """
        return self.state == HELD and self.reason == NO_REASON and self.until == NOT_HELD_BY_OWNER and not self.is_full

    @property
    def is_told(self) -> bool:
        """Whether it waits for somebody, or was refused, and cupsd has a word of why. One that cupsd tries again by itself is none of these."""
        return self.why != '' and (self.is_refused or self.is_full or (self.may_go_on and self.until != NOT_HELD_BY_OWNER) or self.state == STOPPED)

    @property
    def has_ended(self) -> bool:
        return self.state >= CANCELED

    @property
    def is_refused(self) -> bool:
        """Whether it ended with nothing handed over, and cupsd has a word of why: a job that its owner cancels has one where it was held before."""
        return self.state in (CANCELED, ABORTED) and self.why != ''

    @property
    def may_go_on(self) -> bool:
        return self.state == STOPPED or (self.state == HELD and self.reason != INCOMING)


class FrontJobs:
    """The jobs at the cupsd at a socket. `table` is the table of names."""

    def __init__(self, door: str, table: str):
        self.door, self.table, self.user = door, table, pwd.getpwuid(os.geteuid()).pw_name
        self.lock, self.kept, self.fault, self.asked = threading.Lock(), [], None, 0.0

    def all(self) -> list[Job]:
        """Those that have not ended, and those that were canceled or aborted and that cupsd still knows. By their numbers."""
        with self.lock:
            if time.monotonic() - self.asked > KEPT or not self.asked:
                try:
                    found = {job.number: job for which in (b'not-completed', b'canceled', b'aborted') for job in self.ask_for(which)}
                    self.kept, self.fault = sorted(found.values(), key=lambda job: job.number), None
                except NoFront as fault:
                    self.fault = fault
                self.asked = time.monotonic()
            if self.fault:
                raise NoFront(str(self.fault))
            return self.kept

    def forget(self):
        """Has the next who asks be told what is so now."""
        with self.lock:
            self.asked = 0.0

    def of(self, account: str) -> list[Job]:
        """Those of an account. OSError, NoFront and Unusable where nobody can tell now."""
        names = load(self.table)
        return [job for job in self.all() if names.account_of(job.user) == account]

    def by_account(self) -> dict[str | None, list[Job]]:
        """All of them; None has those of who has no account."""
        names, found = load(self.table), {}
        for job in self.all():
            found.setdefault(names.account_of(job.user), []).append(job)
        return found

    def let_go(self, job: Job) -> bool:
        """Lets a held job go on, or a stopped one begin again. Whether cupsd did so."""
        operation = RESTART_JOB if job.state == STOPPED else RELEASE_JOB
        status, _ = self.ask(operation, [attribute(URI, 'job-uri', f'ipp://localhost/jobs/{job.number}'.encode())])
        self.forget()
        return status <= 0xFF

    def ask_for(self, which: bytes) -> list[Job]:
        wanted = [attribute(KEYWORD, 'requested-attributes', WANTED[0].encode()), *(attribute(KEYWORD, '', word.encode()) for word in WANTED[1:])]
        status, groups = self.ask(GET_JOBS, [attribute(URI, 'printer-uri', b'ipp://localhost/'), attribute(KEYWORD, 'which-jobs', which), *wanted])
        if status > 0xFF:
            raise NoFront(f'cupsd refuses to tell its jobs ({status:#06x})')
        try:
            return [Job(told) for tag, told in groups if tag == JOB and told]
        except KeyError as error:
            raise NoFront(f'cupsd leaves out {error}') from error

    def ask(self, operation: int, attributes: list[bytes]):
        """The status and the groups of cupsd's answer."""
        common = [attribute(CHARSET, 'attributes-charset', b'utf-8'), attribute(LANGUAGE, 'attributes-natural-language', b'en')]
        body = b'\2\0' + operation.to_bytes(2, 'big') + b'\0\0\0\1' + bytes([OPERATION]) + b''.join([*common, *attributes]) + bytes([END])
        connection = SocketConnection(self.door)
        connection.timeout = SECONDS
        try:
            connection.request('POST', '/', body, {'Content-Type': 'application/ipp', 'Connection': 'close', 'Authorization': f'PeerCred {self.user}'})
            answer = connection.getresponse()
            told = answer.read(MOST_ANSWER)
        except (OSError, http.client.HTTPException) as error:
            raise NoFront(f'cupsd does not answer ({error})') from error
        finally:
            connection.close()
        if answer.status != 200:
            raise NoFront(f'cupsd answers status {answer.status} of HTTP')
        try:
            return number_of(told[2:4]), read_groups(told)
        except IndexError:
            raise NoFront("cupsd's answer ends in the midst of it") from None
