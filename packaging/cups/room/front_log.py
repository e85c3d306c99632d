"""The front's log: a line for each job that the front holds or refuses, so that others can tell whoever printed it.

    MOMENT front ACCOUNT held|refused JOB MADE USER WHY

MADE is when the job was made. USER, who signed in, and WHY are percent-encoded. ACCOUNT is `-` where USER has none. No line has a title.
"""
import os
import re
import time
from urllib.parse import quote_from_bytes

from front_jobs import Job

LINE = re.compile(rb'\d+ front \S+ (held|refused) (\d+) (\d+) \S+ (\S+)')
# Of a file of lines, at most so much of its end is read at a start.
MOST_READ, MOST_WHY = 16 << 20, 500


class FrontLog:
    """The log at a path. What it has, also in the file that logrotate moved away last, is not told again."""

    def __init__(self, path: str):
        self.path, self.told = path, {}
        for name in (f'{path}.1', path):
            for found in LINE.finditer(last_of(name)):
                self.told[found[1], int(found[2]), int(found[3]), found[4]] = True

    def tell(self, jobs: dict[str | None, list[Job]]):
        """Adds a line for each of these jobs that is held or refused and is not told yet."""
        lines, new = [], {}
        for account, of_account in jobs.items():
            for job in of_account:
                key = key_of(job)
                # A job that was held for the same was canceled by its owner, or since it waited for a day.
                if key and key not in self.told and (b'held', *key[1:]) not in self.told:
                    lines.append(line_of(account, job, key))
                    new[key] = True
        if lines:
            self.add(lines)
        # One that goes on may be held for the same again; what cupsd has forgotten does not come again.
        there = {(job.number, job.made) for of_account in jobs.values() for job in of_account}
        self.told = {key: True for key in (*self.told, *new) if key[1:3] in there}

    def add(self, lines: list[bytes]):
        """Returns once they are on the disk. A line that was cut, by a crash or a full disk, ends before them."""
        with open(self.path, 'ab', opener=lambda path, flags: os.open(path, flags | os.O_NOFOLLOW, 0o640)) as file:
            file.write((b'' if is_whole(self.path) else b'\n') + b''.join(lines))
            file.flush()
            os.fsync(file.fileno())


def key_of(job: Job) -> tuple | bool:
    """What one line is about: the job, that it is held or refused, and why; False where there is none."""
    word = b'refused' if job.is_refused else b'held'
    return job.is_told and (word, job.number, job.made, quote_from_bytes(job.why.encode()[:MOST_WHY]).encode() or b'-')


def line_of(account: str | None, job: Job, key: tuple) -> bytes:
    word, number, made, why = key
    user = quote_from_bytes(job.user).encode() or b'-'
    return b'%d front %b %b %d %d %b %b\n' % (int(time.time()), (account or '-').encode(), word, number, made, user, why)


def last_of(path: str) -> bytes:
    try:
        with open(path, 'rb') as file:
            file.seek(max(0, os.fstat(file.fileno()).st_size - MOST_READ))
            return file.read(MOST_READ)
    except FileNotFoundError:
        return b''


def is_whole(path: str) -> bool:
    """Whether the file is empty or ends with a line feed."""
    with open(path, 'rb') as file:
        size = file.seek(0, os.SEEK_END)
        file.seek(max(0, size - 1))
        return file.read(1) in (b'', b'\n')
