"""What the release server tells an operator: the names of an account's jobs, and which jobs wait since long."""
import csv
import io
import re
import socket
import subprocess
import time
from urllib.parse import unquote_to_bytes

SECONDS, MOST_ANSWER, MOST_WAITING = 10, 1 << 20, 64 << 20
# A server that does not answer is not asked for names for so many seconds.
SILENT = 60
# What the front puts behind a title.
MARK = re.compile(r' #[0-9a-f]{8}( [a-z-]+=\S+)*$')
JOB = re.compile(rb'job (\d{1,10}) .* (\S+)')


class Server:
    """The server's operators' socket at a path, and `program`, which asks it what waits."""

    def __init__(self, address: str, program: str):
        self.address, self.program, self.silent = address, program, 0.0

    def titles(self, account: str) -> dict[str, str]:
        """The names of the account's jobs that have not ended, by their numbers; none where the server does not answer."""
        if time.monotonic() < self.silent:
            return {}
        try:
            with socket.socket(socket.AF_UNIX) as stream:
                stream.settimeout(SECONDS)
                stream.connect(self.address)
                stream.sendall(f'jobs {account}\n'.encode())
                return titles_of(stream.makefile('rb'))
        except (OSError, ValueError):
            self.silent = time.monotonic() + SILENT
            return {}

    def waiting(self, days: int) -> dict[str, list[int]] | None:
        """The jobs of each account that wait for so many days; None where the server does not tell."""
        words = [self.program, 'waiting', self.address, '--days', str(days)]
        try:
            ended = subprocess.run(words, stdin=subprocess.DEVNULL, stdout=subprocess.PIPE, stderr=subprocess.DEVNULL, timeout=60 * SECONDS)
            rows = list(csv.reader(io.StringIO(ended.stdout[:MOST_WAITING].decode(errors='replace'))))
            if ended.returncode or rows[0][:2] != ['account', 'job']:
                return None
            found = {}
            for row in rows[1:]:
                found.setdefault(row[0], []).append(int(row[1]))
            return found
        except (OSError, subprocess.TimeoutExpired, ValueError, IndexError, csv.Error):
            return None


def titles_of(lines) -> dict[str, str]:
    count = lines.readline(100)
    if not re.fullmatch(rb'jobs \d{1,4}\n', count):
        return {}
    found = {}
    for _ in range(int(count[5:])):
        job = JOB.fullmatch(lines.readline(MOST_ANSWER).rstrip(b'\n'))
        if job:
            found[job[1].decode()] = MARK.sub('', unquote_to_bytes(job[2]).decode(errors='replace'))
    return found
