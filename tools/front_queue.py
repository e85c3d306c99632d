"""A run of `ipp-room-queue` beside a front of front.py, as a user of its own, and a browser of its page, for tools/cups-tries."""
import contextlib
import http.client
import os
import re
import shutil
import socket
import subprocess
import urllib.parse

from front import FIRST_USER_ID, Front, wait_until

USER = 'ipp-room-queue'
SITE = 'https://printroom.example'
# In the place of minutes.
SECONDS = {'BETWEEN_LOOKS = 32, 10, 200, 10': 'BETWEEN_LOOKS = 32, 10, 200, 1',
           'FIRST, LAST, PATIENCE = 60, 480, 86400': 'FIRST, LAST, PATIENCE = 3, 12, 86400', 'LEFT = 60': 'LEFT = 3'}


class OverSocket(http.client.HTTPConnection):
    """HTTP over the socket at a path."""

    def __init__(self, path: str, seconds: float = 30):
        super().__init__('printroom.example', timeout=seconds)
        self.path = path

    def connect(self):
        self.sock = socket.socket(socket.AF_UNIX)
        self.sock.settimeout(self.timeout)
        self.sock.connect(self.path)


class Queue:
    """The run, up to the end of the block, with seconds in the place of minutes. `cups` is another cupsd's socket than the front's."""

    def __init__(self, front: Front, cups: str | None = None):
        self.front, self.cups, self.folder, self.process = front, cups or front.address, f'{front.folder}/queue', None
        self.path, self.log, self.said = f'{self.folder}/pages', f'{self.folder}/log', f'{self.folder}/said'

    def __enter__(self):
        if not os.path.isdir(self.folder):
            os.makedirs(self.folder)
            shutil.chown(self.folder, USER)
            for name in ('ipp-room-queue', 'going_on.py'):
                put_seconds(f'{self.front.folder}/bin/room/{name}')
        with open(self.said, 'ab') as said:
            words = [f'{self.front.folder}/bin/room/ipp-room-queue', '--socket', self.path, '--cups', self.cups,
                     '--names', f'{self.front.folder}/names', '--log', self.log]
            self.process = subprocess.Popen(words, stderr=said, user=USER, group=FIRST_USER_ID, extra_groups=[], umask=0o022)
        wait_until(lambda: self.process.poll() is not None or is_there(self.path), 'ipp-room-queue does not listen')
        return self

    def __exit__(self, *_):
        self.process.kill()
        self.process.wait()

    def ask(self, method: str, path: str, body: bytes | None = None, **words):
        """The status, the fields and the body of an answer; `words` are fields of the request, with `_` for `-`."""
        fields = {name.replace('_', '-'): value for name, value in words.items() if value is not None}
        with contextlib.closing(OverSocket(self.path)) as connection:
            # What it refuses it may not read to the end.
            with contextlib.suppress(BrokenPipeError):
                connection.request(method, path, body, fields)
            answer = connection.getresponse()
            return answer.status, answer.headers, answer.read().decode()

    def look(self, account: str = 'alice', query: str = '') -> str:
        """The page of an account."""
        status, _, page = self.ask('GET', f'/{account}/queue{query}')
        if status != 200:
            raise OSError(f'the page of {account} is answered {status}')
        return page

    def rows(self, account: str = 'alice') -> dict[int, str]:
        """What the page says of each job, by its number."""
        return {int(number): ' '.join(re.sub('<[^>]*>', ' ', row).split())
                for row, number in re.findall(r'(<tr><td class="number" data-label="Job">(\d+)</td>.*?</tr>)', self.look(account), re.S)}

    def forms(self, account: str = 'alice') -> dict[int, str]:
        """The form of each job that has a button, as a browser sends it."""
        found = re.findall(r'name="job" value="(\d+)">.*?name="token" value="(\w+)"', self.look(account))
        return {int(number): urllib.parse.urlencode({'job': number, 'token': token}) for number, token in found}

    def post(self, form: str, account: str = 'alice', **words):
        """As a browser does, unless `words` say otherwise."""
        fields = {'Content_Type': 'application/x-www-form-urlencoded', 'Origin': SITE, 'Sec_Fetch_Site': 'same-origin', 'Host': 'printroom.example', **words}
        return self.ask('POST', f'/{account}/queue', form.encode(), **fields)

    def lines(self) -> list[list[str]]:
        """The lines of its log."""
        if not os.path.exists(self.log):
            return []
        with open(self.log, encoding='ascii') as file:
            return [line.split() for line in file]

    def complaints(self) -> str:
        with open(self.said, encoding='utf-8') as file:
            return file.read()


def put_seconds(path: str):
    with open(path, encoding='utf-8') as file:
        text = file.read()
    for old, new in SECONDS.items():
        text = text.replace(old, new)
    with open(path, 'w', encoding='utf-8') as file:
        file.write(text)


def is_there(path: str) -> bool:
    try:
        with contextlib.closing(OverSocket(path)) as connection:
            connection.connect()
        return True
    except OSError:
        return False
