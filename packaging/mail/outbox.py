"""Mails that wait to be sent, each a file of a folder, until sendmail has taken them.

A mail is `NAME.new` until the place behind its line is on the disk, `NAME.mail` while it waits, and `NAME.going` while sendmail has it.
sendmail's status 0 alone says that it was taken; then the file goes. Where sendmail was ended, or this program, or the power, in the midst of
that, nobody knows: the mail is sent again, with the same Message-ID and a sentence that it may have come before. So a crash may double a mail,
which then says so, and loses none.
"""
import contextlib
import json
import os
import signal
import subprocess
import time
from email.message import EmailMessage
from email.policy import default
from email.utils import formatdate

# Seconds: that sendmail may take, until the next try at first and at most, and until a mail is given up.
MOST_SENDING, FIRST_WAIT, LAST_WAIT, GIVEN_UP = 60, 60, 3600, 3 * 86400
FIELDS = 'to', 'subject', 'text', 'made', 'due', 'wait', 'maybe'
# After so many failures one after another the others are left for later.
MOST_FAILURES = 5
MAYBE_SENT = 'You may have had this mail before: it is not known whether it was sent.\n\n'


class Outbox:
    """The folder. `sendmail` is the program's path, `sender` the address of the print room. `tell` is told what goes wrong."""

    def __init__(self, folder: str, sendmail: str, sender: str, tell, clock=time.time):
        self.folder, self.sendmail, self.sender, self.tell, self.clock = folder, sendmail, sender, tell, clock
        # When each waiting mail was made, and when it is due.
        self.fresh, self.waiting, self.paused = set(), {}, 0.0
        os.makedirs(folder, 0o700, exist_ok=True)

    def begin(self, put: list[str]):
        """Goes on where an earlier run was ended, or a disk had no room. `put` are the mails behind whose lines the place stands."""
        self.waiting = {}
        self.commit(put)
        for file in os.listdir(self.folder):
            name, _, kind = file.rpartition('.')
            if kind == 'going':
                self.take_back(name, 0)
            elif kind != 'mail':
                # Its line is read again.
                os.remove(f'{self.folder}/{file}')
        for file in os.listdir(self.folder):
            mail = self.read(file)
            if mail:
                self.waiting[file.removesuffix('.mail')] = mail['made'], mail['due']

    def put(self, name: str, address: str, subject: str, text: str):
        """Writes a mail that waits for `commit`."""
        mail = {'to': address, 'subject': subject, 'text': text, 'made': self.clock(), 'due': 0, 'wait': FIRST_WAIT, 'maybe': False}
        self.write(f'{name}.new', mail)
        self.fresh.add(name)

    def commit(self, names):
        """Has these mails be sent, those of them that were not yet."""
        for name in names:
            with contextlib.suppress(FileNotFoundError):
                os.rename(f'{self.folder}/{name}.new', f'{self.folder}/{name}.mail')
                self.waiting[name] = self.clock(), 0
        self.fresh.clear()
        self.sync()

    def write(self, file: str, mail: dict):
        path = f'{self.folder}/{file}'
        with open(f'{path}.part', 'w', encoding='utf-8', opener=lambda path, flags: os.open(path, flags | os.O_NOFOLLOW, 0o600)) as text:
            json.dump(mail, text)
            text.flush()
            os.fsync(text.fileno())
        os.replace(f'{path}.part', path)

    def sync(self):
        """Returns once all that was put or removed is so on the disk."""
        folder = os.open(self.folder, os.O_RDONLY)
        try:
            os.fsync(folder)
        finally:
            os.close(folder)

    def send(self, is_ending=lambda: False):
        """Sends what is due, the oldest first. Where sendmail seems to be out of order, the others wait a minute."""
        now, failures = self.clock(), 0
        if 0 < self.paused - now <= FIRST_WAIT:
            return
        for name in sorted((name for name, (_, due) in self.waiting.items() if due <= now), key=lambda name: self.waiting[name]):
            if is_ending():
                break
            failures = 0 if self.send_one(name) else failures + 1
            if failures == MOST_FAILURES:
                self.paused = self.clock() + FIRST_WAIT
                break

    def read(self, file: str) -> dict | None:
        try:
            with open(f'{self.folder}/{file}', encoding='utf-8') as text:
                kept = json.load(text)
            return {name: kept[name] for name in FIELDS}
        except (ValueError, KeyError, TypeError):
            self.tell(f'{self.folder}/{file} is no mail, and goes')
            os.remove(f'{self.folder}/{file}')
            return None

    def send_one(self, name: str) -> bool:
        """Whether sendmail took it."""
        path = f'{self.folder}/{name}'
        mail = self.read(f'{name}.mail')
        del self.waiting[name]
        if mail is None:
            return True
        if self.clock() - mail['made'] > GIVEN_UP:
            self.tell(f'a mail to {mail["to"]} ({name}) could not be sent for three days, and is given up')
            os.remove(f'{path}.mail')
            return True
        os.rename(f'{path}.mail', f'{path}.going')
        self.sync()
        status = self.run(self.message(name, mail), mail['to'])
        if status == 0:
            os.remove(f'{path}.going')
            self.sync()
            return True
        self.tell(f'sendmail took no mail to {mail["to"]} ({name}): ' + ('it did not end' if status is None else f'status {status}') + '; it is tried again')
        self.take_back(name, mail['wait'], maybe=status is None or status < 0)
        return False

    def take_back(self, name: str, wait: float, maybe: bool = True):
        """Has a mail wait again that was not taken, or of which nobody knows."""
        path = f'{self.folder}/{name}'
        mail = self.read(f'{name}.going')
        if mail is not None:
            mail['due'], mail['wait'], mail['maybe'] = self.clock() + wait, min(2 * mail['wait'], LAST_WAIT), mail['maybe'] or maybe
            self.write(f'{name}.mail', mail)
            os.remove(f'{path}.going')
            self.waiting[name] = mail['made'], mail['due']
            self.sync()

    def message(self, name: str, mail: dict) -> bytes:
        message = EmailMessage(policy=default)
        message['From'], message['To'], message['Subject'] = self.sender, mail['to'], mail['subject']
        message['Date'], message['Message-ID'] = formatdate(mail['made']), f'<{name}@{self.sender.partition("@")[2]}>'
        # No program answers it (RFC 3834 5).
        message['Auto-Submitted'] = 'auto-generated'
        message.set_content(MAYBE_SENT * mail['maybe'] + mail['text'], cte='quoted-printable')
        return message.as_bytes()

    def run(self, message: bytes, address: str) -> int | None:
        """The status of sendmail; None where it did not end within its time, and was ended with all that it began."""
        words = [self.sendmail, '-i', '-f', self.sender, '--', address]
        # Not by a pipe: where this program is killed sendmail would take a part for the whole.
        file = os.memfd_create('mail')
        try:
            with open(file, 'wb', closefd=False) as text:
                text.write(message)
            os.lseek(file, 0, os.SEEK_SET)
            process = subprocess.Popen(words, stdin=file, stdout=subprocess.DEVNULL, start_new_session=True)
        except OSError as error:
            self.tell(f'{self.sendmail}: {error.strerror}')
            return 127
        finally:
            os.close(file)
        try:
            return process.wait(MOST_SENDING)
        except subprocess.TimeoutExpired:
            with contextlib.suppress(ProcessLookupError):
                os.killpg(process.pid, signal.SIGKILL)
            process.wait()
            return None
