"""A stand-in for the operators' door of `ipp-room serve`, for tools/nightly-tries: it answers the lines of an operator by a dictionary, at once,
and does to whoever asks what a test wants. What it answers is held against the program by the try `as_the_program`.
"""
import contextlib
import os
import re
import signal
import socket
import threading

NAME = '[a-z][a-z0-9-]{0,31}'


class Room:
    """Accounts with their grants by month, and their jobs by number: `held` or `processing`."""

    def __init__(self, folder):
        self.address = f'{folder}/operators'
        self.accounts, self.jobs, self.lines = {}, {}, []
        # Before the line of this number, or behind it, whoever asks is killed (its process), or let go.
        self.kill_at = self.kill_behind = self.drop_at = None
        # What these lines are answered in the place of what they should be.
        self.lies, self.victim, self.lock = {}, None, threading.Lock()

    def __enter__(self):
        with contextlib.suppress(FileNotFoundError):
            os.remove(self.address)
        self.door = socket.socket(socket.AF_UNIX)
        self.door.bind(self.address)
        self.door.listen(128)
        threading.Thread(target=self.let_in, daemon=True).start()
        return self

    def __exit__(self, *_):
        self.door.shutdown(socket.SHUT_RDWR)
        self.door.close()

    def let_in(self):
        with contextlib.suppress(OSError):
            while True:
                stream, _ = self.door.accept()
                threading.Thread(target=self.serve, args=(stream,), daemon=True).start()

    def serve(self, stream):
        with stream, stream.makefile('rb') as lines, contextlib.suppress(OSError):
            for line in lines:
                with self.lock:
                    self.lines.append(line.decode().rstrip('\n'))
                    number = len(self.lines)
                    if number == self.kill_at:
                        self.kill()
                        return
                    if number == self.drop_at:
                        return
                    answer = self.answer(self.lines[-1])
                    if number == self.kill_behind:
                        self.kill()
                        return
                stream.sendall(answer.encode() + b'\n')

    def kill(self):
        if self.victim:
            self.victim.send_signal(signal.SIGKILL)

    def answer(self, line):
        for pattern, lie in self.lies.items():
            if re.match(pattern, line):
                return lie
        words = line.split(' ')
        function = getattr(self, f'tell_{words[0]}', None)
        try:
            return function(*words[1:]) if function else 'bad-line'
        except TypeError:
            return 'bad-line'

    def tell_accounts(self, behind):
        names = [name for name in sorted(self.accounts) if behind == '-' or name > behind][:100]
        return '\n'.join([f'accounts {len(names)}', *(f'account {name}' for name in names)])

    def tell_open(self, account):
        if not re.fullmatch(NAME, account):
            return 'bad-line'
        if account in self.accounts:
            return 'exists'
        self.accounts[account] = {}
        return 'ok'

    def tell_grant(self, account, month, pages):
        if account not in self.accounts:
            return 'no-account'
        held = self.accounts[account].setdefault(month, None)
        if held is not None:
            return 'same' if held == int(pages) else f'conflict {held}'
        self.accounts[account][month] = int(pages)
        return 'ok'

    def tell_grants(self, account):
        if account not in self.accounts:
            return 'no-account'
        grants = sorted(self.accounts[account].items())
        return '\n'.join([f'grants {len(grants)}', *(f'grant {month} {pages}' for month, pages in grants)])

    def tell_left(self, account, month):
        if account not in self.accounts:
            return 'no-account'
        granted = sum(pages for when, pages in self.accounts[account].items() if when <= month)
        return f'ok granted {granted} reserved 0 charged 0 left {granted}'

    def tell_jobs(self, account):
        if account not in self.accounts:
            return 'no-account'
        jobs = self.jobs.get(account, {})
        return '\n'.join([f'jobs {len(jobs)}', *(f'job {number} {state} - 1796113729 -1 -1 - 1 1 0 0 1 untitled' for number, state in jobs.items())])

    def tell_cancel(self, account, job):
        if account not in self.accounts:
            return 'no-account'
        state = self.jobs.get(account, {}).get(int(job))
        if state == 'held':
            del self.jobs[account][int(job)]
        return {'held': 'ok', 'processing': 'stopping', None: 'no-job'}[state]
