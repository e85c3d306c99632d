"""What tools/desk-tries needs around the desk: a print server of accounts, grants and jobs (docs/PROTOCOL.md) that can lose what it
is asked or what it answers at any step, and the desk itself, with who reads the logs for it. The server knows nothing of documents, months or
other states than a debit meets.
"""
import contextlib
import os
import re
import select
import signal
import socket
import socketserver
import subprocess
import sys
import threading
from urllib.parse import parse_qs, quote, urlsplit

from messages import TOP
from station_room import Wrong, listens, wait_until

DESK = f'{TOP}/packaging/desk/ipp-room-desk'
ROLES = ('look', 'grant', 'devices', 'all')
ROW = re.compile('<time datetime="([^"]*)">[^<]*</time></td><th scope="row">(.*?)(<small>.*?</small>)?</th>\n<td data-label="By">(.*?)</td>'
                 '<td data-label="Came to">(.*?)</td></tr>')


class Dropped(Exception):
    """The connection ends without an answer."""


class Account:
    def __init__(self):
        self.grants, self.jobs = {}, {}

    def left(self):
        return sum(self.grants.values()) - sum(job['reserved'] + job['charged'] for job in self.jobs.values())

    def charged(self):
        return sum(job['charged'] for job in self.jobs.values())


class Room:
    """The server, at the sockets `operators`, `stations` and `pages` of a folder. `asked` has what came, in order.

    `strike` is called with the number of what came, and `before` and `after` it is done; it may raise Dropped. `lies` has answers of
    bytes by the first word of a line, in the place of the true ones.
    """

    def __init__(self, folder):
        self.folder, self.accounts, self.devices, self.asked = folder, {}, {}, []
        self.lies, self.strike, self.lock = {}, lambda number, when: None, threading.RLock()
        os.makedirs(folder, exist_ok=True)
        self.servers = [serve(f'{folder}/{name}', handler, self) for name, handler in
                        (('operators', LineHandler), ('stations', LineHandler), ('pages', PageHandler))]

    def end(self):
        for server in self.servers:
            server.shutdown()
            server.server_close()

    def lines(self):
        """The lines that came, without those by which the desk finds out what to do."""
        return [line for line in self.asked if not line.startswith(('jobs ', 'ended ', 'left ', 'grants ', 'POST '))]

    def do(self, asked, act):
        with self.lock:
            self.asked.append(asked)
            number = len(self.asked)
            self.strike(number, 'before')
            told = act()
            self.strike(number, 'after')
            return told

    def answer(self, line):
        word, *fields = line.split(' ')
        act = getattr(self, f'do_{word}', None)
        return act(*fields) if act else ['bad-line']

    def account(self, name):
        if name not in self.accounts:
            raise KeyError(name)
        return self.accounts[name]

    def do_ping(self):
        return ['ok']

    def do_end(self):
        return ['ok']

    def do_open(self, name):
        if name in self.accounts:
            return ['exists']
        self.accounts[name] = Account()
        return ['ok']

    def do_device(self, name, switch):
        self.devices[name] = [switch, self.devices.get(name, ['', 1])[1]]
        return ['ok']

    def do_rate(self, name, units):
        self.devices[name][1] = int(units)
        return ['ok']

    def do_devices(self):
        return [f'devices {len(self.devices)}', *(f'device {name} {switch} {rate}' for name, (switch, rate) in sorted(self.devices.items()))]

    def do_accounts(self, behind):
        names = [name for name in sorted(self.accounts) if behind == '-' or name > behind][:100]
        return [f'accounts {len(names)}', *(f'account {name}' for name in names)]

    def do_grant(self, name, month, pages):
        grants = self.account(name).grants
        if month in grants:
            return ['same' if grants[month] == int(pages) else f'conflict {grants[month]}']
        grants[month] = int(pages)
        return ['ok']

    def do_grants(self, name):
        grants = self.account(name).grants
        return [f'grants {len(grants)}', *(f'grant {month} {pages}' for month, pages in sorted(grants.items()))]

    def do_left(self, name, month):
        account = self.account(name)
        return [f'ok granted {sum(account.grants.values())} reserved 0 charged {account.charged()} left {account.left()}']

    do_statement = do_left

    def listed(self, jobs):
        return [f'jobs {len(jobs)}', *(job_line(number, job) for number, job in jobs)]

    def do_jobs(self, name):
        return self.listed([pair for pair in self.account(name).jobs.items() if not pair[1]['ended']])

    def do_ended(self, name, count):
        ended = [pair for pair in self.account(name).jobs.items() if pair[1]['ended']]
        return self.listed(sorted(ended, key=lambda pair: -pair[1]['ended'])[:int(count)])

    def end_job(self, job, state):
        job.update(state=state, reserved=0, ended=len(self.asked))

    def do_cancel(self, name, number):
        job = self.account(name).jobs.get(int(number))
        if not job or job['ended'] or job['state'] == 'stopping':
            return ['no-job' if not job else 'ended' if job['ended'] else 'stopping']
        if job['state'] == 'processing':
            job['state'] = 'stopping'
        else:
            self.end_job(job, 'canceled')
        return ['ok']

    def do_release(self, device, name, number, pin, impressions):
        account = self.account(name)
        job, (switch, rate) = account.jobs[int(number)], self.devices.get(device, ['off', 1])
        if switch != 'on':
            return ['device-off' if device in self.devices else 'no-device']
        if job['state'] != 'held':
            return ['not-held']
        if bytes.fromhex(pin).decode() != job['pin']:
            return ['password']
        need = int(impressions) * rate
        if need > account.left():
            return [f'quota {need} {account.left()}']
        job.update(state='pending', device=device, rate=rate, reserved=need, impressions=int(impressions))
        return [f'ok reserved {need} left {account.left()}']

    def do_start(self, device, name, number):
        job = self.account(name).jobs[int(number)]
        if job['state'] != 'pending':
            return ['not-pending']
        job['state'] = 'processing'
        return ['documents 1', f'document {number} 1 text/plain 3', 'abc']

    def do_settle(self, device, name, number, impressions, how):
        account = self.account(name)
        job = account.jobs[int(number)]
        if job['state'] not in ('processing', 'stopping'):
            return ['not-processing']
        job['charged'] = int(impressions) * job['rate']
        self.end_job(job, 'canceled' if job['state'] == 'stopping' else 'completed' if how == 'done' else 'aborted')
        return [f'ok charged {job["charged"]} left {account.left()}']

    def print_page(self, target, pin):
        parts = urlsplit(target)
        name, asked = parts.path.split('/')[1], parse_qs(parts.query)
        if name not in self.accounts:
            return '404 Not Found', ''
        jobs = self.accounts[name].jobs
        if sum(not job['ended'] for job in jobs.values()) >= 100:
            return '303 See Other', f'/{name}?refused=print&job=0&why=not-accepting'
        number = len(jobs) + 1
        jobs[number] = {'name': asked['name'][0], 'pin': pin, 'state': 'held', 'device': '-', 'rate': 1, 'reserved': 0, 'charged': 0,
                        'impressions': int(asked['pages'][0]), 'ended': 0}
        return '303 See Other', f'/{name}?done=print&job={number}'


def job_line(number, job):
    return (f'job {number} {job["state"]} {job["device"]} 1 - - password 1 {job["impressions"]} {job["reserved"]} {job["charged"]} 1 '
            f'{quote(job["name"])}')


class Server(socketserver.ThreadingMixIn, socketserver.UnixStreamServer):
    daemon_threads, block_on_close, request_queue_size = True, False, 64


def serve(path, handler, room):
    with contextlib.suppress(FileNotFoundError):
        os.remove(path)
    server = Server(path, handler)
    server.room = room
    threading.Thread(target=server.serve_forever, args=(0.05,), daemon=True).start()
    return server


class LineHandler(socketserver.StreamRequestHandler):
    def handle(self):
        with contextlib.suppress(OSError, Dropped):
            while line := self.rfile.readline():
                self.wfile.write(self.told(line[:-1].decode('latin-1')))
                if line == b'end\n' or line.decode('latin-1').split()[0] in self.server.room.lies:
                    return

    def told(self, line):
        room, word = self.server.room, line.split(' ')[0]

        def act():
            try:
                return room.lies[word] if word in room.lies else ''.join(f'{told}\n' for told in room.answer(line)).encode()
            except KeyError:
                return b'no-account\n'
        return room.do(line, act)


class PageHandler(socketserver.StreamRequestHandler):
    def handle(self):
        with contextlib.suppress(OSError, Dropped):
            target, fields = self.rfile.readline().decode().split(' ')[1], {}
            while (line := self.rfile.readline()) != b'\r\n':
                name, _, value = line.decode().partition(':')
                fields[name.lower()] = value.strip()
            self.rfile.read(int(fields['content-length']))
            status, place = self.server.room.do(f'POST {target}', lambda: self.server.room.print_page(target, fields['job-password']))
            self.wfile.write(self.server.room.lies.get('POST') or
                             f'HTTP/1.1 {status}\r\nlocation: {place}\r\ncontent-length: 0\r\n\r\n'.encode())


class Desk:
    """The desk in a folder, before the server in `room`. Its doors have the group of this process, if no others are told."""

    def __init__(self, folder, room, groups=None, longest_file=None):
        self.folder, self.room, self.limit = folder, room, longest_file
        self.groups = groups or dict.fromkeys(ROLES, str(os.getegid()))
        for name in ('doors', 'state', 'log'):
            os.makedirs(f'{folder}/{name}', exist_ok=True)
        os.chmod(f'{folder}/doors', 0o755)
        self.start()

    def start(self):
        import resource

        def limit():
            if self.limit:
                resource.setrlimit(resource.RLIMIT_FSIZE, (self.limit, self.limit))
        words = [sys.executable, DESK, 'serve', '--room', self.room, '--doors', f'{self.folder}/doors', '--state', f'{self.folder}/state',
                 '--log', f'{self.folder}/log/log', '--reader', f'{self.folder}/reader/ask', *(f'--group={role}={group}' for role, group in self.groups.items())]
        self.process = subprocess.Popen(words, stdout=subprocess.PIPE, preexec_fn=limit)
        if not select.select([self.process.stdout], [], [], 60)[0] or not self.process.stdout.readline().startswith(b'serving '):
            raise Wrong(f'the desk did not begin: {self.process.poll()}')

    def kill(self, how=signal.SIGKILL):
        self.process.send_signal(how)
        self.process.wait()
        self.process.stdout.close()

    def end(self):
        if self.process.poll() is None:
            self.kill()

    def door(self, role):
        return f'{self.folder}/doors/{role}'

    def log(self):
        """The fields of each line of the log but its moment."""
        try:
            with open(f'{self.folder}/log/log', encoding='ascii') as file:
                return [line.rstrip('\n').split(' ')[1:] for line in file]
        except FileNotFoundError:
            return []

    def connect(self, role):
        stream = socket.socket(socket.AF_UNIX)
        stream.settimeout(60)
        stream.connect(self.door(role))
        return stream

    def exchange(self, role, pieces, seconds=60):
        """What is answered to these pieces, each sent by itself, until the connection ends."""
        with self.connect(role) as stream:
            stream.settimeout(seconds)
            with contextlib.suppress(BrokenPipeError, ConnectionResetError):
                for piece in pieces:
                    stream.sendall(piece)
                stream.shutdown(socket.SHUT_WR)
            return read_to_end(stream)

    def ask(self, role, *lines):
        """The first line of the answer to each, which are single lines."""
        return self.exchange(role, [''.join(f'{line}\n' for line in lines).encode()]).decode().splitlines()

    def run(self, *words, role='grant', environment=None, **options):
        """What the command prints, what it complains of, and its status."""
        ended = subprocess.run([sys.executable, DESK, '--at', self.door(role), *words], stdout=subprocess.PIPE, stderr=subprocess.PIPE,
                               env=environment, **options)
        return ended.stdout.decode(), ended.stderr.decode(), ended.returncode


class Reader:
    """Who reads the logs in a folder, where the desk there has its own: the server's is `room/log`, or at `path`."""

    def __init__(self, folder, path=None):
        self.folder, self.path, self.page, self.process = folder, path or f'{folder}/room/log', f'{folder}/reader/page', None
        for name in ('reader', 'room', 'log'):
            os.makedirs(f'{folder}/{name}', exist_ok=True)
        self.start()

    def __enter__(self):
        return self

    def __exit__(self, *_):
        self.end()

    def start(self):
        words = [sys.executable, DESK, 'log', '--sockets', f'{self.folder}/reader', '--group', str(os.getegid()), '--server', self.path,
                 '--doors', f'{self.folder}/log/log']
        self.process = subprocess.Popen(words, stdout=subprocess.PIPE)
        if not select.select([self.process.stdout], [], [], 60)[0] or not self.process.stdout.readline().startswith(b'serving '):
            raise Wrong(f'who reads the logs did not begin: {self.process.poll()}')

    def kill(self):
        self.process.kill()
        self.process.wait()
        self.process.stdout.close()

    def end(self):
        if self.process.poll() is None:
            self.kill()

    def connect(self, seconds=60):
        stream = socket.socket(socket.AF_UNIX)
        stream.settimeout(seconds)
        stream.connect(self.page)
        return stream

    def send(self, head, seconds=60):
        """The status, the head and the body of what these bytes are answered."""
        with self.connect(seconds) as stream:
            with contextlib.suppress(BrokenPipeError, ConnectionResetError):
                stream.sendall(head)
            head, _, body = read_to_end(stream).partition(b'\r\n\r\n')
            return int(head.split(b' ')[1]) if head else None, head.decode('latin-1'), body.decode()

    def get(self, target, *fields, method='GET', operator='olga', host='localhost'):
        head = [f'{method} {target} HTTP/1.1', *([f'Host: {host}'] if host else []), *([f'X-Operator: {operator}'] if operator else []), *fields, '', '']
        return self.send('\r\n'.join(head).encode('latin-1'))

    def rows(self, target):
        """What the page has of each row: moment, what, who, what it came to. Markup is left as it is."""
        status, _, body = self.get(target)
        if status != 200:
            raise Wrong((target, status, body))
        return [(found[1], found[2], found[4], found[5]) for found in ROW.finditer(body)]

    def taken(self):
        """The most memory that it has had, in MiB."""
        with open(f'/proc/{self.process.pid}/status', encoding='ascii') as file:
            return int(re.search(r'VmHWM:\s+(\d+) kB', file.read())[1]) >> 10


def read_to_end(stream):
    got = bytearray()
    with contextlib.suppress(ConnectionResetError):
        while piece := stream.recv(1 << 16):
            got += piece
    return bytes(got)


def wait_for_doors(desk):
    wait_until(lambda: all(listens(desk.door(role)) for role in ROLES), 60, 'the doors')
