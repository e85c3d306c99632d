"""What stands between a station and its device or server, for tools/station-tries: a device and a server that answer as they like, and
the proxy of the server.
"""
import os
import re
import select
import signal
import socket
import struct
import subprocess
import threading

from messages import TOP
from station_room import free_port, listens, wait_until, write

HEAD = b'HTTP/1.1 200 OK\r\nContent-Type: application/ipp\r\n'
# Version 1.1, successful-ok, request 1, and the charset and language that stand first (RFC 8011 section 4.1.4).
BEGIN = b'\1\1\0\0\0\0\0\1\1' + b'\x47\0\x12attributes-charset\0\5utf-8' + b'\x48\0\x1battributes-natural-language\0\2en'


class Liar:
    """Takes connections at a port. Each is answered by what `lie` does with it; None stands for the truth."""

    def __init__(self, real):
        self.real, self.lie = real, None
        self.door = socket.create_server(('127.0.0.1', 0))
        self.port = self.door.getsockname()[1]
        threading.Thread(target=self.serve, daemon=True).start()

    def serve(self):
        while True:
            try:
                stream, _ = self.door.accept()
            except OSError:
                return
            threading.Thread(target=self.answer, args=(stream,), daemon=True).start()

    def answer(self, stream):
        with stream:
            try:
                asked = self.read(stream)
                answer = (lambda: self.truth(asked))
                if self.lie is None:
                    stream.sendall(answer())
                else:
                    self.lie(stream, asked, answer)
            except OSError:
                # The station has heard enough.
                pass

    def truth(self, asked):
        """What the real one answers."""
        with self.connect() as stream:
            stream.sendall(asked)
            got = b''
            while more := stream.recv(1 << 16):
                got += more
                if self.is_whole(got):
                    break
        return got

    def end(self):
        self.door.close()


class Device(Liar):
    """Before a device at a port of HTTP."""

    def connect(self):
        return socket.create_connection(('localhost', self.real), 20)

    def read(self, stream):
        asked = b''
        while not self.is_whole(asked):
            more = stream.recv(1 << 16)
            if not more:
                raise ConnectionError
            asked += more
        return asked

    def is_whole(self, text):
        head, found, body = text.partition(b'\r\n\r\n')
        if re.search(rb'(?i)\r\ntransfer-encoding: chunked', head):
            return body.endswith(b'0\r\n\r\n')
        length = re.search(rb'(?i)\r\ncontent-length: *(\d+)', head)
        return bool(found) and len(body) >= int(length[1] if length else 0)


class Tls:
    """Before a device, by TLS, with one of the certificates of a folder."""

    def __init__(self, real, folder, port):
        self.real, self.folder, self.port, self.process = real, folder, port, None

    def show(self, name):
        self.end()
        pair = f'cert={self.folder}/{name}.pem,key={self.folder}/{name}.key'
        door = f'OPENSSL-LISTEN:{self.port},bind=127.0.0.1,reuseaddr,fork,verify=0,{pair}'
        self.process = subprocess.Popen(['socat', door, f'TCP:localhost:{self.real}'], stderr=subprocess.DEVNULL, start_new_session=True)
        wait_until(lambda: listens(self.port), 20, 'the front')

    def end(self):
        if self.process:
            os.killpg(self.process.pid, signal.SIGKILL)
            self.process.wait()


def make_certificates(folder):
    """A device's own, of another name, another's, and those that an authority has signed: of localhost, another host, and a station."""
    def make(name, subject, *words):
        subprocess.run(['openssl', 'req', '-x509', '-newkey', 'rsa:2048', '-nodes', '-keyout', f'{folder}/{name}.key', '-out',
                        f'{folder}/{name}.pem', '-subj', f'/CN={subject}', *words], check=True, stderr=subprocess.DEVNULL)
    make('own', 'PRT0001')
    make('other', 'PRT0001')
    make('authority', 'Authority')
    by = ['-CA', f'{folder}/authority.pem', '-CAkey', f'{folder}/authority.key']
    for name, host in (('signed', 'localhost'), ('elsewhere', 'elsewhere.example'), ('hall', 'hall')):
        make(name, host, '-addext', f'subjectAltName=DNS:{host}', '-extensions', 'usr_cert', *by)
    for name in ('own', 'authority'):
        os.chmod(f'{folder}/{name}.pem', 0o644)


class Proxy:
    """haproxy, with what packaging/ has for stations. A name is kept for so many seconds."""

    def __init__(self, folder, seconds):
        self.folder, self.port, self.ways = folder, free_port(), []
        make_certificates(folder)
        for name, files in (('room.pem', ('signed.pem', 'signed.key')), ('stations-ca.pem', ('authority.pem',))):
            write(f'{folder}/{name}', ''.join(read(f'{folder}/{file}') for file in files))
        text = ''.join(read(f'{TOP}/packaging/{name}.cfg') for name in ('haproxy', 'stations'))
        text += '    server hall unix@/run/ipp-room/station-hall\n'
        parts = re.split(r'\n(?=(?:global|defaults|frontend|backend)\b)', text)
        wanted = ('global', 'defaults common', 'frontend stations', 'backend holders', 'backend nobody', 'backend stations')
        text = '\n'.join(part for part in parts if part.startswith(wanted))
        for old, new in ((r'.*\b(user haproxy|log /dev/log|log global)\b.*', ''), ('/run/ipp-room|/etc/haproxy', folder),
                         ('expire 3m', f'expire {seconds}s'), (':6312', f'127.0.0.1:{self.port}')):
            text = re.sub(old, new, text)
        write(f'{folder}/haproxy.cfg', text)
        self.process = subprocess.Popen(['haproxy', '-db', '-f', f'{folder}/haproxy.cfg'], stderr=subprocess.DEVNULL)
        wait_until(lambda: listens(self.port), 20, 'haproxy')

    def way(self, address):
        """A socket by which the station hall comes there, with its certificate, from this address."""
        path, here = f'{self.folder}/way-{address}', self.folder
        door = f'OPENSSL:localhost:{self.port},bind={address},cert={here}/hall.pem,key={here}/hall.key,cafile={here}/authority.pem'
        words = ['socat', f'UNIX-LISTEN:{path},fork,mode=666', door]
        self.ways.append(subprocess.Popen(words, stderr=subprocess.DEVNULL, start_new_session=True))
        wait_until(lambda: os.path.exists(path), 20, path)
        return path

    def end(self):
        for way in self.ways:
            os.killpg(way.pid, signal.SIGKILL)
            way.wait()
        self.process.kill()
        self.process.wait()


def read(path):
    with open(path, encoding='utf-8') as file:
        return file.read()


class Server(Liar):
    """Before a server at a socket's path; a connection has one line."""

    def connect(self):
        stream = socket.socket(socket.AF_UNIX)
        stream.connect(self.real)
        return stream

    def read(self, stream):
        asked = b''
        while not asked.endswith(b'\n'):
            more = stream.recv(1 << 16)
            if not more:
                raise ConnectionError
            asked += more
        return asked

    def truth(self, asked):
        with self.connect() as stream:
            stream.sendall(asked)
            stream.shutdown(socket.SHUT_WR)
            got = b''
            while more := stream.recv(1 << 16):
                got += more
        return got


def attribute(tag, name, *values):
    return b''.join(struct.pack('>BH', tag, len(name) if place == 0 else 0) + (name if place == 0 else b'')
                    + struct.pack('>H', len(value)) + value for place, value in enumerate(values))


def say(text):
    """Answers these bytes to everything."""
    return lambda stream, *_: stream.sendall(text)


def message(*groups):
    body = BEGIN + b''.join(groups) + b'\3'
    return say(HEAD + b'Content-Length: %d\r\n\r\n' % len(body) + body)


def endless(first, more):
    """Begins so, and never ends."""
    def lie(stream, *_):
        stream.sendall(first)
        while True:
            stream.sendall(more)
    return lie


def drip(text):
    """One byte a second."""
    def lie(stream, *_):
        for place in range(len(text)):
            stream.sendall(text[place:place + 1])
            if select.select([stream], [], [], 1)[0]:
                return
    return lie


def changed(old, new):
    """The truth with this pattern changed."""
    return lambda stream, _, truth: stream.sendall(re.sub(old, new, truth(), flags=re.DOTALL))


FIVE = struct.pack('>i', 5)
DEEP = b''.join(attribute(0x4a, b'', b'x') + attribute(0x34, b'', b'') for _ in range(20000)) + attribute(0x37, b'', b'') * 20000
# What a device says to each question, and a name of that.
DEVICE_LIES = {
    'numbers for reasons': message(b'\4' + attribute(0x23, b'printer-state', FIVE) + attribute(0x21, b'printer-state-reasons', FIVE, FIVE)),
    'numbers for sides': message(b'\4' + attribute(0x21, b'sides-supported', FIVE) + attribute(0x21, b'media-supported', FIVE)),
    'texts for numbers': message(b'\4' + attribute(0x41, b'printer-state', b'five'), b'\2' + attribute(0x41, b'job-id', b'one')),
    'a reason with controls': message(b'\4' + attribute(0x23, b'printer-state', FIVE) + attribute(
        0x44, b'printer-state-reasons', '\x1b[2J\x1b[12;0;1mPIN: \x9b31m\u202e\u200b\x07'.encode())),
    'a reason of 60000 letters': message(b'\4' + attribute(0x23, b'printer-state', FIVE) + attribute(
        0x44, b'printer-state-reasons', b'x' * 60000)),
    'a collection 20000 deep': message(b'\4' + attribute(0x34, b'media-col-database', b'') + DEEP),
    'a value without a group': say(HEAD + b'Content-Length: 20\r\n\r\n' + b'\1\1\0\0\0\0\0\1' + attribute(0x21, b'a', FIVE) + b'\3\3'),
    'four million groups': message(b'\4' * 4000000),
    'no end of zeros': endless(HEAD + b'\r\n', bytes(1 << 16)),
    'a length of 10^12': say(HEAD + b'Content-Length: 1000000000000\r\n\r\n' + BEGIN),
    'a chunk of -2': say(HEAD + b'Transfer-Encoding: chunked\r\n\r\n-2\r\n' + BEGIN),
    'no end of chunks': endless(HEAD + b'Transfer-Encoding: chunked\r\n\r\n', b'10000\r\n' + bytes(1 << 16) + b'\r\n'),
    'no end of 100 Continue': endless(b'', b'HTTP/1.1 100 Continue\r\n\r\n' * 1000),
    'no end of a field': endless(HEAD + b'X: ', b'x' * 65536),
    'one byte a second': drip(HEAD * 1000),
    'another place': say(b'HTTP/1.1 302 Found\r\nLocation: http://127.0.0.1:1/\r\nContent-Length: 0\r\n\r\n'),
    'no HTTP': say(b'\x1b[2J' * 10000),
    'nothing': say(b''),
}

ROW = 'job {job} held - {created} -1 -1 - {copies} 1 0 0 1 {name}\n'


def rows(job=1, created=1788220800, copies=1, name='a'):
    return say(('jobs 1\n' + ROW.format(job=job, created=created, copies=copies, name=name)).encode())


# What a server says to each line, and a name of that.
SERVER_LIES = {
    'a line of two words': say(b'jobs 1\njob 1\n'),
    'a moment of 10^30': rows(created=10 ** 30),
    'a moment below 1970': rows(created=-10 ** 12),
    'copies of 5000 digits': rows(copies='9' * 5000),
    'a job that is no number': rows(job='one'),
    'a name with controls': rows(name='%1B[2J%C2%9B31m%E2%80%AE%E2%80%8B%0A%0DPIN:%20'),
    'a name of 60000 letters': rows(name='x' * 60000),
    'no end of jobs': endless(b'jobs 1000000000000\n', (ROW.format(job=1, created=1, copies=1, name='a') * 1000).encode()),
    'no end of a line': endless(b'', b'x' * 65536),
    'a word with controls': say(b'\x1b[2J\x1b[12;0;1m\x07 \x9b31m\n'),
    'one byte each second': drip(b'jobs 1' * 1000),
    'no number of jobs': say(b'jobs\n'),
    'too many digits': say(b'jobs ' + b'9' * 5000 + b'\n'),
    'no words': say(b'\n'),
    'nothing': say(b''),
}
