"""haproxy by packaging/haproxy.cfg before a run of `serve`, for tools/page-tries and tools/names-tries: in a folder, on free ports."""
import html
import re
import subprocess

from messages import TOP
from station_room import free_port, listens, wait_until, want, write

NAMES = f'{TOP}/packaging/names/ipp-room-names'
PASSWORD = 'secret'
SIGN_ON = 'global\n    setenv SIGN_ON openid\n\n'
DESK = 'global\n    setenv DESK yes\n\n'


class Proxy:
    """haproxy, up to the end of the block, before these ports of clients and pages. `users` sign in by one password, `operators` too.

    `port` is that of pages, `clients` that of clients. With `judge`, the socket of a judge, names and passwords are a directory's; with
    `sign_on`, a socket's path, the pages are there, for who has signed people in. `queue` is the socket of a run of ipp-room-queue,
    `desk` the port of the desk; to that leads the port of this name. `logs` is the socket of who shows what the logs tell.
    """

    def __init__(self, folder, clients, pages, users, operators=(), table='rule same\n', judge=None, queue='/run/ipp-room-queue/pages', sign_on=None,
                 desk=None, logs='/run/ipp-room-desk-log/page'):
        self.folder, self.table, self.port, self.clients, self.stations, self.desk = folder, f'{folder}/names', *(free_port() for _ in range(4))
        words = ['openssl', 'req', '-x509', '-newkey', 'rsa:2048', '-nodes', '-keyout', f'{folder}/room.pem.key', '-out', f'{folder}/room.pem',
                 '-subj', '/CN=printroom.example']
        subprocess.run(words, check=True, stderr=subprocess.DEVNULL)
        with open(f'{TOP}/packaging/haproxy.cfg', encoding='utf-8') as file, open(f'{TOP}/packaging/stations.cfg', encoding='utf-8') as more:
            text = file.read() + more.read()
        subprocess.run([f'{TOP}/packaging/refusals', f'{folder}/refusals'], check=True)
        for old, new in (('/usr/share/ipp-room/refusals', f'{folder}/refusals'), ('/etc/haproxy/room.pem', f'{folder}/room.pem'), ('/etc/haproxy/stations-ca.pem', f'{folder}/room.pem'),
                         ('/etc/haproxy/names.map', f'{folder}/names.map'), ('/etc/haproxy/others.map', f'{folder}/others.map'),
                         ('log /dev/log local0', 'log stdout format raw local0'), (':443 ', f':{self.port} '), (':631 ', f':{self.clients} '),
                         (':6312 ', f':{self.stations} '), (':8443 ', f':{self.desk} '), ('unix@/run/ipp-room/desk', f'127.0.0.1:{desk or 1}'), ('unix@/run/ipp-room/pages', f'127.0.0.1:{pages}'),
                         ('unix@/run/ipp-room/clients', f'127.0.0.1:{clients}'), ('unix@/run/ipp-room-queue/pages', f'unix@{queue}'),
                         ('unix@/run/ipp-room-desk-log/page', f'unix@{logs}'),
                         ('    user haproxy\n', ''), ('/run/ipp-room-sign-on/pages', sign_on or '/run/ipp-room-sign-on/pages')):
            want(old in text, f'{old} is not in it')
            text = text.replace(old, new)
        write(f'{folder}/haproxy.cfg', (asking(judge) if judge else '') + (SIGN_ON if sign_on else '') + (DESK if desk else '') + text + userlist(users, operators))
        self.put_table(table)

    def put_table(self, table):
        """Writes a table of names, and what haproxy has of it."""
        write(self.table, table)
        subprocess.run([NAMES, '--table', self.table, 'map', self.folder], check=True)

    def check(self):
        """What haproxy says of the configuration, and whether it would begin."""
        checked = subprocess.run(['haproxy', '-c', '-f', f'{self.folder}/haproxy.cfg'], stdout=subprocess.PIPE, stderr=subprocess.STDOUT, text=True)
        return checked.stdout, checked.returncode == 0

    def __enter__(self):
        said, is_good = self.check()
        want(is_good, said)
        with open(f'{self.folder}/proxy.log', 'w', encoding='utf-8') as log:
            self.process = subprocess.Popen(['haproxy', '-f', f'{self.folder}/haproxy.cfg'], stdout=log, stderr=log)
        try:
            wait_until(lambda: listens(self.clients), 120, 'haproxy')
        except BaseException:
            self.__exit__()
            raise
        return self

    def __exit__(self, *_):
        self.process.kill()
        self.process.wait()

    def asks(self, user, path, *more, at=None):
        """The status of an answer, and where it leads, as curl tells them. What came is in the file `got`."""
        words = ['curl', '-sk', '--path-as-is', '-o', f'{self.folder}/got', '-w', '%{http_code} %{redirect_url}',
                 *(['-u', f'{user}:{PASSWORD}'] if user else []), *more, f'https://localhost:{at or self.port}{path}']
        return re.sub('//[^/]*@', '//', subprocess.run(words, stdout=subprocess.PIPE, text=True).stdout.strip())

    def got(self):
        with open(f'{self.folder}/got', encoding='utf-8') as file:
            return file.read()

    def said(self):
        """The sentence of the page that came, if it refuses."""
        found = re.search('</h1>\n<p>(.*)</p>\n', self.got())
        return html.unescape(found[1]) if found else None


def asking(judge):
    """The lines by which a judge is asked."""
    with open(f'{TOP}/packaging/directory/directory.cfg', encoding='utf-8') as file:
        text = file.read()
    for old, new in (('/run/ipp-room-judge/ask', judge), ('/etc/haproxy/judge.lua', f'{TOP}/packaging/directory/judge.lua')):
        want(old in text, f'{old} is not in it')
        text = text.replace(old, new)
    return text


def userlist(users, operators):
    """The section of these users."""
    lines = [f"    user '{name}' insecure-password {PASSWORD}" + ' groups operators' * (name in operators) for name in [*users, *operators]]
    return '\n'.join(['', 'userlist accounts', '    group operators', *lines, ''])
