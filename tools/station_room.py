"""All that a station needs around it, for tools/station-tries: a server, a device behind a local CUPS, and a terminal.

The cupsd listens on loopback and has a ServerRoot of its own; /etc/cups is left alone. The device is ippeveprinter, its paper
a file with a line for each impression, and its life counter snmpd.
"""
import collections
import contextlib
import os
import pty
import pwd
import resource
import select
import shutil
import signal
import socket
import subprocess
import sys
import time

import documents
from messages import CREATE_JOB, MOMENT, SEND_DOCUMENT, TOP, answer_to, attribute, integer, message, request
from serving import Serving, create, run

STATION = f'{TOP}/packaging/station'
# The package has these modules beside the station.
os.environ['PYTHONPATH'] = f'{TOP}/packaging/names:{TOP}/packaging/directory'
# Seconds: an impression of the device, and what a person waits for the station at most.
IMPRESSION, MOST_WAIT = 0.1, 150

Job = collections.namedtuple('Job', 'number state charged')


class Wrong(Exception):
    """What was seen is not what has to be."""


def want(is_so, seen):
    if not is_so:
        raise Wrong(seen)


def free_port(kind=socket.SOCK_STREAM):
    with socket.socket(type=kind) as stream:
        stream.bind(('127.0.0.1', 0))
        return stream.getsockname()[1]


def wait_until(is_so, seconds, what):
    end = time.monotonic() + seconds
    while not is_so():
        want(time.monotonic() < end, f'{what} did not come in {seconds} s')
        time.sleep(0.05)


def listens(address):
    try:
        if isinstance(address, int):
            address = ('127.0.0.1', address)
        if isinstance(address, tuple):
            socket.create_connection(address, 1).close()
        else:
            with socket.socket(socket.AF_UNIX) as stream:
                stream.connect(address)
        return True
    except OSError:
        return False


def write(path, text, mode=0o644):
    with open(path, 'w', encoding='utf-8') as file:
        file.write(text)
    os.chmod(path, mode)


def pdf(pages, chosen=None):
    """A PDF of so many pages of A4, with a ticket where something is chosen."""
    return documents.pdf(pages) + (f'%ticket {chosen}\n'.encode() if chosen else b'')


FILES_CONF = '''ServerRoot {here}
ServerBin {here}/bin
CacheDir {here}/cache
StateDir {here}
RequestRoot {here}/spool
TempDir {here}/spool/tmp
AccessLog {here}/log/access
ErrorLog {here}/log/error
PageLog {here}/log/page
Printcap {here}/printcap
SystemGroup root
User lp
Group lp
SetEnv ROOM_MAY_PRINT {folder}/station/may-print
SetEnv ROOM_PRINTERS {folder}/printers
'''
CUPSD_CONF = '''LogLevel info
# Else a cupsd that was killed gives the numbers of jobs twice.
DirtyCleanInterval 0
Listen 127.0.0.1:{port}
Listen {door}
Browsing No
WebInterface No
<Location />
  Order allow,deny
  Allow all
</Location>
<Policy default>
  <Limit Create-Job Print-Job Print-URI Validate-Job Get-Jobs Get-Printer-Attributes>
    Order deny,allow
  </Limit>
  <Limit Cancel-Job Get-Job-Attributes Send-Document>
    Require user @OWNER @SYSTEM
    Order deny,allow
  </Limit>
  <Limit All>
    AuthType Default
    Require user @SYSTEM
    Order deny,allow
  </Limit>
</Policy>
'''


class Cups:
    """A cupsd of its own, with the queue `device`."""

    def __init__(self, folder, port):
        self.folder, self.device = folder, port
        self.door, self.port = f'{folder}/cups/socket', free_port()
        for name in ('backend', 'ppd', 'ssl', 'cache', 'spool/tmp', 'log'):
            os.makedirs(f'{folder}/cups/{name}')
        os.makedirs(f'{folder}/cups/bin')
        for name in ('daemon', 'filter', 'notifier', 'cgi-bin', 'monitor', 'driver'):
            os.symlink(f'/usr/lib/cups/{name}', f'{folder}/cups/bin/{name}')
        os.rename(f'{folder}/cups/backend', f'{folder}/cups/bin/backend')
        for name in ('ipp', 'ipps'):
            shutil.copy('/usr/lib/cups/backend/ipp', f'{folder}/cups/bin/backend/{name}')
        shutil.copy(f'{STATION}/once', f'{folder}/cups/bin/backend/once')
        write(f'{folder}/cups/cups-files.conf', FILES_CONF.format(here=f'{folder}/cups', folder=folder))
        write(f'{folder}/cups/cupsd.conf', CUPSD_CONF.format(port=self.port, door=self.door))
        self.start()
        uri = f'ipp://localhost:{port}/ipp/print'
        self.admin('lpadmin', '-p', 'device', '-E', '-v', uri, '-m', 'everywhere', '-o', 'printer-error-policy=abort-job')
        self.admin('lpadmin', '-p', 'device', '-E', '-v', f'once:/{uri}')

    def start(self, longest_file=None):
        def limit():
            # A write beyond the longest file then fails, as on a full disk.
            if longest_file:
                signal.signal(signal.SIGXFSZ, signal.SIG_IGN)
                resource.setrlimit(resource.RLIMIT_FSIZE, (longest_file, longest_file))
        words = ['cupsd', '-f', '-c', f'{self.folder}/cups/cupsd.conf', '-s', f'{self.folder}/cups/cups-files.conf']
        with open(f'{self.folder}/cups/log/out', 'a', encoding='utf-8') as log:
            self.process = subprocess.Popen(words, stdout=log, stderr=log, preexec_fn=limit)
        wait_until(lambda: listens(self.port) and listens(self.door), 20, 'cupsd')

    def kill(self, how=signal.SIGKILL):
        self.process.send_signal(how)
        self.process.wait()

    def end(self):
        if self.process.poll() is None:
            self.kill()

    def admin(self, *words):
        environment = {**os.environ, 'CUPS_SERVER': self.door, 'CUPS_SERVERROOT': f'{self.folder}/cups'}
        subprocess.run(words, check=True, env=environment, stdout=subprocess.DEVNULL, stderr=subprocess.DEVNULL)

    def waiting(self):
        """What it has still to print."""
        return self.told('lpstat', '-o')

    def is_stopped(self):
        return ' disabled ' in self.told('lpstat', '-p', 'device')

    def told(self, *words):
        environment = {**os.environ, 'CUPS_SERVER': self.door, 'CUPS_SERVERROOT': f'{self.folder}/cups'}
        return subprocess.run(words, check=True, env=environment, stdout=subprocess.PIPE, text=True).stdout

    def documents(self):
        """What of documents lies in its spool."""
        return [name for name in os.listdir(f'{self.folder}/cups/spool') if name.startswith('d')]


class Device:
    """ippeveprinter, whose print command writes a line to the file `paper` for each impression."""

    def __init__(self, folder, host='localhost', port=None):
        self.folder, self.host, self.port = folder, host, port or free_port()
        os.makedirs(f'{folder}/device')
        write(f'{folder}/paper', '')
        write(f'{folder}/print', PRINT.format(folder=folder, impression=IMPRESSION, station=STATION, host=host, port=self.port), 0o755)
        # ippeveprinter wants a bus, though it announces nothing.
        bus = f'unix:path={folder}/bus'
        self.bus = subprocess.Popen(['dbus-daemon', '--session', '--nofork', '--nopidfile', f'--address={bus}'],
                                    stdout=subprocess.DEVNULL, stderr=subprocess.DEVNULL)
        wait_until(lambda: listens(f'{folder}/bus'), 10, 'the bus')
        self.environment = {**os.environ, 'DBUS_SYSTEM_BUS_ADDRESS': bus, 'CUPS_SERVERROOT': f'{folder}/cups'}
        self.start()

    def start(self):
        words = ['ippeveprinter', '-r', 'off', '-n', self.host, '-p', str(self.port), '-f', 'application/pdf', '-2',
                 '-s', '10,10', '-d', f'{self.folder}/device', '-c', f'{self.folder}/print', 'hall']
        self.process = subprocess.Popen(words, stdout=subprocess.DEVNULL, stderr=subprocess.DEVNULL, env=self.environment,
                                        start_new_session=True)
        wait_until(lambda: listens((self.host, self.port)), 20, 'the device')

    def kill(self, *_):
        """It loses its power: what it prints ends, and it forgets its jobs."""
        os.killpg(self.process.pid, signal.SIGKILL)
        self.process.wait()

    def end(self):
        self.kill()
        self.bus.kill()
        self.bus.wait()

    def print_aside(self, pages):
        """Begins to print what comes past all stations."""
        sys.path.append(STATION)
        import ipp

        def is_taken():
            try:
                printer.ask(ipp.PRINT_JOB, asked, data=pdf(pages))
            except ipp.Refused:
                # It takes one job at a time.
                return False
            return True
        printer = ipp.Printer(f'ipp://{self.host}:{self.port}/ipp/print')
        asked = [(ipp.NAME, 'job-name', ['aside']), (ipp.FORMAT, 'document-format', ['application/pdf'])]
        wait_until(is_taken, 60, 'a device that takes a job')

    def paper(self, account, job):
        """What came out of a job: for each document, name and impressions in a row."""
        came = collections.defaultdict(list)
        with open(f'{self.folder}/paper', encoding='utf-8') as file:
            for line in file:
                name, impression = line.split()
                if name.startswith(f'room-{account}-{job}-'):
                    came[name].append(int(impression))
        return came


PRINT = '''#!/usr/bin/python3
# The device's print command: a line of paper for each impression. The file `jam` has how many come out before it fails;
# with a file `mute` it counts nothing.
import os, subprocess, sys, time
sys.path.insert(0, '{station}')
import ipp
told = subprocess.run(['pdfinfo', sys.argv[1]], stdout=subprocess.PIPE, text=True).stdout
pages = int(told.split('Pages:')[1].split()[0]) * int(os.environ.get('IPP_COPIES', 1))
with open('{folder}/ticket', 'a') as file:
    size = os.environ.get('IPP_MEDIA_COL', '').partition('media-size=')[2].partition('}}')[0] or os.environ.get('IPP_MEDIA')
    print(os.environ['IPP_JOB_NAME'], size, os.environ.get('IPP_SIDES'), os.environ.get('IPP_PRINT_COLOR_MODE'),
          os.environ.get('IPP_COPIES'), file=file)
me = ipp.Printer('ipp://{host}:{port}/ipp/print')
asked = [(ipp.INTEGER, 'job-id', [int(os.environ['IPP_JOB_ID'])]), (ipp.KEYWORD, 'requested-attributes', ['job-state-reasons'])]
for page in range(1, pages + 1):
    # ippeveprinter does not end the command of a job that is canceled.
    if 'processing-to-stop-point' in str(me.ask(ipp.GET_JOB, asked)):
        sys.exit()
    if os.path.exists('{folder}/jam') and page > int(open('{folder}/jam').read()):
        sys.exit(1)
    time.sleep({impression})
    with open('{folder}/paper', 'a') as file:
        file.write(f"{{os.environ['IPP_JOB_NAME']}} {{page}}\\n")
    if not os.path.exists('{folder}/mute'):
        print(f'ATTR: job-impressions-completed={{page}}', file=sys.stderr, flush=True)
'''

# What snmpd asks for the marker's unit and life count.
LIFE = '''#!/bin/sh
while read -r ask; do
    case $ask in
    PING) echo PONG ;;
    get)
        read -r number
        echo "$number"
        case $number in
        *.3.1.1) echo integer; echo 7 ;;
        *) echo counter; echo $((4294967290 + $(wc -l <{folder}/paper))) | awk '{{ printf "%.0f\\n", $1 % 4294967296 }}' ;;
        esac ;;
    *) read -r number; echo NONE ;;
    esac
done
'''


class Agent:
    """snmpd, which tells the device's life count: it goes on over each kill, and begins anew at 2^32."""

    def __init__(self, folder):
        self.port = free_port(socket.SOCK_DGRAM)
        write(f'{folder}/life', LIFE.format(folder=folder), 0o755)
        write(f'{folder}/snmpd.conf', f'agentAddress udp:127.0.0.1:{self.port}\nrocommunity public\n'
              f'pass_persist .1.3.6.1.2.1.43.10.2.1 {folder}/life\n')
        words = ['snmpd', '-f', '-C', '-c', f'{folder}/snmpd.conf', '-Lf', f'{folder}/snmpd.log', '-p', f'{folder}/snmpd.pid']
        self.process = subprocess.Popen(words, env={**os.environ, 'SNMP_PERSISTENT_DIR': folder})
        asks = ['snmpget', '-v1', '-c', 'public', '-Oqve', f'127.0.0.1:{self.port}', '1.3.6.1.2.1.43.10.2.1.3.1.1']
        pipes = {'stdout': subprocess.PIPE, 'stderr': subprocess.DEVNULL}
        wait_until(lambda: subprocess.run(asks, **pipes).stdout == b'7\n', 20, 'snmpd')

    def end(self):
        self.process.kill()
        self.process.wait()


class Told(Exception):
    """The station lets nobody choose, and says why."""


class Kiosk:
    """A station at a terminal, run as `nobody`. It may take so many bytes of memory."""

    def __init__(self, words, umask=0o22, memory=1 << 30):
        self.words, self.umask, self.memory, self.seen = words, umask, memory, ''
        self.start()

    def start(self):
        def limit():
            resource.setrlimit(resource.RLIMIT_AS, (self.memory, self.memory))
        master, terminal = pty.openpty()
        self.path = os.ttyname(terminal)
        nobody = pwd.getpwnam('nobody')
        environment = {'PATH': '/usr/bin:/bin', 'TERM': 'linux', 'LANG': 'C.UTF-8', 'PYTHONDONTWRITEBYTECODE': '1',
                       'PYTHONPATH': os.environ['PYTHONPATH']}
        self.process = subprocess.Popen(self.words, stdin=terminal, stdout=terminal, stderr=terminal, user=nobody.pw_uid,
                                        group=nobody.pw_gid, extra_groups=[], start_new_session=True, env=environment,
                                        umask=self.umask, preexec_fn=limit)
        os.close(terminal)
        self.terminal, self.unread = master, ''

    def kill(self, how=signal.SIGKILL):
        self.process.send_signal(how)
        self.process.wait()
        os.close(self.terminal)

    def end(self):
        if self.process.poll() is None:
            self.kill()

    def wait_for(self, *texts, seconds=MOST_WAIT):
        """Reads what the station says up to one of these texts, and answers it with that."""
        end = time.monotonic() + seconds
        while not any(text in self.unread for text in texts):
            if not select.select([self.terminal], [], [], max(0, end - time.monotonic()))[0]:
                raise Wrong(f'{texts} did not come in {seconds} s, but {self.unread[-300:]!r}')
            try:
                more = os.read(self.terminal, 4096).decode('utf-8', 'replace')
            except OSError as error:
                raise Wrong(f'the station ended: {self.unread[-300:]!r}') from error
            self.unread, self.seen = self.unread + more, self.seen + more
        first = min((text for text in texts if text in self.unread), key=self.unread.index)
        said, found, self.unread = self.unread.partition(first)
        return said + found

    def type(self, text):
        self.press(text + '\n')

    def press(self, keys):
        os.write(self.terminal, keys.encode(errors='surrogateescape'))

    def choose(self, account, jobs, pin=''):
        """Signs in and chooses, up to the moment at which the release begins. Answers what was shown."""
        self.wait_for('Account: ')
        self.type(account)
        self.wait_for('PIN (Enter for none): ')
        self.type(pin)
        shown = self.wait_for('Enter for none): ', 'Thank you.')
        if shown.endswith('Thank you.'):
            self.type('')
            raise Told(shown)
        self.type(jobs)
        return shown

    def thank(self):
        """What the station says up to its thanks."""
        said = self.wait_for('Thank you.')
        self.type('')
        return said


def make_folders(folder):
    """Those of a station."""
    nobody = pwd.getpwnam('nobody')
    for name, group, mode in (('station', nobody.pw_gid, 0o755), ('station/may-print', pwd.getpwnam('lp').pw_gid, 0o2770)):
        os.mkdir(f'{folder}/{name}')
        os.chown(f'{folder}/{name}', nobody.pw_uid, group)
        os.chmod(f'{folder}/{name}', mode)


class Room:
    """All that a try needs, up to the end of the block."""

    def __init__(self, folder, has_life_count=True, pages=100000, doors=()):
        self.folder, self.has_life_count, self.pages = folder, has_life_count, pages
        self.path, self.stations, self.table = f'{folder}/room.db', f'{folder}/stations', f'{folder}/names'
        # Of stations, each for one name.
        self.doors = doors

    def __enter__(self):
        # Where a part does not begin, those before it are ended.
        with contextlib.ExitStack() as ends:
            self.begin(ends)
            self.ends = ends.pop_all()
        return self

    def __exit__(self, *_):
        self.ends.close()

    def begin(self, ends):
        os.chmod(self.folder, 0o755)
        create(self.path, ['alice', 'bob'], [f'{MOMENT} device hall on', f'{MOMENT} device studio on',
                                             f'{MOMENT} grant alice 2026-09 {self.pages}'])
        write(self.table, 'case folds\nrule same\n')
        self.start()
        ends.callback(self.kill)
        make_folders(self.folder)
        self.device = Device(self.folder)
        ends.callback(self.device.end)
        self.cups = Cups(self.folder, self.device.port)
        ends.callback(self.cups.end)
        self.life = []
        if self.has_life_count:
            agent = Agent(self.folder)
            ends.callback(agent.end)
            self.life = ['--life-count', f'127.0.0.1:{agent.port}']
        self.kiosk = Kiosk(self.words())
        ends.callback(lambda: self.kiosk.end())

    def words(self, server=None, uri=None, more=(), name='hall', cups=None):
        """Those of the station, with another server, another device, another name, or the CUPS of another station."""
        cups = cups or self.cups
        return [f'{STATION}/ipp-room-station', server or self.stations, name, 'device',
                uri or f'ipp://localhost:{self.device.port}/ipp/print', '--folder', f'{cups.folder}/station',
                '--cups', cups.door, '--names', self.table, *self.life, *more]

    def another(self, device=None, card=False, **words):
        """A further station, with a CUPS of its own, at the same device or at another one. It may have a copy of the first one's card."""
        folder, port = f'{self.folder}/another', (device or self.device).port
        os.mkdir(folder)
        make_folders(folder)
        if card:
            shutil.copy(f'{self.folder}/station/state.json', f'{folder}/station')
            shutil.chown(f'{folder}/station/state.json', 'nobody')
        cups = Cups(folder, port)
        self.ends.callback(cups.end)
        kiosk = Kiosk(self.words(uri=f'ipp://localhost:{port}/ipp/print', cups=cups, **words))
        self.ends.callback(kiosk.end)
        return kiosk

    def begin_kiosk(self, umask=0o22, **words):
        """Another station takes the place of the one that runs."""
        self.kiosk.end()
        self.kiosk = Kiosk(self.words(**words), umask)

    def start(self):
        """Begins `serve`, or begins it anew where it was killed."""
        options = [word for name in self.doors for word in ('--station', f'{name}={self.folder}/station-{name}')]
        self.serving = Serving(self.path, self.stations, options=options)
        self.serving.__enter__()
        os.chmod(self.stations, 0o666)

    def kill(self, *_):
        self.serving.__exit__()

    def send(self, parts, copies=1, pages=0, password='', account='alice', name='Übung 1.pdf'):
        """Sends a job. Answers its number."""
        asked = [attribute(0x42, b'job-name', name.encode()), integer(b'job-impressions', pages)]
        if password:
            asked += [attribute(0x30, b'job-password', password.encode()), attribute(0x44, b'job-password-encryption', b'none')]
        with self.serving.client() as stream:
            body = request(account, CREATE_JOB, *asked, b'\x02' + integer(b'copies', copies))
            _, answer = answer_to(stream, message(account, body))
            number = int.from_bytes(answer.partition(b'\x00\x06job-id\x00\x04')[2][:4], 'big')
            for place, data in enumerate(parts):
                last = attribute(0x22, b'last-document', bytes([place == len(parts) - 1]))
                kind = attribute(0x49, b'document-format', b'application/pdf')
                body = request(account, SEND_DOCUMENT, integer(b'job-id', number), kind, last, data=data)
                _, answer = answer_to(stream, message(account, body))
                want(answer[2:4] == b'\0\0', f'a document was answered {answer[2:4].hex()}')
        return number

    def operator(self, line):
        return run('send', self.serving.operators, text=line + '\n')

    def job(self, number, account='alice'):
        """What the server tells of a job."""
        for question in (f'jobs {account}', f'ended {account} 100'):
            for line in self.operator(question).splitlines():
                words = line.split(' ')
                if words[:2] == ['job', str(number)]:
                    return Job(number, words[2], int(words[11]))
        raise Wrong(f'the server knows no job {number} of {account}')

    def printed(self, number, account='alice'):
        """How many impressions of a job came out, none twice."""
        came = collections.defaultdict(list)
        for name, impressions in self.device.paper(account, number).items():
            came[name.split('-')[-2]] += impressions
        for place, impressions in came.items():
            is_once = len(set(impressions)) == len(impressions)
            want(is_once, f'document {place} of job {number} was printed twice: {impressions}')
        return sum(map(len, came.values()))

    def wait_for_paper(self, number, count):
        wait_until(lambda: self.printed(number) >= count, 60, f'impression {count} of job {number}')

    def left_over(self):
        """What the station and CUPS still have of documents."""
        return os.listdir(f'{self.folder}/station/may-print') + self.cups.documents()

    def tickets(self, number, account='alice'):
        """What the device was told of each document of a job."""
        with open(f'{self.folder}/ticket', encoding='utf-8') as file:
            return [line.split(' ', 1)[1].strip() for line in file if line.startswith(f'room-{account}-{number}-')]
