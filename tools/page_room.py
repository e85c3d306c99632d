"""A print room with pages and what people do in it, and another site, for tools/page-tries."""
import contextlib
import datetime
import http.client
import http.server
import threading
import urllib.parse

from messages import CANCEL_JOB, MOMENT, PRINT_JOB, RELEASE_JOB, answer_to, attribute, integer, message, request
from serving import Serving, connect, create, run
from station_room import want

NOW = datetime.datetime.now(datetime.timezone.utc)
MONTH = f'{NOW:%Y-%m}'


class Lines:
    """A connection to the stations or the operators."""

    def __init__(self, address):
        self.address = address
        self.begin()

    def begin(self):
        self.stream = connect(self.address)
        self.file = self.stream.makefile('rwb')

    def ask(self, line):
        told = self.told(line)
        if not told:
            # Where nothing was asked for a minute, the connection was let go.
            self.begin()
            told = self.told(line)
        return told.decode().rstrip('\n')

    def told(self, line):
        with contextlib.suppress(BrokenPipeError, ConnectionResetError):
            self.file.write(f'{line}\n'.encode())
            self.file.flush()
            return self.file.readline()
        return b''

    def jobs(self, question):
        told = self.ask(question)
        return [Job(self.file.readline().decode().split()) for _ in range(int(told.removeprefix('jobs ')))]

    def documents(self, line):
        told, taken = self.ask(line), []
        want(told.startswith('documents '), f'`{line}` was told {told}')
        for _ in range(int(told.split()[1])):
            taken.append(self.file.read(int(self.file.readline().split()[4])))
            self.file.read(1)
        return taken


class Job:
    """A job, by its line."""

    def __init__(self, fields):
        self.number, self.state, self.has_password, self.copies = int(fields[1]), fields[2], fields[7] == 'password', int(fields[8])
        self.pages = 0 if fields[9] == '-' else int(fields[9])
        self.name = urllib.parse.unquote_to_bytes(fields[13])


class Room:
    """A print room with pages, up to the end of the block."""

    def __init__(self, folder, browser, pictures):
        self.folder, self.browser, self.pictures = folder, browser, pictures
        self.path, self.log = f'{folder}/room.db', f'{folder}/log'

    def begin(self, accounts=('alice', 'bob'), lines=(), earlier=(), options=()):
        """With two devices, 100 pages of this month for alice, and what came earlier, as lines of a script."""
        first = ['device hall on', 'device studio on', 'rate studio 5', f'grant alice {MONTH} 100', *lines]
        create(self.path, accounts, [*(f'{MOMENT} {line}' for line in first), *earlier])
        self.serve(options)

    def serve(self, options=()):
        """The file that is there."""
        self.serving = Serving(self.path, options=['--pages', '0', '--host', 'printroom.example', '--log', self.log, *options]).__enter__()
        self.port = int(dict(self.serving.doors)['pages'])
        self.url = f'http://127.0.0.1:{self.port}'
        self.operators, self.stations = Lines(self.serving.operators), Lines(self.serving.stations)

    def end(self):
        if hasattr(self, 'serving'):
            self.serving.__exit__()

    def page(self, at='/alice', width=1200):
        page = self.browser.page(width)
        page.go(self.url + at)
        return page

    def send(self, name=b'essay.pdf', pages=1, copies=1, data=b'%PDF-1.4 essay', password=b'', account='alice'):
        """By IPP. Answers the number of the job."""
        asked = [attribute(0x42, b'job-name', name)]
        if pages:
            asked.append(integer(b'job-impressions', pages))
        if password:
            asked += [attribute(0x30, b'job-password', password), attribute(0x44, b'job-password-encryption', b'none')]
        answer = self.ipp(account, PRINT_JOB, *asked, b'\x02' + integer(b'copies', copies), data=data)
        return int.from_bytes(answer.partition(b'\x00\x06job-id\x00\x04')[2][:4], 'big')

    def ipp(self, account, operation, *asked, data=b''):
        with self.serving.client() as stream:
            _, answer = answer_to(stream, message(account, request(account, operation, *asked, data=data)))
        want(answer[2:4] == b'\0\0', f'IPP was answered {answer[2:4].hex()}')
        return answer

    def jobs(self, account='alice'):
        return {job.number: job for job in self.operators.jobs(f'jobs {account}')}

    def ended(self, account='alice'):
        return {job.number: job for job in self.operators.jobs(f'ended {account} 20')}

    def is_held(self, number):
        return number in self.jobs() and self.jobs()[number].state == 'held'

    def asks(self, method, path, fields=None, body=None, host=None):
        """What the door answers: status, fields, body."""
        asked = http.client.HTTPConnection('127.0.0.1', self.port, timeout=60)
        with contextlib.closing(asked):
            asked.putrequest(method, path, skip_host=host is not None, skip_accept_encoding=True)
            for name, value in [*([('Host', word) for word in host or []]), *(fields or {}).items()]:
                asked.putheader(name, value)
            if body is not None:
                asked.putheader('Content-Length', str(len(body)))
            asked.endheaders()
            with contextlib.suppress(BrokenPipeError, ConnectionResetError):
                asked.send(body or b'')
            told = asked.getresponse()
            return told.status, {name.lower(): value for name, value in told.getheaders()}, told.read()

    def keep(self, page, name):
        if self.pictures:
            page.picture(f'{self.pictures}/{name}.png')

    def logged(self):
        with open(self.log) as file:
            return [line.split(' ', 1)[1].strip() for line in file]


class Site:
    """Another site, with one page."""

    def __init__(self, text, *fields):
        class Door(http.server.BaseHTTPRequestHandler):
            def do_GET(self):
                self.send_response(200)
                for name, value in [('Content-Type', 'text/html'), ('Content-Length', str(len(text))), *fields]:
                    self.send_header(name, value)
                self.end_headers()
                self.wfile.write(text.encode())

            def log_message(self, *_):
                pass
        self.server = http.server.ThreadingHTTPServer(('127.0.0.1', 0), Door)
        self.port = self.server.server_address[1]

    def __enter__(self):
        threading.Thread(target=self.server.serve_forever, daemon=True).start()
        return self

    def __exit__(self, *_):
        self.server.shutdown()
        self.server.server_close()


def month_so_far():
    """Units that carol was charged on each day of this month before today."""
    return {day: 20 + day * 37 % 61 for day in range(1, NOW.day) if datetime.date(NOW.year, NOW.month, day).weekday() < 5}


def earlier():
    """The script of this month so far, of a job of the month before, and of what bob has left since yesterday."""
    first = NOW.replace(day=1, hour=10, minute=20, second=0)
    prints = [(first - datetime.timedelta(days=3), 77)] + [(first.replace(day=day), units) for day, units in month_so_far().items()]
    for number, (at, units) in enumerate(prints, 1):
        asked = request('carol', PRINT_JOB, attribute(0x42, b'job-name', b'course %d.pdf' % number), integer(b'job-impressions', units), data=b'a')
        for line in (f'ipp carol {asked.hex()}', f'release hall carol {number} - -', f'start hall carol {number}', f'settle hall carol {number} {units} done'):
            yield f'{int(at.timestamp())} {line}'
    asked = request('bob', PRINT_JOB, attribute(0x42, b'job-name', b'forgotten.pdf'), integer(b'job-impressions', 3), data=b'a')
    yield f'{int((NOW - datetime.timedelta(days=1)).timestamp())} ipp bob {asked.hex()}'


def people(room):
    """A room as it is at noon: a month so far, jobs in each state, and six accounts. It is made once; all further ones are copies."""
    if not NOON:
        make_people(room)
        run('backup', room.serving.operators, f'{room.folder}/noon')
        with open(f'{room.folder}/noon', 'rb') as file:
            NOON.append(file.read())
        return
    with open(room.path, 'wb') as file:
        file.write(NOON[0])
    room.serve()


NOON = []


def make_people(room):
    last_month = f'{NOW.replace(day=1) - datetime.timedelta(days=3):%Y-%m}'
    lines = ['device library-2 off', f'grant carol {last_month} 4000', f'grant bob {MONTH} 40', f'grant emma {MONTH} 60']
    room.begin(['alice', 'bob', 'carol', 'dimitri', 'emma', 'zoe'], lines, list(earlier()))
    for name, pages in ((b'lecture-7.pdf', 7), ('Übungsblatt 4.pdf'.encode(), 4)):
        printed(room, 'alice', name, pages)
    begun(room, 'alice', b'Poster, second draft.pdf', 2, 'studio')
    number = room.send(b'reading-list.pdf', 8, 2)
    room.ipp('alice', RELEASE_JOB, integer(b'job-id', number))
    room.send(b'Application.pdf', 2, password=b'1234')
    room.send(b'essay.pdf', 6)
    room.send(b'notes.txt', 0)
    number = room.send(b'map.jpg', 1)
    room.ipp('alice', CANCEL_JOB, integer(b'job-id', number))
    printed(room, 'bob', b'thesis.pdf', 12)
    begun(room, 'emma', b'slides.pdf', 4, 'hall')
    room.send(b'poem.txt', 1, account='dimitri')


def begun(room, account, name, pages, device):
    number = room.send(name, pages, account=account)
    want(room.stations.ask(f'release {device} {account} {number} - -').startswith('ok '), f'{name} is not released')
    room.stations.documents(f'start {device} {account} {number}')
    return number


def printed(room, account, name, pages):
    number = begun(room, account, name, pages, 'hall')
    want(room.stations.ask(f'settle hall {account} {number} {pages} done').startswith('ok '), f'{name} is not settled')


TODAY = 7 + 4 + 12
