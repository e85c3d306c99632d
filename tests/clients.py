"""The commands that ask a server, held against what packaging/ipp-room.1 and docs/PROTOCOL.md say of them.

`send` is answered by peers that follow a script, as no server answers, in pieces and at once; and by `serve`. What an owner asks
is answered by `serve`, directly, and by a peer that repeats what `serve` answered to the request that the command sent.
"""
import os
import pty
import select
import socket
import subprocess
import threading
from collections import namedtuple
from functools import partial

from database import FILE
from notation import spell
from program import MOMENT, MOST_SECONDS, PROGRAM, Differs, Serving, converse, expect, run, run_well, variables
from messages import message
from serving import read_all

# The most bytes of a line, without what ends it.
MOST_LINE = 65536
PIECE = 7

Ending = namedtuple('Ending', 'status told printed')


def well(printed=b''):
    return Ending(0, b'', printed)


BROKEN_OFF = Ending(4, b'ipp-room: io\n', b'')

# Lines, what answers them, and how it ends: an event that failed counts before a bad line, of bad lines the first.
OUTCOMES = (
    (b'a\nb\nc\n', b'ok\nbad-line\nbad-line\n', 2, b'2 of 3 refused\nipp-room: line 2\n'),
    (b'a\nb\nc\n', b'bad-line\nfailed\nok\n', 3, b'2 of 3 refused\nipp-room: store\n'),
    (b'a\nb\nc', b'failed\nbad-line\nbad-lines\n', 3, b'3 of 3 refused\nipp-room: store\n'),
    (b'a\n', b'conflict 100\n', 5, b'1 of 1 refused\nipp-room: refused\n'),
    (b'a\nb\nc\n', b'jobs 2\njob 1\nfailed\ngrants 0\nok\n', 0, b''),
)

START = b'start d1 alice 4\n'
# Connections that end before an answer to START is whole, and answers that are none.
BROKEN = (
    b'', b'\n', b'ok', b'\x1b[2J\n', b'o\x00k\n', b'jobs \n', b'grants 01\n', b'devices 1000000\n',
    b'documents \n', b'documents 9\n', b'documents +1\n', b'documents 1', b'documents 1\n', b'documents 1\nok\n',
    b'documents 1\ndocument 4 1 text/plain 1\n',
    b'documents 1\ndocument 4 1 text/plain 1\na',
    b'documents 1\ndocument 4 1 text/plain 1\nab\n',
    b'documents 1\ndocument 4 1 text/plain 2\na\n',
    b'documents 1\ndocument 5 1 text/plain 1\na\n',
    b'documents 1\ndocument 4 0 text/plain 1\na\n',
    b'documents 1\ndocument 4 1 text/plain 01\na\n',
    b'documents 1\ndocument 4 1 text/plain\na\n',
    b'documents 1\ndocument 4 1 text/plain 1 \na\n',
    b'documents 1\ndocument 4 1 text/plain 16777217\na\n',
)

# Lines that start no job of which documents could come, though START does.
DOCUMENT = b'documents 1\ndocument 4 1 text/plain 1\na\n'
OF_NO_START = (
    b'start d1 alice 4 \n', b'start d1 alice\n', b'start d1 Alice 4\n', b'start d1 .. 4\n', b'start d1 alice 04\n',
    b'again d1 alice\n', b'settle d1 alice 4\n',
)

# Records, of which the second is bad, and the lines that are sent of the others.
RECORDS = b'a,1970-01,0\nb,2000-00,1\nc,2099-12,1000000000'
GRANTS = b'grant a 1970-01 0\ngrant c 2099-12 1000000000\n'
# What answers the lines, and how it ends.
GRANTED = (
    (b'failed\nok\n', Ending(3, b'2 of 3 refused\nipp-room: store\n', b'1 failed\n2 bad\n3 ok\n')),
    (b'bad-line\nok\n', Ending(2, b'2 of 3 refused\nipp-room: line 1\n', b'1 bad-line\n2 bad\n3 ok\n')),
    (b'ok\ndocuments 0\n', Ending(4, b'ipp-room: io\n', b'1 ok\n2 bad\n')),
    (b'ok\n', Ending(4, b'ipp-room: io\n', b'1 ok\n2 bad\n')),
)


class Scripted:
    """A peer that answers one connection with these bytes, whatever it is sent, and ends its side. `sent` is what it was sent.

    It listens at a path, or on a free port, where none is told. With a piece it sends so many bytes at a time, each time that
    no more than one piece waits to be taken.
    """

    def __init__(self, answers, path=None, piece=None):
        self.answers, self.piece, self.sent = answers, piece or max(1, len(answers)), b''
        self.listening = socket.socket(socket.AF_UNIX if path else socket.AF_INET)
        self.listening.settimeout(MOST_SECONDS)
        self.listening.bind(path or ('127.0.0.1', 0))
        self.listening.listen()
        self.port = None if path else self.listening.getsockname()[1]

    def __enter__(self):
        self.thread = threading.Thread(target=self.answer)
        self.thread.start()
        return self

    def __exit__(self, fault, *_):
        if fault:
            # Perhaps nobody comes.
            self.listening.shutdown(socket.SHUT_RDWR)
        self.thread.join()
        self.listening.close()

    def answer(self):
        try:
            stream = self.listening.accept()[0]
        except OSError:
            return
        with stream:
            # The system's least: poll tells that there is room while less than two pieces wait.
            stream.setsockopt(socket.SOL_SOCKET, socket.SO_SNDBUF, 1)
            try:
                self.send(stream)
                stream.shutdown(socket.SHUT_WR)
            except OSError:
                # It ended before it was told all.
                pass
            self.sent = read_all(stream, MOST_SECONDS)[0]

    def send(self, stream):
        taken = select.poll()
        taken.register(stream, select.POLLOUT)
        for at in range(0, len(self.answers), self.piece):
            taken.poll(MOST_SECONDS * 1000)
            stream.sendall(self.answers[at:at + self.piece])


def expect_ending(ended, ending, what):
    expect(Ending(ended.status, ended.told, ended.printed), ending, what)


def expect_sent(options, given, answers, ending, sent, folder):
    """Has `send` send this to a peer at a path that answers in pieces, and to one on a port that answers at once."""
    with Scripted(answers, f'{folder}/peer', PIECE) as peer:
        ended = run(folder, 'send', 'peer', *options, given=given)
    expect_ending(ended, ending, 'answered in pieces')
    expect(peer.sent, sent, 'sent to who answers in pieces')
    with Scripted(answers) as peer:
        ended = run(folder, 'send', str(peer.port), *options, given=given)
    expect_ending(ended, ending, 'answered at once')
    expect(peer.sent, sent, 'sent to who answers at once')


def documents_into_a_folder(folder):
    """Two documents of one job, the first with line feeds in it, the second without a byte, go over older files."""
    kept = {'alice-2-999999-1': b'a\nb\n', 'alice-2-999999-2': b''}
    os.mkdir(f'{folder}/kept')
    answers = (b'documents 2\ndocument 999999 3 application/pdf 4\na\nb\n\ndocument 999999 3 text/plain 0\n\n'
               b'not-pending\n')
    printed = (b'document 999999 3 application/pdf 4\nkept/alice-2-999999-1\n'
               b'document 999999 3 text/plain 0\nkept/alice-2-999999-2\nnot-pending\n')
    lines = b'start d1 alice-2 999999\nstart d1 alice-2 7\n'
    with open(f'{folder}/kept/alice-2-999999-2', 'wb') as file:
        file.write(b'older')
    expect_sent(('--into', 'kept'), lines, answers, Ending(5, b'1 of 2 refused\nipp-room: refused\n', printed), lines, folder)
    found = {}
    for name in os.listdir(f'{folder}/kept'):
        with open(f'{folder}/kept/{name}', 'rb') as file:
            found[name] = file.read()
    expect(found, kept, 'what is kept')


def documents_without_a_folder(folder):
    """Each document is a line of hexadecimal digits."""
    answers = b'documents 2\ndocument 4 3 application/pdf 4\na\nb\n\ndocument 4 3 text/plain 0\n\n'
    printed = b'document 4 3 application/pdf 4\n610a620a\ndocument 4 3 text/plain 0\n\n'
    expect_sent((), START, answers, well(printed), START, folder)


def no_folder(folder):
    """Where the folder is none, nobody is connected to."""
    with open(f'{folder}/file', 'wb'):
        pass
    for path in ('missing', 'file'):
        expect_ending(run(folder, 'send', '--into', path, 'nobody', given=START), BROKEN_OFF, path)


def long_lines_of_the_input(folder):
    """The longest line is sent; of a longer one nothing is, but what stands before it."""
    longest = b'a' * MOST_LINE
    bad = Ending(2, b'1 of 1 refused\nipp-room: line 1\n', b'bad-line\n')
    expect_sent((), longest, b'bad-line\n', bad, longest + b'\n', folder)
    os.remove(f'{folder}/peer')
    too_long = Ending(2, b'ipp-room: input\n', b'')
    expect_sent((), longest + b'a', b'bad-line\n', too_long, b'', folder)
    os.remove(f'{folder}/peer')
    expect_sent((), b'ping\n' + longest + b'a\n', b'ok\n', too_long._replace(printed=b'ok\n'), b'ping\n', folder)


def long_answers(folder):
    """The longest line of an answer is printed; a longer one is no answer."""
    longest = b'a' * MOST_LINE + b'\n'
    expect_sent((), b'a\n', longest, Ending(5, b'1 of 1 refused\nipp-room: refused\n', longest), b'a\n', folder)
    os.remove(f'{folder}/peer')
    expect_sent((), b'a\n', b'a' + longest, BROKEN_OFF, b'a\n', folder)


def serving(folder):
    run_well(folder, 'create', FILE)
    return Serving(f'{folder}/{FILE}', folder)


def expect_told(folder, address, lines, ending, *options):
    expect_ending(run(folder, 'send', str(address), *options, given=lines), ending, lines)


def lines_of_a_station(folder):
    """A job goes from its release to its end, with bad lines among its lines, and a last line that no line feed ends."""
    with serving(folder) as room:
        opening = b'open alice\nopen bob\ndevice d1 on\ngrant alice 2026-09 100\n'
        expect_told(folder, room.operators, opening, well(b'ok\n' * 4))
        converse(room.port, message('alice', spell('Print-Job 2 alice 03') + b'Hello'))
        lines = b'release d1 alice 1 - 12\nopen alice\nstart d1 alice 1\n\nsettle d1 alice 1 5 done'
        printed = (b'ok reserved 12 left 88\nbad-line\ndocument 1 1 application/octet-stream 5\n48656c6c6f\nbad-line\n'
                   b'ok charged 5 left 95\n')
        expect_told(folder, room.stations, lines, Ending(2, b'2 of 5 refused\nipp-room: line 2\n', printed))
        not_pending = Ending(5, b'1 of 1 refused\nipp-room: refused\n', b'not-pending\n')
        expect_told(folder, room.stations, b'start d1 alice 1\n', not_pending)


def nothing_to_send(folder):
    """Without a line `ping` is asked, and nothing is printed."""
    with serving(folder) as room:
        expect_told(folder, room.stations, b'', well())
    expect_sent((), b'', b'bad-line\n', well(), b'ping\n', folder)


def file_of_grants(folder):
    """Two records are bad, one is of an account that is not open, and two are of a month that has a grant."""
    with serving(folder) as room:
        expect_told(folder, room.operators, b'open alice\nopen bob\n', well(b'ok\nok\n'))
        records = (b'alice,2026-09,100\nalice,2026-09,100\nalice,2026-09,120\nalice,2026-13,5\nbob,2026-10,50\ncarol,2026-09,1\n'
                   b'alice,2026-10\n')
        printed = b'1 ok\n2 same\n3 conflict 100\n4 bad\n5 ok\n6 no-account\n7 bad\n'
        expect_told(folder, room.operators, records, Ending(5, b'5 of 7 refused\nipp-room: refused\n', printed), '--grants')
        expect_told(folder, room.operators, b'grants alice\ngrants bob\n',
                    well(b'grants 1\ngrant 2026-09 100\ngrants 1\ngrant 2026-10 50\n'))


def uri(port):
    return f'ipp://127.0.0.1:{port}/ipp/print/alice'


def directly(folder, room, command, *words, pin=None):
    """Asks `serve`; a PIN is typed at a terminal. How it ended, and the URI that was asked."""
    if pin is None:
        return run(folder, command, uri(room.port), *words, clock=room.clock), uri(room.port)
    return run_typed(folder, room.clock, pin, command, uri(room.port), *words), uri(room.port)


def by_hand(folder, room, command, *words, pin=None):
    """Asks a peer that answers nothing, and then one that answers what `serve` does to the request that the first was sent."""
    given = b'' if pin is None else pin + b'\n'
    with Scripted(b'') as deaf:
        unheard = run(folder, command, uri(deaf.port), *words, given=given, clock=room.clock)
    expect_ending(unheard, BROKEN_OFF, f'{command}, which nobody answers')
    with Scripted(converse(room.port, deaf.sent)) as peer:
        return run(folder, command, uri(peer.port), *words, given=given, clock=room.clock), uri(peer.port)


def run_typed(folder, clock, typed, *words):
    """How a run ends at a terminal on which this is typed once it asks for it."""
    terminal, end = pty.openpty()
    with os.fdopen(terminal, 'r+b', buffering=0) as terminal:
        environment = {**os.environ, **variables('clock', **clock.variables())}
        process = subprocess.Popen([PROGRAM, *words], cwd=folder, env=environment, stdin=end, stdout=subprocess.PIPE, stderr=end)
        os.close(end)
        with process:
            shown = read_shown(terminal, b'PIN: ')
            terminal.write(typed + b'\n')
            printed = process.communicate(timeout=MOST_SECONDS)[0]
        expect(shown + read_shown(terminal), b'PIN: ' + typed + b'\r\n', 'what the terminal shows')
    return namedtuple('Typed', 'status printed told')(process.returncode, printed, b'')


def read_shown(terminal, end=None):
    """What a terminal shows up to this text, or until nobody writes on it."""
    shown = b''
    while end is None or not shown.endswith(end):
        if not select.select([terminal], [], [], MOST_SECONDS)[0]:
            raise Differs(f'the terminal shows {shown!r} and no more')
        try:
            shown += terminal.read(1024)
        except OSError:
            break
    return shown


JOBS = ('job,state,made,copies,impressions,documents,name\r\n'
        f'1,held,{MOMENT},2,3,1,"a,b"\r\n'
        f'2,held,{MOMENT},2,,1,"\'=a,\ufffd\ufffd"\r\n').encode()


def owner(ask, folder):
    """What an owner is told who prints, lists, holds, releases and cancels."""
    with open(f'{folder}/file', 'wb') as file:
        file.write(b'%PDF-1.7')
    with serving(folder) as room:
        def expect_asked(printed, *words, status=0, pin=None):
            ended, asked = ask(folder, room, *words, pin=pin)
            told = b'' if status == 0 else b'ipp-room: refused\n'
            expect_ending(ended, Ending(status, told, printed.replace(b'URI', asked.encode())), ' '.join(words))
        expect_told(folder, room.operators, b'open alice\ndevice d1 on\ngrant alice 2026-09 5\n', well(b'ok\n' * 3))
        expect_asked(b'job 1\nRelease it at a station, or: ipp-room release URI 1\n',
                     'print', 'file', '--name', 'a,b', '--copies', '2', '--pages', '3')
        expect_asked(b'job 2\nRelease it at a station, with its PIN, and tell there how many pages it has.\n',
                     'print', 'file', '--name', '=a,\x1b\u202e', '--copies', '2', '--pin', pin=b'1234')
        expect_asked(JOBS, 'jobs')
        expect_asked(b'quota 6 5\n', 'release', '1', status=5)
        expect_told(folder, room.operators, b'grant alice 2026-08 5\n', well(b'ok\n'))
        expect_asked(b'ok\n', 'release', '1')
        expect_asked(b'ok\n', 'hold', '1')
        expect_asked(b'password\n', 'release', '2', status=5)
        expect_told(folder, room.stations, b'release d1 alice 2 31323334 2\n', well(b'ok reserved 4 left 6\n'))
        expect_asked(b'ok\n', 'cancel', '2')
        expect_asked(b'ended\n', 'cancel', '2', status=5)
        expect_asked(b'no-job\n', 'hold', '3', status=5)
        started = well(b'ok reserved 6 left 4\ndocument 1 2 application/pdf 8\n255044462d312e37\n')
        expect_told(folder, room.stations, b'release d1 alice 1 - -\nstart d1 alice 1\n', started)


def cases():
    for lines, answers, status, told in OUTCOMES:
        sent = lines.rstrip(b'\n') + b'\n'
        yield f'outcome of {answers!r}', partial(expect_sent, (), lines, answers, Ending(status, told, answers), sent)
    for answers in BROKEN:
        yield f'broken answer {answers!r}', partial(expect_sent, (), START, answers, BROKEN_OFF, START)
    yield 'documents of a start', partial(expect_sent, (), START, DOCUMENT, well(b'document 4 1 text/plain 1\n61\n'), START)
    for line in OF_NO_START:
        yield f'documents of no start {line!r}', partial(expect_sent, (), line, DOCUMENT, BROKEN_OFF, line)
    for answers, ending in GRANTED:
        yield f'grants answered {answers!r}', partial(expect_sent, ('--grants',), RECORDS, answers, ending, GRANTS)
    for case in (documents_into_a_folder, documents_without_a_folder, no_folder, long_lines_of_the_input, long_answers,
                 lines_of_a_station, nothing_to_send, file_of_grants):
        yield case.__name__.replace('_', ' '), case
    for ask in (directly, by_hand):
        yield f'an owner, {ask.__name__.replace("_", " ")}', partial(owner, ask)
