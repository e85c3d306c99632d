"""What `serve` does beside its peers: its log of events, and a backup that goes on while rows change."""
import os

from messages import message
from program import MOMENT, Serving, converse, expect
from visitors import Visitor, answered, ask_others, lines_of, print_job, serving, validate

# The last moment is the second before it.
LATE = 4102444800
# What operators and stations ask, with what is no line and a question.
OPERATOR = (b'device d1 on\nrate d1 2\ngrant alice 2026-09 500\ngrant alice 2026-11 500\nping\nnone\ncancel alice 7\n')
STATION = (b'release d1 alice 7 31323334 -\nrelease d1 alice 1 - 12\nstart d1 alice 1\nsettle d1 alice 1 5 done\n'
           b'release d1 alice 2 - 12\nstart d1 alice 2\nsettle d1 alice 2 15 done\n')
# What comes by a bound door, for another device and its own, with what is no line.
BOUND = b'start d1 alice 1\nlist d1 alice\nnone\nstart d2 alice 1\n'
HEADER_ALONE = message('alice', bytes.fromhex('0101000200000001'))
ELSEWHERE = message('alice', b'').replace(b'/ipp/print/alice', b'/print/alice')
LOGGED = '''operators open alice ok
operators device d1 on ok
operators rate d1 2 ok
operators grant alice 2026-09 500 ok
operators grant alice 2026-11 500 ok
operators refused bad-line
operators alice Cancel-Job 7 0x0406 no-job
clients alice Print-Job 1 0x0000 successful-ok
clients alice Print-Job 2 0x0000 successful-ok
clients alice Validate-Job - 0x0000 successful-ok
clients alice Print-Job - 0x0400 malformed
clients refused 404 /print/alice
stations d1 release alice 7 no-job
stations d1 release alice 1 ok reserved 24 left 476
stations d1 start alice 1 documents 1
stations d1 settle alice 1 5 done ok charged 10 left 490
stations d1 release alice 2 ok reserved 24 left 466
stations d1 start alice 2 documents 1
stations d1 settle alice 2 15 done ok charged 30 left 460
stations d1 beyond alice 2 6
stations refused not-your-device
stations refused not-your-device
stations refused bad-line
stations d2 start alice 1 no-device
'''


def log(folder):
    """Each event, and what a door refused, leaves its line, in order; the log goes on in a new file where it was moved away."""
    with serving(folder, '--log', f'{folder}/events', '--station', 'd2=0') as room:
        converse(room.operators, OPERATOR)
        for request in (print_job(), print_job(), validate(), HEADER_ALONE, ELSEWHERE):
            converse(room.port, request)
        converse(room.stations, STATION)
        converse(room.doors[-1][1], BOUND)
        due = [f'{MOMENT} {line}' for line in LOGGED.splitlines()]
        expect(lines_of(f'{folder}/events'), due, 'the log')
        os.rename(f'{folder}/events', f'{folder}/moved')
        # It looks for its file once a second.
        room.clock.set(MOMENT + 1)
        converse(room.operators, b'device d1 off\n')
        room.clock.set(LATE)
        expect(converse(room.port, HEADER_ALONE), answered('refused 0500 00000001 internal-error'), 'a moment that is past all')
        expect(lines_of(f'{folder}/moved'), due, 'the log that was moved away')
        expect(lines_of(f'{folder}/events'), [f'{MOMENT + 1} operators device d1 off ok',
                                              f'{LATE} clients alice Print-Job - failed'], 'the new log')
        expect(converse(room.operators, b'ping\n'), b'ok\n', 'no line waits')


# What is asked once abby and a job of alice are copied. The copy has what came to alice and the devices, and not what came to
# others whose turn was over.
MEANWHILE = b'open ada\ngrant abby 2026-10 10\ngrant alice 2026-11 60\ndevice d2 on\n'
QUESTIONS = b'accounts -\ndevices\ngrants abby\ngrants alice\njobs alice\nstatement alice 2026-09\n'
COPIED = b'''accounts 2
account abby
account alice
devices 2
device d1 on 2
device d2 on 1
grants 1
grant 2026-09 7
grants 3
grant 2026-09 100
grant 2026-10 50
grant 2026-11 60
jobs 4
job 1 pending d1 1788220800 - - - 1 12 24 0 1 untitled
job 2 held - 1788220800 - - - 1 0 0 0 1 untitled
job 3 held - 1788220800 - - - 1 0 0 0 1 untitled
job 4 held - 1788220800 - - - 1 0 0 0 1 untitled
ok granted 100 reserved 24 charged 0 left 76 month 0 held 3 pending 1 processing 0 ended 0 beyond 0
'''


def backup(folder):
    """A backup goes on slice by slice while rows change, and its copy has of each account what it had when it was copied."""
    first = (b'open abby\nopen alice\ndevice d1 on\nrate d1 2\ngrant abby 2026-09 7\ngrant alice 2026-09 100\n'
             b'grant alice 2026-10 50\n')
    path = f'{folder}/copy'.encode()
    ask_slice = b'slice %b\n' % path
    with serving(folder, lines=first) as room, Visitor(room.operators) as operator:
        def expect_told(lines, told):
            # The slice that the line before asked for is done by then.
            ask_others(room)
            operator.send(lines)
            operator.expect(told, lines)

        def expect_slices(count):
            for _ in range(count):
                expect_told(ask_slice, b'more\n')
        converse(room.port, print_job() * 2)
        converse(room.stations, b'release d1 alice 1 - 12\n')
        expect_told(ask_slice, b'failed\n')
        expect_told(b'backup %b\n' % path, b'ok\n')
        expect_told(b'backup /other\nslice /other\n' + ask_slice, b'busy\nfailed\nmore\n')
        expect_slices(1)
        expect_told(MEANWHILE, b'ok\n' * 4)
        converse(room.port, print_job() * 2)
        expect_slices(5)
        expect_told(ask_slice, b'ok\n')
        expect_told(ask_slice, b'failed\n')
    with Serving(f'{folder}/copy.part', folder) as copy:
        expect(converse(copy.operators, QUESTIONS), COPIED, 'what the copy tells')
        expect(converse(copy.operators, b'check abby\ncheck alice\n'), b'sound\n' * 2, 'the rows of the copy')
        started = b'documents 1\ndocument 1 1 application/octet-stream 5\nHello\n'
        expect(converse(copy.stations, b'start d1 alice 1\n'), started, 'a start over the copy')


def cases():
    yield 'log', log
    yield 'backup', backup
