"""The doors of `serve`: who comes in by each, and how many are let in."""
import time
from contextlib import ExitStack, contextmanager
from functools import partial

from database import FILE
from program import Serving, converse, expect, run_well
from visitors import Visitor, ask_others, print_job, printed, serving, valid, validate


def visitors(folder):
    """An operator, two who print at once and a station, whose bytes come in pieces in turns, are told their own each."""
    with serving(folder) as room, ExitStack() as stack:
        def enter(address, sent, told):
            return stack.enter_context(Visitor(address)), sent, told

        def come_in(*others):
            """Sends 60 bytes of each at a time, which `serve` reads before more comes, and expects what each is told."""
            for at in range(0, max(len(sent) for _, sent, _ in others), 60):
                for visitor, sent, _ in others:
                    visitor.send(sent[at:at + 60])
                converse(room.operators, b'ping\n')
            for visitor, _, told in others:
                visitor.expect(told)
                visitor.expect_quiet(room, 'behind what is due')
        operator = enter(room.operators, b'open bob\ndevice d1 on\nrate d1 2\ngrant alice 2000-01 100\nopen alice\n',
                         b'ok\nok\nok\nok\nexists\n')
        come_in(operator)
        clients = (enter(room.port, print_job(), printed()),
                   enter(room.port, print_job('bob', 3, b'World'), printed('bob', 3)))
        come_in(*clients)
        station = enter(room.stations, b'release d1 alice 1 - 12\nstart d1 alice 1\nopen carol\nsettle d1 alice 1 5 done\n',
                        b'ok reserved 24 left 76\ndocuments 1\ndocument 1 1 application/octet-stream 5\nHello\nbad-line\n'
                        b'ok charged 10 left 90\n')
        come_in(station)
        for visitor, _, _ in (*clients, station):
            visitor.end()
            visitor.expect_end('who ends is let go')
        operator[0].expect_quiet(room, 'the operator')
        operator[0].send(b'ping\n')
        operator[0].expect(b'ok\n', 'the operator stays')


# Of each kind of door: its option, how many it lets in, and what one says there and is told.
STYLE = b'GET /style.css HTTP/1.1\r\nHost: localhost\r\n\r\n'
DOORS = (
    ('clients', 768, validate(), valid()),
    ('pages', 256, STYLE, b'HTTP/1.1 200 OK\r\n'),
    ('desk', 64, b'GET /style.css HTTP/1.1\r\nHost: localhost\r\nX-Operator: olga\r\n\r\n', b'HTTP/1.1 200 OK\r\n'),
    ('stations', 192, b'release d1 alice 1 - -\nopen bob\n', b'no-job\nbad-line\n'),
    ('station', 16, b'release d1 alice 1 - -\nopen bob\n', b'no-job\nbad-line\n'),
    ('operators', 64, b'ping\n', b'ok\n'),
)


# Longer than somebody who says nothing keeps a place that another needs.
LONG = 0.5
UPLOAD = (b'POST /alice/print?name=a&copies=1&pages=1 HTTP/1.1\r\nHost: localhost\r\nSec-Fetch-Site: same-origin\r\n'
          b'Content-Type: text/plain\r\nContent-Length: 100000\r\n\r\n' + 20000 * b'a')


def full_door(kind, most, says, told, folder):
    """So many are let in by a further door, who speak what its kind says; another has the place of who says nothing more."""
    with at_door(kind, folder) as (room, address), ExitStack() as stack:
        within = [stack.enter_context(Visitor(address)) for _ in range(most)]
        for visitor in within:
            visitor.send(says)
            visitor.expect(told, 'one who is let in')
        expect(any(visitor.hangs_up(0) for visitor in within), False, 'somebody has left before')
        late = stack.enter_context(Visitor(address))
        late.send(says)
        late.expect(told, 'one who comes to a full door')
        expect(any(visitor.hangs_up(0) for visitor in within), True, 'somebody has left')
        expect(converse(room.stations, b'release d1 alice 1 - -\n'), b'no-job\n', 'a station by another door')
        expect(converse(room.port, validate()), valid(), 'a client by another door')


def slow_door(kind, most, says, told, folder):
    """More than a door takes have begun to say something there, and do not end it: whoever comes is answered all the same."""
    with at_door(kind, folder) as (_, address), ExitStack() as stack:
        for _ in range(most + 20):
            stack.enter_context(Visitor(address)).send(says[:3])
        time.sleep(LONG)
        for _ in range(3):
            begun = time.monotonic()
            late = stack.enter_context(Visitor(address))
            late.send(says)
            late.expect(told, 'one who comes behind slow ones')
            expect(time.monotonic() - begun < 5, True, 'their time was not over before')


def busy_door(folder):
    """Of whom a file is coming nobody loses the place: who comes waits until one has gone."""
    with at_door('pages', folder) as (room, address), ExitStack() as stack:
        within = [stack.enter_context(Visitor(address)) for _ in range(256)]
        for visitor in within:
            visitor.send(UPLOAD)
        ask_others(room)
        time.sleep(LONG)
        late = stack.enter_context(Visitor(address))
        late.send(STYLE)
        late.expect_quiet(room, 'one who waits')
        time.sleep(LONG)
        late.expect_quiet(room, 'one who waits still')
        within[100].stream.close()
        late.expect(b'HTTP/1.1 200 OK\r\n', 'one who waited')


@contextmanager
def at_door(kind, folder):
    """A run of `serve` with a further door of this kind, and where that is."""
    address = f'{folder}/door'
    options = (f'--{kind}', f'd1={address}' if kind == 'station' else address)
    run_well(folder, 'create', FILE)
    with Serving(f'{folder}/{FILE}', folder, options) as room:
        converse(room.operators, b'open alice\ndevice d1 on\n')
        yield room, address


def cases():
    yield 'visitors', visitors
    for door in DOORS:
        yield f'a full door of {door[0]}', partial(full_door, *door)
        yield f'a door of slow {door[0]}', partial(slow_door, *door)
    yield 'a door at which files come', busy_door
