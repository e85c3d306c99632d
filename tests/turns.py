"""What no row says of `serve` as it goes on, held against docs/PROTOCOL.md: turns, room and deadlines.

Nothing waits for time to pass, but a case of ten seconds: what may not come yet is looked for once other peers were answered
behind it, so `serve` had its turn.
"""
import time
from contextlib import ExitStack

from messages import head, message
from notation import spell
from program import Differs, converse, expect
from visitors import CONTINUED, REFUSED, Visitor, ask_others, lines_of, serving, valid, validate

MOST_LINE = 65536
LONGEST_REQUEST = 16384 + 16842752
# The most that the system holds of what was sent to a socket at a path.
MOST_UNDERWAY = 212992


def flood(folder):
    """300 requests at once, and the end, are answered in order, all of them."""
    numbers = range(1, 301)
    with serving(folder) as room:
        told = converse(room.port, b''.join(validate(number) for number in numbers))
    expect(told, b''.join(valid(number) for number in numbers))


def few_requests_a_turn(folder):
    """Of two floods that come at once four requests each at most are answered before one that came between them."""
    flood, count = validate() * 300, 300
    with serving(folder, '--log', f'{folder}/events', lines=b'open alice\nopen bob\n') as room, ExitStack() as stack:
        first, other, last = (stack.enter_context(Visitor(room.port)) for _ in range(3))
        for visitor in (first, other, last):
            visitor.send(validate())
            visitor.expect(valid())
        with room.paused():
            first.send(flood)
            other.send(message('bob', spell('Validate-Job 1 bob 03')))
            last.send(flood)
        other.expect(valid(), 'the other')
        for visitor in (first, last):
            visitor.expect(valid() * count, 'a flood')
        # The accounts of what is answered behind the opening of two and the first requests.
        asked = [line.split()[2] for line in lines_of(f'{folder}/events')[5:]]
    expect((asked.index('bob') <= 8, len(asked)), (True, 2 * count + 1), f'in turns: {asked[:20]}')


def client_that_ends(folder):
    """A connection closes behind its answer where the client sends no more, and one on which nothing was begun."""
    with serving(folder) as room:
        expect(converse(room.port, validate()), valid())
        expect(converse(room.port, b''), b'')


def body_that_was_asked_for(folder):
    """The 100 text comes behind the head, and the answer behind the body; the connection goes on."""
    with serving(folder) as room, Visitor(room.port) as client:
        body = spell('Validate-Job 1 alice 03')
        client.send(head('alice', 'Expect: 100-continue', f'Content-Length: {len(body)}'))
        client.expect(CONTINUED)
        client.expect_quiet(room, 'before the body')
        client.send(body)
        client.expect(valid())
        client.send(validate(2))
        client.expect(valid(2), 'behind the answer')


def refusal(folder):
    """Nothing is answered behind a refusal, and the connection is let go when the client ends."""
    with serving(folder) as room, Visitor(room.web) as client:
        client.send(b'GET nothing\r\n\r\n')
        client.expect(REFUSED)
        client.send(validate())
        client.expect_end('behind the refusal')
        ask_others(room)
        expect(connections(room.web), 1, 'connections before the client ends')
        client.end()
        wait_until(lambda: connections(room.web) == 0, 5, 'the connection is let go')


def connections(path):
    """How many connections that were made to the path are open at its door, which is open too."""
    with open('/proc/net/unix', encoding='utf-8') as sockets:
        return sum(line.split()[-1] == path for line in sockets) - 1


def wait_until(is_so, seconds, what):
    end = time.monotonic() + seconds
    while not is_so():
        if time.monotonic() > end:
            raise Differs(f'not within {seconds} s: {what}')
        time.sleep(0.01)


def ten_seconds(folder):
    """A body that was asked for, the rest of a line and of a request, and an end behind a refusal are waited for ten seconds."""
    with serving(folder, '--stations', f'{folder}/stations') as room, ExitStack() as stack:
        def begin(address, sent, told=b''):
            visitor = stack.enter_context(Visitor(address))
            visitor.send(sent)
            visitor.expect(told, sent)
            return visitor
        begun = time.monotonic()
        waited_for = [begin(room.web, head('alice', 'Expect: 100-continue', 'Content-Length: 119'), CONTINUED),
                      begin(room.web, validate()[:40]),
                      begin(f'{folder}/stations', b'settle d1 alice 1'),
                      begin(room.web, b'GET nothing\r\n\r\n', REFUSED)]
        waited_for[-1].send(validate())
        for visitor in waited_for:
            expect(visitor.hangs_up(max(0, begun + 9.9 - time.monotonic())), False, 'it is let go before ten seconds')
        for visitor in waited_for:
            expect(visitor.hangs_up(4), True, 'it is let go behind ten seconds')
            visitor.expect_end('what is told as it is let go')


class Filled:
    """Large requests that do not go on, so that there is no room for others. One is coming still; `make_room` ends it."""

    def __init__(self, room, stack):
        self.room, self.stack = room, stack
        # Fourteen buffers of the longest request leave less than two more take; the last is the one that goes on coming.
        for _ in range(13):
            self.send_half()
        self.fill_up()

    def send_half(self):
        """A request whose buffer is that of the longest, since so much of it came."""
        visitor = self.stack.enter_context(Visitor(self.room.web))
        visitor.send(head('alice', 'Content-Length: 16777216') + bytes(LONGEST_REQUEST // 2 + MOST_UNDERWAY))
        return visitor

    def fill_up(self):
        self.last = self.send_half()

    def make_room(self):
        self.last.stream.close()


def room_for_large_requests(folder):
    """Where there is no room a large request stops coming, a small one does not, and the large one goes on with room."""
    large = message('alice', spell('Validate-Job 3 alice 03').ljust(1_000_000, b'a'))
    with serving(folder) as room, ExitStack() as stack:
        client = stack.enter_context(Visitor(room.web))
        filled = Filled(room, stack)
        client.send(validate())
        client.expect(valid(), 'a small request')
        sent = client.send_what_goes(room, large)
        expect(sent < 300_000 + MOST_UNDERWAY, True, f'{sent} bytes of the large request came')
        client.expect_quiet(room, 'the large request')
        filled.make_room()
        client.send(large[sent:])
        client.expect(valid(3), 'with room')
        client.send(validate(4))
        client.expect(valid(4), 'a small request behind it')


def room_for_starts(folder):
    """Lines are answered one by one, and where there is no room a start is held back, and what stands behind it."""
    with serving(folder) as room, ExitStack() as stack:
        filled = Filled(room, stack)
        station = stack.enter_context(Visitor(room.stations))
        station.send(b'release d1 alice 1 - -\nstart d1 alice 1\nsettle d1 alice 1')
        station.expect(b'no-device\n', 'the release')
        station.expect_quiet(room, 'the start')
        filled.make_room()
        station.expect(b'no-device\n', 'the start, with room')
        station.expect_quiet(room, 'the rest of a line is due')
        filled.fill_up()
        station.send(b' 4 done\nstart ')
        station.expect(b'no-device\n', 'the settling')
        station.send(b'd1 alice 1\nrelease d1 alice 1 - -\n')
        station.expect_quiet(room, 'the second start')
        filled.make_room()
        station.expect(b'no-device\nno-device\n', 'the second start, with room')


def long_lines(folder):
    """The longest line is answered and a longer one that has an end, without it the connection ends, also of two parts."""
    longest = b'a' * MOST_LINE
    with serving(folder) as room:
        with Visitor(room.stations) as station:
            station.send(longest)
            station.expect_quiet(room, 'the longest line is not too long')
            station.send(b'\nstart d1 alice 1\n')
            station.expect(b'bad-line\nno-device\n')
            station.send(longest)
            station.expect_quiet(room, 'the longest line once more')
            station.send(b'a')
            station.expect(b'bad-line\n', 'one byte more')
            station.expect_end('behind the line that is too long')
        with Visitor(room.stations) as station:
            station.send(b'start ')
            station.expect_quiet(room, 'the first part')
            station.send(longest)
            station.expect(b'bad-line\n', 'two parts')
            station.expect_end('behind two parts')


def lines_that_are_no_text(folder):
    """A control character, as in what a site has a browser send to such a port, ends the connection: nothing behind it is done."""
    form = b'POST / HTTP/1.1\r\nHost: 127.0.0.1\r\nContent-Type: text/plain\r\nContent-Length: 27\r\n\r\nopen mallory\nrate d1 9\nend\n'
    hello = b'\x16\x03\x01\x00\x45\x01\x00\x00\x41\x03\x03' + b'ticket\nopen mallory\nrate d1 9\nend\n'
    others = (form, hello, b'open mallory\r\nopen mallory\n', b'\x1f\nopen mallory\n', b'open\tmallory\nopen mallory\n',
              b'open\x7fmallory\nopen mallory\n')
    with serving(folder) as room:
        for said in others:
            for address in (room.operators, room.stations):
                with Visitor(address) as visitor:
                    visitor.send(said)
                    visitor.expect(b'bad-line\n', 'once')
                    visitor.expect_end('behind the line')
        with Visitor(room.operators) as operator:
            operator.send(b'ping\nopen bob\nopen mallory\0\nopen mallory\n')
            operator.expect(b'ok\nok\nbad-line\n', 'what stands before it is answered')
            operator.expect_end('behind the line')
        expect(converse(room.operators, b'left mallory 2026-09\nleft bob 2026-09\n'), b'no-account\nok granted 0 reserved 0 charged 0 left 0\n', 'what was done')


def line_that_is_cut_off(folder):
    """A line that no line feed ends changes nothing, even if it is one of the grammar."""
    with serving(folder) as room:
        with Visitor(room.operators) as operator:
            operator.send(b'open bob')
            operator.expect_quiet(room, 'the line waits for its end')
            operator.end()
            operator.expect(b'bad-line\n')
            operator.expect_end('behind the line')
        expect(converse(room.operators, b'open bob\n'), b'ok\n', 'the same line with its end')


def questions_in_rounds(folder):
    """Of eight operators who grant and ask at once each is told all that it granted before, also where they share commits."""
    accounts = [b'o%d' % number for number in range(8)]
    with serving(folder, lines=b''.join(b'open %b\n' % account for account in accounts)) as room, ExitStack() as stack:
        operators = [stack.enter_context(Visitor(room.operators)) for _ in accounts]
        for operator in operators:
            operator.send(b'ping\n')
            operator.expect(b'ok\n')
        with room.paused():
            for account, operator in zip(accounts, operators):
                operator.send(b''.join(b'grant %b 2026-%02d 5\nleft %b 2099-12\n' % (account, month, account) for month in range(1, 13)))
        due = b''.join(b'ok\nok granted %d reserved 0 charged 0 left %d\n' % (5 * count, 5 * count) for count in range(1, 13))
        for operator in operators:
            operator.expect(due)


def cases():
    for case in (ten_seconds, flood, few_requests_a_turn, client_that_ends, body_that_was_asked_for, refusal,
                 room_for_large_requests, room_for_starts, long_lines, lines_that_are_no_text, line_that_is_cut_off,
                 questions_in_rounds):
        yield case.__name__.replace('_', ' '), case
