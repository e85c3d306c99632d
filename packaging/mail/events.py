"""What the lines of the logs tell somebody: docs/PROTOCOL.md has those of the server, front_log.py those of the front."""
import re
from typing import NamedTuple
from urllib.parse import unquote_to_bytes

KINDS = ('printed', 'failed', 'corrected', 'canceled', 'refused', 'held', 'low', 'waiting')
# The device by which ipp-room-desk takes units off.
DESK = 'desk'
LINE = re.compile(r'(?P<at>\d{1,12}) (?P<side>clients|stations|operators|desk:[a-z][a-z0-9-]{0,31}|front) (?P<rest>.*)')
ACCOUNT, NUMBER, COUNT = r'(?P<account>[a-z][a-z0-9-]{0,31})', r'(?P<job>\d{1,10})', r'-?\d{1,12}'
SETTLED = re.compile(rf'(?P<device>\S+) settle {ACCOUNT} {NUMBER} {COUNT} (?P<how>done|failed) ok charged (?P<units>{COUNT}) left (?P<left>{COUNT})')
STARTED = re.compile(rf'(?P<device>\S+) start {ACCOUNT} {NUMBER} documents {COUNT}')
RELEASED = re.compile(rf'(?P<device>\S+) release {ACCOUNT} {NUMBER} (?:ok reserved {COUNT} left (?P<left>{COUNT})|quota (?P<need>{COUNT}) (?P<has>{COUNT}))')
ASKED = re.compile(rf'{ACCOUNT} (?P<operation>[A-Za-z-]+) (?P<job>\d{{1,10}}|-) 0x(?P<status>[0-9a-f]{{4}}) (?P<word>.*)')
GRANTED = re.compile(rf'grant {ACCOUNT} \S+ {COUNT} ok')
OF_FRONT = re.compile(rf'(?:-|{ACCOUNT}) (?P<how>held|refused) {NUMBER} {COUNT} (?P<user>\S+) (?P<why>\S+)')
QUOTA = re.compile(rf'quota ({COUNT}) ({COUNT})')
# Those by which the front and CUPS print. The front tells itself what came of them, and tries again.
IN_PARTS, AT_ONCE = ('Create-Job', 'Send-Document'), ('Print-Job',)
CLIENT_ERROR, SERVER_ERROR = 0x0400, 0x0500
# Of the server's words, as a person would say them.
WORDS = {'not-accepting': '100 jobs wait in your account. Release or cancel some.', 'document-too-large': 'A document has more than 16 MiB.',
         'impressions-unknown': 'How many pages it has is not known.'}


class Event(NamedTuple):
    """What happened, to whom and when. `once` is what is not told again within a day, if there is such a thing."""

    kind: str
    account: str | None
    at: int
    fields: dict
    user: bytes | None = None
    once: str = ''


class Told(NamedTuple):
    """What a line tells beside events: what is left of an account, whose quota was raised, which job was started."""

    events: list[Event]
    left: tuple[str, int, int] | None = None
    granted: str | None = None
    started: tuple[str, str] | None = None


NOTHING = Told([])


def told_by(line: bytes, has_front: bool) -> Told:
    """What a line tells; nothing, where it is none of those that are known here."""
    found = LINE.fullmatch(line.decode('ascii', 'replace'))
    if not found:
        return NOTHING
    at, side, rest = int(found['at']), found['side'], found['rest']
    if side == 'front':
        return of_front(at, rest)
    if side == 'stations':
        return of_station(at, rest)
    by_operator = side == 'operators' or side.startswith('desk:')
    granted = GRANTED.fullmatch(rest) if by_operator else None
    return Told([], granted=granted['account']) if granted else of_request(at, rest, by_operator, has_front)


def of_front(at: int, rest: str) -> Told:
    found = OF_FRONT.fullmatch(rest)
    if not found:
        return NOTHING
    user, why = unquote_to_bytes(found['user']), unquote_to_bytes(found['why']).decode(errors='replace')
    return Told([Event(found['how'], found['account'], at, {'job': found['job'], 'why': '' if why == '-' else why}, user)])


def of_station(at: int, rest: str) -> Told:
    if found := SETTLED.fullmatch(rest):
        fields = {name: found[name] for name in ('job', 'device', 'units', 'left')}
        kind = 'failed' if found['how'] == 'failed' else 'corrected' if found['device'] == DESK else 'printed'
        return Told([Event(kind, found['account'], at, fields)], left=(found['account'], int(found['left']), at))
    if found := STARTED.fullmatch(rest):
        return Told([], started=(found['account'], found['job']))
    found = RELEASED.fullmatch(rest)
    if found and found['left']:
        return Told([], left=(found['account'], int(found['left']), at))
    return Told([short_of(at, found['account'], found['job'], found['need'], found['has'])]) if found else NOTHING


def of_request(at: int, rest: str, by_operator: bool, has_front: bool) -> Told:
    found = ASKED.fullmatch(rest)
    if not found:
        return NOTHING
    account, job, status, word = found['account'], found['job'], int(found['status'], 16), found['word']
    if by_operator:
        # As `expire` does.
        is_canceled = found['operation'] == 'Cancel-Job' and status < CLIENT_ERROR
        return Told([Event('canceled', account, at, {'job': job})]) if is_canceled else NOTHING
    if not CLIENT_ERROR <= status < SERVER_ERROR:
        return NOTHING
    short = QUOTA.fullmatch(word) if found['operation'] == 'Release-Job' else None
    if short:
        return Told([short_of(at, account, job, *short.groups())])
    if found['operation'] not in (AT_ONCE if has_front else AT_ONCE + IN_PARTS):
        return NOTHING
    return Told([Event('refused', account, at, {'why': WORDS.get(word, f'The release server says: {word}.')}, once=f'{account} {word}')])


def short_of(at: int, account: str, job: str, need: str, has: str) -> Event:
    """A release that the quota does not allow."""
    why = f'It needs {need} units, and {has} are left.'
    return Event('refused', account, at, {'job': job, 'why': why}, once=f'{account} {job} {why}')
