"""What lines of the logs tell of an account, in words: of the server's (docs/PROTOCOL.md, The log), and of the desk's doors (record.py).

A line counts only where it has the form of one, up to its end: of one that was cut, with another's behind it, nothing is told. What only
looks, and is of no job or quota, is left out.
"""
import re
from typing import NamedTuple

from lines import JOB, MONTH, NAME, PAGES, UNITS, read_reason

# Seconds between what a door of the desk was told and the server's own line of it.
APART = 5
NUMBER, SIGNED = r'\d{1,19}', r'-?\d{1,19}'
ANSWER = rf'(?:ok(?: (?:reserved|charged) {NUMBER} left {SIGNED})?|documents \d{{1,3}}|[a-z][a-z-]{{0,60}}(?: {SIGNED}){{0,2}})'
OPERATOR = rf'(?P<who>operators|desk:{NAME})'
REQUEST = re.compile(rf'(?P<who>clients|operators|desk:{NAME}) (?P<account>{NAME}) (?P<act>[A-Z][A-Za-z-]{{1,40}}) (?P<job>{JOB}|-) '
                     rf'(?:0x[0-9a-f]{{4}} )?(?P<told>{ANSWER})')
STATION = re.compile(rf'stations (?P<who>{NAME}) (?P<act>release|start|settle|beyond) (?P<account>{NAME}) (?P<job>{JOB})'
                     rf'(?:(?<=[0-9]) (?P<units>{NUMBER})(?: (?P<how>done|failed))?)?(?: (?P<told>{ANSWER}))?')
LINE = re.compile(rf'{OPERATOR} (?:open (?P<opened>{NAME})|grant (?P<account>{NAME}) (?P<month>{MONTH}) (?P<units>{PAGES})) (?P<told>{ANSWER})')
# Of the desk's doors.
CORRECTED = rf'(?:ok granted {NUMBER} month (?P<given>{MONTH})|ok charged {NUMBER} job (?P<charged>{JOB})) left (?P<left>{SIGNED}|-)'
ASKED = (rf'(?P<act>open|grant|cancel|hold|correct(?:-again)?) (?P<account>{NAME})(?: (?P<job>{JOB}))?(?: (?P<month>{MONTH}) (?P<pages>{PAGES}))?'
         rf'(?: (?P<units>{UNITS}) (?P<reason>[!-~]{{1,1000}}))?')
DOOR = re.compile(rf'(?P<role>look|grant|devices|all) (?P<user>[!-~]{{1,200}}) (?P<what>asks|told) (?P<line>{ASKED})'
                  rf'(?: (?P<told>{CORRECTED}|same {NUMBER} [!-~]{{1,200}}|{ANSWER}))?')
# How many fields stand behind the act.
FORMS = {'open': (), 'grant': ('month', 'pages'), 'cancel': ('job',), 'hold': ('job',), 'correct': ('units', 'reason')}

REQUESTS = {'Print-Job': 'Send {job}', 'Create-Job': 'Begin to send {job}', 'Send-Document': 'Send a file of {job}',
            'Cancel-Job': 'Cancel {job}', 'Hold-Job': 'Hold {job}', 'Release-Job': 'Release {job} to any device'}
REASONS = {
    'no-account': 'the account is not open', 'no-job': 'there is no such job in this account', 'ended': 'it has ended',
    'not-accepting': 'the account has as many jobs as it may have', 'closed': 'the job takes no more files',
    'too-many-documents': 'the job has 8 files', 'document-too-large': 'it has more than 16 MiB', 'document-format': 'its format is none that is taken',
    'stopping': 'it was told to stop before', 'printing': 'a device prints it', 'incomplete': 'not all of its files have come',
    'password': 'it has a password, which was not given', 'impressions-unknown': 'its pages are not known', 'not-held': 'it is not held',
    'not-pending': 'it is not released', 'not-processing': 'it is not printed now', 'other-device': 'another device has it',
    'rate': 'a page counts more than 1 unit there', 'no-device': 'there is no such device', 'device-off': 'the device is off',
    'exists': 'it is open already', 'same': 'that is so already', 'busy': 'others were at it', 'canceled': 'the owner canceled it',
    'no-month': 'the account was given units back too often'}


class Row(NamedTuple):
    moment: int
    # The account itself, a station, an operator.
    who: str
    what: str
    came: str
    job: int | None
    # Of a correction.
    reason: str = ''
    # What two lines have in common that tell of one act; and of which a line of the desk's log is.
    act: str = ''
    part: str = ''


def of_server(account: str, job: int | None):
    """Reads lines of the server's log, which stand behind their moments, into rows of the account and the job; None of any other."""
    def read(moment: int, line: bytes) -> Row | None:
        row = server_row(account, moment, line.decode('ascii', 'replace'))
        return row if row and job in (None, row.job) else None
    return read


def server_row(account: str, moment: int, text: str) -> Row | None:
    if found := REQUEST.fullmatch(text):
        return request_row(moment, found) if found['account'] == account else None
    if found := STATION.fullmatch(text):
        return station_row(moment, found) if found['account'] == account else None
    found = LINE.fullmatch(text)
    if not found or account not in (found['opened'], found['account']):
        return None
    what = 'Open the account' if found['opened'] else granted(found['month'], int(found['units']))
    act = f'open {account}' if found['opened'] else f'grant {account} {found["month"]} {found["units"]}'
    return Row(moment, operator(found['who']), what, came_to(found['told']), None, act=f'{act} {found["told"]}')


def request_row(moment: int, found: re.Match) -> Row | None:
    if found['act'] not in REQUESTS:
        return None
    job = int(found['job']) if found['job'] != '-' else None
    word = {'Cancel-Job': 'cancel', 'Hold-Job': 'hold'}.get(found['act'], '')
    told = 'ok' if found['told'].startswith('successful') else found['told']
    act = f'{word} {found["account"]} {job} {told}' if word and found['who'] == 'operators' else ''
    who = 'The account' if found['who'] == 'clients' else operator(found['who'])
    return Row(moment, who, REQUESTS[found['act']].format(job=f'job {job}' if job else 'a job'), came_to(told), job, act=act)


def station_row(moment: int, found: re.Match) -> Row | None:
    act, job, units, told = found['act'], int(found['job']), found['units'], found['told']
    has = (units is not None, found['how'] is not None, told is not None)
    if has != {'settle': (True, True, True), 'beyond': (True, False, False)}.get(act, (False, False, True)):
        return None
    if act == 'beyond':
        what, came = f'Charge for job {job} beyond its release', f'{counted(units, "unit")} more'
    else:
        what, came = {'release': f'Release job {job}', 'start': f'Start job {job}', 'settle': f'Settle job {job}'}[act], came_to(told)
    if act == 'settle':
        what += f', of which {counted(units, "page")} came out{" before the device failed" * (found["how"] == "failed")}'
    return Row(moment, f'Station {found["who"]}', what, came, job)


def operator(who: str) -> str:
    return f'Operator {who.removeprefix("desk:")}' if who.startswith('desk:') else 'An operator'


def granted(month: str, units: int) -> str:
    return f'Grant {counted(units, "unit")} for {month}' if month >= '2000' else f'Give {counted(units, "unit")} back (for {month})'


def counted(number: str | int, word: str) -> str:
    return f'{number} {word}{"s" * (int(number) != 1)}'


def came_to(told: str) -> str:
    """What an answer says, as people read it."""
    words = told.split(' ')
    match words:
        case ['ok']:
            return 'Done'
        case ['ok', 'reserved', units, 'left', left]:
            return f'{counted(units, "unit")} reserved, {left} left'
        case ['ok', 'charged', units, 'left', left]:
            return f'{counted(units, "unit")} charged, {left} left'
        case ['documents', files]:
            return f'{counted(files, "file")} handed to the station'
        case ['failed']:
            return 'Failed: nothing was done'
        case ['quota', need, left]:
            return f'Refused: it needs {counted(need, "unit")}, and {left} were left'
        case ['conflict', held]:
            return f'Refused: the month has a grant of {held}'
        case ['begun']:
            return 'Begun'
        case ['unknown']:
            return 'Not known'
    return f'Refused: {REASONS.get(words[0], told)}'


def of_doors(account: str, job: int | None):
    """Likewise of the desk's log. What was asked and what it came to are two rows, which `matched` makes one."""
    def read(moment: int, line: bytes) -> Row | None:
        row = door_row(account, moment, line.decode('ascii', 'replace'))
        return row if row and job in (None, row.job) else None
    return read


def door_row(account: str, moment: int, text: str) -> Row | None:
    found = DOOR.fullmatch(text)
    if not found or found['account'] != account or (found['told'] is None) != (found['what'] == 'asks'):
        return None
    act = found['act'].removesuffix('-again')
    if tuple(name for name in ('job', 'month', 'pages', 'units', 'reason') if found[name] is not None) != FORMS[act]:
        return None
    if act == 'correct':
        return corrected_row(moment, found)
    job = int(found['job']) if found['job'] else None
    what = {'open': 'Open the account', 'cancel': f'Cancel job {job}', 'hold': f'Hold job {job}'}.get(act)
    what = what or granted(found['month'], int(found['pages']))
    came, act = came_to(found['told']) if found['told'] else '', f'{found["line"]} {found["told"] or ""}'
    return Row(moment, f'Operator {found["user"]}', what, came, job, act=act, part=part_of(found, found['line']))


def corrected_row(moment: int, found: re.Match) -> Row | None:
    units, told = int(found['units']), found['told']
    try:
        reason = read_reason(found['reason'])
    except ValueError:
        return None
    what = f'Give {counted(units, "unit")} back' if units > 0 else f'Take {counted(-units, "unit")} off'
    if told and found['left']:
        by = f', by job {found["charged"]}' if found['charged'] else ''
        came = f'Done{by}' + f', {found["left"]} left' * (found['left'] != '-')
    elif told and told.startswith('same '):
        came = 'Refused: it was done before, in the same words'
    else:
        came = came_to(told) if told else ''
    job = int(found['charged']) if found['charged'] else None
    # The server has a credit as a grant, which the desk asks.
    act = f'grant {found["account"]} {found["given"]} {units} ok' if found['given'] else ''
    part = part_of(found, f'{found["account"]} {units} {found["reason"]}')
    return Row(moment, f'Operator {found["user"]}', what, came, job, reason, act, part)


def part_of(found: re.Match, line: str) -> str:
    return f'{found["what"]} {found["role"]} {found["user"]} {line}'


def matched(server: list[Row], doors: list[Row]) -> list[Row]:
    """One row for each act, newest first: of what a door was asked and told, and the server's line of it, which has no name. What was asked
    and never told may have been done."""
    told, rows = [], []
    for row in doors:
        what, _, rest = row.part.partition(' ')
        if what == 'told':
            told.append(rest)
            rows.append(row)
        elif rest in told:
            told.remove(rest)
        else:
            rows.append(row._replace(came='Not known: it may have been done'))
    by_door = [row for row in rows if row.act]
    for row in server:
        alike = (other for other in by_door if row.act == other.act and abs(row.moment - other.moment) <= APART)
        same = next(alike, None) if row.who == 'An operator' else None
        if same:
            by_door.remove(same)
        else:
            rows.append(row)
    return sorted(rows, key=lambda row: -row.moment)
