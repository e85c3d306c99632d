"""Files of grants, as people write them and as Excel saves them: in UTF-8 or Windows-1252, with commas, semicolons or tabs, with quotes
and empty rows. Nothing is guessed of what a field says: whatever could be read in two ways is refused, with what to change.
"""
import codecs
import csv
import io
import re
from typing import Iterator, NamedTuple

from lines import GRANTED_MONTH, NAME

COLUMNS = ('account', 'month', 'pages')
MOST_BYTES, MOST_ROWS, MOST_FIELD, MOST_PAGES = 64 << 20, 100000, 255, 1000000000
MOST_SHOWN = 40
# What other programs begin a file with.
WORKBOOKS = {b'PK\x03\x04': 'an Excel workbook (.xlsx)', b'\xd0\xcf\x11\xe0': 'an Excel workbook (.xls)', b'%PDF': 'a PDF'}
SPACES = ' \t\xa0\u202f\u2007'


class Unusable(Exception):
    """The file is none of grants. Says where, and what to change."""


class Grant(NamedTuple):
    line: int
    account: str
    month: str
    pages: int


def read(data: bytes) -> list[Grant]:
    """The grants of a file, in its order."""
    text, separator = without_hint(text_of(data))
    if not text.strip(f'{SPACES}\r\n,;"'):
        raise Unusable('it has no row with account, month and pages')
    rows = [(line, [field.strip(SPACES) for field in fields]) for line, fields in rows_of(text, separator or separator_of(text))]
    rows = [(line, fields) for line, fields in rows if any(fields)]
    if len(rows) > MOST_ROWS + 1:
        raise Unusable(f'it has over {MOST_ROWS} rows: part it into several files')
    heading, rows = heading_of(rows)
    grants = [grant_of(line, fields, heading) for line, fields in rows]
    if not grants:
        raise Unusable('it has no row with account, month and pages')
    check_once(grants)
    return grants


def text_of(data: bytes) -> str:
    if len(data) > MOST_BYTES:
        raise Unusable(f'it has over {MOST_BYTES >> 20} MiB')
    for start, what in WORKBOOKS.items():
        if data.startswith(start):
            raise Unusable(f'it is {what}: save it as CSV')
    for mark, encoding in ((codecs.BOM_UTF8, 'utf-8'), (codecs.BOM_UTF16_LE, 'utf-16-le'), (codecs.BOM_UTF16_BE, 'utf-16-be')):
        if data.startswith(mark):
            return decoded(data[len(mark):], encoding)
    try:
        return data.decode()
    except UnicodeDecodeError:
        return decoded(data, 'cp1252')


def decoded(data: bytes, encoding: str) -> str:
    try:
        return data.decode(encoding)
    except UnicodeDecodeError as error:
        raise Unusable('it is no text: save it as CSV, in UTF-8') from error


def without_hint(text: str) -> tuple[str, str | None]:
    """The text, and the separator that its first line tells as Excel reads it (`sep=;`). That line is left empty."""
    found = re.match('"?sep=([,;\t])"?(?=\r?\n|\r)', text, re.IGNORECASE)
    return (text[found.end():], found[1]) if found else (text, None)


def separator_of(text: str) -> str:
    """What parts the fields: of commas, semicolons and tabs the one by which the first row that has a word has three fields."""
    fitting = [separator for separator in ',;\t' if len(first_row(text, separator)) >= len(COLUMNS)]
    if len(fitting) != 1:
        raise Unusable('its first row has not account, month and pages, with commas, semicolons or tabs of one kind between them, '
                       'or a quote is missing')
    return fitting[0]


def first_row(text: str, separator: str) -> list[str]:
    """The first row that has a word; none where quotes and this separator do not go together."""
    try:
        return next((fields for _, fields in rows_of(text, separator) if any(field.strip(SPACES) for field in fields)), [])
    except Unusable:
        return []


def rows_of(text: str, separator: str) -> Iterator[tuple[int, list[str]]]:
    """Each row with the line at which it ends."""
    lines = csv.reader(io.StringIO(text, newline=''), delimiter=separator, strict=True)
    try:
        for fields in lines:
            yield lines.line_num, fields
    except csv.Error as error:
        raise Unusable(f'line {lines.line_num}: {error}: a quote is missing, or a byte is none of a text') from error


def heading_of(rows: list[tuple[int, list[str]]]) -> tuple[list[int] | None, list[tuple[int, list[str]]]]:
    """The places of account, month and pages, if there is a heading that names the columns, and the other rows."""
    first = [field.casefold() for field in rows[0][1]] if rows else []
    if not set(COLUMNS) & set(first):
        return None, rows
    if any(first.count(name) != 1 for name in COLUMNS):
        raise Unusable(f'line {rows[0][0]}: the heading has not each of account, month and pages once')
    return [first.index(name) for name in COLUMNS], rows[1:]


def grant_of(line: int, fields: list[str], heading: list[int] | None) -> Grant:
    places = heading or [0, 1, 2]
    if len(fields) <= max(places):
        raise Unusable(f'line {line}: it has {len(fields)} fields: account, month and pages are needed')
    if heading is None and any(fields[len(places):]):
        raise Unusable(f'line {line}: it has more than account, month and pages: leave the rest out, or name the columns in a heading')
    account, month, pages = (fields[place] for place in places)
    for text, fault in ((account, fault_of_account), (month, fault_of_month), (pages, fault_of_pages)):
        said = fault(text)
        if said:
            raise Unusable(f'line {line}: {shown(text)} {said}')
    return Grant(line, account, month, int(pages))


def fault_of_account(text: str) -> str | None:
    if re.fullmatch(NAME, text):
        return None
    if re.fullmatch(NAME, text.lower()):
        return 'is no account, which has small letters alone'
    return 'is no account: `ipp-room-names tell` says which account belongs to a name. A heading has account, month and pages'


def fault_of_month(text: str) -> str | None:
    if re.fullmatch(GRANTED_MONTH, text):
        return None
    if re.fullmatch('19[0-9][0-9]-[01][0-9]', text):
        return 'is a month before 2000-01: to give pages back use `ipp-room-desk correct`'
    return 'is no month as 2026-11: Excel keeps it so in cells of the format Text, or JJJJ-MM (YYYY-MM)'


def fault_of_pages(text: str) -> str | None:
    if re.fullmatch('[1-9][0-9]*', text) and int(text[:11]) <= MOST_PAGES:
        return None
    if text == '0':
        return 'pages would use the month up: leave the row out'
    if re.fullmatch(r"[0-9]{1,3}([.,' \xa0\u202f\u2019][0-9]{3})+", text):
        return 'could be thousands or a fraction: write digits alone, as 1000'
    if re.fullmatch('[0-9]+[.,][0-9]+', text):
        return 'is a fraction, or has a sign for one: write whole pages, in digits alone'
    if re.fullmatch('-[0-9.,]+', text):
        return 'would take pages away: use `ipp-room-desk correct`'
    return f'is no number of pages, 1 to {MOST_PAGES}, in digits alone'


def shown(text: str) -> str:
    return repr(''.join(letter if letter.isprintable() else '?' for letter in text[:MOST_SHOWN]))


def check_once(grants: list[Grant]) -> None:
    seen = {}
    for grant in grants:
        other = seen.setdefault((grant.account, grant.month), grant)
        if other is not grant:
            raise Unusable(f'line {grant.line}: {grant.account} has a row for {grant.month} in line {other.line} already')
