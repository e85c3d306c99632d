"""Reads LDIF (RFC 2849): the entries of a directory, as ldapsearch prints them. No file that it names, and no change, is taken."""
import base64
import binascii
import re
from collections.abc import Iterator
from typing import NamedTuple

ATTRIBUTE = re.compile('[A-Za-z0-9][A-Za-z0-9-]*(?:\\.[0-9]+)*(?:;[A-Za-z0-9-]*(?:[=*][0-9*-]*)?)*')


class Entry(NamedTuple):
    """An entry, with its attributes by their names in small letters, as bytes. An option belongs to a name: `member;range=0-1499`."""
    dn: str
    values: dict[str, list[bytes]]


def entries_of(data: bytes) -> Iterator[Entry]:
    """The entries. ValueError where it is no LDIF, or does not end behind an entry."""
    # A line that begins with a space goes on with the one before.
    data = data.replace(b'\r\n', b'\n').replace(b'\n ', b'')
    if not is_whole(data):
        raise ValueError('it ends within an entry' if data else 'it is empty')
    for part in re.split(b'\n{2,}', data):
        lines = [line for line in part.split(b'\n') if line and not line.startswith(b'#')]
        if lines and re.match(b'version: *1$', lines[0]):
            del lines[0]
        if lines:
            yield entry_of(lines)


def is_whole(data: bytes) -> bool:
    """Whether an empty line stands behind the last entry, and nothing but comments behind that."""
    if not data.endswith(b'\n'):
        return False
    last = next((line for line in reversed(data[:-1].split(b'\n')) if not line.startswith(b'#')), b'')
    return not last


def entry_of(lines: list[bytes]) -> Entry:
    (first, dn), *others = map(pair_of, lines)
    if first != 'dn':
        raise ValueError(f'an entry begins with {first}')
    values: dict[str, list[bytes]] = {}
    for name, value in others:
        if name in ('dn', 'changetype', 'control'):
            raise ValueError(f'an entry has a line {name}')
        values.setdefault(name, []).append(value)
    return Entry(dn.decode(), values)


def pair_of(line: bytes) -> tuple[str, bytes]:
    """The attribute and the value of a line."""
    name, colon, value = line.partition(b':')
    attribute = name.decode('ascii', 'replace')
    if not colon or not ATTRIBUTE.fullmatch(attribute):
        raise ValueError(f'a line is none of LDIF: {line[:60]!r}')
    if value.startswith(b'<'):
        raise ValueError(f'{attribute} names a file')
    if not value.startswith(b':'):
        return attribute.lower(), value.lstrip(b' ')
    try:
        return attribute.lower(), base64.b64decode(value[1:].strip(b' '), validate=True)
    except binascii.Error as error:
        raise ValueError(f'{attribute} is not base64') from error


def key_of(dn: str) -> tuple:
    """A DN (RFC 4514) so that two of one entry are the same: without spaces around parts, in small letters, escapes as what they mean.

    A server may tell apart what this does not, as values whose capitals count. ValueError where it is none.
    """
    parts = []
    for part in separate(dn, ',;'):
        values = []
        for value in separate(part, '+'):
            name, found, text = value.partition('=')
            if not found or not name.strip(' '):
                raise ValueError(f'{dn[:60]!r} is no DN')
            values.append((name.strip(' ').lower(), meant(text)))
        parts.append(tuple(sorted(values)))
    return tuple(parts)


def separate(text: str, marks: str) -> list[str]:
    """Its parts between these marks, but for those behind a backslash."""
    parts, at, start = [], 0, 0
    while at < len(text):
        if text[at] == '\\':
            at += 1
        elif text[at] in marks:
            parts.append(text[start:at])
            start = at + 1
        at += 1
    return [*parts, text[start:]]


def meant(text: str) -> str:
    """A value without its escapes, of which spaces at the ends and doubled ones do not count (RFC 4518 section 2.6.1)."""
    found = re.sub(rb'\\([0-9a-fA-F]{2})|\\(.)', lambda part: bytes([int(part[1], 16)]) if part[1] else part[2], text.encode(),
                   flags=re.S)
    return re.sub(' +', ' ', found.decode(errors='surrogateescape').lower()).strip(' ')
