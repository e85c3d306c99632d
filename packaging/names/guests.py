"""The guests: who signs in by a code on paper, until when. `ipp-room-guest` writes the file; whoever asks people for a password reads it.

It is a text in ASCII. A line has words, with one space between them:

    guest NAME UNTIL SALT HASH    who has the code signs in as NAME, up to UNTIL, in seconds since 1970
    gone NAME UNTIL               was a guest

A code has 12 of 31 letters and digits, drawn by the system: 59 bits. What is kept is its sum by scrypt (RFC 7914: n 2^14, r 8, p 1), with
a salt of its own, so nobody finds a code who reads the file. A name stays in the file, and belongs to nobody else: whoever asks for
passwords has to ask here first, and a directory only for names that are none of a guest.

Nothing here slows down who guesses; to judge a code takes a processor some 50 ms.
"""
import hashlib
import hmac
import re
import secrets
import time
from typing import NamedTuple

GUESTS = '/etc/ipp-room/guests'
# Without those that look like others: 0 and o, 1, i and l.
LETTERS = '23456789abcdefghjkmnpqrstuvwxyz'
CODE_LENGTH, NAME_LENGTH = 12, 5
NAME = f'guest-[{LETTERS}]{{{NAME_LENGTH}}}'
CODE = re.compile(f'[{LETTERS}]{{{CODE_LENGTH}}}'.encode())
LINE = re.compile(f'guest (?P<name>{NAME}) (?P<until>[0-9]{{1,10}}) (?P<salt>[0-9a-f]{{32}}) (?P<hash>[0-9a-f]{{64}})'
                  f'|gone (?P<was>{NAME}) (?P<ended>[0-9]{{1,10}})', re.ASCII)
# Bytes of the file: of some 80000 guests.
MOST = 16 << 20


class Unusable(Exception):
    """The file can't be read, or is none of guests. Nobody is let in by it."""


class Guest(NamedTuple):
    """A guest up to a moment. One that is gone has no salt and no sum."""
    until: int
    salt: bytes | None = None
    sum: bytes | None = None


def read(path: str = GUESTS) -> dict[str, Guest]:
    """All guests, by their names. Without a file there are none."""
    try:
        with open(path, 'rb') as file:
            data = file.read(MOST + 1)
    except FileNotFoundError:
        return {}
    except OSError as error:
        raise Unusable(f'{path}: {error.strerror}') from error
    return parsed(data, path)


def parsed(data: bytes, path: str) -> dict[str, Guest]:
    if len(data) > MOST:
        raise Unusable(f'{path}: it has over {MOST >> 20} MiB')
    if data and not data.endswith(b'\n'):
        raise Unusable(f'{path}: its last line does not end')
    guests: dict[str, Guest] = {}
    for number, line in enumerate(data.decode('latin-1').split('\n')[:-1], 1):
        found = LINE.fullmatch(line)
        if line.startswith('#') or not line:
            continue
        if not found or (found['name'] or found['was']) in guests:
            raise Unusable(f'{path}: line {number}: is none of a guest, or the second of a name')
        if found['name']:
            guests[found['name']] = Guest(int(found['until']), bytes.fromhex(found['salt']), bytes.fromhex(found['hash']))
        else:
            guests[found['was']] = Guest(int(found['ended']))
    return guests


def written(guests: dict[str, Guest]) -> bytes:
    """The file that has these guests."""
    lines = ['# By ipp-room-guest.']
    for name, guest in guests.items():
        lines.append(f'guest {name} {guest.until} {guest.salt.hex()} {guest.sum.hex()}' if guest.sum else f'gone {name} {guest.until}')
    return '\n'.join([*lines, '']).encode()


def judge(name: bytes, code: bytes, path: str = GUESTS, now: float | None = None) -> bool | None:
    """Whether this is the code of the guest of this name, whose time is not over. None where the name is no guest's, and never was."""
    guest, code = read(path).get(name.decode('latin-1').lower()), bare(code)
    if guest is None:
        return None
    if guest.sum is None or guest.salt is None or (time.time() if now is None else now) >= guest.until:
        return False
    # To scrypt a code and the same one with NUL behind it would be one.
    return bool(CODE.fullmatch(code)) and hmac.compare_digest(sum_of(code, guest.salt), guest.sum)


def bare(code: bytes) -> bytes:
    """A code as it is kept: small letters without the dashes and spaces by which it is read more easily."""
    return re.sub(rb'[- ]', b'', code[:64].lower())


def sum_of(code: bytes, salt: bytes) -> bytes:
    return hashlib.scrypt(code, salt=salt, n=1 << 14, r=8, p=1, dklen=32)


def draw(length: int) -> str:
    return ''.join(secrets.choice(LETTERS) for _ in range(length))


def new_guest(until: int) -> tuple[str, Guest]:
    """A new code, as it is put on paper, and its guest."""
    code, salt = draw(CODE_LENGTH), secrets.token_bytes(16)
    return '-'.join(code[at:at + 4] for at in range(0, CODE_LENGTH, 4)), Guest(until, salt, sum_of(code.encode(), salt))
