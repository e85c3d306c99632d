"""The PINs by which stations know people. `ipp-room-pins` writes the file, a station with `--pins` reads it.

It is a text in ASCII whose lines have three words:

    ACCOUNT SALT HASH

ACCOUNT is one of the print server, and stands in one line at most. HASH is scrypt (RFC 7914) of the PIN in UTF-8 and of SALT, with
N = 32768, r = 8, p = 3 and 32 bytes; both are in hexadecimal digits. Whoever has the file has to guess, with a third of a second of a
processor and 32 MiB for each guess: 8 digits by chance last a year of one processor, a PIN that people choose does not.

A file with a line of another kind is used for nobody. It is written whole: it is never found half changed.
"""
import contextlib
import fcntl
import hashlib
import hmac
import os
import re
import secrets
import sys
from collections.abc import Iterator

from names import ACCOUNT, Unusable

PINS = '/etc/ipp-room/pins'
# Bytes of a file.
MOST = 16 << 20
COST = {'n': 1 << 15, 'r': 8, 'p': 3, 'maxmem': 64 << 20, 'dklen': 32}
LINE = re.compile(f'({ACCOUNT}) ([0-9a-f]{{32}}) ([0-9a-f]{{64}})')


class Pins:
    """The PINs of a file of these bytes. ValueError where it is none."""

    def __init__(self, data: bytes = b''):
        self.lines: dict[str, tuple[str, str]] = {}
        if data and not data.endswith(b'\n'):
            raise ValueError('its last line does not end')
        for number, line in enumerate(data.decode('ascii').split('\n')[:-1], 1):
            found = LINE.fullmatch(line)
            if not found or found[1] in self.lines:
                raise ValueError(f'line {number} is none of a PIN, or has the account of an earlier one')
            self.lines[found[1]] = found[2], found[3]

    def is_right(self, account: str | None, pin: str) -> bool:
        """Whether this is the account's PIN. To answer takes as long where the account has none."""
        salt, known = self.lines.get(account or '', ('00' * 16, '00' * 32))
        return hmac.compare_digest(hashed(pin, salt), known) and bool(pin)

    def put(self, account: str, pin: str) -> None:
        """Gives the account this PIN, in the place of the one that it has."""
        if not re.fullmatch(ACCOUNT, account) or not pin:
            raise ValueError('no name of an account, or an empty PIN')
        salt = secrets.token_hex(16)
        self.lines[account] = salt, hashed(pin, salt)

    def text(self) -> str:
        return ''.join(f'{account} {salt} {known}\n' for account, (salt, known) in self.lines.items())


def hashed(text: str, salt: str) -> str:
    """A salted slow hash of what somebody typed, in hexadecimal digits."""
    return hashlib.scrypt(text.encode('utf-8', 'surrogatepass'), salt=bytes.fromhex(salt), **COST).hex()


def load(path: str = PINS) -> Pins:
    """The PINs of the file at the path."""
    try:
        with open(path, 'rb') as file:
            data = file.read(MOST + 1)
        if len(data) > MOST:
            raise ValueError(f'it has over {MOST >> 20} MiB')
        return Pins(data)
    except OSError as error:
        raise Unusable(f'{path}: {error.strerror}') from error
    except ValueError as error:
        raise Unusable(f'{path}: {error}') from error


def accounts_of(data: bytes) -> list[str]:
    """The accounts by which these lines begin, as `ipp-room-directory --gone` prints them. ValueError where another begins by none."""
    if data and not data.endswith(b'\n'):
        raise ValueError('its last line does not end')
    accounts = [line.partition(' ')[0] for line in data.decode('ascii').split('\n')[:-1]]
    for number, account in enumerate(accounts, 1):
        if not re.fullmatch(ACCOUNT, account):
            raise ValueError(f'line {number} begins by no account')
    return accounts


def named(words: list[str]) -> tuple[list[str], bool]:
    """The accounts that these words name, and whether each has to have something: not so those of standard input, which `-` stands for."""
    if words != ['-']:
        return words, True
    try:
        return accounts_of(sys.stdin.buffer.read(MOST)), False
    except ValueError as error:
        raise Unusable(f'standard input: {error}') from error


@contextlib.contextmanager
def changing(path: str = PINS) -> Iterator[Pins]:
    """The PINs of the file, which at the end of the block take its place as they are then, or not at all. Another change waits. A file that
    is missing is made, for its user alone.
    """
    try:
        folder = os.open(os.path.dirname(os.path.abspath(path)), os.O_RDONLY)
    except OSError as error:
        raise Unusable(f'{path}: {error.strerror}') from error
    try:
        fcntl.flock(folder, fcntl.LOCK_EX)
        pins = load(path) if os.path.lexists(path) else Pins()
        before = pins.text()
        yield pins
        if pins.text() != before:
            replace(path, pins.text())
            os.fsync(folder)
    except OSError as error:
        raise Unusable(f'{path}: {error.strerror}') from error
    finally:
        os.close(folder)


def replace(path: str, text: str) -> None:
    """Puts a file of this text in the place of the one at the path, with its owner and what its mode lets user and group read."""
    part = f'{path}.part'
    with contextlib.suppress(FileNotFoundError):
        os.remove(part)
    try:
        with open(part, 'x', encoding='ascii', opener=open_own) as file:
            with contextlib.suppress(FileNotFoundError):
                there = os.stat(path)
                os.fchown(file.fileno(), there.st_uid, there.st_gid)
                os.fchmod(file.fileno(), there.st_mode & 0o640)
            file.write(text)
            file.flush()
            os.fsync(file.fileno())
        os.rename(part, path)
    except BaseException:
        with contextlib.suppress(OSError):
            os.remove(part)
        raise


def open_own(path: str, flags: int) -> int:
    """Opens a file for its user alone, whatever the umask, and follows no link."""
    return os.open(path, flags | os.O_NOFOLLOW, 0o600)
