"""Whose address is whose: by a file of lines ACCOUNT ADDRESS, where `-` is for who wants no mail; else NAME@DOMAIN, by the name with which
the table of names has somebody sign in.

An address has letters, digits and `._+-` before the `@`, so nothing of it is read as a word of a command or a field of a mail. Who has a
name with a realm, or one of other letters, has none but by the file: alice@CS.EXAMPLE.ORG may be another than alice@example.org.
"""
import os
import re

from guests import NAME as GUEST
from names import ACCOUNT, Unusable, load

NAME, HOST = r'[A-Za-z0-9_][A-Za-z0-9._+-]{0,63}', r'[A-Za-z0-9]([A-Za-z0-9-]*[A-Za-z0-9])?(\.[A-Za-z0-9]([A-Za-z0-9-]*[A-Za-z0-9])?)*'
LONGEST, MOST = 254, 16 << 20


class Kept:
    """What was read of a file, until that is another."""

    def __init__(self, path: str | None, read):
        self.path, self.read, self.stamp, self.value = path, read, None, None

    def get(self):
        told = os.stat(self.path)
        stamp = told.st_ino, told.st_size, told.st_mtime_ns
        if stamp != self.stamp:
            self.value, self.stamp = self.read(self.path), stamp
        return self.value


class Addresses:
    """OSError and Unusable where a file can't be read now. Without a domain only who is in the file has an address."""

    def __init__(self, table: str, path: str | None, domain: str | None):
        self.table, self.file, self.domain = Kept(table, names_by_account), Kept(path, read_addresses) if path else None, domain

    def of(self, account: str | None, user: bytes | None) -> str | None:
        """The address of an account's owner; of who has no account, that of the one who signed in."""
        if account and self.file and (told := self.file.get().get(account)):
            return None if told == '-' else told
        if not self.domain:
            return None
        if account is None:
            return self.of_name(user)
        names, first = self.table.get()
        name = first.get(account, account.encode())
        return self.of_name(name) if names.account_of(name) == account else None

    def of_name(self, name: bytes | None) -> str | None:
        text = (name or b'').decode('ascii', 'replace')
        address = f'{text}@{self.domain}'
        # A guest's name is no mailbox.
        return address if re.fullmatch(NAME, text) and not re.fullmatch(GUEST, text) and is_address(address) else None


def names_by_account(table: str):
    """The table, and of each account of its lines the first name without a realm."""
    names, first = load(table), {}
    for name, account in names.owners.items():
        if account and not re.search(rb'[\\@]', name):
            first.setdefault(account, name)
    return names, first


def read_addresses(path: str) -> dict[str, str]:
    """Those of the file. None is believed of one with a line that is none."""
    with open(path, 'rb') as file:
        data = file.read(MOST + 1)
    found = {}
    try:
        if len(data) > MOST or (data and not data.endswith(b'\n')):
            raise ValueError('it is too long, or its last line does not end')
        for number, line in enumerate(data.decode('ascii').split('\n'), 1):
            words = line.split()
            if not words or words[0].startswith('#'):
                continue
            if len(words) != 2 or not re.fullmatch(ACCOUNT, words[0]) or not (words[1] == '-' or is_address(words[1])) or words[0] in found:
                raise ValueError(f'line {number} is no account with an address, or has one that stands before')
            found[words[0]] = words[1]
    except ValueError as error:
        raise Unusable(f'{path}: {error}') from error
    return found


def is_address(text: str) -> bool:
    return len(text) <= LONGEST and '..' not in text and '.@' not in text and re.fullmatch(rf'{NAME}@{HOST}', text) is not None
