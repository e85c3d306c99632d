"""Changes the table of names (names.py), for `ipp-room-names` and what fills the table by itself.

Nothing here asks who somebody is: who may add a name has to know whose it is.
"""
import contextlib
import fcntl
import os
import shutil
from typing import Callable, Iterable, Iterator

from names import Names, fault_of, read


def sort_out(names: Names, listed: Iterable[bytes]) -> tuple[int, dict[str, str], dict[bytes, str]]:
    """Of these names: how many have an account, the accounts that the others get, and why some get none."""
    known, wanted, left = 0, {}, {}
    for name in dict.fromkeys(listed):
        if names.account_of(name):
            known += 1
            continue
        bare = names.without_realm(names.folded(name))
        fault = why_none(names, bare)
        if fault:
            left[name] = fault
        else:
            wanted.setdefault(names.made_of(bare.decode()), {}).setdefault(bare, name)
    for account, who in list(wanted.items()):
        if len(who) > 1:
            # Neither is first.
            left.update((name, f'{len(who)} of the list would have {account}') for name in who.values())
            del wanted[account]
    return known, {account: bare.decode() for account, (bare,) in wanted.items()}, left


def why_none(names: Names, bare: bytes) -> str | None:
    """Why the rules give no account to a name that has none; None where they do."""
    try:
        name = bare.decode()
    except UnicodeDecodeError:
        return 'it is not UTF-8'
    if fault_of(name):
        return f'it is one {fault_of(name)}'
    account = names.made_of(name)
    if account is None:
        return "the rules make no account's name of it"
    is_taken = account in names.accounts or account.encode() in names.owners
    return f'{account} is the account or the name of somebody else' if is_taken else None


@contextlib.contextmanager
def alone(path: str) -> Iterator[None]:
    """Has another run wait that would change the file, or one beside it."""
    folder = os.open(os.path.dirname(path), os.O_RDONLY)
    try:
        fcntl.flock(folder, fcntl.LOCK_EX)
        yield
    finally:
        os.close(folder)


def add_accounts(path: str, wanted: dict[str, str]) -> None:
    """Adds a line for each account and its name to the table, all or none."""
    put(path, lambda data: data + lines_of(wanted))


def lines_of(wanted: dict[str, str]) -> bytes:
    return ''.join(f'account {account} {name}\n' for account, name in wanted.items()).encode()


def without_names(data: bytes, names: Names, unwanted: set[bytes]) -> bytes:
    """A table from whose lines these names, folded, are taken out. A line that has no other goes with them."""
    kept = []
    for line in data.split(b'\n'):
        words = line.replace(b'\t', b' ').split()
        others = [word for word in words[2:] if names.folded(word) not in unwanted]
        if words[:1] == [b'account'] and len(others) < len(words) - 2:
            if others:
                kept.append(b' '.join([*words[:2], *others]))
        else:
            kept.append(line)
    return b'\n'.join(kept)


def put(path: str, edit: Callable[[bytes], bytes]) -> None:
    """Puts what `edit` makes of the table in its place, if that is a table. A run beside this one has to be kept out (alone)."""
    def write(part: str) -> None:
        with open(path, 'rb') as file:
            text = edit(file.read())
        write_like(path, part, text)
        # What was written is a table, perhaps without an account.
        read(part)
    replace(path, write)


def write_like(path: str, part: str, text: bytes) -> None:
    """A new file with the owner and the mode of the one at the path."""
    with open(part, 'xb') as file:
        shutil.chown(part, os.stat(path).st_uid, os.stat(path).st_gid)
        shutil.copymode(path, part)
        file.write(text)


def replace(path: str, write: Callable[[str], None]) -> None:
    """Puts a file that `write` writes at a path in the place of the one that is there, whole or not at all."""
    part = f'{path}.part'
    with contextlib.suppress(FileNotFoundError):
        os.remove(part)
    try:
        write(part)
        with open(part, 'rb') as file:
            os.fsync(file.fileno())
        os.rename(part, path)
    except BaseException:
        with contextlib.suppress(OSError):
            os.remove(part)
        raise


def shown(name: bytes) -> str:
    """A name as it may stand on a terminal."""
    text = name.decode(errors='replace')
    return ''.join(letter if letter.isprintable() else '?' for letter in text[:100])
