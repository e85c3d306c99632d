"""The cards by which a station knows people. A card is what its reader types: digits, and Enter.

The file has salted slow hashes of them, each with the account and the name that its owner signed in with, for the station alone.
"""
import contextlib
import fcntl
import json
import os
import re
import secrets
import time
from collections.abc import Iterator

from names import ACCOUNT, Unusable
from pins import hashed, open_own, replace

# Letters of a card, the longest time of its reader for each, in seconds, and the cards of an account.
LEAST, MOST, PACE, MOST_CARDS = 8, 64, 0.1, 5
# Bytes of the file, and the seconds for which another change of it is waited for.
MOST_BYTES, WAITS = 64 << 20, 10
FILE = 'cards.json'


class Cards:
    """The file of a station's folder, which is read anew for each card: one that was taken away counts no more."""

    def __init__(self, folder: str):
        self.path, self.lock = f'{folder}/{FILE}', f'{folder}/cards.lock'

    def read(self) -> dict:
        try:
            with open(self.path, encoding='ascii', opener=open_own) as file:
                kept = json.loads(file.read(MOST_BYTES))
            if not is_sound(kept):
                raise ValueError('it is none of cards')
            return kept
        except FileNotFoundError:
            return {'salt': secrets.token_hex(16), 'cards': {}}
        except OSError as error:
            raise Unusable(f'{self.path}: {error.strerror}') from error
        except ValueError as error:
            raise Unusable(f'{self.path}: it is damaged. Put a copy in its place, or remove it') from error

    def owner(self, card: str) -> tuple[str, str] | None:
        """The account and the name of whose card it is; None where it is nobody's."""
        kept = self.read()
        found = kept['cards'].get(hashed(card, kept['salt']))
        return (found[0], found[1]) if found else None

    def enrol(self, card: str, account: str, name: str) -> str | None:
        """Makes a card that is nobody's the account's. Why that is not done, or None."""
        with self.changing() as kept:
            which = hashed(card, kept['salt'])
            if which in kept['cards']:
                return 'It is a card that the station knows already.'
            if sum(owner == account for owner, _, _ in kept['cards'].values()) >= MOST_CARDS:
                return f'{account} has {MOST_CARDS} cards here. Have the print room take one away.'
            kept['cards'][which] = [account, name, int(time.time())]
        return None

    def forget(self, accounts: list[str]) -> dict[str, int]:
        """Takes the cards of these accounts away. How many each had."""
        with self.changing() as kept:
            gone = {account: [which for which, card in kept['cards'].items() if card[0] == account] for account in accounts}
            for which in [which for found in gone.values() for which in found]:
                kept['cards'].pop(which, None)
        return {account: len(found) for account, found in gone.items()}

    @contextlib.contextmanager
    def changing(self) -> Iterator[dict]:
        """What the file has, which takes its place at the end of the block. The station and the command wait for each other."""
        try:
            held = open_own(self.lock, os.O_CREAT | os.O_RDWR)
        except OSError as error:
            raise Unusable(f'{self.lock}: {error.strerror}') from error
        try:
            lock(held)
            kept = self.read()
            before = json.dumps(kept)
            yield kept
            if json.dumps(kept) != before:
                replace(self.path, json.dumps(kept, indent=1) + '\n')
                self.sync()
        except OSError as error:
            raise Unusable(f'{self.path}: {error.strerror}') from error
        finally:
            os.close(held)

    def sync(self) -> None:
        folder = os.open(os.path.dirname(self.path), os.O_RDONLY)
        os.fsync(folder)
        os.close(folder)


def lock(held: int) -> None:
    """Waits for whoever has the file locked, but not for one that does not go on."""
    end = time.monotonic() + WAITS
    while True:
        try:
            fcntl.flock(held, fcntl.LOCK_EX | fcntl.LOCK_NB)
            return
        except BlockingIOError:
            if time.monotonic() > end:
                raise
            time.sleep(0.1)


def is_sound(kept: object) -> bool:
    """Whether a station wrote it."""
    return (isinstance(kept, dict) and isinstance(kept.get('cards'), dict) and is_digits(kept.get('salt'), 32)
            and all(is_digits(which, 64) and is_card_of(card) for which, card in kept['cards'].items()))


def is_digits(text: object, count: int) -> bool:
    return isinstance(text, str) and bool(re.fullmatch(f'[0-9a-f]{{{count}}}', text))


def is_card_of(card: object) -> bool:
    return (isinstance(card, list) and len(card) == 3 and isinstance(card[0], str) and bool(re.fullmatch(ACCOUNT, card[0]))
            and isinstance(card[1], str) and isinstance(card[2], int))


def is_read(text: str, seconds: float) -> bool:
    """Whether a reader has typed it, in so many seconds: nobody's fingers are as quick."""
    return bool(re.fullmatch(f'[!-~]{{{LEAST},{MOST}}}', text)) and seconds <= PACE * len(text)
