"""Finds out who stands at the station: by a name alone, or by what the operator wants beside it, as a password, a PIN or a card.

What is typed unseen is kept nowhere, and told to nobody but the directory that judges it.
"""
from typing import Any

from cards import Cards, is_read
from guesses import Guesses
from names import Names, Unusable, load
from pins import load as load_pins
from screen import Screen

# Seconds: how long a person may think before typing. Digits that show that a line is a card's and no name.
THINKS, DIGITS = 60, 6
ALONE = 'Whoever types your name prints here what waits without a PIN.'


class Unknown(Exception):
    """Nobody knows now whether it is right, and why."""


class SignOn:
    """Asks who is there. `directory` judges passwords, `pins` and `guests` are paths of files, `cards` those of the station's folder."""

    def __init__(self, screen: Screen, guesses: Guesses, table: str, directory: Any = None, pins: str | None = None,
                 guests: str | None = None, cards: Cards | None = None):
        self.screen, self.guesses, self.table = screen, guesses, table
        self.directory, self.pins, self.guests, self.cards = directory, pins, guests, cards
        self.wants = bool(directory or pins or guests)
        self.word = ' or '.join(['password'] * bool(directory) + ['PIN'] * bool(pins) + ['code'] * bool(guests))
        self.first, self.seconds = '', 0.0

    def about(self) -> str:
        """What the first page says of it."""
        if not self.wants:
            return ALONE
        return 'Hold your card to the reader, or press Enter to sign in.' if self.cards else f'Sign in by your name and {self.word}.'

    def comes(self) -> bool:
        """Whether somebody comes, who types a name, or with cards holds one to the reader or presses Enter."""
        line = self.screen.ask('Card: ', THINKS, hidden=True) if self.cards else self.screen.ask('Account: ', THINKS)
        self.first, self.seconds = (line or '').strip(), self.screen.seconds
        return line is not None and bool(self.first or self.cards)

    def account(self) -> str | None:
        """The account of who came; None where it is none's, which is said."""
        first, self.first = self.first, ''
        try:
            if self.cards and first:
                return self.by_card(first, self.seconds)
            name = self.ask_name() if self.cards else first
            return self.by_name(name) if name else None
        except Unusable as unusable:
            self.screen.say(f'Nobody knows now whose account that is. Tell the print room: {unusable}.')
        except Unknown as unknown:
            self.screen.say(f'Nobody can be signed in now: {unknown}. Come again later.')
        return None

    def ask_name(self) -> str:
        name = (self.screen.ask('Account: ', THINKS) or '').strip()
        return '' if self.is_misread(name) else name

    def is_misread(self, line: str) -> bool:
        """Whether a card was held to the reader where something else was asked, which is said. It does not stay on the screen."""
        if not self.cards or not is_read(line, self.screen.seconds) or sum(map(str.isdigit, line)) < DIGITS:
            return False
        self.screen.clear()
        self.screen.say('Hold your card to the reader where it is asked for.')
        return True

    def by_name(self, name: str) -> str | None:
        names = load(self.table)
        account = names.account_of(name.encode())
        if not self.wants:
            return account or self.say_none(name)
        secret = self.screen.ask(f'{self.word[0].upper()}{self.word[1:]}: ', THINKS, hidden=True)
        if not secret or self.has_to_wait(account):
            return None
        take_back = self.guesses.count(account)
        try:
            is_right, may_print = self.judge(names, name, account, secret)
        except (Unknown, Unusable):
            take_back()
            raise
        if not is_right:
            self.screen.say(f'The name or the {self.word} is wrong.')
            return None
        take_back()
        if not may_print:
            self.screen.say('You may not print here. Ask the print room.')
            return None
        return account or self.say_none(name)

    def say_none(self, name: str) -> None:
        self.screen.say(f'There is no account for {name}. Type the name by which you sign in, or ask the print room.')

    def has_to_wait(self, account: str | None) -> bool:
        """Whether wrong ones let this account wait, or everybody, which is said."""
        wait = max(self.guesses.wait(account) if account else 0, self.guesses.wait_here())
        if wait:
            self.screen.say(f'Wrong ones were tried. Come again in {wait} seconds.')
        return bool(wait)

    def judge(self, names: Names, name: str, account: str | None, secret: str) -> tuple[bool, bool]:
        """Whether the secret is right for the name, and whether who has it may print. A guest has a code alone, an account with a PIN that
        alone, all others a password."""
        if self.guests:
            found = self.judge_guest(names, name, secret)
            if found is not None:
                return found, True
        if self.pins:
            known = load_pins(self.pins)
            if not self.directory or (account and account in known.lines):
                return known.is_right(account, secret), True
        return self.judge_password(names, name, secret) if self.directory else (False, False)

    def judge_guest(self, names: Names, name: str, code: str) -> bool | None:
        """Whether it is the guest's code; None where the name is no guest's."""
        # Stations without guests need none of it.
        import guests
        folded = names.folded(name.encode())
        try:
            return guests.judge(folded if folded in names.owners else names.without_realm(folded), code.encode(), self.guests)
        except guests.Unusable as error:
            raise Unknown(str(error)) from error

    def judge_password(self, names: Names, name: str, password: str) -> tuple[bool, bool]:
        try:
            answer = self.directory.judge(name.encode(), password.encode(), names)
        except self.directory.silent as away:
            raise Unknown('the directory does not answer') from away
        return answer.is_right, answer.may_print

    def by_card(self, card: str, seconds: float) -> str | None:
        names = load(self.table)
        if self.has_to_wait(None):
            return None
        if not is_read(card, seconds) or names.account_of(card.encode()):
            self.screen.say('That is no card. Press Enter first to sign in by your name.')
            return None
        # A card that nobody has is one that is guessed, until somebody signs in.
        take_back = self.guesses.count(None)
        owner = self.cards.owner(card)
        if owner:
            take_back()
            account, name = owner
            return account if self.may_have_card(names, name, account) else self.say_gone()
        self.screen.say('The station does not know this card. Sign in once, and it will.')
        name = self.ask_name()
        account = self.by_name(name) if name else None
        if account:
            take_back()
            if self.may_have_card(names, name, account):
                self.enrol(card, account, name)
        return account

    def may_have_card(self, names: Names, name: str, account: str) -> bool:
        """Whether the name leads to the account now, and is no guest's: a guest's time ends, and a card's does not."""
        is_guest = self.guests is not None and self.judge_guest(names, name, '') is not None
        return names.account_of(name.encode()) == account and not is_guest

    def say_gone(self) -> None:
        self.screen.say('The account of this card is not there any more. Ask the print room.')

    def enrol(self, card: str, account: str, name: str) -> None:
        """Has the station know the card from now on, if its owner wants that."""
        line = self.screen.ask(f'Shall this card sign {account} in from now on? (yes): ', THINKS) or ''
        if line.strip().lower() != 'yes':
            return
        try:
            fault = self.cards.enrol(card, account, name)
        except Unusable as unusable:
            fault = f'{unusable}.'
        self.screen.say(fault or 'It does.')
