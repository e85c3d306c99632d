"""What an impression costs at a station by paper, sides and colour. Each price is that of a name of a device, as which the printer is asked
for: the server keeps a rate for each.

The table is a text. A line has words, with spaces between them; one without a word, or whose first begins with `#`, says nothing:

    price DEVICE UNITS [NAME=VALUE[,VALUE..] ..]   whoever chose one of these values of each name pays UNITS an impression, as DEVICE
    default NAME=VALUE                             whoever chose nothing of the name has this

The first line `price` that applies counts. NAME and VALUE are those of tickets (docs/PROTOCOL.md). What a price depends on is told to the
printer with each document, chosen or not: so what is priced is what is printed.
"""
import itertools
import re
from typing import NamedTuple

import ticket
from names import ACCOUNT

# Bytes of a table, and the largest rate of a device.
MOST, MOST_UNITS = 65536, 100
SAID = {'color': 'colour', 'monochrome': 'black and white', 'one-sided': 'one-sided', 'two-sided-long-edge': 'two-sided',
        'two-sided-short-edge': 'two-sided along the short edge'}


class Price(NamedTuple):
    """Units an impression, at which name of a device, and which values of which names have it."""
    device: str
    units: int
    values: dict[str, list[str]]

    def is_of(self, chosen: dict[str, str]) -> bool:
        return all(chosen.get(name) in values for name, values in self.values.items())


class Prices:
    """A table of this text. ValueError where it is none."""

    def __init__(self, text: str):
        self.prices: list[Price] = []
        self.defaults: dict[str, str | int] = {}
        for number, line in enumerate(text.splitlines(), 1):
            words = line.split()
            if words and not words[0].startswith('#'):
                fault = self.take(words)
                if fault:
                    raise ValueError(f'line {number}: {fault}')
        if not self.prices:
            raise ValueError('it has no line `price`')
        for name in {name for price in self.prices for name in price.values} - set(self.defaults):
            raise ValueError(f'a price depends on {name}, of which there is no line `default`')
        self.devices = list(dict.fromkeys(price.device for price in self.prices))
        self.units = {price.device: price.units for price in self.prices}

    def take(self, words: list[str]) -> str | None:
        """Takes a line. Answers what is wrong with it, or None."""
        match words:
            case ['default', word]:
                pairs = pairs_of(word)
                if not pairs or len(pairs) > 1 or pairs[0][0] in self.defaults:
                    return 'has no NAME=VALUE of a ticket, or one of a name that stands before'
                self.defaults.update(ticket.choices(['='.join(pairs[0])]))
            case ['price', device, units, *rest] if re.fullmatch(ACCOUNT, device) and re.fullmatch('[1-9][0-9]{0,2}', units):
                return self.take_price(device, int(units), [pairs_of(word) for word in rest])
            case _:
                return 'is no line of a table of prices'
        return None

    def take_price(self, device: str, units: int, listed: list[list[tuple[str, str]]]) -> str | None:
        if units > MOST_UNITS:
            return f'has more than {MOST_UNITS} units'
        if any(price.device == device and price.units != units for price in self.prices):
            return 'has another price of a device than an earlier one: the server keeps one for each'
        if not all(listed) or len({pairs[0][0] for pairs in listed}) < len(listed):
            return 'has a word that is no NAME=VALUE of a ticket, or a name twice'
        self.prices.append(Price(device, units, {pairs[0][0]: [value for _, value in pairs] for pairs in listed}))
        return None

    def filled(self, chosen: dict[str, str | int]) -> dict[str, str | int]:
        """A ticket with all that its price depends on."""
        return {**self.defaults, **chosen}

    def price(self, chosen: dict[str, str | int]) -> Price | None:
        """Of a filled ticket; None where it has none."""
        named = {name: named_as(name, value) for name, value in chosen.items()}
        return next((price for price in self.prices if price.is_of(named)), None)

    def dearest(self, chosen: list[tuple[str, str | int]]) -> Price | None:
        """Of a job whose documents chose these values, in whatever mixture; None where one of those has no price."""
        values: dict[str, list[str | int]] = {}
        for name, value in chosen:
            values.setdefault(name, []).append(value)
        names = sorted(set(values) & set(self.defaults))
        found = [self.price(self.filled(dict(zip(names, each)))) for each in itertools.product(*(values[name] for name in names))]
        return None if None in found else max(found, key=lambda price: price.units)


def pairs_of(word: str) -> list[tuple[str, str]]:
    """Name and value of each value of a word NAME=VALUE,VALUE; none where it is no such word."""
    name, _, values = word.partition('=')
    try:
        return [(name, named_as(name, value)) for value in values.split(',') if ticket.choices([f'{name}={value}'])]
    except ticket.Bad:
        return []


def named_as(name: str, value: object) -> str:
    """A value by its name of PWG 5101.1, where drivers have another."""
    return ticket.MEDIA.get(str(value), str(value)) if name == 'media' else str(value)


def read(path: str) -> Prices:
    """The table at the path."""
    with open(path, encoding='utf-8') as file:
        text = file.read(MOST + 1)
    try:
        if len(text) > MOST or (text and not text.endswith('\n')):
            raise ValueError('it is too long, or its last line does not end')
        return Prices(text)
    except ValueError as error:
        raise ValueError(f'{path}: {error}') from error


def said(price: Price) -> str:
    """What has the price, as people say it."""
    words = [' or '.join(SAID.get(value, ticket.SHORT.get(value, value)) for value in values) for values in price.values.values()]
    return ', '.join(words) or 'whatever is chosen'
