"""Which account each person of the directory has, and which lines give the accounts their pages of a month."""
import re
from collections import Counter
from collections.abc import Callable
from typing import NamedTuple

import guests
from adding import shown, sort_out
from names import Names
from people import Person

# Who gets more within a month gets the rest as a grant for the month so many years before, which nothing else grants: so what was given is
# seen by the server's rows alone, and a run that was ended gives nothing twice.
RAISED, FIRST_RAISED = 26, 2000


class Given(NamedTuple):
    """The pages of an account; the names that lead its people to it, as the table has them, each with what tells who has it from others; and
    the name that the table has to get for it (none where it has one).
    """
    pages: int
    ids: dict[str, str]
    name: str = ''


def assign(names: Names, people: list[Person], may_have: Callable[[str, str], bool]) -> tuple[dict[str, Given], dict[str, str]]:
    """The accounts of these people, and why somebody gets none. Two entries have one account only where the table says so, and a name that
    is new to it gets only what the person of this id may have: an account that is there is somebody's, or was.
    """
    found, new, left = {}, {}, {}
    entries = Counter(name for person in people for name in {counting(names, name) for name in person.names})
    for person in people:
        who = ' '.join(map(shown, person.names))
        accounts = {account for name in person.names if (account := names.account_of(name))}
        if any(entries[counting(names, name)] > 1 for name in person.names):
            left[who] = 'several entries of the directory have it'
        elif any(re.fullmatch(guests.NAME, counting(names, name).decode('latin-1').lower()) for name in person.names):
            left[who] = 'a guest could have it'
        elif len(accounts) > 1:
            left[who] = f'one entry has the accounts {" ".join(sorted(accounts))}'
        elif accounts:
            account, = accounts
            found.setdefault(account, []).append(person)
        elif len(person.names) > 1:
            left[who] = 'one entry has several names: a line of the table has to say whose account it has'
        else:
            new[person.names[0]] = person
    _, wanted, refused = sort_out(names, new)
    left.update((shown(name), why) for name, why in refused.items())
    given = {account: Given(max(person.pages for person in who), ids_of(names, account, who)) for account, who in found.items()}
    by_bare = {counting(names, name).decode(errors='replace'): person for name, person in new.items()}
    for account, name in wanted.items():
        if not may_have(account, by_bare[name].same):
            left[name] = f'{account} is open, for somebody else: a line of the table has to say that it is theirs'
            continue
        given[account] = Given(by_bare[name].pages, {name: by_bare[name].same}, name)
    return given, left


def ids_of(names: Names, account: str, people: list[Person]) -> dict[str, str]:
    """The names of these people that lead to the account, each with what tells its person from others."""
    return {counting(names, name).decode(): person.same for person in people for name in person.names if names.account_of(name) == account}


def counting(names: Names, name: bytes) -> bytes:
    """The name as the table looks it up: as it came where a line has it so, else without its realm."""
    folded = names.folded(name)
    return folded if folded in names.owners else names.without_realm(folded)


def month_before(month: str) -> str | None:
    """The month whose grant raises that of this month; None where it could be one that has grants of its own, or none."""
    year = int(month[:4]) - RAISED
    return f'{year:04}{month[4:]}' if FIRST_RAISED <= year < FIRST_RAISED + RAISED else None


def line_for(account: str, held: dict[str, int], month: str, pages: int) -> tuple[str, int]:
    """The line that gives an account with these grants its pages, which is empty where it has them; and how many it lacks then."""
    if month not in held:
        return (f'grant {account} {month} {pages}' if pages else ''), 0
    before = month_before(month)
    short = pages - held[month] - held.get(before or '', 0)
    if short <= 0:
        return '', 0
    if before is None or before in held:
        return '', short
    return f'grant {account} {before} {short}', 0


def grants_of(lines: list[str]) -> dict[str, int] | None:
    """The grants by their months, as a question `grants ACCOUNT` is answered; None where it is refused."""
    found = [re.fullmatch('grant ([0-9]{4}-[0-9]{2}) ([0-9]{1,10})', line) for line in lines[1:]]
    if not lines[0].startswith('grants ') or not all(found):
        return None
    return {line[1]: int(line[2]) for line in found if line}
