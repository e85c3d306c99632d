"""Who of the directory prints, and how many pages each gets in a month: the file /etc/ipp-room/pages, beside /etc/ipp-room/directory.

It is a text in UTF-8. A line has a word and what belongs to it. One without a word, or that begins with `#`, says nothing:

    pages NUMBER group DN               the members of this group of the directory get so many pages in each month
    pages NUMBER value ATTRIBUTE VALUE  who has the value gets them, as eduPersonAffiliation staff; capitals do not count
    pages NUMBER all                    all people get them
    share NUMBER                        how many of 100 may be missing from one run to the next (10), and five of few
    same ATTRIBUTE                      tells one person from a later one of the same name, as entryUUID or objectGUID

Lines `pages` may stand any number of times; for whom several are meant, the largest counts. Who has none gets no account by the directory.
A group counts by its own members, not by those of groups in it. Who is disabled in the directory is not there.
"""
import contextlib
import os
import re
import subprocess
import tempfile
import threading
from collections.abc import Callable, Iterator
from dataclasses import dataclass, field
from typing import NamedTuple

from directory import WAYS, Configuration, why_disabled
from ldapv3 import Away
from ldif import Entry, entries_of, key_of

PAGES = '/etc/ipp-room/pages'
# Pages of a month; people; bytes that a search may come to.
MOST_PAGES, MOST_PEOPLE, MOST_ANSWER = 1_000_000_000, 200_000, 256 << 20
# Seconds: for a connection, and for a whole search. A search asks for so many entries at once (RFC 2696).
CONNECTS, SEARCHES, AT_ONCE = 10, 150, 500
# Pieces in which a server may tell one group (Active Directory: 1500 members in each).
MOST_RANGES = 1000
ATTRIBUTE = '[A-Za-z][A-Za-z0-9-]*'


class Unusable(Exception):
    """The file can't be read, or is none. Nobody gets anything by it."""


class Refused(Exception):
    """The directory does not say who its people are. Nothing was done."""


class Line(NamedTuple):
    """Who gets how many pages: the members of a group, those with a value of an attribute, or all (where neither is given)."""
    pages: int
    group: str = ''
    attribute: str = ''
    value: str = ''


@dataclass
class Rules:
    """What the file says."""
    lines: list[Line] = field(default_factory=list)
    share: int = 10
    same: str = ''


class Person(NamedTuple):
    """A person of the directory: the names to sign in with, what tells them from others, and the pages."""
    dn: str
    names: tuple[bytes, ...]
    same: str
    pages: int


def read(path: str = PAGES) -> Rules:
    try:
        with open(path, encoding='utf-8') as file:
            return rules_of(file.read(1 << 20))
    except OSError as error:
        raise Unusable(f'{path}: {error.strerror}') from error
    except ValueError as error:
        raise Unusable(f'{path}: {error}') from error


def rules_of(text: str) -> Rules:
    if text and not text.endswith('\n'):
        raise ValueError('its last line does not end')
    rules, known = Rules(), set()
    for number, line in enumerate(text.split('\n'), 1):
        line = line.strip()
        if not line or line.startswith('#'):
            continue
        word = line.split(' ')[0]
        if not take(rules, line) or word in known and word != 'pages':
            raise ValueError(f'line {number}: is no line of it, or stands before')
        known.add(word)
    if not rules.lines:
        raise ValueError('it has no line `pages`')
    return rules


def take(rules: Rules, line: str) -> bool:
    """Takes a line, if it is one."""
    if found := re.fullmatch(r'pages +([0-9]{1,10}) +(?:group +(\S.*)|value +(%s) +(\S.*)|all)' % ATTRIBUTE, line, re.ASCII):
        rules.lines.append(Line(int(found[1]), found[2] or '', (found[3] or '').lower(), (found[4] or '').lower()))
        # A group that is no DN is refused here.
        return int(found[1]) <= MOST_PAGES and (not found[2] or bool(key_of(found[2])))
    if found := re.fullmatch('share +([0-9]{1,2}|100)', line, re.ASCII):
        rules.share = int(found[1])
        return True
    if found := re.fullmatch(f'same +({ATTRIBUTE})', line, re.ASCII):
        rules.same = found[1].lower()
        return True
    return False


Search = Callable[[str, str, str, list[str]], bytes]


def of_directory(said: Configuration, rules: Rules, complain: Callable[[str], None]) -> list[Person]:
    """The people, as one server tells all of them: the first that gives whole answers."""
    faults = []
    for place in said.servers:
        try:
            return people_of(list(entries_at(said, rules, searching(said, place))), said, rules, complain)
        except Away as away:
            faults.append(f'{place[0]}: {away}')
            complain(faults[-1])
    raise Refused(f'no server tells who is there: {faults[-1] if faults else "there is none"}')


def entries_at(said: Configuration, rules: Rules, search: Search) -> Iterator[Entry]:
    """What a server has of the people and of the groups."""
    name = said.name.decode()
    wanted = [name, *filter(None, [rules.same, *(line.attribute for line in rules.lines)]), *map(bytes.decode, WAYS),
              *(attribute.decode().lower() for attribute, _ in [*said.disabled, *said.persons])]
    conditions = ''.join(f'({attribute.decode()}={escaped(value)})' for attribute, value in said.persons)
    for base in said.people:
        yield from found(search(base.decode(), 'sub', f'(&({name}=*){conditions})', sorted(set(wanted))))
    for group in sorted({line.group for line in rules.lines if line.group}):
        try:
            yield from group_at(group, said.member.decode(), search)
        except Away as away:
            raise Away(f'{group}: {away}') from away


def found(data: bytes) -> Iterator[Entry]:
    """The entries of an answer, which has to be whole. One without an entry has none of its lines."""
    try:
        yield from entries_of(data) if data else ()
    except ValueError as error:
        raise Away(f'its answer is no LDIF: {error}') from error


def group_at(dn: str, member: str, search: Search) -> Iterator[Entry]:
    """The entry of a group with all its members, of which a server may tell some at a time (MS-ADTS section 3.1.1.3.1.3.3)."""
    wanted, members = member, []
    for _ in range(MOST_RANGES):
        answer = list(found(search(dn, 'base', '(objectClass=*)', [wanted])))
        if len(answer) != 1:
            raise Away('there is no such group')
        values = answer[0].values
        members += values.get(member, [])
        ranges = [(name, part) for name in values if (part := re.fullmatch(rf'{member};range=([0-9]+)-([0-9]+|\*)', name))]
        members += [value for name, _ in ranges for value in values[name]]
        ends = [part[2] for _, part in ranges]
        if not ends or '*' in ends:
            yield Entry(dn, {member: members})
            return
        wanted = f'{member};range={max(map(int, ends)) + 1}-*'
    raise Away('it comes in too many pieces')


def searching(said: Configuration, place: tuple[str, int]) -> Search:
    """A search at a server: what Debian's ldapsearch prints, by TLS with a certificate for its name, and in the clear by no means."""
    host, port = place
    host = f'[{host}]' if ':' in host else host
    words = ['ldapsearch', '-x', '-LLL', '-o', 'ldif-wrap=no', '-o', f'nettimeout={CONNECTS}', '-z', 'none', '-l', str(SEARCHES),
             '-a', 'never', '-E', f'pr={AT_ONCE}/noprompt', '-H', f'ldaps://{host}:{port}']
    if said.searcher:
        words += ['-D', said.searcher.decode(), '-y', '/dev/stdin']
    # Nothing else of the environment, and no file of the folder that it runs in, is a setting of ldapsearch.
    environment = {'PATH': os.environ.get('PATH', '/usr/bin'), 'HOME': '/nonexistent', 'LDAPTLS_CACERT': said.authority,
                   'LDAPTLS_REQCERT': 'demand', 'LDAPTLS_REQSAN': 'demand'}
    return lambda base, scope, condition, wanted: run([*words, '-b', base, '-s', scope, condition, *wanted], said.password, environment)


def run(words: list[str], password: bytes, environment: dict[str, str]) -> bytes:
    """What a program prints that ends well, in time, and with not too much."""
    with tempfile.TemporaryFile() as complaints, \
            subprocess.Popen(words, stdin=subprocess.PIPE, stdout=subprocess.PIPE, stderr=complaints, env=environment, cwd='/') as process:
        timer = threading.Timer(SEARCHES + CONNECTS, process.kill)
        timer.start()
        try:
            with contextlib.suppress(BrokenPipeError):
                process.stdin.write(password)
                process.stdin.close()
            data = process.stdout.read(MOST_ANSWER + 1)
            if len(data) > MOST_ANSWER:
                raise Away(f'it answers more than {MOST_ANSWER >> 20} MiB')
            status = process.wait()
        finally:
            process.kill()
            timer.cancel()
        if status:
            complaints.seek(0)
            said = complaints.read(1000).decode(errors='replace').strip().replace('\n', '; ')
            raise Away(f'ldapsearch ended with {status}: {"".join(filter(str.isprintable, said))}')
        return data


def escaped(value: bytes) -> str:
    """A value in a filter (RFC 4515 section 3), none of whose characters means anything there."""
    return ''.join(chr(byte) if chr(byte).isalnum() and byte < 128 else f'\\{byte:02x}' for byte in value)


def of_ldif(data: bytes, said: Configuration, rules: Rules, complain: Callable[[str], None]) -> list[Person]:
    """The people of these bytes, in the place of a server's answers."""
    try:
        return people_of(list(entries_of(data)), said, rules, complain)
    except (ValueError, Away) as error:
        raise Refused(f'standard input: {error}') from error


def people_of(entries: list[Entry], said: Configuration, rules: Rules, complain: Callable[[str], None]) -> list[Person]:
    """The people among these entries who get pages. Refused where there is nobody, Away where a group is not there, or not whole."""
    keyed = dict(keyed_entries(entries, complain))
    member = said.member.decode()
    members = {line.group: members_of(keyed, line.group, member) for line in rules.lines if line.group}
    bases = [key_of(base.decode()) for base in said.people]
    people = []
    for key, entry in keyed.items():
        if is_person(key, entry, bases, said):
            names = entry.values[said.name.decode()]
            belongs = {key} if member != 'memberuid' else {name.lower() for name in names}
            pages = [line.pages for line in rules.lines if is_meant(line, entry, belongs, members)]
            if pages:
                same = '+'.join(sorted(value.hex() for value in entry.values.get(rules.same, [])))
                people.append(Person(entry.dn, tuple(dict.fromkeys(names)), same, max(pages)))
    if not people:
        raise Refused('there is nobody who gets pages')
    if len(people) > MOST_PEOPLE:
        raise Refused(f'there are over {MOST_PEOPLE} people')
    return people


def keyed_entries(entries: list[Entry], complain: Callable[[str], None]) -> Iterator[tuple[tuple, Entry]]:
    """The entries by their DNs, of which each stands once."""
    for entry in entries:
        try:
            yield key_of(entry.dn), entry
        except ValueError as error:
            complain(f'an entry is left out: {error}')


def members_of(keyed: dict[tuple, Entry], group: str, member: str) -> set:
    entry = keyed.get(key_of(group))
    if entry is None:
        raise Away(f'there is no group {group}')
    if any(name.startswith(f'{member};range=') for name in entry.values):
        raise Away(f'{group} is not whole')
    return {key for value in entry.values.get(member, []) if (key := member_key(value, member)) is not None}


def member_key(value: bytes, member: str) -> object:
    if member == 'memberuid':
        return value.lower()
    try:
        return key_of(value.decode())
    except ValueError:
        # No DN is nobody's.
        return None


def is_person(key: tuple, entry: Entry, bases: list[tuple], said: Configuration) -> bool:
    """Whether it is an entry of who may sign in, whatever the server was asked."""
    values = {name.encode(): value for name, value in entry.values.items()}
    is_below = any(len(key) > len(base) and key[len(key) - len(base):] == base for base in bases)
    has_all = all(value.lower() in map(bytes.lower, values.get(attribute.lower(), [])) for attribute, value in said.persons)
    return is_below and has_all and said.name in values and not why_disabled(values, said.disabled)


def is_meant(line: Line, entry: Entry, belongs: set, members: dict[str, set]) -> bool:
    if line.group:
        return not belongs.isdisjoint(members[line.group])
    return not line.attribute or line.value in [value.decode(errors='replace').lower() for value in entry.values.get(line.attribute, [])]
