"""What the room knows of its directory, and whether a name and a password are right there: the file /etc/ipp-room/directory.

It is a text in UTF-8. A line has a word and what belongs to it, and ends with a line feed. One without a word, or that begins with `#`,
says nothing. The others may stand in any order; those with + may stand more than once:

    server HOST[:PORT] +     is asked by LDAP over TLS (port 636), and its certificate has to be for HOST. The second is asked where the
                             first gives no answer
    authority FILE           who signs the servers' certificates, in PEM (the machine's own authorities)
    searcher DN              looks people up, with the password in the file of a line `password` (nobody: an anonymous search)
    password FILE            that password, without what ends its line
    people DN +              where people are, at any depth
    person ATTRIBUTE VALUE + who is no person without it, as objectClass posixAccount
    name ATTRIBUTE           has the name by which somebody signs in (uid). Nobody but the directory's own operators may be able to set it
    disabled ATTRIBUTE VALUE + who has it is let in nowhere, as loginShell /bin/false
    print DN +               a group that may print (everybody, where there is none)
    operate DN +             a group of operators, who see everybody's pages
    member ATTRIBUTE         has a group's members: their DNs, or with memberUid their names (member)
    remember SECONDS         a right password is right without being asked for again (60)

A group counts by its own members, not by those of groups in it. Whoever is asked for has to have exactly one entry, with the very name that
was given; where the table of names has `case folds`, capitals of A to Z may differ. A name in a realm of the table is looked up as it counts
there: without its realm, unless a line has it as it came.

Let in is nobody who is disabled, in each of the ways that directories have: the bind is refused; ACCOUNTDISABLE in userAccountControl; an end
that has come in accountExpires or shadowExpire; nsAccountLock or loginDisabled; pwdReset, until the password is changed; a line `disabled`.
"""
import re
import ssl
import threading
import time
from collections.abc import Callable
from dataclasses import dataclass, field
from typing import Any

from ldapv3 import COMPARE_FALSE, COMPARE_TRUE, NO_ATTRIBUTE, NO_OBJECT, REFUSALS, SUCCESS, Away, Connection, Unclear, equals
from names import Names, fault_of

CONFIGURATION = '/etc/ipp-room/directory'
AUTHORITIES = '/etc/ssl/certs/ca-certificates.crt'
PORT = 636
# Seconds: for one server; for which one is asked behind the others that gave no answer; between two questions that ask where none gave one;
# and the longest that `remember` may say.
PATIENCE, ASIDE, AGAIN, MOST_REMEMBERED = 3, 30, 5, 3600
# Bytes: the longest password that is taken (that of PAM, too, has fewer than 512).
MOST_PASSWORD = 256
WAYS = [b'useraccountcontrol', b'accountexpires', b'shadowexpire', b'nsaccountlock', b'logindisabled', b'pwdreset']
# Of userAccountControl (MS-ADTS section 2.2.16), and of accountExpires: never, in units of 100 ns since 1601 (section 2.342 of MS-ADA1).
ACCOUNT_DISABLE, NEVER, UNITS, FROM_1601 = 2, (0, (1 << 63) - 1), 10_000_000, 11_644_473_600
DAY = 86400


class Unusable(Exception):
    """The file can't be read, or says too little, or what is no line."""


@dataclass
class Configuration:
    """What the file says."""
    servers: list[tuple[str, int]] = field(default_factory=list)
    authority: str = AUTHORITIES
    searcher: bytes = b''
    password: bytes = b''
    people: list[bytes] = field(default_factory=list)
    persons: list[tuple[bytes, bytes]] = field(default_factory=list)
    name: bytes = b'uid'
    disabled: list[tuple[bytes, bytes]] = field(default_factory=list)
    print: list[bytes] = field(default_factory=list)
    operate: list[bytes] = field(default_factory=list)
    member: bytes = b'member'
    remember: int = 60


@dataclass(frozen=True)
class Answer:
    """Whether name and password are right, and what they are good for."""
    is_right: bool
    may_print: bool = False
    may_operate: bool = False
    # Why nobody is let in whom the directory knows, and what is wrong with its groups.
    why: str = ''


WRONG = Answer(False)


def read(path: str = CONFIGURATION) -> Configuration:
    """The configuration at the path. Unusable where it is none."""
    try:
        return configuration_of(text_of(path))
    except ValueError as error:
        raise Unusable(f'{path}: {error}') from error


def text_of(path: str) -> str:
    try:
        with open(path, encoding='utf-8') as file:
            return file.read(1 << 20)
    except OSError as error:
        raise Unusable(f'{path}: {error.strerror}') from error
    except UnicodeDecodeError as error:
        raise Unusable(f'{path}: it is not UTF-8') from error


def configuration_of(text: str) -> Configuration:
    if text and not text.endswith('\n'):
        raise ValueError('its last line does not end')
    said, known = Configuration(), set()
    for number, line in enumerate(text.split('\n'), 1):
        word, _, rest = line.strip().partition(' ')
        if not word or word.startswith('#'):
            continue
        if not take(said, word, rest.strip()):
            raise ValueError(f'line {number}: is no line of it')
        if word in known and word in ('authority', 'searcher', 'password', 'name', 'member', 'remember'):
            raise ValueError(f'line {number}: stands before')
        known.add(word)
    for word in ('server', 'people'):
        if word not in known:
            raise ValueError(f'it has no line `{word}`')
    if ('searcher' in known) != ('password' in known):
        raise ValueError('`searcher` and `password` stand together')
    return said


def take(said: Configuration, word: str, rest: str) -> bool:
    """Takes a line, if it is one."""
    attribute = '[A-Za-z][A-Za-z0-9-]*'
    pair = re.fullmatch(f'({attribute}) +(.+)', rest)
    match word:
        case 'server' if place := re.fullmatch(r'([A-Za-z0-9.-]+|\[[0-9a-fA-F:]+\])(?::([0-9]{1,5}))?', rest):
            said.servers.append((place[1].strip('[]'), int(place[2] or PORT)))
        case 'authority' if rest:
            said.authority = rest
        case 'password' if rest:
            said.password = password_in(rest)
        case 'searcher' if rest:
            said.searcher = rest.encode()
        case 'people' | 'print' | 'operate' if '=' in rest:
            getattr(said, word).append(rest.encode())
        case 'person' if pair:
            said.persons.append((pair[1].encode(), pair[2].encode()))
        case 'disabled' if pair:
            said.disabled.append((pair[1].lower().encode(), pair[2].lower().encode()))
        case 'name' | 'member' if re.fullmatch(attribute, rest):
            setattr(said, word, rest.lower().encode())
        case 'remember' if re.fullmatch('[0-9]{1,4}', rest) and int(rest) <= MOST_REMEMBERED:
            said.remember = int(rest)
        case _:
            return False
    return True


def password_in(path: str) -> bytes:
    password = text_of(path).rstrip('\r\n').encode()
    if not password:
        # An empty one would be an anonymous bind.
        raise Unusable(f'{path}: it is empty')
    return password


class Directory:
    """The servers of a configuration, each asked where those before give no answer."""

    def __init__(self, said: Configuration, complain: Callable[[str], None] = print):
        self.said, self.complain = said, complain
        # Of each server until when it is asked behind the others; and from when on one is asked again where all are so.
        self.aside, self.again, self.lock = {place: 0.0 for place in said.servers}, 0.0, threading.Lock()
        try:
            self.trust = ssl.create_default_context(cafile=said.authority)
        except (OSError, ssl.SSLError) as error:
            raise Unusable(f'{said.authority}: {getattr(error, "strerror", None) or error}') from error
        self.trust.minimum_version = ssl.TLSVersion.TLSv1_2

    def judge(self, name: bytes, password: bytes, names: Names) -> Answer:
        """Whether they are right. Away where no server says so or says not."""
        if not is_askable(name, password):
            return WRONG
        return self.ask(lambda connection: self.judge_at(connection, counting(name, names), password, names))

    def look_up(self, name: bytes, names: Names) -> Answer:
        """What the name is good for, if somebody else has judged the password."""
        if not is_askable(name, b'-'):
            return WRONG
        return self.ask(lambda connection: self.judge_at(connection, counting(name, names), None, names))

    def ask(self, question: Callable[[Connection], Any]) -> Any:
        """What the first server answers that gives an answer. One that gave none lately is asked behind the others, and where all are so, one
        question in a while asks them: the others wait for nothing.
        """
        why, places = 'no server answers', self.places()
        for place in places:
            was_aside = self.aside[place]
            try:
                told = self.ask_at(place, question)
            except Unclear as unclear:
                why = f'{place[0]}: {unclear}'
                continue
            except Away as away:
                why, self.aside[place] = f'{place[0]}: {away}', time.monotonic() + ASIDE
                if not was_aside:
                    self.complain(f'{why}; it is asked behind the others')
                continue
            self.aside[place] = 0.0
            if was_aside:
                self.complain(f'{place[0]} answers again')
            return told
        if places:
            # Whoever comes soon has at once the answer that this one had to wait for.
            self.again = time.monotonic() + AGAIN
        raise Away(why)

    def places(self) -> list[tuple[str, int]]:
        """The servers in the order in which this question asks them; none, where another has just found that none answers."""
        with self.lock:
            now = time.monotonic()
            good = [place for place in self.aside if self.aside[place] <= now]
            if not good:
                if now < self.again:
                    return []
                self.again = now + AGAIN + PATIENCE * len(self.aside)
            bad = [place for place in self.aside if place not in good]
            # Of those that were set aside long enough ago this question alone finds out whether they answer.
            self.aside.update((place, now + ASIDE) for place in good if self.aside[place])
            return good + bad

    def ask_at(self, place: tuple[str, int], question: Callable[[Connection], Any]) -> Any:
        with Connection(place, self.trust, time.monotonic() + PATIENCE) as connection:
            said = self.said
            code = connection.bind(said.searcher, said.password) if said.searcher else connection.be_nobody()
            if code != SUCCESS:
                raise Away(f'it refuses the searcher with {code}')
            return question(connection)

    def judge_at(self, connection: Connection, name: bytes, password: bytes | None, names: Names) -> Answer:
        said = self.said
        found = []
        for base in said.people:
            wanted = [equals(said.name, name), *(equals(*pair) for pair in said.persons)]
            found += connection.search(base, wanted, [said.name, *WAYS, *(attribute for attribute, _ in said.disabled)], 1)
        if not found:
            return WRONG
        if len(found) > 1:
            return Answer(False, why='has several entries')
        (dn, values), = found
        # The server takes more names for the same than are the same: capitals, spaces, letters that look alike.
        known = [value for value in values.get(said.name, []) if names.folded(value) == names.folded(name)]
        if not known or not dn:
            return Answer(False, why='has an entry of another name')
        may_print = not said.print or self.is_in(connection, said.print, dn, known[0])
        may_operate = self.is_in(connection, said.operate, dn, known[0])
        code = SUCCESS if password is None else connection.bind(dn, password)
        if code in REFUSALS or code == NO_OBJECT:
            return WRONG
        if code != SUCCESS:
            raise Unclear(f'it answers a bind with {code}')
        why = why_disabled(values, said.disabled)
        return Answer(False, why=why) if why else Answer(True, may_print, may_operate)

    def is_in(self, connection: Connection, groups: list[bytes], dn: bytes, name: bytes) -> bool:
        value = name if self.said.member == b'memberuid' else dn
        for group in groups:
            code = connection.compare(group, self.said.member, value)
            if code == COMPARE_TRUE:
                return True
            if code == NO_OBJECT:
                self.complain(f'there is no group {group.decode()}')
            elif code not in (COMPARE_FALSE, NO_ATTRIBUTE):
                raise Unclear(f'it answers for {group.decode()} with {code}')
        return False


def is_askable(name: bytes, password: bytes) -> bool:
    """Whether a directory is asked at all: an empty password would be right for everybody (RFC 4513 section 5.1.2)."""
    try:
        return 0 < len(password) <= MOST_PASSWORD and b'\0' not in password and name != b'' and not fault_of(name.decode())
    except UnicodeDecodeError:
        return False


def counting(name: bytes, names: Names) -> bytes:
    """The name by which the table of names finds the account, which is the one that is looked up: as it came where a line has it so, else
    without its realm. So whoever is kate is not kate@EXAMPLE.ORG too where these are two.
    """
    folded = names.folded(name)
    return folded if folded in names.owners else names.without_realm(folded)


def why_disabled(values: dict[bytes, list[bytes]], disabled: list[tuple[bytes, bytes]]) -> str:
    """Why an entry with these values is let in nowhere; empty where it is."""
    now = time.time()
    ends = [number / UNITS - FROM_1601 for number in numbers(values, b'accountexpires') if number not in NEVER]
    ends += [number * DAY for number in numbers(values, b'shadowexpire') if number >= 0]
    if any(number & ACCOUNT_DISABLE for number in numbers(values, b'useraccountcontrol')):
        return 'is disabled (userAccountControl)'
    if any(end <= now for end in ends):
        return 'has come to its end'
    for attribute in (b'nsaccountlock', b'logindisabled', b'pwdreset'):
        if any(value.lower() not in (b'false', b'0') for value in values.get(attribute, [])):
            return f'is disabled ({attribute.decode()})'
    for attribute, value in disabled:
        if value in map(bytes.lower, values.get(attribute, [])):
            return f'is disabled ({attribute.decode()})'
    return ''


def numbers(values: dict[bytes, list[bytes]], attribute: bytes) -> list[int]:
    """Those of an attribute. Unclear where one is none: what it says of the entry is not known then."""
    try:
        return [int(value) for value in values.get(attribute, [])]
    except ValueError as error:
        raise Unclear(f'it has no number as {attribute.decode()}') from error
