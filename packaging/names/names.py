"""The table of names: which account somebody has, by the name with which they sign in. The front, the stations and `ipp-room-names` read
it here; haproxy has it as the maps that `ipp-room-names map` writes.

It is a text in UTF-8. A line has words, with spaces or tabs between them, and ends with a line feed. One without a word, or whose first
begins with `#`, says nothing. The others may stand in any order:

    account ACCOUNT NAME..   who signs in as one of these has this account, and nobody else has it
    realm REALM              REALM\\NAME and NAME@REALM are NAME
    case folds               the capitals A to Z of what is signed in with are small letters
    rule same                who has no account by a line has the one of their own name
    rule CHARACTER TEXT      `ipp-room-names add` makes accounts of names: with TEXT for each CHARACTER,
    rule prefix TEXT         and with TEXT before what does not begin with a letter

Whoever signs in has the account of the first that applies: a line that has the name as it came; a line that has it without its realm;
with `rule same` the account of that name, if no line has that account. Else there is none. Names are compared byte by byte, and nothing
but A to Z folds: so two names are one person's only where a line, a realm or `case folds` says so, however alike they look.

No table is used that has a line of another kind, an account in two lines, a name in two, `rule same` beside another rule, or no account
at all; whose last line does not end; or with a name of an account that is none ([a-z][a-z0-9-]{0,31}). Nor is one with a name that nobody
can sign in with or that may be misread: over 255 bytes, with a colon, with `#` in front, with other characters than those of ASCII that
are seen and the letters and digits of any script, or not in the normal form NFKC, as full-width letters and most combining marks are not.
"""
import re
import unicodedata

TABLE = '/etc/ipp-room/names'
ACCOUNT = '[a-z][a-z0-9-]{0,31}'
REALM = '[A-Za-z0-9._-]{1,255}'
# Bytes: of a name, and of a table.
MOST_NAME, MOST_TABLE = 255, 16 << 20


class Unusable(Exception):
    """The table can't be read, or is none. No line of it counts."""


class Names:
    """A table of these bytes. ValueError where it is none."""

    def __init__(self, data):
        lines = list(lines_of(data))
        self.folds = any(words == ['case', 'folds'] for _, words in lines)
        # `owners` has the account of each name that stands in a line, as bytes, and None for one whose account is another's.
        self.is_same, self.realms, self.owners, self.accounts, self.texts, self.prefix = False, [], {}, set(), {}, ''
        for number, words in lines:
            fault = self.take(words)
            if fault:
                raise ValueError(f'line {number}: {fault}')
        if self.is_same and (self.texts or self.prefix):
            raise ValueError('`rule same` stands beside another rule, whose accounts could be those of others')
        if self.is_same:
            for account in self.accounts:
                self.owners.setdefault(account.encode(), None)
        realms = b'|'.join(map(re.escape, self.realms))
        self.in_realm = re.compile(rb'(?:%b)\\([^\\@]+)|([^\\@]+)@(?:%b)' % (realms, realms)) if realms else None

    def take(self, words):
        """Takes a line. Answers what is wrong with it, or None."""
        match words:
            case ['case', 'folds']:
                pass
            case ['realm', realm] if re.fullmatch(REALM, realm):
                self.realms.append(self.folded(realm.encode()))
            case ['account', account, *names] if names:
                return self.take_account(account, names)
            case ['rule', 'same']:
                self.is_same = True
            case ['rule', 'prefix', text] if re.fullmatch(ACCOUNT, text) and not self.prefix:
                self.prefix = text
            case ['rule', character, text] if re.fullmatch('[^a-z0-9-]', character) and re.fullmatch('[a-z0-9-]+', text):
                if ord(character) in self.texts:
                    return 'has a character that stands in an earlier rule'
                self.texts[ord(character)] = text
            case _:
                return 'is no line of a table of names'
        return None

    def take_account(self, account, names):
        if not re.fullmatch(ACCOUNT, account):
            return 'has no name of an account'
        if account in self.accounts:
            return 'has an account that stands in an earlier line'
        self.accounts.add(account)
        for name in names:
            fault = fault_of(name)
            if fault:
                return f'has a name {fault}'
            name = self.folded(name.encode())
            if name in self.owners:
                return 'has a name that stands before'
            self.owners[name] = account
        return None

    def folded(self, name):
        # Bytes: no letter but A to Z is another one then.
        return name.lower() if self.folds else name

    def without_realm(self, name):
        """A folded name without its realm, if that is one of the table's."""
        found = self.in_realm and self.in_realm.fullmatch(name)
        return (found[1] or found[2]) if found else name

    def account_of(self, name):
        """The account of who signs in with these bytes; None where there is none."""
        name = self.folded(name)
        bare = self.without_realm(name)
        for known in (name, bare):
            if known in self.owners:
                return self.owners[known]
        return bare.decode() if self.is_same and re.fullmatch(ACCOUNT.encode(), bare) else None

    def made_of(self, name):
        """The account that the rules make of a folded name without a realm; None where it is none."""
        made = name.translate(self.texts)
        if not re.match('[a-z]', made):
            made = self.prefix + made
        return made if re.fullmatch(ACCOUNT, made) else None


def lines_of(data):
    """The lines that have words, each by its number."""
    if len(data) > MOST_TABLE:
        raise ValueError(f'it has over {MOST_TABLE >> 20} MiB')
    if data and not data.endswith(b'\n'):
        raise ValueError('its last line does not end')
    try:
        text = data.decode()
    except UnicodeDecodeError as error:
        number = data.count(b'\n', 0, error.start) + 1
        raise ValueError(f'line {number}: is not UTF-8') from error
    for number, line in enumerate(text.split('\n'), 1):
        words = [word for word in line.replace('\t', ' ').split(' ') if word]
        if words and not words[0].startswith('#'):
            yield number, words


def fault_of(name):
    """Why a line can't have the name; None where it can."""
    if len(name.encode()) > MOST_NAME:
        return f'of over {MOST_NAME} bytes'
    if ':' in name or name.startswith('#'):
        return 'with a colon, or `#` in front'
    others = re.sub('[!-~]+', '', name)
    if others and not others.isalnum():
        return 'with a character that is not seen, or no letter'
    return None if unicodedata.is_normalized('NFKC', name) else 'that is not in the normal form NFKC'


def read(path=TABLE):
    """The table at the path, which may lead nobody to an account yet."""
    try:
        with open(path, 'rb') as file:
            return Names(file.read(MOST_TABLE + 1))
    except OSError as error:
        raise Unusable(f'{path}: {error.strerror}') from error
    except ValueError as error:
        raise Unusable(f'{path}: {error}') from error


def load(path=TABLE):
    """The table at the path, as whoever lets people in reads it."""
    names = read(path)
    if not names.is_same and not names.owners:
        raise Unusable(f'{path}: it has no account')
    return names
