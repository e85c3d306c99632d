"""The lines that each door of the desk takes, and what the print server answers them (docs/PROTOCOL.md). `who ACCOUNT JOB|- BEFORE|-` is the
desk's own: it is answered `events N`, and N lines, by who reads the logs (log_server.py).

A line is taken only as a whole that stands here: so it has neither a control nor a byte outside ASCII, and a door of its own has no
line that another role's was made for. What the print server takes besides is for the room's own socket.
"""
import re
from urllib.parse import quote, unquote_to_bytes

# Bytes of a line, and of a correction's reason.
MOST_LINE, MOST_REASON = 65536, 200

NAME = '[a-z][a-z0-9-]{0,31}'
# 1970-01 to 2099-12, and from 2000-01 on: a grant for an earlier month gives pages back, which `correct` does with a reason.
MONTH = '(?:19[7-9][0-9]|20[0-9][0-9])-(?:0[1-9]|1[0-2])'
GRANTED_MONTH = '20[0-9][0-9]-(?:0[1-9]|1[0-2])'
JOB = '[1-9][0-9]{0,5}'
PAGES = '(?:0|[1-9][0-9]{0,8}|1000000000)'
RATE = '(?:[1-9][0-9]?|100)'
# Of a correction: units, of which a credit has no sign, and text as the names of jobs are told.
UNITS = '-?[1-9][0-9]{0,7}'
TEXT = '(?:[!-$&-~]|%[0-9A-F]{2}){1,1000}'
FILE = '/[!-~]{0,4000}'
# In seconds, up to the last of 2099.
MOMENT = '[1-9][0-9]{0,9}'

LOOK = ['ping', 'devices', f'accounts (?:-|{NAME})', f'left {NAME} {MONTH}', f'statement {NAME} {MONTH}', f'jobs {NAME}',
        f'ended {NAME} {RATE}', f'grants {NAME}', f'who {NAME} (?:-|{JOB}) (?:-|{MOMENT})']
GRANT = [f'open {NAME}', f'grant {NAME} {GRANTED_MONTH} {PAGES}']
CORRECT = [f'(?:correct|correct-again) {NAME} {UNITS} {TEXT}']
DEVICES = [f'device {NAME} (?:on|off)', f'rate {NAME} {RATE}']
REST = [f'grant {NAME} {MONTH} {PAGES}', f'cancel {NAME} {JOB}', f'hold {NAME} {JOB}', f'check {NAME}', f'backup {FILE}', f'slice {FILE}',
        'end']
ROLES = {'look': LOOK, 'grant': [*LOOK, *GRANT, *CORRECT], 'devices': [*LOOK, *DEVICES],
         'all': [*LOOK, *GRANT, *CORRECT, *DEVICES, *REST]}
PATTERNS = {role: re.compile('|'.join(lines).encode()) for role, lines in ROLES.items()}
CHANGES = {b'open', b'grant', b'correct', b'correct-again', b'device', b'rate', b'cancel', b'hold', b'backup', b'end'}
# Words by which a list is answered.
LISTS = {b'accounts': b'accounts', b'jobs': b'jobs', b'ended': b'jobs', b'grants': b'grants', b'devices': b'devices', b'who': b'events'}
# What stands for itself in a word of text, beside letters and digits.
SEEN = "!\"#$&'()*+,-./:;<=>?@[\\]^_`{|}~"


def is_of(role: str, line: bytes) -> bool:
    """Whether the door takes the line, which is told without its line feed."""
    return PATTERNS[role].fullmatch(line) is not None


def word_of(line: bytes) -> bytes:
    return line.split(b' ', 1)[0]


def count_behind(line: bytes, first: bytes) -> int:
    """How many lines the answer has behind its first. ValueError where that is a list of none."""
    listed = LISTS.get(word_of(line))
    found = re.fullmatch(rb'(accounts|jobs|grants|devices|events) (0|[1-9][0-9]{0,5})', first)
    if found and found[1] == listed:
        return int(found[2])
    if not re.fullmatch(rb'[ -~]+', first):
        raise ValueError('an answer that is none')
    return 0


def written(text: str) -> str:
    """A text as a line has it: with each byte outside ASCII, control, space and `%` as `%` and two digits."""
    return quote(text, safe=SEEN)


def read_reason(word: str) -> str:
    """A correction's reason, from a word of a line. ValueError where it is none that people could read, or has over MOST_REASON bytes."""
    data = unquote_to_bytes(word)
    text = data.decode()
    if not text.isprintable() or text != text.strip() or not 1 <= len(data) <= MOST_REASON:
        raise ValueError('a reason has letters that are seen')
    return text
