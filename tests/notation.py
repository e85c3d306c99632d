"""The notation of rows: how a person writes the bytes of a message, and how a file is parted into rows.

Each line of a message stands for bytes:

- `Print-Job 1 alice` begins a request of version 1.1 with the number 1 to alice's printer, with the charset and the language, up
  to its printer-uri `ipp://localhost/ipp/print/alice`; any operation of RFC 8011 section 5.4.15 stands so;
- `successful-ok 1` begins the response to it, with the charset and the language;
- `NAME = VALUE` is an attribute of a known name: `copies = 3`, `last-document = true`, `job-name = "essay"`; `TAG NAME = VALUE`
  is one of any tag and name, and `TAG = VALUE` a further value; there a value is made of hexadecimal digits and of texts in
  double quotes, each of them as often as `*N` after it says;
- words of hexadecimal digits stand for themselves, each as often as `*N` after it says; `C` stands for the charset and the
  language, `U(alice)` for that printer-uri; they may also follow a line that begins a message;
- `job ACCOUNT N STATE REASON` is the group of job N as it is answered to the request that made it;
- `refused STATUS ID WORD` is the whole answer to a refused request of version 1.1;
- another line with a text in double quotes is a value by itself.

What follows `#` is a comment and stands for nothing, where two spaces stand before the `#` or nothing does. What `explain` prints
of a message is this notation without its short words.
"""
import glob
import os
import re

INTEGER, BOOLEAN, ENUM = 0x21, 0x22, 0x23

# The attributes that can be written by their names alone, by the tag of their syntax (RFC 8010 section 3.5.2).
TAGS = {name: tag for tag, names in {
    INTEGER: 'copies copies-default job-id job-impressions job-impressions-completed job-printer-up-time limit number-of-documents '
             'printer-up-time queued-job-count time-at-completed time-at-creation time-at-processing',
    BOOLEAN: 'ipp-attribute-fidelity last-document my-jobs printer-is-accepting-jobs',
    ENUM: 'job-state printer-state',
    0x30: 'job-password',
    0x41: 'status-message',
    0x42: 'document-name job-name job-originating-user-name printer-name requesting-user-name',
    0x44: 'compression job-hold-until job-password-encryption job-state-reasons printer-state-reasons requested-attributes sides '
          'which-jobs',
    0x45: 'job-printer-uri job-uri printer-uri printer-uri-supported',
    0x47: 'attributes-charset charset-configured',
    0x48: 'attributes-natural-language natural-language-configured',
    0x49: 'document-format document-format-default',
}.items() for name in names.split()}

# RFC 8011 section 5.4.15.
OPERATIONS = {
    'Print-Job': 0x02, 'Print-URI': 0x03, 'Validate-Job': 0x04, 'Create-Job': 0x05, 'Send-Document': 0x06, 'Send-URI': 0x07,
    'Cancel-Job': 0x08, 'Get-Job-Attributes': 0x09, 'Get-Jobs': 0x0a, 'Get-Printer-Attributes': 0x0b, 'Hold-Job': 0x0c,
    'Release-Job': 0x0d, 'Restart-Job': 0x0e, 'Pause-Printer': 0x10, 'Resume-Printer': 0x11, 'Purge-Jobs': 0x12,
}


class Unread(Exception):
    """A line of a file that is no line of its notation."""


def rows(path):
    """The title and the lines of each row of a file: `# TITLE` begins one."""
    with open(path, encoding='utf-8') as file:
        text = file.read()
    if not text.startswith('# '):
        raise Unread(f'{path}: its first line is no title')
    return [(title, lines) for title, _, lines in (row.partition('\n') for row in text[2:].split('\n# '))]


def files_of_kind(ending):
    """The paths of the files of rows whose names end so."""
    return sorted(glob.glob(f'{os.path.dirname(os.path.abspath(__file__))}/rows/*{ending}'))


def cases_of_kind(ending, cases_of):
    """The name and the function of each case in which the rows of a kind are held, by the file, the title and the way."""
    for path in files_of_kind(ending):
        for title, lines in rows(path):
            for way, function in cases_of(lines):
                yield f'{os.path.basename(path)}: {title}, {way}', function


def says_nothing(line):
    """Whether a line of a row is empty, or a remark."""
    return not line or line.startswith('-- ')


def spell(line):
    """The bytes that a line of a message stands for."""
    line = without_comment(line)
    first, _, rest = line.partition(' ')
    if first == 'job':
        return job_group(*rest.split(' '))
    if first == 'refused':
        return refusal(*rest.split(' '))
    if first == 'successful-ok':
        number, _, words = rest.partition(' ')
        return header(0, number) + of_words(words)
    if first in OPERATIONS:
        number, account, *words = rest.split(' ', 2)
        return header(OPERATIONS[first], number) + printer_uri(account) + of_words(' '.join(words))
    tag_and_name, is_attribute, value = line.partition(' = ')
    if is_attribute:
        return attribute_of(tag_and_name, value)
    return of_value(line) if '"' in line else of_words(line)


def without_comment(line):
    return '' if line.startswith('#') else re.sub(r' *  #.*', '', line)


def attribute(tag, name, value):
    """An attribute as it stands in a message (RFC 8010 section 3.1.4)."""
    name = name.encode()
    return bytes([tag]) + len(name).to_bytes(2, 'big') + name + len(value).to_bytes(2, 'big') + value


def charset_and_language():
    return attribute(0x47, 'attributes-charset', b'utf-8') + attribute(0x48, 'attributes-natural-language', b'en')


def header(code, number):
    """The header of version 1.1, the tag of the operation attributes, and the two that come first."""
    return b'\x01\x01' + code.to_bytes(2, 'big') + int(number).to_bytes(4, 'big') + b'\x01' + charset_and_language()


def printer_uri(account):
    return attribute_of('printer-uri', f'"ipp://localhost/ipp/print/{account}"')


def job_group(account, number, state, reason):
    return (b'\x02' + attribute_of('job-uri', f'"ipp://localhost/ipp/print/{account}/{number}"') + attribute_of('job-id', number)
            + attribute_of('job-state', state) + attribute_of('job-state-reasons', f'"{reason}"'))


def refusal(status, number, word):
    """The answer to a refused request, whose status and number are digits."""
    return (bytes.fromhex(f'0101{status}{number}01') + charset_and_language() + attribute_of('status-message', f'"{word}"') + b'\x03')


def attribute_of(tag_and_name, value):
    """The attribute of a line: of a known name, or of a tag in digits and perhaps a name."""
    if tag_and_name in TAGS:
        tag, name = TAGS[tag_and_name], tag_and_name
        return attribute(tag, name, of_value_by(tag, value))
    tag, _, name = tag_and_name.partition(' ')
    return attribute(int(tag, 16), name, of_value(value))


def of_value_by(tag, value):
    """A value that is written as its tag has it: a number in decimal, `true` or `false`, or a text."""
    if tag in (INTEGER, ENUM):
        return int(value).to_bytes(4, 'big')
    if tag == BOOLEAN:
        return {'true': b'\x01', 'false': b'\x00'}[value]
    return of_value(value)


def of_value(text):
    """The bytes of a value's parts: texts in double quotes and digits, each as often as `*N` behind it says."""
    spelled, part = b'', b''
    for at, piece in enumerate(text.split('"')):
        if at % 2:
            part = piece.encode()
            spelled += part
            continue
        for word in piece.split():
            digits, _, times = word.partition('*')
            if digits:
                part = bytes.fromhex(digits)
                spelled += part
            spelled += part * (int(times or 1) - 1)
    return spelled


def of_words(line):
    """The bytes of words: digits as often as `*N` says, the short word C, and U(ACCOUNT)."""
    spelled = b''
    for word in line.split():
        if word == 'C':
            spelled += charset_and_language()
        elif word.startswith('U('):
            spelled += printer_uri(word[2:-1])
        else:
            digits, _, times = word.partition('*')
            spelled += bytes.fromhex(digits) * int(times or 1)
    return spelled


def unescaped(text):
    r"""The bytes of a text in which \xNN is a byte."""
    return re.sub(rb'\\x([0-9a-f]{2})', lambda digits: bytes.fromhex(digits[1].decode()), text.encode())
