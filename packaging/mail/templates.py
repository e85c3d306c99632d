"""What a mail says: a text of the print room's own for each kind of event, a file of a folder with the kind's name.

    Subject: Your print job was refused

    Job {job} was refused: {why}

The subject has no field, since it is read over shoulders and on locked screens. In the text a field is the value of the event, and empty
where it has none: {account}, {job} and {title}, {why}, {device}, {units} and {left}, {count} and {days}, {when} (in UTC).
"""
import os
import re
import time

from events import KINDS, Event

FIELDS = ('account', 'job', 'title', 'why', 'device', 'units', 'left', 'count', 'days', 'when')
# A space before it goes with a field that is empty.
FIELD = re.compile(r'( ?)\{([^{}]*)\}')
LONGEST_SUBJECT, LONGEST_TEXT, LONGEST_VALUE = 120, 8192, 300


class Wrong(Exception):
    """A template is none."""


class Template:
    """The subject and the text of a mail."""

    def __init__(self, text: str):
        head, _, self.text = text.partition('\n\n')
        self.subject = head.removeprefix('Subject: ')
        if not head.startswith('Subject: ') or not self.subject.isprintable() or not 0 < len(self.subject) <= LONGEST_SUBJECT:
            raise Wrong('it does not begin with a line `Subject: ` and an empty one')
        if FIELD.search(self.subject):
            raise Wrong('its subject has a field')
        if not self.text.strip() or len(self.text) > LONGEST_TEXT or '\0' in text:
            raise Wrong(f'its text is empty, or longer than {LONGEST_TEXT} letters')
        unknown = {name for _, name in FIELD.findall(self.text)} - set(FIELDS)
        if unknown:
            raise Wrong(f'it has a field {{{min(unknown)}}}, which no event has')

    def filled(self, event: Event) -> str:
        values = {'account': event.account or '', 'when': time.strftime('%Y-%m-%d %H:%M', time.gmtime(event.at)), **event.fields}
        return FIELD.sub(lambda found: (text := one_line(str(values.get(found[2], '')))) and found[1] + text, self.text)


def one_line(text: str) -> str:
    """A value as it may stand in a text: on one line, with `?` for what is not seen."""
    text = re.sub(r'\s+', ' ', text[:4 * LONGEST_VALUE]).strip()
    text = ''.join(letter if letter.isprintable() else '?' for letter in text)
    return text if len(text) <= LONGEST_VALUE else text[:LONGEST_VALUE - 2] + '..'


def load_templates(folder: str) -> dict[str, Template]:
    """Those of a folder, by their kinds: of a kind without a file no mail is sent."""
    found = {}
    for kind in KINDS:
        path = f'{folder}/{kind}'
        if os.path.exists(path):
            try:
                with open(path, encoding='utf-8') as file:
                    found[kind] = Template(file.read(LONGEST_TEXT + LONGEST_SUBJECT + 100))
            except (Wrong, ValueError) as wrong:
                raise Wrong(f'{path}: {wrong}') from wrong
    return found
