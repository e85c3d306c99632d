"""Storage that stops, and a program that is killed (rows/storage.stops).

A row is a script, which runs on a new database; or, behind the line `migrated`, its steps make a database of version 1, and the
program migrates it. The library system/disk.c lets so many changes of the database's file or of its log through, and no more: for
each number of changes, up to one that suffices. Each call behind these fails, or the program is killed at the next change.

Then the program tells `memory` or `store`, with status 3, and answers the other events as if those that failed had not been asked.
The next run finds the database as it was before the event that was stopped, or as it is behind it, in both states that there can
be: with all that was written, and with only what was synced. So all that was answered is there. The ways:

- created: `create`, of which a file stops, or that is killed; the next run may find that there are no tables;
- script: `script`, of which a file stops;
- served: `serve`, which is asked the events one by one, and is killed: at each third change, since each event makes several;
- round: `serve`, which is asked all events in one pass of its loop; a file stops, or it is killed. All of them may be found;
- migrated: `migrate`, of which a file stops, or that is killed; each account keeps its rows, in version 1 or 2.
"""
import functools
import itertools
import os
import resource
import sqlite3

from conversations import Conversation
from database import FILE
from notation import rows
from program import MOST_SECONDS, ROWS, TOP, Differs, Numbers, Serving, expect, run, run_well, variables
from rounds import CHANGES_OF_FILE, CHANGES_OF_LOG, Peer, ask_in_one_pass, make, rows_of

FILES = (FILE, f'{FILE}-wal')
# What stops: the files whose changes count, and whether the program is killed.
STOPS = {'the file': ('file', False), 'the log': ('log', False), 'a kill': ('both', True)}
MIGRATED = 'migrated\n'
# What begins a step that changes the database by hand.
STATEMENT = 'sql '
REFUSED = (b'ipp-room: store\n', b'ipp-room: memory\n')
# More than any run makes.
MOST_CHANGES = 2000
KILLED = -9
# The space that is kept for a full disk is so small then, and takes little time to write.
LONGEST_FILE = 4 << 20


class Disk:
    """The two files of a database in a folder, of which so many changes go through. `contents` has what is in each, or None."""

    def __init__(self, folder, contents, stop, behind):
        self.folder, self.behind = f'{folder}/disk', behind
        self.stops, self.kills = STOPS[stop]
        put(self.folder, contents)
        put(self.folder, contents, '.synced')
        self.counts = Numbers(f'{folder}/counts', [0] * 4)
        self.handed = {'DISK': FILE, 'COUNTS': self.counts.path, 'STOPS': self.stops, 'BEHIND': behind, 'KEEPS': 1}
        if self.kills:
            self.handed['KILLS'] = 1

    def run(self, command, lines=()):
        return run(self.folder, command, FILE, given='\n'.join(lines).encode(), handed=variables('disk', **self.handed))

    def changes(self):
        """How many changes were made of what stops."""
        counts = self.counts.all()
        changes = {'file': counts[CHANGES_OF_FILE], 'log': counts[CHANGES_OF_LOG]}
        return changes.get(self.stops, sum(changes.values()))

    def is_whole(self):
        return self.changes() < self.behind

    def expect_next(self, is_due, what):
        """Expects that the next run finds something that is due, in both states of the files."""
        written, synced = contents_of(self.folder), contents_of(self.folder, '.synced')
        for state, contents in {'all that was written': written, 'what was synced': synced}.items():
            if contents == written and state != 'all that was written':
                continue
            put(f'{self.folder}/next', contents)
            is_taken, tables = found_next(f'{self.folder}/next')
            if not is_due(is_taken, tables):
                raise Differs(f'{what}: over {state} the next run finds {is_taken=} {tables}')


def put(folder, contents, end=''):
    """Puts the two files of these contents, or none, into the folder in the place of others."""
    os.makedirs(folder, exist_ok=True)
    for name, content in zip(FILES, contents):
        path = f'{folder}/{name}{end}'
        if os.path.exists(path):
            os.remove(path)
        if content is not None:
            with open(path, 'wb') as file:
                file.write(content)


def contents_of(folder, end=''):
    return tuple(content_of(f'{folder}/{name}{end}') for name in FILES)


def content_of(path):
    if not os.path.exists(path):
        return None
    with open(path, 'rb') as file:
        return file.read()


def found_next(folder):
    """Whether a run takes the database, and the rows that it then has."""
    ended = run(folder, 'script', FILE)
    expect((ended.status, ended.printed, ended.told) in ((0, b'', b''), (3, b'', REFUSED[0])), True, f'the next run: {vars(ended)}')
    has_rows = os.path.exists(f'{folder}/{FILE}') and os.path.getsize(f'{folder}/{FILE}') > 0
    return ended.status == 0, rows_of(f'{folder}/{FILE}') if has_rows else {}


def tries(folder, contents, stop, numbers):
    """Files that let so many changes through, up to a number that suffices."""
    for behind in numbers:
        disk = Disk(folder, contents, stop, behind)
        yield f'{stop}, behind {behind} changes', disk
        if disk.is_whole():
            return
    raise Differs(f'{stop}: {MOST_CHANGES} changes do not suffice')


def each(first=0, step=1):
    return range(first, MOST_CHANGES, step)


def tells_ok(ended, disk, what):
    """Whether a run that answers no event told that it did what it was to. Else it tells what it may."""
    is_ok = (ended.status, ended.printed, ended.told) == (0, b'ok\n', b'')
    if not is_ok:
        killed = disk.kills and (ended.status, ended.told) == (KILLED, b'')
        expect((ended.printed, killed or tells_refusal(ended), disk.is_whole()), (b'', True, False), f'{what}: {vars(ended)}')
    return is_ok


def tells_refusal(ended):
    return ended.status == 3 and ended.told in REFUSED


@functools.cache
def printed_in_memory(lines):
    return run_well(TOP, 'script', ':memory:', given='\n'.join(lines).encode()).decode().splitlines()


class Script:
    """The events of a row, what is printed of them, and the rows behind none, behind the first, and so on."""

    def __init__(self, lines):
        conversation = Conversation(lines)
        self.lines, self.printed, self.rows = conversation.asked, conversation.printed, []
        self.events = [line.split(' ', 1)[1] for line in self.lines]

    def begin(self, folder):
        """The contents of the files of a new database."""
        make(folder, [])
        contents = contents_of(folder)
        if not self.rows:
            self.rows.append(rows_of(f'{folder}/{FILE}'))
            for line in self.lines:
                run_well(folder, 'script', FILE, given=line.encode())
                self.rows.append(rows_of(f'{folder}/{FILE}'))
        return contents

    def parted(self, printed):
        """The lines that were printed of each event."""
        rest, answers = printed.decode().splitlines(), []
        for event in self.events:
            word, *words = event.split(' ')
            documents = itertools.takewhile(lambda line: word == 'start' and line.startswith(f'document {words[2]} '), rest[::2])
            length = 2 * len(list(documents)) or 1
            answers.append(rest[:length])
            rest = rest[length:]
        expect((rest, [] in answers), ([], False), f'what is printed: {printed}')
        return answers

    def answered(self, answers, what):
        """How many events were answered before the first that failed. Those that did not fail are answered as if the others had
        not been asked."""
        others = tuple(line for line, answer in zip(self.lines, answers) if answer != ['failed'])
        found = [line for answer in answers if answer != ['failed'] for line in answer]
        if len(others) == len(self.lines):
            expect(found, self.printed, what)
            return len(self.lines)
        expect(found, printed_in_memory(others), what)
        return answers.index(['failed'])

    def has_rows_behind(self, events):
        """Whether these rows are found that stand behind so many events."""
        due = [self.rows[number] for number in events if number < len(self.rows)]
        return lambda is_taken, tables: is_taken and tables in due

    def created(self, stop, folder):
        self.begin(folder)
        for what, disk in tries(folder, (None, None), stop, each()):
            is_ok = tells_ok(disk.run('create'), disk, what)
            disk.expect_next(lambda is_taken, tables: tables == self.rows[0] if is_taken else not is_ok and not tables, what)

    def script(self, stop, first, step, folder):
        contents = self.begin(folder)
        for what, disk in tries(folder, contents, stop, each(first, step)):
            ended = disk.run('script', self.lines)
            answered = self.answered(self.parted(ended.printed), what) if ended.printed else 0
            is_well = answered == len(self.lines) and (ended.status, ended.told) == (0, b'')
            expect((is_well or tells_refusal(ended), is_well or not disk.is_whole()), (True, True), f'{what}: {vars(ended)}')
            disk.expect_next(self.has_rows_behind((answered, answered + 1)), what)

    def served(self, first, step, folder):
        contents = self.begin(folder)
        opened = changes_at_opening(folder, contents, 'a kill')
        for what, disk in tries(folder, contents, 'a kill', each(opened + first, step)):
            with serving(disk) as served:
                answers = told_one_by_one(served, (*self.events, 'end'))
                status = served.process.wait(MOST_SECONDS)
            answered = min(len(answers), len(self.lines))
            expect((status, len(answers) > answered) in ((KILLED, True), (KILLED, False), (0, True)), True, f'{what}: {status=}')
            expect([line for answer in answers[:answered] for line in answer], printed_in_memory(tuple(self.lines[:answered])), what)
            disk.expect_next(self.has_rows_behind((answered, answered + 1)), what)

    def round(self, stop, folder):
        contents = self.begin(folder)
        last = len(self.lines)
        opened = changes_at_opening(folder, contents, stop)
        for what, disk in tries(folder, contents, stop, each(opened)):
            with serving(disk) as served:
                *peers, last_peer = [Peer(served, event) for event in (*self.events, 'end')]
                ask_in_one_pass(served, peers)
                answers = [peer.told() for peer in peers]
                if disk.kills and not any(answers):
                    expect(served.process.wait(MOST_SECONDS), KILLED, f'{what}: the status of serve')
                    disk.expect_next(self.has_rows_behind((0, last)), what)
                    continue
                answered = self.answered(answers, what)
                expect(answered == last or not disk.is_whole(), True, f'{what}: {answered=}')
                last_peer.ask()
                told, status = last_peer.told(), served.process.wait(MOST_SECONDS)
                is_due = told in (['ok'], ['failed']) and status in (0, KILLED if disk.kills else 0)
                expect(is_due, True, f'{what}: the end of serve, {told=} {status=}')
            disk.expect_next(self.has_rows_behind((last,) if answered == last else (answered, answered + 1, last)), what)


def serving(disk):
    served = Serving(f'{disk.folder}/{FILE}', disk.folder, loaded=('disk',), **disk.handed)
    served.limits[resource.RLIMIT_FSIZE] = LONGEST_FILE
    return served


def changes_at_opening(folder, contents, stop):
    """How many changes of what stops `serve` makes before it serves."""
    disk = Disk(folder, contents, stop, MOST_CHANGES)
    with serving(disk):
        return disk.changes()


def told_one_by_one(served, events):
    """What is told of each event that was answered, up to the first that was not."""
    answers = []
    for event in events:
        peer = Peer(served, event)
        peer.ask()
        told = peer.told()
        peer.close()
        if not told:
            break
        answers.append(told)
    return answers


def of_steps(conversation, folder):
    """Makes a database in the folder by a row's steps: lines of a script, and statements behind them."""
    lines = [line for line in conversation.asked if not line.startswith(STATEMENT)]
    statements = [line.removeprefix(STATEMENT) for line in conversation.asked[len(lines):]]
    expect(make(folder, lines).splitlines(), conversation.printed, 'the steps')
    execute(folder, statements)


def of_statements(folder):
    """Makes the database of version 1 that stands in rows/."""
    texts = []
    for name in ('version-1.sql', 'version-1-rows.sql'):
        with open(f'{ROWS}/{name}', encoding='utf-8') as file:
            texts.append(file.read())
    execute(folder, texts)


def execute(folder, texts):
    database = sqlite3.connect(f'{folder}/{FILE}')
    for text in texts:
        database.executescript(text)
    database.close()


def migrated(make_first, stop, folder):
    make_first(folder)
    contents = contents_of(folder)
    first = rows_of(f'{folder}/{FILE}')
    expect(first['meta'], [(1, 1)], 'the version')
    second = {**first, 'meta': [(1, 2)], 'rates': [(name, 1) for name, _ in first['device']]}
    for what, disk in tries(folder, contents, stop, each()):
        is_ok = tells_ok(disk.run('migrate'), disk, what)
        disk.expect_next(lambda is_taken, tables: tables == second if is_taken else not is_ok and tables == first, what)


def script_cases(script):
    """The ways of a script. Those with many changes are parted, so that they run side by side."""
    for stop in STOPS:
        yield f'created, {stop}', functools.partial(script.created, stop)
        yield f'round, {stop}', functools.partial(script.round, stop)
    yield 'script, the file', functools.partial(script.script, 'the file', 0, 1)
    for first in range(4):
        yield f'script, the log, part {first + 1}', functools.partial(script.script, 'the log', first, 4)
    for part, first in enumerate((0, 3), 1):
        yield f'served, a kill, part {part}', functools.partial(script.served, first, 6)


def cases():
    for title, lines in rows(f'{ROWS}/storage.stops'):
        if lines.startswith(MIGRATED):
            make_first = functools.partial(of_steps, Conversation(lines.removeprefix(MIGRATED)))
            for stop in STOPS:
                yield f'{title}: migrated, {stop}', functools.partial(migrated, make_first, stop)
        else:
            for way, hold in script_cases(Script(lines)):
                yield f'{title}: {way}', hold
    for stop in STOPS:
        yield f'the rows of version-1.sql: migrated, {stop}', functools.partial(migrated, of_statements, stop)
