"""A list of events of two accounts (rows/cells.events): an act in a state, a check, a line. Each step is one of alice and, five steps
later, one of bob, whose name stands for `@`. The list comes to the same answers and the same rows

- whole: by one run of `script` on a file, from one change by hand to the next, which all others are held against;
- in memory: by one run of `script :memory:`, up to the first change by hand;
- step by step: by a run of `script` on a file for each turn, a step of alice and bob's beside it; and by `serve`, where each step is
  first refused at a moment that is none. After each turn both files have the same rows, and bob's are as alice's were five turns before;
- in rounds: by `serve`, of which up to 60 connections each ask a step while it stands still, so that they share a commit;
- alone and beside: as alice's steps, on a file where she is alone and on one where bob has fifty jobs and asks between any two.

Each account has to reach each line of rows/cells.reached (reached.py).
"""
import contextlib
import functools
import itertools
import os
import shutil
import sqlite3
import tempfile

from conversations import Conversation, expect_lines, parts, script, script_in_parts
from database import FILE, change, create, is_by_hand
from doors import Doors, Room
from messages import message
from notation import says_nothing
from program import ROWS, expect
from reached import job_id_in, names_reached

ACCOUNTS = ('alice', 'bob')
BEHIND = 5
# The first moment behind the last of 2099.
LATE = 4102444800
# What a script has at most (docs/PROTOCOL.md, Exit statuses).
MOST_INPUT = 67108864
# In one pass 64 connections are served.
MOST_SHARING = 60
# A longer line can't be sent while nobody reads it.
MOST_WAITING = 16384

TABLES = ('account', 'job', 'document', 'grants', 'device', 'rates')

FIFTY_JOBS = '> open bob\n> 50 times ipp bob\n  Print-Job 1 bob 03 48656c6c6f'
# That alice's devices are off, and how her printer stands then.
ENDING = '''> device alice-1 off
< ok
> device alice-2 off
< ok
> device alice-5 off
< ok
> ipp alice
  Get-Printer-Attributes 1 alice
  requested-attributes = "printer-state"
  03
< ipp
  successful-ok 1 04
  printer-state = 5
  03'''


@functools.cache
def steps(account):
    with open(f'{ROWS}/cells.events', encoding='utf-8') as file:
        return Conversation(file.read().replace('@', account)).asked


def turns():
    """The steps that are done beside each other, each with its account."""
    firsts, seconds = ([(account, line) for line in steps(account)] for account in ACCOUNTS)
    nothing = [None] * BEHIND
    return [[step for step in turn if step] for turn in zip(firsts + nothing, nothing + seconds)]


def whole():
    return flat(turns())


def flat(lists):
    return [item for items in lists for item in items]


def is_long(line):
    """Whether a script has no room for two such lines."""
    return len(line) > MOST_INPUT // 2


def pieces_of(lines):
    """The lines of each run of `script`, up to a change by hand or to a long line."""
    for part, by_hand in parts(lines):
        piece = []
        for line in part:
            if is_long(line):
                yield piece, None
                piece = []
            piece.append(line)
        yield piece, by_hand


def by_line(lines, printed):
    """What was printed of each line. Of a start that are two lines for each document of its job."""
    at = 0
    for line in lines:
        begun, document = at, f'document {line.split(" ")[-1]} '
        while at < len(printed) and printed[at].startswith(document):
            at += 2
        if at == begun and not is_by_hand(line):
            at += 1
        yield printed[begun:at]
    expect(printed[at:], [], 'printed lines behind the others')


def answers_to(folder, lines):
    """The answers to each line of a list that is given whole."""
    return list(by_line(lines, script_in_parts(folder, pieces_of(lines))))


def folder_in(folder, name):
    """A folder of its own in this one, with a file in which there is nothing yet."""
    os.mkdir(f'{folder}/{name}')
    create(f'{folder}/{name}')
    return f'{folder}/{name}'


DUE = []


def answers_and_rows_due(folder):
    """The answers to each step of the whole list, and the rows behind it; they are found out once."""
    if not DUE:
        folder = folder_in(folder, 'whole')
        DUE.extend([answers_to(folder, [line for _, line in whole()]), rows_of(folder)])
    return DUE


def rows_of(folder):
    """The rows of each table of the file, with what is committed in its log."""
    with tempfile.TemporaryDirectory(dir=folder) as copy:
        for file in (FILE, f'{FILE}-wal'):
            if os.path.exists(f'{folder}/{file}'):
                shutil.copy(f'{folder}/{file}', copy)
        with contextlib.closing(sqlite3.connect(f'{copy}/{FILE}')) as database:
            return {table: sorted(database.execute(f'SELECT * FROM {table}')) for table in TABLES}


def rows_with(rows, account):
    """Those of an account and its devices, whose names stand first."""
    return {table: [row for row in rows[table] if row[0] == account or row[0].startswith(f'{account}-')] for table in TABLES}


def renamed(rows, name, other):
    return {table: [tuple(value.replace(name, other) if isinstance(value, str) else value for value in row) for row in rows[table]]
            for table in TABLES}


def expect_rows(found, due, what):
    for table in TABLES:
        for row, other in zip(found[table], due[table]):
            expect(row, other, f'a row of {table} {what}')
        expect(len(found[table]), len(due[table]), f'how many rows of {table} there are {what}')


def hold_in_memory(folder):
    due, _ = answers_and_rows_due(folder)
    asked = itertools.takewhile(lambda step: not is_by_hand(step[0][1]), zip(whole(), due))
    # A script has room for one of both long lines.
    chosen = [(line, answers) for (account, line), answers in asked if account == ACCOUNTS[0] or not is_long(line)]
    expect_lines(script(folder, ':memory:', [line for line, _ in chosen]), flat(answers for _, answers in chosen))


def hold_step_by_step(folder):
    due, rows_due = answers_and_rows_due(folder)
    served, scripted = folder_in(folder, 'served'), folder_in(folder, 'scripted')
    answers, before, firsts, reached = iter(due), rows_of(served), [], set()
    with Room(f'{served}/{FILE}', served) as room:
        for at, turn in enumerate(turns()):
            told = [next(answers) for _ in turn]
            for (_, line), answer in zip(turn, told):
                ask_late_and_in_time(room, line, answer)
            expect_lines(script_in_parts(scripted, pieces_of([line for _, line in turn])), flat(told))
            with room.serving.paused():
                rows = rows_of(served)
            expect_rows(rows_of(scripted), rows, f'behind turn {at}')
            expect_as_first(firsts, rows, at)
            for (account, line), answer in zip(turn, told):
                reached.update((account, name) for name in names_reached(account, line, answer, before, rows))
            before = rows
        room.end()
    expect_rows(before, rows_due, 'behind the list')
    expect_all_reached(reached)


def ask_late_and_in_time(room, line, answers):
    """Has the line refused where its moment is none that is served, and then answered."""
    if not is_by_hand(line):
        refused = 'short' if answers == ['short'] else 'failed'
        expect(room.doors.ask(f'{LATE} {line.split(" ", 1)[1]}'), [refused], f'late: {line[:80]}')
    expect_lines(room.ask(line), answers)


def expect_as_first(firsts, rows, at):
    """Expects the second account's rows to be as those of the first were so many turns before."""
    first, second = ACCOUNTS
    firsts.append(rows_with(rows, first))
    if BEHIND <= at:
        expect_rows(renamed(rows_with(rows, second), second, first), firsts[at - BEHIND], f'behind turn {at} of {second}')


def hold_in_rounds(folder):
    due, rows_due = answers_and_rows_due(folder)
    folder = folder_in(folder, 'rounds')
    answers = iter(due)
    for lines, by_hand in parts([line for _, line in whole()]):
        with Room(f'{folder}/{FILE}', folder) as room, contextlib.ExitStack() as blocks:
            peers = [blocks.enter_context(Doors(room.serving)) for _ in range(MOST_SHARING)]
            for peer in peers:
                wait_for_doors(peer)
            for sharing in rounds(lines):
                expect_lines(ask_in_round(folder, room, peers, sharing), flat(next(answers) for _ in sharing))
            room.end()
        if by_hand:
            change(f'{folder}/{FILE}', by_hand)
            expect(next(answers), [], by_hand)
    expect_rows(rows_of(folder), rows_due, 'behind the list')


def wait_for_doors(peer):
    """Connects to each door, and waits until it has answered."""
    peer.send_bytes('port', message('alice', b'0'))
    peer.send_bytes('stations', b'list d1 nobody\n')
    peer.send_bytes('operators', b'ping\n')
    told = [peer.answer_of_client(), *peer.answer_of_line('stations'), *peer.answer_of_line('operators')]
    expect(told, ['short', 'no-account', 'ok'], 'what the doors answer')


def rounds(lines):
    """The lines that ask together, in their order. One that can't wait asks alone."""
    sharing = []
    for line in lines:
        if sharing and (len(sharing) == MOST_SHARING or max(len(line), len(sharing[-1])) > MOST_WAITING):
            yield sharing
            sharing = []
        sharing.append(line)
    yield sharing


def ask_in_round(folder, room, peers, lines):
    """The answers to the lines, each asked over a connection of its own. Where they change rows they share a commit."""
    if len(lines) == 1:
        return peers[0].ask(lines[0])
    with room.serving.paused():
        rows, before = rows_of(folder), commits(folder)
        for peer, line in zip(peers, lines):
            peer.send(line)
    answers = flat(peer.answer(line) for peer, line in zip(peers, lines))
    with room.serving.paused():
        expect(commits(folder) - before, int(rows_of(folder) != rows), f'commits of {len(lines)} lines from {lines[0][:60]}')
    return answers


def commits(folder):
    """How many commits the file's log has: frames that say how long the file is then (sqlite.org/fileformat2.html, section 4.1)."""
    with open(f'{folder}/{FILE}-wal', 'rb') as file:
        log = file.read()
    page_size, salts = int.from_bytes(log[8:12], 'big'), log[16:24]
    frames = (log[at:at + 24] for at in range(32, len(log), 24 + page_size))
    return sum(frame[4:8] != bytes(4) for frame in itertools.takewhile(lambda frame: frame[8:16] == salts, frames))


def hold_alone_and_beside(folder):
    due, _ = answers_and_rows_due(folder)
    account, ending = ACCOUNTS[0], Conversation(ENDING)
    own = steps(account) + ending.asked
    alone, beside = folder_in(folder, 'alone'), folder_in(folder, 'beside')
    answers = answers_to(alone, own)
    expect_lines(flat(answers), flat(told for (whose, _), told in zip(whole(), due) if whose == account) + ending.printed)
    asked = [(False, line) for line in Conversation(FIFTY_JOBS).asked]
    for at, (line, next_job) in enumerate(zip(own, next_jobs(own, answers))):
        asked.append((True, line))
        asked += [(False, other) for other in Conversation(other_asks(at, next_job)).asked]
    told = answers_to(beside, [line for _, line in asked])
    expect_lines(flat(answer for (is_own, _), answer in zip(asked, told) if is_own), flat(answers))
    expect_rows(rows_with(rows_of(beside), account), rows_of(alone), 'beside another')


def next_jobs(lines, answers):
    """The number of the account's next job behind each line."""
    following = 1
    for line, answer in zip(lines, answers):
        if is_by_hand(line):
            following = int(line.split(' ')[2])
        elif answer[0].startswith('ipp '):
            following = max(following, job_id_in(bytes.fromhex(answer[0][4:])) + 1)
        yield following


def other_asks(at, next_job):
    """What bob asks in turns: a new job; that his job with the number of alice's next one is canceled, so that a mix-up shows; a grant."""
    return ('> ipp bob\n  Print-Job 1 bob 03 48656c6c6f',
            f'> ipp bob\n  Cancel-Job 2 bob\n  job-id = {next_job}\n  03',
            '> grant bob 2026-09 70')[at % 3]


def expect_all_reached(reached):
    with open(f'{ROWS}/cells.reached', encoding='utf-8') as file:
        names = [line for line in file.read().split('\n') if not says_nothing(line)]
    expect([(account, name) for name in names for account in ACCOUNTS if (account, name) not in reached], [], 'what is not reached')


def cases():
    yield 'step by step', hold_step_by_step
    yield 'in memory', hold_in_memory
    yield 'in rounds', hold_in_rounds
    yield 'alone and beside', hold_alone_and_beside
