"""The file of a room: how a test makes it, and changes rows by hand where no program has it open.

`sql TEXT` gives SQL to Python's SQLite, `next-job ACCOUNT N` gives the account's next job a number.
"""
import contextlib
import sqlite3

from program import expect, run_well

FILE = 'room.db'
BY_HAND = ('sql ', 'next-job ')
# docs/PROTOCOL.md, Databases.
KEPT_SPACE = 36 << 20


def is_by_hand(line):
    return line.startswith(BY_HAND)


def create(folder):
    """Makes the file. What `serve` keeps for a full disk is there as a hole, which it need not write."""
    expect(run_well(folder, 'create', FILE), b'ok\n', 'create')
    with open(f'{folder}/{FILE}-space', 'wb') as space:
        space.truncate(KEPT_SPACE)


def change(path, line):
    """Changes rows of the file as the line says."""
    word, _, rest = line.partition(' ')
    with contextlib.closing(sqlite3.connect(path)) as database, database:
        if word == 'sql':
            changed = database.execute(rest)
        else:
            account, number = rest.split(' ')
            changed = database.execute('UPDATE account SET next_job = ? WHERE name = ?', (int(number), account))
        expect(changed.rowcount, 1, f'how many rows are changed by {line}')
