"""What the programs in C over the stock SQLite library are given: the project's SQL texts, and a file of its own."""
import os
import re
import shutil
import sys

from messages import TOP

# Of a Print-Job: the account's row is read, and three are written.
TEXTS = [('accounts.rt', 'SELECT opened, next_job FROM account'), ('accounts.rt', 'UPDATE account SET next_job'),
         ('jobs.rt', 'INSERT INTO job '), ('documents.rt', 'INSERT INTO document ')]


def print_job_texts():
    return [text_of(*it) for it in TEXTS]


def text_of(file, begin):
    """The one text of the file that begins so."""
    with open(f'{TOP}/crates/rows_statements/src/{file}', encoding='utf-8') as source:
        found = re.findall(f'"({begin}[^"]*)"', source.read())
    if len(found) != 1:
        sys.exit(f'{file} has {len(found)} texts that begin with {begin}')
    return found[0]


def copy_database(one, other):
    """Copies a database that is closed, with its log."""
    for end in ('', '-wal'):
        if os.path.exists(one + end):
            shutil.copyfile(one + end, other + end)
