"""That rows are refused where the program does otherwise: the first row of each file that has due lines, of which the first or the last
is changed, has to differ in each way in which the row is held. But `explain` shows any line as it is.
"""
import functools
import os

import conversations
import exchanges
import runs
import served
from notation import files_of_kind, rows
from program import Differs

KINDS = {'.rows': conversations, '.runs': runs, '.exchanges': exchanges, '.served': served}
DUE = ('< ', 'status ')
# Ways that a line that is due can't be seen in.
BLIND = ('explained',)


def changed(row, place):
    """The row with the last character of one of its due lines changed."""
    lines = row.split('\n')
    at = [at for at, line in enumerate(lines) if line.startswith(DUE)][place]
    return '\n'.join([*lines[:at], lines[at][:-1] + ('y' if lines[at][-1] == 'x' else 'x'), *lines[at + 1:]])


def is_refused(cases_of, row, way, folder):
    """Holds the row in the way, with its first and with its last due line changed."""
    for place in (0, -1):
        inner = os.path.join(folder, f'line{place}')
        os.mkdir(inner)
        try:
            dict(cases_of(changed(row, place)))[way](inner)
        except Differs:
            continue
        raise Differs(f'it is held with its due line {place} changed')


def cases():
    for ending, module in KINDS.items():
        for path in files_of_kind(ending):
            row = next(((title, row) for title, row in rows(path) if any(line.startswith(DUE) for line in row.split('\n'))))
            for way, _ in module.cases_of(row[1]):
                if way not in BLIND:
                    yield f'{os.path.basename(path)}: {row[0]}, {way}', functools.partial(is_refused, module.cases_of, row[1], way)
