"""What is known of an account's jobs and quota from the logs of the server and of the desk's doors, for the page and for `who`."""
import datetime
import threading
from typing import NamedTuple

import logs
from telling import Row, matched, of_doors, of_server

# Looks at once, and seconds for which another waits.
MOST_AT_ONCE, PATIENCE = 2, 10
# What a door was told stands so many seconds at most behind what it was asked.
LAG = 60


class Busy(Exception):
    """Others look, and have not come to an end."""


class Told(NamedTuple):
    # Newest first.
    rows: list[Row]
    # Before this moment there may be more.
    older: int | None
    faults: list[str]


class Logs:
    """The logs at these paths."""

    def __init__(self, server: str, doors: str):
        self.server, self.doors, self.places = server, doors, threading.BoundedSemaphore(MOST_AT_ONCE)

    def tell(self, account: str, job: int | None, before: int | None = None) -> Told:
        """What they tell of the account, with `job` of that alone, with `before` of what is older. Busy where others are at it for long."""
        if not self.places.acquire(timeout=PATIENCE):
            raise Busy
        try:
            server = self.look('server', self.server, account, of_server(account, job), before)
            doors = self.look('desk', self.doors, account, of_doors(account, job), before and before + LAG)
            if before and doors.since is not None and doors.since >= before:
                doors = self.look('desk', self.doors, account, of_doors(account, job), before)
        finally:
            self.places.release()
        faults = server.faults + doors.faults
        if not server.is_there and not server.faults:
            faults.append('The server keeps no log, or has not begun one.')
        since = max((since for since in (server.since, doors.since) if since is not None), default=None)
        return cut(matched(server.rows, doors.rows), since, before, faults)

    def look(self, whose: str, path: str, account: str, read, before: int | None) -> logs.Found:
        try:
            found = logs.look(path, account, read, before)
            return found._replace(faults=[f'Of the {whose}\'s log, {fault}.' for fault in found.faults])
        except OSError:
            return logs.Found([], None, [f'The {whose}\'s log can\'t be read.'], False)


def cut(rows: list[Row], since: int | None, before: int | None, faults: list[str]) -> Told:
    """Those of the rows that are to be shown: before which nothing lacks that is newer."""
    shown = [row for row in rows if (before is None or row.moment < before) and (since is None or row.moment >= since)]
    if len(shown) > logs.MOST_ROWS:
        shown = shown[:logs.MOST_ROWS]
        since = shown[-1].moment
    if since is None:
        return Told(shown, None, faults)
    # The last second may have more. Where nothing else came they are left out: else what is older would not be come to.
    older = since + 1 if before is None or since + 1 < before else since
    return Told(shown, older if before is None or older < before else None, faults)


def text_of(row: Row) -> str:
    """A row as a line of a terminal."""
    reason = f' ({row.reason})' if row.reason else ''
    return f'{time_of(row.moment)}  {row.who}: {row.what}{reason}: {row.came}'


def time_of(moment: int) -> str:
    return f'{datetime.datetime.fromtimestamp(moment, datetime.timezone.utc):%Y-%m-%d %H:%M:%SZ}'


def lines_of(told: Told) -> list[str]:
    """All that is told, as lines."""
    older = [] if told.older is None else [f'What is older than {time_of(told.older)} is left out.']
    return [*(text_of(row) for row in told.rows), *older, *told.faults]
