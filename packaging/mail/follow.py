"""Follows a log that others add lines to, cut, move away and make anew.

The place behind the last line that was read is kept by whoever follows: the file's number, the bytes before it, a sum of the last of them, and
the moment of the last line. A file is only gone on with where number and sum agree. Of another one, as of one that an editor wrote anew, the
lines count that are later than that moment: so none is told twice, and those of the same second may be lost.
"""
import glob
import hashlib
import os
import re
import time

# Bytes: of a line, and read at once. Of those before the place, so many are summed.
LONGEST_LINE, MOST_READ, SUMMED = 65536, 1 << 20, 256
# Lines still come to a file that was moved away for a second; for so long it is waited for them.
SECONDS_BEHIND_MOVE = 5


class Place:
    """Up to where the file of this number was read; a number of 0 is for a file that is still to come. `last` is the moment of the last line,
    and of the lines that follow those count that are later than `behind`."""

    def __init__(self, number: int, offset: int, mark: str, last: int, behind: int):
        self.number, self.offset, self.mark, self.last, self.behind = number, offset, mark, last, behind

    def kept(self) -> list:
        return [self.number, self.offset, self.mark, self.last, self.behind]


class Follower:
    """The lines of the log at a path behind a place; without one, those that come from now on. `tell` is told what was lost."""

    def __init__(self, path: str, place: list | None, tell, clock=time.monotonic):
        self.path, self.tell, self.clock = path, tell, clock
        self.file, self.moved, self.skips, self.is_read = None, None, False, False
        self.place = Place(*place) if place else Place(0, 0, '', 0, 0)
        if place is None:
            self.begin_at_end()

    def close(self):
        if self.file:
            self.file.close()
        self.file = None

    def begin_at_end(self):
        """A line that is half there is no line then, and tells nothing."""
        try:
            self.file = open(self.path, 'rb')
        except FileNotFoundError:
            return
        self.place.last = int(time.time())
        self.put_place(os.fstat(self.file.fileno()).st_size)

    def lines(self) -> list[bytes]:
        """The lines that have come, whole, without their ends. The place moves behind them."""
        self.is_read = True
        if not self.file and not self.find():
            return []
        if self.is_cut():
            self.tell(f'{self.path} was cut: it is read from its beginning, and lines may have been lost')
            self.begin_anew()
        is_over = self.was_moved()
        data = os.pread(self.file.fileno(), MOST_READ, self.place.offset)
        self.is_read = len(data) < MOST_READ
        whole = data.rfind(b'\n') + 1
        if whole:
            found = data[:whole].split(b'\n')[:-1]
            self.put_place(self.place.offset + whole)
            if self.skips:
                found, self.skips = found[1:], False
            return [line for line in found if len(line) <= LONGEST_LINE and self.counts(line)]
        if len(data) > LONGEST_LINE:
            # No program of ours writes such a line.
            self.put_place(self.place.offset + len(data))
            self.skips = True
        elif is_over:
            self.close()
            self.moved, self.is_read, self.place = None, False, Place(0, 0, '', self.place.last, self.place.behind)
        return []

    def has_more(self) -> bool:
        """Whether the last call of `lines` left some that are there, or that may still come to a file that was moved away."""
        return not self.is_read or self.moved is not None and self.clock() - self.moved < SECONDS_BEHIND_MOVE

    def counts(self, line: bytes) -> bool:
        """Whether the line is not one of those that were read before in another file."""
        moment = re.match(rb'(\d{1,12}) ', line)
        if not moment or int(moment[1]) <= self.place.behind:
            return False
        # The clock may go back later.
        self.place.behind, self.place.last = 0, int(moment[1])
        return True

    def begin_anew(self):
        self.place.behind = max(self.place.behind, self.place.last)
        self.put_place(0)

    def find(self) -> bool:
        """Opens the file of the place, moved away or not; else the one at the path, from its beginning."""
        if self.place.number:
            for path in [self.path, *sorted(glob.glob(f'{glob.escape(self.path)}*'))]:
                if self.is_ours(path):
                    return True
        try:
            self.file = open(self.path, 'rb')
        except FileNotFoundError:
            return False
        if self.place.number:
            self.tell(f'{self.path}: the file that was read last is gone, and lines of it may be lost')
            self.begin_anew()
        else:
            self.put_place(0)
        return True

    def is_ours(self, path: str) -> bool:
        try:
            self.file = open(path, 'rb')
        except OSError:
            return False
        if os.fstat(self.file.fileno()).st_ino == self.place.number and not self.is_cut():
            return True
        self.close()
        return False

    def is_cut(self) -> bool:
        """Whether what stands before the place is not what was read there."""
        return self.sum_before(self.place.offset) != self.place.mark

    def was_moved(self) -> bool:
        """Whether another file, or none, is at the path, since so long that nothing comes to this one any more."""
        try:
            is_there = os.stat(self.path).st_ino == os.fstat(self.file.fileno()).st_ino
        except FileNotFoundError:
            is_there = False
        if is_there:
            self.moved = None
        elif self.moved is None:
            self.moved = self.clock()
        return self.moved is not None and self.clock() - self.moved >= SECONDS_BEHIND_MOVE

    def put_place(self, offset: int):
        self.place = Place(os.fstat(self.file.fileno()).st_ino, offset, self.sum_before(offset), self.place.last, self.place.behind)

    def sum_before(self, offset: int) -> str:
        first = max(0, offset - SUMMED)
        return hashlib.sha256(os.pread(self.file.fileno(), offset - first, first)).hexdigest()[:16]
