"""What a log tells that names an account: from the file that grows and those that logrotate has moved away, plain or packed, newest first.

Nothing is kept between two looks. A look ends at so many rows, bytes or seconds, and says up to which moment it has come: who wants what is
older looks before that. No line is taken but as a whole, up to its line feed.
"""
import collections
import gzip
import os
import re
import stat
import time
import zlib
from typing import BinaryIO, Callable, Iterator, NamedTuple

# Rows of a look, bytes of a line, and bytes that are read at once.
MOST_ROWS, LONGEST_LINE, PIECE = 200, 4096, 1 << 18
# Bytes of a file as it was before it was packed. Behind so many of all files, or seconds, no further one is begun, but for the second; and one
# that takes so many seconds is left.
MOST_TEXT, SECONDS, MOST_SECONDS = 256 << 20, 3, 10
MOST_FILES, TRIES = 500, 5
# Bytes in which a file's first moment stands.
BEGINNING = 65536
MOVED = re.compile(r'(?:\.(\d{1,4})|-(\d{8}(?:-\d{1,12})?))(?:\.gz)?')
MOMENT = re.compile(rb'(\d{1,10}) ')


class Found(NamedTuple):
    # Newest first.
    rows: list
    # What is older than this moment may lack. None where nothing does.
    since: int | None
    # What could not be read.
    faults: list[str]
    is_there: bool


class Spent:
    """What a look has read and how long it has taken. `clock` tells seconds that only grow."""

    def __init__(self, clock: Callable[[], float] = time.monotonic):
        self.clock, self.begun, self.text, self.files = clock, clock(), 0, 0

    def seconds(self) -> float:
        return self.clock() - self.begun

    def is_enough(self) -> bool:
        return self.files > 1 and (self.text > MOST_TEXT or self.seconds() > SECONDS)


def look(path: str, account: str, read: Callable[[int, bytes], object], before: int | None = None, spent: Spent | None = None) -> Found:
    """What `read` makes of the log's lines that have the account as a field, each by its moment and what stands behind that: rows, and None of
    those that are none. With `before` lines of that moment or later do not count."""
    spent, rows, since, needle = spent or Spent(), [], None, f' {account} '.encode()
    files, faults = opened(path)
    try:
        for name, file in files:
            first = first_moment(name, file)
            if before is not None and first is not None and first >= before:
                continue
            if spent.is_enough():
                # All that is older than the file before was not looked at.
                faults += [f'{name} and older files are not looked at'] if since is None else []
                return Found(rows[:MOST_ROWS], since, faults, True)
            spent.files += 1
            of_file, fault = rows_of(name, file, needle, read, before, spent)
            faults += [f'{name} {fault}'] if fault else []
            rows += of_file
            if len(rows) > MOST_ROWS:
                return Found(rows[:MOST_ROWS], rows[MOST_ROWS - 1].moment, faults, True)
            since = first if first is not None else since
    finally:
        for _, file in files:
            file.close()
    return Found(rows, None, faults, bool(files))


def rows_of(name: str, file: BinaryIO, needle: bytes, read: Callable, before: int | None, spent: Spent) -> tuple[list, str | None]:
    """The newest rows of a file, newest first, and what was wrong with it."""
    rows, fault = collections.deque(maxlen=MOST_ROWS + 1), None
    try:
        for line in lines_with(name, file, needle, spent):
            found = MOMENT.match(line)
            if found and (before is None or int(found[1]) < before):
                row = read(int(found[1]), line[found.end():])
                if row is not None:
                    rows.append(row)
    except TooLong:
        fault = 'is not read whole: it is too long'
    except (OSError, EOFError, zlib.error):
        fault = 'is damaged, and not read whole'
    return list(reversed(rows)), fault


class TooLong(Exception):
    """A file has more than is read of one."""


def lines_with(name: str, file: BinaryIO, needle: bytes, spent: Spent) -> Iterator[bytes]:
    """The whole lines that have the needle, in their order. Of one file that is too long and not packed only the last are looked at."""
    end, rest, skips, text = spent.seconds() + MOST_SECONDS, b'', False, 0
    stream, is_cut = text_of(name, file), not is_packed(name) and os.fstat(file.fileno()).st_size > MOST_TEXT
    if is_cut:
        stream.seek(-MOST_TEXT, os.SEEK_END)
        # The first is a part of one.
        skips = True
    # What comes before the place where a file is damaged is had.
    while piece := stream.read1(PIECE):
        text += len(piece)
        spent.text += len(piece)
        if text > MOST_TEXT + PIECE or spent.seconds() > end:
            raise TooLong
        data = rest + piece
        if skips:
            first = data.find(b'\n') + 1
            if not first:
                continue
            data, skips = data[first:], False
        whole = data.rfind(b'\n') + 1
        yield from found_in(data, whole, needle)
        rest = data[whole:]
        if len(rest) > LONGEST_LINE:
            rest, skips = b'', True
    if is_cut:
        raise TooLong


def found_in(data: bytes, whole: int, needle: bytes) -> Iterator[bytes]:
    """The lines of the data that have the needle; `whole` is behind the last line feed."""
    at = data.find(needle, 0, whole)
    while at >= 0:
        first, last = data.rfind(b'\n', 0, at) + 1, data.find(b'\n', at, whole)
        if last - first <= LONGEST_LINE:
            yield data[first:last]
        at = data.find(needle, last, whole)


def is_packed(name: str) -> bool:
    return name.endswith('.gz')


def text_of(name: str, file: BinaryIO) -> BinaryIO:
    """What the file has, from its beginning on."""
    file.seek(0)
    return gzip.GzipFile(fileobj=file) if is_packed(name) else file


def first_moment(name: str, file: BinaryIO) -> int | None:
    """The moment of the first line of a file that has one near its beginning."""
    try:
        for line in text_of(name, file).read1(BEGINNING).split(b'\n')[:-1]:
            found = MOMENT.match(line)
            if found:
                return int(found[1])
    except (OSError, EOFError, zlib.error):
        pass
    return None


def opened(path: str) -> tuple[list[tuple[str, BinaryIO]], list[str]]:
    """The files of the log, newest first, and what of them could not be opened. While logrotate gives them other names they are opened anew:
    each is there once, and none lacks."""
    for tried in range(TRIES):
        files, faults = open_all(path)
        if tried == TRIES - 1 or [(name, number_of(file)) for name, file in files] == [(name, number) for name, number in there(path)]:
            return files, faults
        for _, file in files:
            file.close()
        time.sleep(0.02)
    return [], []


def open_all(path: str) -> tuple[list[tuple[str, BinaryIO]], list[str]]:
    files, faults, numbers = [], [], set()
    for name in names_of(path):
        place = f'{os.path.dirname(path)}/{name}'
        try:
            # Nobody is waited for, as behind a pipe.
            file = open(place, 'rb', opener=lambda place, flags: os.open(place, flags | os.O_NOFOLLOW | os.O_NONBLOCK))
        except FileNotFoundError:
            continue
        except OSError:
            faults.append(f'{name} can\'t be opened')
            continue
        if not stat.S_ISREG(os.fstat(file.fileno()).st_mode) or number_of(file) in numbers:
            file.close()
            continue
        numbers.add(number_of(file))
        files.append((name, file))
    return files, faults


def number_of(file: BinaryIO) -> tuple[int, int]:
    told = os.fstat(file.fileno())
    return told.st_dev, told.st_ino


def there(path: str) -> Iterator[tuple[str, tuple[int, int]]]:
    """The files that could be opened now, with their numbers."""
    numbers = set()
    for name in names_of(path):
        try:
            told = os.lstat(f'{os.path.dirname(path)}/{name}')
        except OSError:
            continue
        number = told.st_dev, told.st_ino
        if stat.S_ISREG(told.st_mode) and number not in numbers and os.access(f'{os.path.dirname(path)}/{name}', os.R_OK):
            numbers.add(number)
            yield name, number


def names_of(path: str) -> list[str]:
    """The names of the log's files, newest first. One that is packed at this moment is there by its plain name."""
    folder, base = os.path.split(path)
    try:
        names = set(os.listdir(folder))
    except FileNotFoundError:
        return []
    moved = {name: MOVED.fullmatch(name[len(base):]) for name in names if name.startswith(base) and name != base}
    known = [(name, found) for name, found in moved.items() if found and not (is_packed(name) and name[:-3] in names)]
    # `.1` is newer than `.2`, and those with a date go by it.
    numbered = sorted((int(found[1]), name) for name, found in known if found[1])
    dated = sorted(((found[2], name) for name, found in known if found[2]), reverse=True)
    return [*([base] if base in names else []), *(name for _, name in numbered), *(name for _, name in dated)][:MOST_FILES]
