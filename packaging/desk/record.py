"""The desk's log: who asked what, and what it came to."""
import os
import threading
import time
from urllib.parse import quote_from_bytes

from lines import SEEN

# Bytes of what a door refused.
MOST_SHOWN = 200


class Log:
    """The lines of a file, each added whole to its end. A file that was moved away is made again."""

    def __init__(self, path: str):
        self.path, self.lock = path, threading.Lock()

    def put(self, role: str, user: str, what: str, text: str, is_kept: bool = False) -> None:
        """Adds a line. With `is_kept` it is on the disk then. OSError where it is not in the file."""
        line = f'{int(time.time())} {role} {user} {what} {text}'.rstrip() + '\n'
        with self.lock:
            file = os.open(self.path, os.O_WRONLY | os.O_APPEND | os.O_CREAT | os.O_NOFOLLOW, 0o600)
            try:
                # The group is that of who looks things up in it.
                os.fchmod(file, 0o640)
                self.write(file, line.encode('ascii', 'replace'))
                if is_kept:
                    os.fsync(file)
            finally:
                os.close(file)

    def write(self, file: int, line: bytes) -> None:
        length = os.fstat(file).st_size
        if os.write(file, line) != len(line):
            # A full disk took a part.
            os.ftruncate(file, length)
            raise OSError('the log took a part of a line')


def shown(line: bytes) -> str:
    """The beginning of what somebody sent, as one word: nobody has another's name stand in a line behind the own."""
    return quote_from_bytes(line[:MOST_SHOWN], safe=SEEN) or '-'
