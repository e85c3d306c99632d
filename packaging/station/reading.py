"""What comes of a socket, within bounds: whoever is at its other end can neither fill the memory nor hold the station up."""
import io
import time


class Bounded(io.RawIOBase):
    """At most so many bytes, within so many seconds, and one more for each `pace` bytes that came."""

    def __init__(self, stream, most, seconds, pace=None):
        super().__init__()
        self.stream, self.left, self.pace = stream, most, pace
        self.bytes, self.end = stream.makefile('rb', buffering=0), time.monotonic() + seconds

    def readable(self):
        return True

    def close(self):
        self.bytes.close()
        super().close()

    def readinto(self, buffer):
        seconds = self.end - time.monotonic()
        if seconds <= 0:
            raise TimeoutError('an answer that takes too long')
        self.stream.settimeout(seconds)
        count = self.bytes.readinto(buffer)
        self.left -= count
        if self.left < 0:
            raise OSError('an answer that is too long')
        if self.pace:
            self.end += count / self.pace
        return count
