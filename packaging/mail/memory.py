"""What ipp-room-mail keeps on its disk beside the mails: the place in each log, whose quota was told to be low, what was told within a day, how
many mails each person had within an hour, and which mails belong to all that."""
import fcntl
import json
import os

HOUR, DAY = 3600, 86400
NAMES = 'places', 'low', 'once', 'sent', 'waiting', 'put'


class Damaged(Exception):
    """The file is none that this program wrote."""


class Memory:
    """The file `state.json` of a folder. A change takes its place whole, or not at all. One process has the folder."""

    def __init__(self, folder: str):
        self.path = f'{folder}/state.json'
        self.folder = os.open(folder, os.O_RDONLY)
        fcntl.flock(self.folder, fcntl.LOCK_EX | fcntl.LOCK_NB)
        self.places, self.low, self.once, self.sent, self.waiting, self.put = {}, {}, {}, {}, {}, []
        try:
            with open(self.path, encoding='utf-8') as file:
                kept = json.load(file)
            self.places, self.low, self.once, self.sent, self.waiting, self.put = (kept[name] for name in NAMES)
        except FileNotFoundError:
            pass
        except (ValueError, KeyError, TypeError) as error:
            raise Damaged(self.path) from error

    def save(self, now: float):
        """Returns once it is on the disk."""
        self.once = {key: at for key, at in self.once.items() if now - at < DAY}
        self.sent = {address: kept for address, moments in self.sent.items() if (kept := [at for at in moments if now - at < HOUR])}
        text = json.dumps({name: getattr(self, name) for name in NAMES})
        with open(f'{self.path}.part', 'w', encoding='utf-8', opener=lambda file, flags: os.open(file, flags | os.O_NOFOLLOW, 0o600)) as file:
            file.write(text)
            file.flush()
            os.fsync(file.fileno())
        os.replace(f'{self.path}.part', self.path)
        os.fsync(self.folder)

    def is_told(self, key: str, now: float) -> bool:
        """Whether this was told within a day; it is from now on."""
        is_old = now - self.once.get(key, 0) < DAY
        if not is_old:
            self.once[key] = now
        return is_old

    def count_of(self, address: str, now: float) -> int:
        return sum(now - at < HOUR for at in self.sent.get(address, []))

    def count(self, address: str, now: float):
        self.sent.setdefault(address, []).append(now)
