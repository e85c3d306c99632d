"""What a station keeps on its disk: the job that it prints, those set aside, what CUPS has still to remove, and who guessed PINs."""
import contextlib
import fcntl
import json
import os


class Damaged(Exception):
    """The file is not one that a station wrote."""


def open_own(path, flags):
    """Opens a file that the station alone reads, whatever its umask, and follows no link."""
    return os.open(path, flags | os.O_NOFOLLOW, 0o600)


class State:
    """The file `state.json` of a folder. Each change takes its place whole, or not at all where the power goes."""

    def __init__(self, folder):
        self.path = f'{folder}/state.json'
        # One station has the folder; the lock goes with its process.
        self.folder = os.open(folder, os.O_RDONLY)
        fcntl.flock(self.folder, fcntl.LOCK_EX | fcntl.LOCK_NB)
        self.job, self.leftovers, self.guesses, self.aside = None, [], {}, []
        self.read()

    def read(self):
        try:
            with open(self.path, encoding='utf-8', opener=open_own) as file:
                kept = json.load(file)
            self.job, self.leftovers, self.guesses = kept['job'], kept['leftovers'], kept['guesses']
            # Earlier versions have none.
            self.aside = kept.get('aside', [])
        except FileNotFoundError:
            pass
        except (ValueError, KeyError, TypeError) as error:
            raise Damaged(self.path) from error

    def save(self):
        """Returns once it is on the disk."""
        text = json.dumps({'job': self.job, 'leftovers': self.leftovers, 'guesses': self.guesses, 'aside': self.aside}, indent=1)
        with contextlib.suppress(FileNotFoundError):
            # Of a run that was ended in the midst of it.
            os.remove(f'{self.path}.new')
        with open(f'{self.path}.new', 'x', encoding='utf-8', opener=open_own) as file:
            file.write(text)
            file.flush()
            os.fsync(file.fileno())
        os.replace(f'{self.path}.new', self.path)
        os.fsync(self.folder)

    def save_if_possible(self):
        """For what may be lost: with a full disk the station goes on."""
        try:
            self.save()
        except OSError:
            pass
