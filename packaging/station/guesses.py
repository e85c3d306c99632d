"""Slows down who guesses: each wrong PIN or password lets its account wait twice as long as the one before, and many let all wait."""
import time
from collections.abc import Callable

# Seconds: the longest wait of an account, and when wrong ones are forgotten.
MOST_WAIT, FORGOTTEN = 300, 3600
# No account's name: what was wrong at the station, of whomever. So many are let through at once, and then one in so many seconds.
HERE, AT_ONCE, EACH = '', 20, 180


class Guesses:
    """The wrong ones of each account: how many there were in a row, and until when it waits; of the station how many, less one for each
    EACH seconds, and when that was."""

    def __init__(self, state):
        self.state = state

    def wait(self, account: str) -> int:
        """The seconds that the account has still to wait."""
        _, until = self.state.guesses.get(account, (0, 0))
        return 0 if is_ahead(until) else max(0, min(MOST_WAIT, round(until - time.time())))

    def wait_here(self) -> int:
        """The seconds that everybody has still to wait."""
        return max(0, min(EACH, round((self.level() - AT_ONCE + 1) * EACH)))

    def level(self) -> float:
        level, since = self.state.guesses.get(HERE, (0, 0))
        return 0 if is_ahead(since) else max(0, level - max(0, time.time() - since) / EACH)

    def wrong(self, account: str) -> None:
        now, guesses = time.time(), self.state.guesses
        for other in [name for name, (_, until) in guesses.items() if until < now - FORGOTTEN]:
            del guesses[other]
        count = guesses.get(account, (0, 0))[0] + 1
        guesses[account] = [count, now + min(MOST_WAIT, 2 ** count)]
        self.state.save_if_possible()

    def count(self, account: str | None) -> Callable[[], None]:
        """Counts a wrong one of the account, if there is one, and of the station, before it is judged: whoever ends the station then has
        had it. Answers what takes it back."""
        before = {name: self.state.guesses.get(name) for name in (account, HERE) if name is not None}
        self.state.guesses[HERE] = [self.level() + 1, time.time()]
        if account:
            self.wrong(account)
        else:
            self.state.save_if_possible()

        def take_back():
            for name, kept in before.items():
                if kept is None:
                    self.state.guesses.pop(name, None)
                else:
                    self.state.guesses[name] = kept
            self.state.save_if_possible()
        return take_back


def is_ahead(moment: float) -> bool:
    """Whether it was kept by a clock that was ahead: nobody waits for years."""
    return moment > time.time() + FORGOTTEN
