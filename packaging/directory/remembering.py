"""What was judged lately: right answers for a short time, and wrong passwords, so that few guesses of a name reach the directory."""
import hashlib
import secrets
import threading
import time
from typing import Any

# Of a name: the wrong passwords within so many seconds behind which none is judged that never was right. A directory may shut out whom it
# counts more of.
MOST_WRONG, WRONG_SECONDS = 10, 600
# How long one that was right is judged nevertheless: the owner's.
KNOWN_SECONDS = 7 * 86400
# Passwords, and names with wrong ones: the oldest goes first.
MOST_KEPT = 50_000


class Memory:
    """Passwords by sums, under a key that is in memory alone and ends with the process."""

    def __init__(self, seconds: int):
        self.seconds, self.key, self.lock = seconds, secrets.token_bytes(64), threading.Lock()
        # Of a sum: until when it counts, and the answer. Of a sum: when it was last right.
        self.right, self.known = {}, {}
        # Of a name, the sums that were wrong, and those that are asked for now, as if they were: when, and whether that is certain.
        self.wrong = {}

    def sum_of(self, name: bytes, password: bytes) -> bytes:
        return hashlib.blake2b(len(name).to_bytes(4, 'big') + name + password, key=self.key, digest_size=32).digest()

    def begin(self, name: bytes, password: bytes) -> Any:
        """What is known of these: an answer that was right, `wrong`, `later` where too many were wrong; or None, where they are to be asked
        for, and `end` is to be called then.
        """
        with self.lock:
            which, now = self.sum_of(name, password), time.monotonic()
            until, answer = self.right.get(which, (0.0, None))
            if now < until:
                return answer
            wrong = {other: told for other, told in self.wrong.get(name, {}).items() if told[0] > now - WRONG_SECONDS}
            if wrong.get(which, (0.0, False))[1]:
                return 'wrong'
            is_known = now - self.known.get(which, -KNOWN_SECONDS) < KNOWN_SECONDS
            if len(wrong) >= MOST_WRONG and which not in wrong and not is_known:
                return 'later'
            put(self.wrong, name, {**wrong, which: (now, False)})
            return None

    def end(self, name: bytes, password: bytes, answer: Any, is_certain: bool = True) -> None:
        """They are right, and have this answer; or have none, and are wrong, if that is certain."""
        with self.lock:
            which, now = self.sum_of(name, password), time.monotonic()
            wrong = self.wrong.setdefault(name, {})
            if answer is None and is_certain:
                wrong[which] = now, True
                self.right.pop(which, None)
                self.known.pop(which, None)
                return
            wrong.pop(which, None)
            if not wrong:
                del self.wrong[name]
            if answer is not None:
                put(self.right, which, (now + self.seconds, answer))
                put(self.known, which, now)

    def forget_answers(self) -> None:
        """Each name is asked for again, also what was wrong, which still counts as a guess."""
        with self.lock:
            self.right.clear()
            self.wrong = {name: {which: (moment, False) for which, (moment, _) in wrong.items()} for name, wrong in self.wrong.items()}


def put(kept: dict, key: Any, value: Any) -> None:
    """As the newest, in the place of the oldest where there are too many."""
    kept.pop(key, None)
    kept[key] = value
    if len(kept) > MOST_KEPT:
        del kept[next(iter(kept))]
