"""What tools/ask-front and tools/ask-device find, line by line, and the requests of IPP that both make."""
import sys

from messages import TOP

# The station's own way to ask a printer: bounded in time and length.
sys.path.insert(0, f'{TOP}/packaging/station')
from harmless import harmless  # noqa: E402

MOST_SHOWN = 200


class Findings:
    """Prints a line for each thing that was looked at, and counts. What a printer says of itself is shown harmless."""

    def __init__(self):
        self.counts = {'ok': 0, 'not ok': 0, 'known': 0}

    def judge(self, is_so, what, otherwise='', known=None):
        """What is seen where it is not so stands behind it; `known` says why it can't be so here."""
        word = 'ok' if is_so else 'known' if known else 'not ok'
        self.counts[word] += 1
        behind = '' if is_so else known or otherwise
        print(harmless(f'{word} {what}: {behind}' if behind else f'{word} {what}', MOST_SHOWN), flush=True)
        return is_so

    def end(self):
        """The sums, and the status to end with."""
        print(', '.join(f'{count} {word}' for word, count in self.counts.items()))
        return 1 if self.counts['not ok'] else 0


def shown(values):
    return ' '.join(map(str, values))
