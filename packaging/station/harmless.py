"""Texts from outside, as they may stand on a terminal or in a log: names of jobs, what the server, the printer and CUPS say."""
import re
import unicodedata

# Printable by their category, but seen as nothing (Unicode's Default_Ignorable_Code_Point).
UNSEEN = re.compile('[\u034f\u115f\u1160\u17b4\u17b5\u180b-\u180f\u3164\ufe00-\ufe0f\uffa0\U000e0100-\U000e01ef]')


def is_seen(letter):
    """Whether it is shown as itself: no control, also none of C1 or of the direction of writing, and nothing without a shape."""
    return letter.isprintable() and not UNSEEN.match(letter)


def harmless(text, most):
    """The text as one line of at most so many letters, with `?` for each that is not seen."""
    # Some systems write an umlaut as two letters.
    text = unicodedata.normalize('NFC', text[:4 * most])
    shown = ''.join(letter if is_seen(letter) else '?' for letter in text)
    return shown if len(shown) <= most else shown[:most - 2] + '..'
