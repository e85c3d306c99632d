"""The terminal of a station. No key stops it, and nothing comes there but what `harmless` lets through."""
import codecs
import os
import re
import select
import signal
import sys
import termios
import time
import unicodedata

from harmless import harmless, is_seen

# Letters: of a line that is typed, and of one that is shown.
MOST_TYPED, MOST_SHOWN = 255, 400
# Seconds: between two looks at the terminal's settings, and how long it may take nothing of what is shown.
LOOKS, TAKES = 1, 2
BACKSPACES, CONTROL_U = '\b\x7f', '\x15'
# What a key sends that is no letter, as an arrow: a control sequence (ECMA-48 section 5.4; the Linux console's F1 is `ESC [ [ A`),
# a control string (section 5.6), or one letter behind ESC.
ESCAPES = re.compile('\x1b(?:\\[\\[?[0-?]*[ -/]*[@-~]?|[PX^_\\]][^\a\x1b\r\n]*(?:\a|\x1b\\\\)?|O.?|[^\r\n])?')


class Gone(Exception):
    """The terminal has ended."""


class Screen:
    def __init__(self):
        # Typed letters are shown where something is asked, and never where it is asked unseen.
        self.is_terminal, self.is_shown = os.isatty(0), False
        self.keys, self.line, self.decoder = '', '', codecs.getincrementaldecoder('utf-8')('ignore')
        self.last = ''
        # When the line was begun, and how many seconds the last one took from its first letter to its end.
        self.begun, self.seconds = 0.0, 0.0
        # Nobody ends or stops the station from its keyboard, also where others have changed the terminal.
        for key in (signal.SIGINT, signal.SIGQUIT, signal.SIGTSTP):
            signal.signal(key, signal.SIG_IGN)
        if os.isatty(1):
            os.set_blocking(1, False)
        self.drop_typed()

    def clear(self):
        if self.is_terminal:
            self.write('\033[H\033[2J\033[3J')

    def say(self, text):
        self.write(harmless(text, MOST_SHOWN) + '\n')

    def ask(self, prompt, seconds, hidden=False):
        """What is typed, or None where nothing is for so many seconds. What was typed before is dropped."""
        self.drop_typed()
        self.write(harmless(prompt, MOST_SHOWN))
        self.is_shown = not hidden
        line = self.pause(seconds)
        self.is_shown = False
        if line is None:
            self.line = ''
            self.write('\n')
        return line

    def wait(self, seconds):
        """Waits, whatever is typed."""
        end = time.monotonic() + seconds
        while time.monotonic() < end:
            self.pause(end - time.monotonic())

    def pause(self, seconds):
        """Waits, or answers a line as soon as one is typed."""
        end = time.monotonic() + seconds
        line = self.take_keys()
        while line is None:
            left = max(0, end - time.monotonic())
            self.set_terminal()
            if select.select([0], [], [], min(LOOKS, left))[0]:
                self.keys += self.read()
                line = self.take_keys()
            if left == 0:
                break
        return line

    def take_keys(self):
        """Takes what was typed up to the end of a line, and answers that line if it has come."""
        while self.keys:
            key, self.keys = self.keys[0], self.keys[1:]
            before, self.last = self.last, key
            if key == '\n' and before == '\r':
                # A reader of cards may end a line by both.
                continue
            if key in '\r\n':
                line, self.line = self.line, ''
                self.seconds = time.monotonic() - self.begun
                self.write('\n')
                return line
            if key in BACKSPACES:
                self.erase(1)
            elif key == CONTROL_U:
                self.erase(len(self.line))
            elif is_seen(key) and len(self.line) < MOST_TYPED:
                self.begun = self.begun if self.line else time.monotonic()
                self.line += key
                self.echo(key if columns(key) == 1 else '?')
        return None

    def erase(self, count):
        count = min(count, len(self.line))
        self.line = self.line[:len(self.line) - count]
        self.echo('\b \b' * count)

    def echo(self, text):
        if self.is_terminal and self.is_shown:
            self.write(text)

    def read(self):
        """What was typed since."""
        try:
            more = os.read(0, 4096)
        except BlockingIOError:
            return ''
        except OSError as error:
            raise Gone from error
        if not more:
            if not self.is_terminal:
                raise Gone
            # Its end, or a Control and D where others have changed it.
            self.set_terminal()
        return ESCAPES.sub('', self.decoder.decode(more))

    def write(self, text):
        """Shows a text of the station's own. What the terminal does not take is left out: the station goes on."""
        left, end = text.encode(sys.stdout.encoding, 'replace'), time.monotonic() + TAKES
        while left and time.monotonic() < end:
            try:
                left = left[os.write(1, left):]
            except BlockingIOError:
                self.start_again()
                select.select([], [1], [], 0.1)
            except OSError as error:
                raise Gone from error

    def start_again(self):
        """Has the terminal go on where it was stopped, as the key Scroll Lock does it on a console."""
        try:
            termios.tcflow(1, termios.TCOOFF)
            termios.tcflow(1, termios.TCOON)
        except termios.error as error:
            raise Gone from error

    def set_terminal(self):
        """Has each key be typed and do nothing else, and nothing be shown that the station does not show."""
        if not self.is_terminal:
            return
        try:
            settings = termios.tcgetattr(0)
            keys = list(settings[6])
            keys[termios.VMIN], keys[termios.VTIME] = 1, 0
            wanted = [termios.IGNBRK, termios.OPOST | termios.ONLCR, settings[2], 0, *settings[4:6], keys]
            if settings != wanted:
                termios.tcsetattr(0, termios.TCSANOW, wanted)
        except termios.error as error:
            raise Gone from error

    def drop_typed(self):
        """Drops what was typed. A pipe is no terminal: what came by one is all kept."""
        if not self.is_terminal:
            return
        self.set_terminal()
        try:
            termios.tcflush(0, termios.TCIFLUSH)
        except termios.error as error:
            raise Gone from error
        self.keys = self.line = ''
        self.decoder.reset()


def columns(letter):
    """How many it takes on a terminal."""
    if unicodedata.combining(letter):
        return 0
    return 2 if unicodedata.east_asian_width(letter) in 'FW' else 1
