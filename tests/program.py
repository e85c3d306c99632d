"""Runs of the built program, with what a test hands in: the time of day, and what else a library of system/ does to it.

The program is the one that `./ipp-room` or `./gate` has proved in this tree; IPP_ROOM names another.
"""
import contextlib
import glob
import os
import signal
import socket
import subprocess
import sys

TOP = os.path.dirname(os.path.dirname(os.path.abspath(__file__)))
ROWS = f'{TOP}/tests/rows'
sys.path.insert(0, f'{TOP}/tools')

from messages import BUILT as PROGRAM  # noqa: E402
from serving import Serving as ServingRun, connect, read_all  # noqa: E402

# That of lines and requests for which a row names no other: 2026-09-01.
MOMENT = 1788220800
# Before 1970: a clock that has no moment.
NO_MOMENT = -1
MOST_SECONDS = 60
# The paths of the libraries of system/, once they are built.
LIBRARIES = {}


class Differs(Exception):
    """What was found, where something else is due."""


def expect(found, due, what=''):
    if found != due:
        raise Differs(f'{what}\n  found {found!r}\n  due   {due!r}')


def build_libraries(folder):
    """Builds the libraries of system/ in the folder. Behind that `variables` names them there."""
    for source in glob.glob(f'{TOP}/tests/system/*.c'):
        name = os.path.basename(source).removesuffix('.c')
        LIBRARIES[name] = f'{folder}/{name}.so'
        subprocess.run(['cc', '-O2', '-shared', '-fPIC', '-o', LIBRARIES[name], source, '-ldl'], check=True)


class Clock:
    """A time of day that stands still until it is set, at a path in the folder."""

    def __init__(self, folder, moment=MOMENT):
        self.path = f'{folder}/clock'
        self.set(moment)

    def set(self, moment):
        with open(self.path, 'r+b' if os.path.exists(self.path) else 'wb') as file:
            file.write(moment.to_bytes(8, sys.byteorder, signed=True))

    def variables(self):
        return {'CLOCK': self.path}


class Numbers:
    """Numbers of eight bytes in a file, which a library of system/ maps: what it counts, or what it is to do."""

    def __init__(self, path, values):
        self.path = path
        with open(path, 'wb') as file:
            file.write(b''.join(value.to_bytes(8, sys.byteorder) for value in values))

    def all(self):
        with open(self.path, 'rb') as file:
            numbers = file.read()
        return [int.from_bytes(numbers[at:at + 8], sys.byteorder) for at in range(0, len(numbers), 8)]

    def set(self, at, value):
        with open(self.path, 'r+b') as file:
            file.seek(8 * at)
            file.write(value.to_bytes(8, sys.byteorder))


def variables(*loaded, **others):
    """Variables of the environment by which these libraries of system/ are loaded, and these others."""
    return {'LD_PRELOAD': ':'.join(LIBRARIES[name] for name in loaded), **{name: str(value) for name, value in others.items()}}


class Ended:
    """How a run ended: its exit status (that of a signal is negative), what it printed, and what it told."""

    def __init__(self, status, printed, told):
        self.status, self.printed, self.told = status, printed, told


def run(folder, *words, given=b'', clock=None, handed=None):
    """Runs the program in the folder with these words and this input, up to its end. `handed` are variables."""
    environment = {**os.environ, **(handed or {})}
    if clock is not None:
        environment.update(variables('clock', **clock.variables()))
    ended = subprocess.run([PROGRAM, *words], cwd=folder, env=environment, input=given, stdout=subprocess.PIPE,
                           stderr=subprocess.PIPE, timeout=MOST_SECONDS)
    return Ended(ended.returncode, ended.stdout, ended.stderr)


def run_well(folder, *words, **more):
    """What a run prints that ends well."""
    ended = run(folder, *words, **more)
    expect((ended.status, ended.told), (0, b''), ' '.join(words))
    return ended.printed


class Serving(ServingRun):
    """A run of `serve` on free ports, up to the end of the block, whose clock stands still until it is set."""

    def __init__(self, path, folder, options=(), moment=MOMENT, loaded=(), **handed):
        self.clock = Clock(folder, moment)
        handed = variables('clock', *loaded, **self.clock.variables(), **handed)
        super().__init__(path, options=options, variables=handed)

    @contextlib.contextmanager
    def paused(self):
        """While the block runs the process stands still: what comes meanwhile comes at once."""
        os.kill(self.pid, signal.SIGSTOP)
        _, status = os.waitpid(self.pid, os.WUNTRACED)
        expect(os.WIFSTOPPED(status), True, 'serve is stopped')
        try:
            yield
        finally:
            os.kill(self.pid, signal.SIGCONT)

    def end(self):
        expect(converse(self.operators, b'end\n'), b'ok\n', 'end')
        expect(self.process.wait(MOST_SECONDS), 0, 'the status of serve')


def converse(address, sent, piece=None, most=MOST_SECONDS):
    """Sends this over a connection, in pieces of so many bytes, and ends. Answers what came until the connection's end."""
    with connect(address) as stream:
        try:
            for at in range(0, len(sent), piece or max(1, len(sent))):
                stream.sendall(sent[at:at + (piece or len(sent))])
            stream.shutdown(socket.SHUT_WR)
        except OSError:
            # It was ended from there; what came before that counts.
            pass
        told, has_ended = read_all(stream, most)
    if not has_ended:
        raise Differs(f'the connection goes on behind {told[-200:]!r}')
    return told
