"""A run of `serve` on a database of its own, for the programs in bench/ and tools/."""
import os
import resource
import signal
import socket
import subprocess
import time

from messages import BUILT, PROGRAM

MOST_WAIT = 30


def run(*words, text='', status=0):
    """What a command prints, which has to end with the status."""
    ended = subprocess.run([PROGRAM, *words], input=text.encode(), stdout=subprocess.PIPE)
    if ended.returncode != status:
        raise subprocess.CalledProcessError(ended.returncode, words)
    return ended.stdout.decode()


def create(path, accounts=(), lines=()):
    """A new database in which these accounts are open, and on which the lines of a script were run."""
    for file in (path, f'{path}-wal', f'{path}-shm'):
        if os.path.exists(file):
            os.remove(file)
    run('create', path)
    run('script', path, text='\n'.join([f'1788220800 open {account}' for account in accounts] + list(lines)))


class Serving:
    """A run of `serve` up to the end of the block, on free ports or at the paths that are named.

    `options` are words behind these, `descriptors` is how many files it may have open, `longest_file` how many bytes each
    may have that it writes, and `variables` are put among those of its environment: what they have loaded first is meant for
    the program alone, and not for the script that builds it. `doors` has of each door whose it is and its address, in their
    order.
    """

    def __init__(self, path, stations='0', operators='0', options=(), descriptors=4096, longest_file=None, variables=None):
        self.words = [BUILT if variables else PROGRAM, 'serve', path, '0', stations, operators, *options]
        self.limits = {resource.RLIMIT_NOFILE: descriptors}
        if longest_file:
            self.limits[resource.RLIMIT_FSIZE] = longest_file
        self.environment = {**os.environ, **(variables or {})}

    def __enter__(self):
        def limit():
            # A write beyond the longest file then fails, as on a full disk.
            signal.signal(signal.SIGXFSZ, signal.SIG_IGN)
            for which, most in self.limits.items():
                resource.setrlimit(which, (most, most))
        self.process = subprocess.Popen(self.words, stdin=subprocess.DEVNULL, stdout=subprocess.PIPE, preexec_fn=limit,
                                        env=self.environment)
        told = self.process.stdout.readline().decode().split()
        if told[:1] != ['serving']:
            raise OSError(f'serve told {told}, status {self.process.wait()}')
        self.pid = self.process.pid
        self.doors = [tuple(door.split('=', 1)) for door in told[1:]]
        first = dict(reversed(self.doors))
        self.port, self.stations, self.operators = int(first['clients']), first['stations'], first['operators']
        return self

    def __exit__(self, *_):
        if self.process.poll() is None:
            self.process.send_signal(signal.SIGKILL)
        self.process.wait()
        self.process.stdout.close()

    def client(self):
        """A connection of HTTP."""
        return connect(self.port)

    def is_running(self):
        return self.process.poll() is None

    def memory(self, which):
        """MiB, of VmRSS or of VmHWM, the most that it ever had."""
        with open(f'/proc/{self.pid}/status') as file:
            return next(int(line.split()[1]) / 1024 for line in file if line.startswith(which))

    def ticks(self):
        return ticks(self.pid)


def ticks(pid):
    """The processor's time that a process took, in hundredths of a second."""
    with open(f'/proc/{pid}/stat') as file:
        fields = file.read().rsplit(')', 1)[1].split()
    return int(fields[11]) + int(fields[12])


def connect(address):
    """A connection to a port, or to the socket at a path."""
    if str(address).isdigit():
        stream = socket.create_connection(('127.0.0.1', int(address)), MOST_WAIT)
        stream.setsockopt(socket.IPPROTO_TCP, socket.TCP_NODELAY, 1)
        return stream
    stream = socket.socket(socket.AF_UNIX)
    stream.settimeout(MOST_WAIT)
    stream.connect(address)
    return stream


def read_all(stream, most=MOST_WAIT):
    """What comes until the connection ends, or for so many seconds at most; and whether it ended."""
    end, got = time.monotonic() + most, bytearray()
    while time.monotonic() < end:
        stream.settimeout(max(0.01, end - time.monotonic()))
        try:
            more = stream.recv(1 << 16)
        except TimeoutError:
            return bytes(got), False
        except OSError:
            return bytes(got), True
        if not more:
            return bytes(got), True
        got += more
    return bytes(got), False


def seconds_until_end(stream, most):
    """How long until the connection ends, and what came, or nothing where it goes on for longer."""
    begun = time.monotonic()
    got, ended = read_all(stream, most)
    return (time.monotonic() - begun, got) if ended else None
