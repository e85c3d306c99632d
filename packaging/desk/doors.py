"""Doors of operators before the print server's own: a socket for each role, at which the system tells who asks (SO_PEERCRED).

Who may connect is the socket's group. What a door takes is in lines.py; all else is answered `bad-line`, as the print server does, and
never comes to it. Each line is sent on by itself, once the answer before has gone, over a connection that its peer alone has.
"""
import contextlib
import grp
import os
import pwd
import socket
import stat
import struct
import threading
import time
from typing import Callable

import lines
from correcting import Correction, Desk
from record import Log, shown
from room import Lines, Lost

# Connections of a door, and of a user at it: those of four doors leave some of the server's 64 to root and to corrections.
MOST_PEERS, MOST_OF_USER = 12, 6
# Seconds with nothing begun, which are fewer than the server's; for a line or an answer; and the bytes for one more.
IDLE, BEGUN, PACE = 50, 10, 16384
# Lines of a connection that leave a line in the log though they change nothing, and letters of an answer there.
MOST_LOGGED, MOST_TOLD = 20, 200
CREDENTIALS = struct.Struct('3i')
BAD_LINE, FAILED = b'bad-line', b'failed'


class Gone(Exception):
    """The peer has left, or was too slow."""


class Peer:
    """A connection of an operator."""

    def __init__(self, stream: socket.socket):
        self.stream, self.unread = stream, b''
        _, self.uid, _ = CREDENTIALS.unpack(stream.getsockopt(socket.SOL_SOCKET, socket.SO_PEERCRED, CREDENTIALS.size))

    def next_line(self) -> bytes | None:
        """The next line without its line feed; None at the end. ValueError for bytes that no line feed ends."""
        end = time.monotonic() + (BEGUN if self.unread else IDLE)
        while b'\n' not in self.unread:
            if len(self.unread) > lines.MOST_LINE:
                raise ValueError('a line that is too long')
            was_empty = not self.unread
            piece = self.receive(end)
            if not piece and self.unread:
                raise ValueError('a line that does not end')
            if not piece:
                return None
            self.unread += piece
            if was_empty:
                end = time.monotonic() + BEGUN
        line, _, self.unread = self.unread.partition(b'\n')
        return line

    def receive(self, end: float) -> bytes:
        seconds = end - time.monotonic()
        if seconds <= 0:
            raise Gone
        self.stream.settimeout(seconds)
        try:
            return self.stream.recv(lines.MOST_LINE)
        except OSError as error:
            raise Gone from error

    def answer(self, told: list[bytes]) -> None:
        text = b''.join(line + b'\n' for line in told)
        # Of all the bytes together.
        self.stream.settimeout(BEGUN + len(text) / PACE)
        try:
            self.stream.sendall(text)
        except OSError as error:
            raise Gone from error


class Conversation:
    """What a peer asks at a door, and is answered."""

    def __init__(self, role: str, user: str, peer: Peer, operators: str, logs: str, desk: Desk, log: Log):
        self.role, self.user, self.peer, self.logs, self.desk, self.log = role, user, peer, logs, desk, log
        self.room, self.count = Lines(operators), 0

    def go_on(self) -> None:
        """Returns once it has ended. Lost where the print server gave no answer."""
        with self.room:
            try:
                while (line := self.peer.next_line()) is not None:
                    told = self.answer_to(line)
                    self.peer.answer(told)
                    if line == b'end' and told == [b'ok']:
                        self.room.wait_for_end(IDLE)
                        return
            except ValueError:
                self.note('refused', shown(self.peer.unread))
                self.peer.answer([BAD_LINE])
            finally:
                if self.count > MOST_LOGGED:
                    self.try_to_log('more', str(self.count - MOST_LOGGED))

    def answer_to(self, line: bytes) -> list[bytes]:
        if not lines.is_of(self.role, line):
            self.note('refused', shown(line))
            return [BAD_LINE]
        if lines.word_of(line) not in lines.CHANGES:
            self.note('asks', line.decode())
            return self.look_up(line) if lines.word_of(line) == b'who' else self.room.ask(line)
        try:
            # Nothing is changed of which nobody could say who did it.
            self.log.put(self.role, self.user, 'asks', line.decode(), is_kept=True)
        except OSError:
            return [FAILED]
        return self.change(line)

    def look_up(self, line: bytes) -> list[bytes]:
        """What the logs tell, by who reads them."""
        try:
            with Lines(self.logs) as reader:
                return reader.ask(line)
        except Lost:
            return [FAILED]

    def change(self, line: bytes) -> list[bytes]:
        if lines.word_of(line).startswith(b'correct'):
            told = [self.correct(*line.decode().split(' ')).encode()]
        else:
            told = self.room.ask(line)
        self.try_to_log('told', f'{line.decode()} {told[0].decode()[:MOST_TOLD]}')
        return told

    def correct(self, word: str, account: str, units: str, reason: str) -> str:
        try:
            text = lines.read_reason(reason)
        except ValueError:
            return BAD_LINE.decode()
        return self.desk.correct(self.role, self.user, account, int(units), text, word == 'correct-again')

    def note(self, what: str, text: str) -> None:
        """Logs what changes nothing: the first lines of a connection."""
        self.count += 1
        if self.count <= MOST_LOGGED:
            self.try_to_log(what, text)

    def try_to_log(self, what: str, text: str) -> None:
        with contextlib.suppress(OSError):
            self.log.put(self.role, self.user, what, text)


class Door:
    """A socket at which a role's operators are served, each by a thread."""

    def __init__(self, role: str, path: str, group: int, converse: Callable[[str, str, Peer], None]):
        self.role, self.path, self.converse = role, path, converse
        self.places, self.users, self.lock = threading.Semaphore(MOST_PEERS), {}, threading.Lock()
        self.socket = listen(path, group)

    def serve(self) -> None:
        while True:
            self.places.acquire()
            try:
                stream, _ = self.socket.accept()
            except OSError:
                # Too many files, or whoever came has left.
                self.places.release()
                time.sleep(0.25)
                continue
            threading.Thread(target=self.serve_peer, args=(stream,), daemon=True).start()

    def serve_peer(self, stream: socket.socket) -> None:
        try:
            with stream:
                peer = Peer(stream)
                with self.place_of(peer.uid) as is_free:
                    if is_free:
                        self.converse(self.role, user_of(peer.uid), peer)
        except (Gone, Lost, OSError):
            # Who gets no whole answer is told so by the end of the connection.
            pass
        finally:
            self.places.release()

    @contextlib.contextmanager
    def place_of(self, uid: int):
        """Whether the user has a place left, up to the end of the block."""
        with self.lock:
            count = self.users.get(uid, 0)
            self.users[uid] = count + 1
        try:
            yield count < MOST_OF_USER
        finally:
            with self.lock:
                self.users[uid] -= 1
                if not self.users[uid]:
                    del self.users[uid]


def listen(path: str, group: int, waiting: int = MOST_PEERS) -> socket.socket:
    """A socket that the group's members reach. One that an earlier run left is removed; another file, or one that is served, stays."""
    with contextlib.suppress(FileNotFoundError):
        if not stat.S_ISSOCK(os.lstat(path).st_mode):
            raise FileExistsError(f'{path} is another file')
        with socket.socket(socket.AF_UNIX) as other:
            try:
                other.connect(path)
                raise FileExistsError(f'{path} is served')
            except ConnectionRefusedError:
                os.remove(path)
    door = socket.socket(socket.AF_UNIX)
    before = os.umask(0o177)
    try:
        door.bind(path)
    finally:
        os.umask(before)
    # Nobody connects before `listen`.
    os.chown(path, -1, group, follow_symlinks=False)
    os.chmod(path, 0o660)
    door.listen(waiting)
    return door


def user_of(uid: int) -> str:
    """The name of a user as a word of the log; the number of one that has no name, or shares it."""
    try:
        name = pwd.getpwuid(uid).pw_name
        return lines.written(name) if pwd.getpwnam(name).pw_uid == uid else str(uid)
    except KeyError:
        return str(uid)


def group_of(name: str) -> int:
    return int(name) if name.isdigit() else grp.getgrnam(name).gr_gid


def serve(doors: dict[str, tuple[str, str]], operators: str, stations: str, pages: str, logs: str, corrections: str, log_path: str) -> None:
    """Serves each role's door, told by its path and its group, until it is ended."""
    log = Log(log_path)

    def said(correction: Correction, told: str) -> None:
        text = f'correct {correction.account} {correction.units} {lines.written(correction.reason)} {told}'
        with contextlib.suppress(OSError):
            log.put(correction.role, correction.user, 'told', text)

    desk = Desk(corrections, operators, stations, pages, said)

    def converse(role: str, user: str, peer: Peer) -> None:
        Conversation(role, user, peer, operators, logs, desk, log).go_on()

    served = [Door(role, path, group_of(group), converse) for role, (path, group) in doors.items()]
    for door in served:
        threading.Thread(target=door.serve, daemon=True).start()
    print('serving', *(f'{door.role}={door.path}' for door in served), flush=True)
    while True:
        desk.try_to_carry_on()
        time.sleep(IDLE)
