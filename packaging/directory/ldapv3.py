"""Asks one server of a directory by LDAP version 3 over TLS (RFC 4511; TLS from the first byte, as at port 636).

What is asked for goes out as bytes of its own (an assertion's value, a DN that the server gave): no text of a filter or of a DN is made
of a name, so no character in a name means anything. No referral is followed, and no alias. A connection is for one question, and every
step of it ends at one moment, however slowly the server sends.
"""
import socket
import ssl
import time
from collections.abc import Callable
from typing import Any

# Bytes: the longest message that is read.
MOST_MESSAGE = 1 << 20
# Result codes (RFC 4511 section 4.1.9).
SUCCESS, SIZE_LIMIT, COMPARE_FALSE, COMPARE_TRUE, NO_ATTRIBUTE, NO_OBJECT = 0, 4, 5, 6, 16, 32
# What a bind is answered that lets nobody in: constraintViolation (389 counts wrong ones so), inappropriateAuthentication (an entry without
# a password), invalidCredentials, unwillingToPerform (389, of an account that is shut).
REFUSALS = 19, 48, 49, 53
BIND, BIND_ANSWER, UNBIND, SEARCH, ENTRY, DONE, REFERENCE, COMPARE, COMPARE_ANSWER, INTERMEDIATE = (
    0x60, 0x61, 0x42, 0x63, 0x64, 0x65, 0x73, 0x6e, 0x6f, 0x79)
INTEGER, OCTETS, ENUMERATED, SEQUENCE, SET, BOOLEAN = 0x02, 0x04, 0x0a, 0x30, 0x31, 0x01


class Away(Exception):
    """The server gave no answer that says anything of who asked."""


class Unclear(Away):
    """It lives, and of this question says nothing: others go on to ask it."""


def item(tag: int, *parts: bytes) -> bytes:
    """An element of BER, of the definite form (RFC 4511 section 5.1)."""
    content = b''.join(parts)
    length = len(content)
    if length < 128:
        return bytes([tag, length]) + content
    octets = length.to_bytes((length.bit_length() + 7) // 8, 'big')
    return bytes([tag, 0x80 | len(octets)]) + octets + content


def number(tag: int, value: int) -> bytes:
    """One of 0 or more."""
    return item(tag, value.to_bytes(value.bit_length() // 8 + 1, 'big'))


def equals(attribute: bytes, value: bytes) -> bytes:
    """The filter of entries that have the value."""
    return item(0xa3, item(OCTETS, attribute), item(OCTETS, value))


class Reader:
    """The elements of some bytes, one after another. ValueError where they are none."""

    def __init__(self, data: bytes):
        self.data, self.at = data, 0

    def take(self, *tags: int) -> tuple[int, bytes]:
        """The next element, which has to have one of the tags: which, and what is in it."""
        tag, start, end = head(self.data, self.at)
        if tag not in tags or end > len(self.data):
            raise ValueError('it is another message')
        self.at = end
        return tag, self.data[start:end]

    def content(self, tag: int) -> bytes:
        return self.take(tag)[1]

    def number(self, tag: int) -> int:
        content = self.content(tag)
        if not 0 < len(content) <= 8:
            raise ValueError('it is no number')
        return int.from_bytes(content, 'big', signed=True)

    def is_at_end(self) -> bool:
        return self.at == len(self.data)


def head(data: bytes, at: int) -> tuple[int, int, int]:
    """Of the element that begins there its tag, and where its content begins and ends. ValueError where its head is none; IndexError where
    that is not all there.
    """
    tag, length, start = data[at], data[at + 1], at + 2
    if length > 128:
        count = length - 128
        if count > 4:
            raise ValueError('it is too long')
        data[start + count - 1]
        length, start = int.from_bytes(data[start:start + count], 'big'), start + count
    elif length == 128:
        raise ValueError('its length is not definite')
    return tag, start, start + length


class Connection:
    """A connection to a server, up to the end of the block. Each call raises Away where the server says nothing that counts."""

    def __init__(self, place: tuple[str, int], trust: ssl.SSLContext, until: float):
        self.host, self.port = place
        self.trust, self.until, self.last, self.unread, self.stream = trust, until, 0, b'', None

    def __enter__(self) -> 'Connection':
        try:
            self.connect()
        except (OSError, ValueError) as error:
            raise Away(said(error)) from error
        return self

    def __exit__(self, *_) -> None:
        self.stream.close()

    def connect(self) -> None:
        """To the first of the host's addresses that answers. To ask for these has no bound but the resolver's."""
        places = socket.getaddrinfo(self.host, self.port, type=socket.SOCK_STREAM)
        for family, kind, protocol, _, address in places:
            plain = socket.socket(family, kind, protocol)
            # Closed where it goes wrong; else TLS has it.
            with plain:
                plain.settimeout(self.left())
                try:
                    plain.connect(address)
                except OSError:
                    if address != places[-1][4]:
                        continue
                    raise
                self.stream = self.trust.wrap_socket(plain, server_hostname=self.host)
                return

    def left(self) -> float:
        """The seconds that are left. None are left from the end on."""
        left = self.until - time.monotonic()
        if left <= 0:
            raise Away('it is too slow')
        return left

    def bind(self, dn: bytes, password: bytes) -> int:
        """The result of a bind by name and password (section 4.2). An empty one of either would be nobody's, and succeed (RFC 4513 section
        5.1), so it is asked for by `be_nobody` alone.
        """
        if not dn or not password:
            raise ValueError('a bind wants a name and a password')
        return self.bind_as(dn, password)

    def be_nobody(self) -> int:
        return self.bind_as(b'', b'')

    def bind_as(self, dn: bytes, password: bytes) -> int:
        self.send(item(BIND, number(INTEGER, 3), item(OCTETS, dn), item(0x80, password)))
        return self.result(BIND_ANSWER)

    def search(self, base: bytes, wanted: list[bytes], attributes: list[bytes], most: int) -> list[tuple[bytes, dict[bytes, list[bytes]]]]:
        """The entries at and below a DN that meet all of these filters, with these attributes: by their DNs, as many as `most`, or one more
        where there are more. Names of attributes come in small letters.
        """
        self.send(item(SEARCH, item(OCTETS, base), number(ENUMERATED, 2), number(ENUMERATED, 0), number(INTEGER, most + 1), number(INTEGER, 0),
                       item(BOOLEAN, b'\0'), item(0xa0, *wanted), item(SEQUENCE, *(item(OCTETS, name) for name in attributes))))
        found = []
        while True:
            tag, content = self.answer(ENTRY, REFERENCE, INTERMEDIATE, DONE)
            if tag == ENTRY and len(found) <= most:
                found.append(meant(entry_of, content))
            elif tag == DONE:
                code = meant(code_of, content)
                if code != SUCCESS and not (code == SIZE_LIMIT and len(found) > most):
                    raise Unclear(f'it answers the search with {code}')
                return found

    def compare(self, dn: bytes, attribute: bytes, value: bytes) -> int:
        """The result of asking whether an entry has the value (section 4.10). The server knows how values are alike, as those of DNs are."""
        self.send(item(COMPARE, item(OCTETS, dn), item(SEQUENCE, item(OCTETS, attribute), item(OCTETS, value))))
        return self.result(COMPARE_ANSWER)

    def send(self, operation: bytes) -> None:
        self.last += 1
        data = item(SEQUENCE, number(INTEGER, self.last), operation)
        while data:
            data = data[self.step(self.stream.send, data):]

    def receive(self) -> bytes:
        data = self.step(self.stream.recv, 1 << 16)
        if not data:
            raise Away('it ended the connection')
        return data

    def step(self, call: Callable[[Any], Any], what: Any) -> Any:
        self.stream.settimeout(self.left())
        try:
            return call(what)
        except OSError as error:
            raise Away(said(error)) from error

    def result(self, tag: int) -> int:
        return meant(code_of, self.answer(tag)[1])

    def answer(self, *tags: int) -> tuple[int, bytes]:
        """The next message, which has to answer what was asked last."""
        def read(data: bytes) -> tuple[int, bytes]:
            message = Reader(Reader(data).content(SEQUENCE))
            if message.number(INTEGER) != self.last:
                raise ValueError('it answers what was not asked')
            return message.take(*tags)
        return meant(read, self.message())

    def message(self) -> bytes:
        while True:
            try:
                end = head(self.unread, 0)[2]
            except IndexError:
                end = len(self.unread) + 1
            except ValueError as error:
                raise Away(f'it does not speak LDAP: {error}') from error
            if end > MOST_MESSAGE:
                raise Away('it says too much at once')
            if len(self.unread) >= end:
                message, self.unread = self.unread[:end], self.unread[end:]
                return message
            self.unread += self.receive()


def meant(read: Callable[[bytes], Any], data: bytes) -> Any:
    """What the bytes say, as they are read so. Away where they say nothing."""
    try:
        return read(data)
    except (ValueError, IndexError) as error:
        raise Away(f'it does not speak LDAP: {error}') from error


def entry_of(content: bytes) -> tuple[bytes, dict[bytes, list[bytes]]]:
    """The DN of an entry, and the values of its attributes (section 4.5.2)."""
    entry, values = Reader(content), {}
    dn, attributes = entry.content(OCTETS), Reader(entry.content(SEQUENCE))
    while not attributes.is_at_end():
        attribute = Reader(attributes.content(SEQUENCE))
        name, listed = attribute.content(OCTETS).lower(), Reader(attribute.content(SET))
        while not listed.is_at_end():
            values.setdefault(name, []).append(listed.content(OCTETS))
    return dn, values


def code_of(content: bytes) -> int:
    return Reader(content).number(ENUMERATED)


def said(error: Exception) -> str:
    """What an error says, without the numbers of libraries."""
    if isinstance(error, ssl.SSLCertVerificationError):
        return f'its certificate is not trusted: {error.verify_message}'
    if isinstance(error, ssl.SSLError):
        return f'TLS: {error.reason}'
    if isinstance(error, TimeoutError):
        return 'it is too slow'
    return getattr(error, 'strerror', None) or str(error) or type(error).__name__
