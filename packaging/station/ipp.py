"""Requests of IPP over HTTP (RFC 8010, RFC 8011) to a printer: a device, or a queue of the local CUPS."""
import http.client
import io
import os
import pwd
import re
import socket
import ssl
import struct
from urllib.parse import urlsplit

from reading import Bounded

PRINT_JOB, CREATE_JOB, CANCEL_JOB, GET_JOB, GET_JOBS, GET_PRINTER = 0x02, 0x05, 0x08, 0x09, 0x0A, 0x0B
INTEGER, BOOLEAN, ENUM, RANGE = 0x21, 0x22, 0x23, 0x33
NAME, KEYWORD, URI, CHARSET, LANGUAGE, FORMAT = 0x42, 0x44, 0x45, 0x47, 0x48, 0x49
OPERATION_GROUP, JOB_GROUP, END = 0x01, 0x02, 0x03
PENDING, HELD, PROCESSING, CANCELED, ABORTED, COMPLETED = 3, 4, 5, 7, 8, 9
PRINTER_IDLE, PRINTER_PROCESSING, PRINTER_STOPPED = 3, 4, 5
NOT_FOUND = 0x0406
# Of an answer: bytes, all of HTTP included, and groups.
MOST_ANSWER, MOST_GROUPS = 4 << 20, 10000
PEM = re.compile('-----BEGIN CERTIFICATE-----.+?-----END CERTIFICATE-----', re.DOTALL)


class Refused(Exception):
    """The printer's answer is no success: the status, and what it says of it."""

    def __init__(self, status, text):
        super().__init__(text or f'status {status:#06x}')
        self.status = status


class Stranger(OSError):
    """The printer's certificate is not the one that it has to have."""


class Answer(http.client.HTTPResponse):
    """An answer of HTTP that comes within bounds. Its time begins once the request has gone."""

    def __init__(self, stream, *words, **named):
        seconds = stream.gettimeout()
        super().__init__(stream, *words, **named)
        self.fp.close()
        self.fp = io.BufferedReader(Bounded(stream, MOST_ANSWER, seconds))


class Plain(http.client.HTTPConnection):
    response_class = Answer


class OverSocket(Plain):
    """HTTP over the socket at a path."""

    def __init__(self, path, timeout):
        super().__init__('localhost', timeout=timeout)
        self.path = path

    def connect(self):
        self.sock = socket.socket(socket.AF_UNIX)
        self.sock.settimeout(self.timeout)
        self.sock.connect(self.path)


class Secret(http.client.HTTPSConnection):
    """HTTP over TLS with a printer that `trust` knows."""

    response_class = Answer

    def __init__(self, host, port, timeout, trust):
        super().__init__(host, port, timeout=timeout, context=trust.context)
        self.trust = trust

    def connect(self):
        try:
            super().connect()
        except ssl.SSLCertVerificationError as error:
            raise Stranger(f'the certificate of {self.host}: {error.verify_message}') from error
        if self.trust.own and self.sock.getpeercert(binary_form=True) not in self.trust.own:
            raise Stranger(f'{self.host} shows another certificate than the one of its file')


class Trust:
    """Which certificate a printer may show: one of the file `own`, or one for its host that an authority of the file `authority`
    has signed."""

    def __init__(self, own=None, authority=None):
        self.own = certificates(own) if own else []
        self.context = ssl.create_default_context(cadata=b''.join(certificates(authority)) if authority else None)
        if self.own:
            # Printers sign their own, for any name and time.
            self.context.check_hostname, self.context.verify_mode = False, ssl.CERT_NONE


def certificates(path):
    """Those of a file of PEM."""
    with open(path, encoding='ascii', errors='replace') as file:
        texts = PEM.findall(file.read())
    try:
        found = [ssl.PEM_cert_to_DER_cert(text) for text in texts]
    except ValueError as error:
        raise ValueError(f'{path}: {error}') from error
    if not found:
        raise ValueError(f'{path} has no certificate in PEM')
    return found


class Printer:
    """A printer at a URI, `ipp://` or, with `trust`, `ipps://`; with `door` it is reached by the socket at that path instead."""

    def __init__(self, uri, door=None, timeout=20, trust=None):
        parts = urlsplit(uri)
        try:
            self.host, self.port, self.path = parts.hostname, parts.port or 631, parts.path or '/'
        except ValueError:
            # A port that is no number.
            self.host = None
        if parts.scheme not in ('ipp', 'ipps') or not self.host:
            raise ValueError(f'{uri} is no URI of a printer, as ipp://HOST/ipp/print')
        self.uri, self.door, self.timeout, self.trust = uri, door, timeout, trust
        self.is_secret = parts.scheme == 'ipps'
        if self.is_secret and not door and trust is None:
            raise ValueError(f'{uri} wants --certificate FILE, so that nothing else answers as the printer. `openssl s_client -connect '
                             f'{self.host}:{self.port} </dev/null | openssl x509 >FILE` gets it there. Or --authority FILE: who signed it')
        self.user = user_name()

    def connect(self):
        if self.door:
            return OverSocket(self.door, self.timeout)
        if self.is_secret:
            return Secret(self.host, self.port, self.timeout, self.trust)
        return Plain(self.host, self.port, timeout=self.timeout)

    def ask(self, operation, asked=(), of_job=(), data=b''):
        """The groups of the answer, each its tag and its attributes. `asked` and `of_job` have tag, name and values."""
        common = [(CHARSET, 'attributes-charset', ['utf-8']), (LANGUAGE, 'attributes-natural-language', ['en']),
                  (URI, 'printer-uri', [self.uri]), (NAME, 'requesting-user-name', [self.user])]
        body = struct.pack('>HHIB', 0x0101, operation, 1, OPERATION_GROUP) + written(common) + written(asked)
        if of_job:
            body += bytes([JOB_GROUP]) + written(of_job)
        return self.send(body + bytes([END]) + data)

    def send(self, body):
        fields = {'Content-Type': 'application/ipp'}
        if self.door:
            # So the local CUPS knows who asks.
            fields['Authorization'] = f'PeerCred {self.user}'
        connection = self.connect()
        try:
            connection.request('POST', self.path, body, fields)
            answer = connection.getresponse()
            got = answer.read(MOST_ANSWER)
        except (http.client.HTTPException, ValueError) as error:
            raise OSError(f'no answer of HTTP: {error!r}') from error
        finally:
            connection.close()
        if answer.status != 200:
            raise OSError(f'HTTP {answer.status} {answer.reason}')
        return read(got)

    def attributes(self, names):
        """Those of these attributes that the printer tells of itself, each with its values."""
        groups = self.ask(GET_PRINTER, [(KEYWORD, 'requested-attributes', names)])
        return next((attributes for tag, attributes in groups if tag == 0x04), {})

    def jobs(self, names, limit=100):
        """These attributes of the jobs that the printer has, those that have ended last."""
        found = []
        for which in ('not-completed', 'completed'):
            asked = [(INTEGER, 'limit', [limit]), (KEYWORD, 'which-jobs', [which]), (KEYWORD, 'requested-attributes', names)]
            found += [attributes for tag, attributes in self.ask(GET_JOBS, asked) if tag == JOB_GROUP]
        return found


def number_of(attributes, name):
    """An attribute's number, or None where it has none."""
    value = attributes.get(name, [None])[0]
    return value if type(value) is int else None


def texts_of(attributes, name):
    """An attribute's texts."""
    return [value for value in attributes.get(name, []) if isinstance(value, str)]


def user_name():
    return pwd.getpwuid(os.geteuid()).pw_name


def written(attributes):
    """The bytes of these attributes: tag, name and values of each."""
    text = b''
    for tag, name, values in attributes:
        for place, value in enumerate(values):
            called = name.encode() if place == 0 else b''
            bare = bytes_of(tag, value)
            text += struct.pack('>BH', tag, len(called)) + called + struct.pack('>H', len(bare)) + bare
    return text


def bytes_of(tag, value):
    if tag in (INTEGER, ENUM):
        return struct.pack('>i', value)
    if tag == BOOLEAN:
        return bytes([value])
    return value if isinstance(value, bytes) else value.encode()


def value_of(tag, bare):
    if tag in (INTEGER, ENUM) and len(bare) == 4:
        return struct.unpack('>i', bare)[0]
    if tag == RANGE and len(bare) == 8:
        return struct.unpack('>ii', bare)
    if tag == BOOLEAN and len(bare) == 1:
        return bare != b'\0'
    return bare.decode('utf-8', 'replace')


def read(message):
    """The groups of an answer. Of a collection only that it is there is kept."""
    try:
        status = int.from_bytes(message[2:4], 'big')
        groups, at, name = [], 8, ''
        while message[at] != END:
            tag = message[at]
            if tag < 0x10:
                groups.append((tag, {}))
                if len(groups) > MOST_GROUPS:
                    raise OSError('an answer that is too long')
                at += 1
                continue
            length, = struct.unpack_from('>H', message, at + 1)
            called = message[at + 3:at + 3 + length]
            at += 3 + length
            length, = struct.unpack_from('>H', message, at)
            bare = message[at + 2:at + 2 + length]
            at += 2 + length
            name = called.decode('utf-8', 'replace') or name
            groups[-1][1].setdefault(name, []).append(value_of(tag, bare))
    except (IndexError, struct.error) as error:
        raise OSError('an answer that is no message of IPP') from error
    if status > 0xFF:
        first = groups[0][1] if groups else {}
        raise Refused(status, ' '.join(map(str, first.get('status-message', []))))
    return groups
