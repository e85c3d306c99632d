"""The release server, as `ipp-room serve` answers clients: messages of IPP/1.1 over HTTP (RFC 8010, RFC 8011)."""
import http.client
import re
import socket

CREATE_JOB, SEND_DOCUMENT, CANCEL_JOB, GET_JOBS = 5, 6, 8, 10
OPERATION, JOB, END = 1, 2, 3
INTEGER, BOOLEAN, OCTETS, NAME, KEYWORD, URI, CHARSET, LANGUAGE, MIME = 0x21, 0x22, 0x30, 0x42, 0x44, 0x45, 0x47, 0x48, 0x49
INTERNAL_ERROR = 0x0500
CANCELED = 7
SECONDS = 120
# Behind these an account has 100 unfinished jobs at most. Of the ended ones, the last.
MOST_JOBS = 200


class NoAnswer(Exception):
    """The server can't do now what it was asked, and may later."""


class Refused(Exception):
    """The server refuses what was asked, by a status of HTTP, or with a word of its own."""

    def __init__(self, status, word=''):
        super().__init__(word or f'status {status} of HTTP')
        self.status, self.word = status, word


class SocketConnection(http.client.HTTPConnection):
    """A connection by a socket's path."""

    def __init__(self, path):
        super().__init__('localhost', timeout=SECONDS)
        self.socket_path = path

    def connect(self):
        self.sock = socket.socket(socket.AF_UNIX)
        self.sock.settimeout(self.timeout)
        self.sock.connect(self.socket_path)


class Server:
    """The queue of one account, at the path of a socket or at a host and a port."""

    def __init__(self, address, account):
        self.address, self.path = address, f'/ipp/print/{account}'

    def create_job(self, name, copies, impressions, password):
        """A job that waits for its documents; its number."""
        attributes = [attribute(NAME, 'job-name', name), integer(INTEGER, 'job-impressions', impressions)]
        if password:
            attributes += [attribute(OCTETS, 'job-password', password), attribute(KEYWORD, 'job-password-encryption', b'none')]
        groups = self.ask(CREATE_JOB, attributes, job=[integer(INTEGER, 'copies', copies)])
        return number_of(dict(groups)[JOB]['job-id'])

    def send_document(self, number, document, is_last):
        """Gives the job its next document. A job that takes none any more has them all."""
        attributes = [integer(INTEGER, 'job-id', number), attribute(MIME, 'document-format', b'application/pdf'),
                      attribute(BOOLEAN, 'last-document', bytes([is_last]))]
        try:
            self.ask(SEND_DOCUMENT, attributes, data=document)
        except Refused as refused:
            if refused.word != 'closed':
                raise

    def cancel_job(self, number):
        self.ask(CANCEL_JOB, [integer(INTEGER, 'job-id', number)])

    def find_job(self, mark, documents):
        """The number of the job that has this mark behind its title, and how many documents it has; (None, 0) where there is none.

        One that was canceled before it had all its documents was withdrawn by an earlier try, and counts for nothing.
        """
        for which in (b'not-completed', b'completed'):
            for job in self.jobs(which):
                taken = number_of(job['number-of-documents'])
                is_withdrawn = number_of(job['job-state']) == CANCELED and taken < documents
                if is_marked(job['job-name'], mark) and not is_withdrawn:
                    return number_of(job['job-id']), taken
        return None, 0

    def jobs(self, which):
        wanted = [b'job-id', b'job-name', b'job-state', b'number-of-documents']
        groups = self.ask(GET_JOBS, [attribute(KEYWORD, 'which-jobs', which), integer(INTEGER, 'limit', MOST_JOBS),
                                     attribute(KEYWORD, 'requested-attributes', wanted[0]), *(attribute(KEYWORD, '', word) for word in wanted[1:])])
        return [attributes for tag, attributes in groups if tag == JOB]

    def ask(self, operation, attributes, job=(), data=b''):
        """Sends a request, and answers the groups of the response."""
        groups = [attribute(CHARSET, 'attributes-charset', b'utf-8'), attribute(LANGUAGE, 'attributes-natural-language', b'en'),
                  attribute(URI, 'printer-uri', f'ipp://front{self.path}'.encode()), *attributes]
        if job:
            groups += [bytes([JOB]), *job]
        body = b'\1\1' + operation.to_bytes(2, 'big') + b'\0\0\0\1' + bytes([OPERATION]) + b''.join(groups) + bytes([END]) + data
        answer = self.exchange(body)
        status, groups = int.from_bytes(answer[2:4], 'big'), read_groups(answer)
        if status == INTERNAL_ERROR:
            raise NoAnswer('The release server has a fault')
        if status > 0xFF:
            raise Refused(200, dict(groups)[OPERATION].get('status-message', b'').decode())
        return groups

    def connection(self):
        if isinstance(self.address, str):
            return SocketConnection(self.address)
        return http.client.HTTPConnection(*self.address, timeout=SECONDS)

    def exchange(self, body):
        """The body of the answer of HTTP."""
        connection = self.connection()
        try:
            try:
                connection.request('POST', self.path, body, {'Content-Type': 'application/ipp', 'Connection': 'close'})
            except (BrokenPipeError, ConnectionResetError):
                # It may have refused what it did not read to the end.
                pass
            answer = connection.getresponse()
            told = answer.read()
        except (OSError, http.client.HTTPException) as error:
            raise NoAnswer('The release server does not answer') from error
        finally:
            connection.close()
        if answer.status == 503:
            raise NoAnswer('The release server has no room')
        if answer.status >= 500:
            raise NoAnswer('The release server does not answer')
        if answer.status != 200:
            raise Refused(answer.status)
        return told


def is_marked(name, mark):
    """Whether the name has this mark, and behind it only words NAME=VALUE."""
    return re.search(re.escape(mark) + rb'( [a-z-]+=\S+)*\Z', name) is not None


def attribute(tag, name, value):
    return bytes([tag]) + len(name).to_bytes(2, 'big') + name.encode() + len(value).to_bytes(2, 'big') + value


def integer(tag, name, value):
    return attribute(tag, name, value.to_bytes(4, 'big'))


def number_of(value):
    return int.from_bytes(value, 'big')


def read_groups(message):
    """The groups of a response: the tag of each, and the first value of each of its attributes by its name."""
    groups, at = [], 8
    while message[at] != END:
        if message[at] < 0x10:
            groups.append((message[at], {}))
            at += 1
            continue
        name, at = read_text(message, at + 1)
        value, at = read_text(message, at)
        if name:
            groups[-1][1].setdefault(name.decode(), value)
    return groups


def read_text(message, at):
    end = at + 2 + int.from_bytes(message[at:at + 2], 'big')
    return message[at + 2:end], end
