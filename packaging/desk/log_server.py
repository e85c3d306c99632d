"""Who asks for what the logs tell: a browser of an operator at one socket, behind the proxy, and the desk at another, for `who`."""
import http.server
import io
import os
import re
import socket
import socketserver
import sys
import threading
import time
from email.message import Message

from doors import listen
from lines import JOB, MOMENT, NAME
from log_page import POLICY, page_of, plain_page
from looking import Busy, Logs, lines_of

PATH = re.compile(f'/({NAME})/log')
QUERY = re.compile(f'(?:job=(?P<job>{JOB})?(?:&before=(?P<older>{MOMENT}))?|before=(?P<before>{MOMENT}))?')
ASKED = re.compile(f'who ({NAME}) ({JOB}|-) ({MOMENT}|-)'.encode())
NO_OPERATOR = 'Operators come here by the desk, which says who asks.'
# Connections at once of a socket; seconds in which a request comes or an answer goes; bytes of a request.
MOST_PEERS, PATIENCE, MOST_HEAD = 64, 10, 16384


class Server(socketserver.ThreadingMixIn, socketserver.UnixStreamServer):
    """A socket at a path, for this user and a group."""

    daemon_threads = True

    def __init__(self, path: str, group: int, handler: type, logs: Logs):
        super().__init__('', handler, bind_and_activate=False)
        self.socket.close()
        self.socket, self.logs, self.places = listen(path, group, MOST_PEERS), logs, threading.BoundedSemaphore(MOST_PEERS)

    def process_request(self, request, client_address):
        self.places.acquire()
        super().process_request(request, client_address)

    def process_request_thread(self, request, client_address):
        try:
            super().process_request_thread(request, client_address)
        finally:
            self.places.release()

    def handle_error(self, request, client_address):
        # Of an OSError: whoever asked is gone.
        if not isinstance(sys.exc_info()[1], OSError):
            super().handle_error(request, client_address)


def received(stream: socket.socket, end: bytes, most: int) -> bytes:
    """What came up to this end, or until the peer ended, within the bytes and the time that it has."""
    last, came = time.monotonic() + PATIENCE, b''
    while end not in came and len(came) < most:
        stream.settimeout(max(0.01, last - time.monotonic()))
        piece = stream.recv(most - len(came))
        if not piece:
            break
        came += piece
    stream.settimeout(PATIENCE)
    return came


class Handler(http.server.BaseHTTPRequestHandler):
    """One request of a browser."""

    protocol_version, server_version, sys_version = 'HTTP/1.1', 'ipp-room-desk', ''
    requestline, request_version, command, headers = '', 'HTTP/1.1', None, Message()

    def log_message(self, *_):
        """The proxy has a log."""

    def handle(self):
        # A connection has one request: what stands behind it, as a body that nobody reads, would be another's next.
        head = received(self.connection, b'\r\n\r\n', MOST_HEAD)
        if b'\r\n\r\n' in head:
            self.rfile = io.BytesIO(head)
            self.handle_one_request()
        elif len(head) >= MOST_HEAD:
            self.refuse(431, 'Not understood', 'This request is too long.')

    def do_GET(self):
        words = self.requestline.split()
        # As it came: `self.path` has one `/` where two came.
        path, _, query = words[1].partition('?')
        asked, narrowed = PATH.fullmatch(path), QUERY.fullmatch(query)
        if not self.is_of_operator():
            self.refuse(403, 'Not from here', NO_OPERATOR)
        elif len(self.headers.get_all('Host', [])) != 1 or self.request_version == 'HTTP/0.9':
            self.refuse(400, 'Not understood', 'This request names no host.')
        elif self.is_of_other_site():
            self.refuse(403, 'Not from here', 'Another site asked for this page.')
        elif not asked:
            self.refuse(404, 'Nothing is here', 'The page is at /ACCOUNT/log.')
        elif not narrowed:
            self.refuse(400, 'Not understood', 'A job is a number from 1 to 999999.')
        else:
            job, before = narrowed['job'], narrowed['older'] or narrowed['before']
            self.answer_rows(asked[1], job and int(job), before and int(before))

    do_HEAD = do_GET

    def is_of_operator(self) -> bool:
        named = self.headers.get_all('X-Operator', [])
        return len(named) == 1 and re.fullmatch(NAME, named[0].strip(' \t')) is not None

    def is_of_other_site(self) -> bool:
        """Whether another site has asked, but by a link that somebody followed."""
        site, dest = self.headers.get_all('Sec-Fetch-Site', []), self.headers.get_all('Sec-Fetch-Dest', [])
        return not all(word in ('same-origin', 'none') for word in site) and dest != ['document']

    def answer_rows(self, account: str, job: int | None, before: int | None):
        try:
            told = self.server.logs.tell(account, job, before)
        except Busy:
            self.refuse(503, 'No answer', 'Others look into the log. Try again in a minute.', [('Retry-After', '60')])
            return
        self.answer(200, page_of(account, job, before, told).encode())

    def refuse(self, status: int, title: str, text: str, more=()):
        self.answer(status, plain_page(title, text).encode(), more)

    def send_error(self, code, message=None, explain=None):
        # Of another method, and of what is no request.
        if code == 501 and self.command:
            self.refuse(405, 'Not understood', 'This page is only looked at.', [('Allow', 'GET, HEAD')])
        else:
            self.refuse(code, 'Not understood', 'This is no request that is answered here.')

    def answer(self, status: int, body: bytes, more=()):
        self.send_response_only(status)
        for name, value in [('Content-Type', 'text/html; charset=utf-8'), ('Content-Length', str(len(body))), ('Cache-Control', 'no-store'),
                            ('Content-Security-Policy', POLICY), ('X-Content-Type-Options', 'nosniff'), ('Referrer-Policy', 'same-origin'),
                            ('Connection', 'close'), *more]:
            self.send_header(name, value)
        self.end_headers()
        if self.command != 'HEAD':
            self.wfile.write(body)


class LineHandler(socketserver.BaseRequestHandler):
    """A line of the desk, which asks for somebody at one of its doors."""

    def handle(self):
        line, found, _ = received(self.request, b'\n', 200).partition(b'\n')
        asked = ASKED.fullmatch(line)
        if not found or not asked:
            self.request.sendall(b'bad-line\n')
            return
        account, job, before = (None if field == b'-' else field.decode() for field in asked.groups())
        try:
            told = lines_of(self.server.logs.tell(account, job and int(job), before and int(before)))
        except Busy:
            self.request.sendall(b'busy\n')
            return
        self.request.sendall(''.join(f'{text}\n' for text in [f'events {len(told)}', *told]).encode())


def serve(page: str, ask: str, group: int, logs: Logs) -> None:
    """Serves both sockets, until the process is ended. The group's members reach `ask`; whom `page` is for, root says."""
    served = [Server(ask, group, LineHandler, logs), Server(page, os.getegid(), Handler, logs)]
    for server in served:
        threading.Thread(target=server.serve_forever, daemon=True).start()
    print('serving', f'page={page}', f'ask={ask}', flush=True)
    threading.Event().wait()
