"""Messages of IPP and of HTTP, for the programs in bench/ and tools/ (RFC 8010 section 3, RFC 9112), and the program that
they try: `ipp-room` at the top, or the one that the environment variable IPP_ROOM names.
"""
import os

TOP = os.path.dirname(os.path.dirname(os.path.abspath(__file__)))
PROGRAM = os.environ.get('IPP_ROOM', f'{TOP}/ipp-room')
# What the script at the top runs, once it has built it.
BUILT = os.environ.get('IPP_ROOM', f'{TOP}/crates/room_cli/out/room_cli')
MOMENT = 1788220800
PRINT_JOB, VALIDATE_JOB, CREATE_JOB, SEND_DOCUMENT, CANCEL_JOB, GET_JOB, GET_JOBS, GET_PRINTER = 2, 4, 5, 6, 8, 9, 10, 11
HOLD_JOB, RELEASE_JOB = 12, 13
OK, INTERNAL_ERROR = 0, 0x0500


def attribute(tag, name, value):
    return bytes([tag]) + len(name).to_bytes(2, 'big') + name + len(value).to_bytes(2, 'big') + value


def integer(name, number):
    return attribute(0x21, name, number.to_bytes(4, 'big'))


def request(account, operation, *attributes, data=b''):
    """A request of version 1.1 to the account's queue, with these further operation attributes."""
    return (bytes([1, 1]) + operation.to_bytes(2, 'big') + bytes([0, 0, 0, 1, 1])
            + attribute(0x47, b'attributes-charset', b'utf-8')
            + attribute(0x48, b'attributes-natural-language', b'en')
            + attribute(0x45, b'printer-uri', f'ipp://localhost/ipp/print/{account}'.encode())
            + b''.join(attributes) + b'\x03' + data)


def head(account, *fields):
    """The head of a message to the account's queue with these further fields."""
    lines = [f'POST /ipp/print/{account} HTTP/1.1', 'Host: localhost', 'Content-Type: application/ipp', *fields, '', '']
    return '\r\n'.join(lines).encode()


def message(account, body, *fields):
    return head(account, *fields, f'Content-Length: {len(body)}') + body


def in_chunks(account, body, size):
    chunks = (body[at:at + size] for at in range(0, len(body), size))
    return (head(account, 'Transfer-Encoding: chunked')
            + b''.join(b'%x\r\n%b\r\n' % (len(chunk), chunk) for chunk in chunks) + b'0\r\n\r\n')


def ask(stream, text):
    """Sends a message, and answers the status of the response of IPP."""
    return int.from_bytes(answer_to(stream, text)[1][2:4], 'big')


def answer_to(stream, text):
    """Sends a message, and answers the head of what is answered and its body."""
    stream.sendall(text)
    answer, whole = b'', None
    while whole is None or len(answer) < whole:
        more = stream.recv(1 << 16)
        if not more:
            raise OSError('the connection ended')
        answer += more
        end = answer.find(b'\r\n\r\n') + 4
        if whole is None and end >= 4:
            whole = end + int(answer[:end].lower().split(b'content-length: ')[1].split(b'\r')[0])
    return answer[:end], answer[end:]
