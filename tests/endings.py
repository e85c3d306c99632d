"""How a run of the program ends over input that is too long, and over readers and writers that fail.

They are what the system has: an endless device, a file with a hole, a connection that goes on or breaks off, a folder in the place
of standard input, a full device, a pipe that nobody reads, a file that may not grow further, and a descriptor that is closed. How a
run ends on other input, rows of runs show.
"""
import contextlib
import functools
import os
import resource
import signal
import socket
import subprocess

from program import MOMENT, MOST_SECONDS, PROGRAM, Clock, expect, run_well, variables

# The most bytes that a run reads.
MOST_INPUT = 67108864
# A moment that is past all that are served.
LATE = 4102444800

INPUT = b'ipp-room: input\n'
STORE = b'ipp-room: store\n'
IO = b'ipp-room: io\n'

SCRIPT = b'1 open a\n1 ipp a 00\n1 ipp b 0101000400000001'
PRINTED = b'ok\nshort\nno-account\n'
# What is printed of it goes in three writes; of the other, in one.
LONG_SCRIPT = b'1 open a\n' * 3000
LONG_PRINTED = b'ok\n' + b'exists\n' * 2999


def cases():
    for endings in (long_inputs, failing_readers, failing_writers, failing_errors):
        for name, words, ending in endings():
            yield f'{name}: {words}', functools.partial(ends, words=words.split(), **ending)
    for descriptor, name in enumerate(('input', 'output', 'error')):
        yield f'without standard {name}, on a file', functools.partial(keeps_files, descriptor=descriptor)


def long_inputs():
    """An endless input is refused, and so is one of a byte too many, behind which nothing is read. One of the most bytes is
    read: it is one line, and a bad one."""
    for words in ('script :memory:', 'station a.db', 'grants a.db'):
        refused = {'status': 2, 'told': INPUT}
        yield 'an endless input', words, {'given': endless, **refused}
        yield 'a file of a byte too many', words, {'given': functools.partial(hole, MOST_INPUT + 1), **refused}
        yield 'a byte too many, and no end', words, {'given': functools.partial(sent, zeros(MOST_INPUT + 1), has_end=False), **refused}
    name, given, line = 'a file of the most bytes', functools.partial(hole, MOST_INPUT), b'ipp-room: line 1\n'
    yield name, 'script :memory:', {'given': given, 'status': 2, 'told': line}
    yield name, 'grants :memory:', {'given': given, 'printed': b'1 bad\n'}
    yield 'the most bytes, which are sent', 'script :memory:', {
        'given': functools.partial(sent, zeros(MOST_INPUT)), 'status': 2, 'told': line}


def failing_readers():
    """A read that fails ends the run with nothing printed, also behind empty lines."""
    for name, given in (('a folder is read', the_folder), ('a closed descriptor is read', closed),
                        ('a line, and a connection that breaks off', functools.partial(breaking_off, b'\n')),
                        ('two lines, and a connection that breaks off', functools.partial(breaking_off, b'\n\n'))):
        for words in ('script :memory:', 'station :memory:', 'grants :memory:'):
            yield name, words, {'given': given, 'status': 4, 'told': IO}


def failing_writers():
    """A write that fails ends the run, whatever was written before; where an event failed before, its status counts."""
    single_bytes = functools.partial(sent, [SCRIPT[at:at + 1] for at in range(len(SCRIPT))], kind=socket.SOCK_SEQPACKET)
    many_lines = functools.partial(sent, [LONG_SCRIPT])
    for given, printed, rooms in ((single_bytes, PRINTED, range(len(PRINTED))),
                                  (many_lines, LONG_PRINTED, (0, 1, 8192, 10000, len(LONG_PRINTED) - 1))):
        for room in rooms:
            yield f'of {len(printed)} bytes {room} find room', 'script :memory:', {
                'given': given, 'output': small_file, 'room': room, 'status': 4, 'printed': printed[:room], 'told': IO}
        yield f'{len(printed)} bytes find room', 'script :memory:', {
            'given': given, 'output': small_file, 'room': len(printed), 'printed': printed}
    for name, output in FAILING:
        yield f'{name} is written', 'script :memory:', {'given': single_bytes, 'output': output, 'status': 4, 'told': IO}
        yield f'{name} is written, of many lines', 'script :memory:', {'given': many_lines, 'output': output, 'status': 4, 'told': IO}
        yield f'{name} is written', '--help', {'output': output, 'status': 4, 'told': IO}
        yield f'{name} is written behind an event that failed', 'open :memory: alice', {
            'output': output, 'moment': LATE, 'status': 3, 'told': STORE}


def failing_errors():
    """The status is the same where the fault can't be told."""
    for name, writer in FAILING:
        yield f'{name} is told', 'open :memory: Alice', {'output': writer, 'errors': writer, 'status': 2}


def keeps_files(folder, descriptor):
    """No file of a database becomes a descriptor that the run was started without: what is printed or told goes into none."""
    streams = dict.fromkeys(('given', 'output', 'errors')[descriptor:descriptor + 1], closed)
    printed = {'status': 4, 'told': IO} if descriptor == 1 else {'printed': b'ok\n'}
    ends(folder, ['create', 'room.db'], **streams, **printed)
    ends(folder, ['open', 'room.db', 'alice'], **streams, **printed)
    ends(folder, ['open', 'room.db', 'bob'], **streams, moment=LATE, status=3,
         printed=b'' if descriptor == 1 else b'failed\n', told=b'' if descriptor == 2 else STORE)
    words = ['serve', 'room.db', '0', 'stations', 'operators', '--log', 'log']
    with subprocess.Popen([PROGRAM, *words], cwd=folder, stdin=subprocess.DEVNULL, stdout=subprocess.PIPE, stderr=subprocess.PIPE,
                          preexec_fn=functools.partial(os.close, descriptor)) as serving:
        try:
            if descriptor != 1:
                expect(serving.stdout.readline()[:16], b'serving clients=')
                run_well(folder, 'end', 'operators')
            expect(serving.wait(MOST_SECONDS), 4 if descriptor == 1 else 0)
        finally:
            serving.kill()
    for name in filter(os.path.isfile, (f'{folder}/{name}' for name in os.listdir(folder))):
        text = text_of(name)
        expect((b'serving clients=' in text, b'ipp-room: ' in text), (False, False), name)
    expect(run_well(folder, 'copy', 'room.db', 'copy.db'), b'ok\n')


def ends(folder, words, given=None, output=None, errors=None, room=None, moment=MOMENT, status=0, printed=b'', told=b''):
    """Runs the program over these readers and writers, where a file has room for so many bytes. It has to end with the status, and
    to have printed and told this, as far as it has no other writers."""
    with contextlib.ExitStack() as stack:
        streams = [stack.enter_context(stream(folder)) for stream in (given or empty, output or taken, errors or taken)]
        ended = subprocess.run([PROGRAM, *words], cwd=folder, env=os.environ | variables('clock', **Clock(folder, moment).variables()),
                               stdin=streams[0], stdout=streams[1], stderr=streams[2], timeout=MOST_SECONDS,
                               preexec_fn=functools.partial(prepare, streams, room))
    expect((ended.returncode, ended.stdout or text_of(f'{folder}/printed'), ended.stderr or b''), (status, printed, told))


def prepare(streams, room):
    """Closes the descriptors that are to be closed. Where a file has no room, a write fails as on a full disk."""
    for descriptor, stream in enumerate(streams):
        if stream is None:
            os.close(descriptor)
    if room is not None:
        signal.signal(signal.SIGXFSZ, signal.SIG_IGN)
        resource.setrlimit(resource.RLIMIT_FSIZE, (room, room))


def text_of(path):
    if not os.path.exists(path):
        return b''
    with open(path, 'rb') as file:
        return file.read()


def zeros(count):
    """So many bytes, which are one line of no grammar, in pieces."""
    whole, rest = divmod(count, 1 << 20)
    return [bytes(1 << 20)] * whole + [bytes(rest)]


def empty(_):
    return open(os.devnull, 'rb')


def endless(_):
    return open('/dev/zero', 'rb')


def hole(length, folder):
    with open(f'{folder}/given', 'wb') as file:
        file.truncate(length)
    return open(f'{folder}/given', 'rb')


@contextlib.contextmanager
def the_folder(folder):
    descriptor = os.open(folder, os.O_RDONLY)
    yield descriptor
    os.close(descriptor)


def closed(_):
    return contextlib.nullcontext()


@contextlib.contextmanager
def sent(pieces, _, kind=socket.SOCK_STREAM, has_end=True):
    """A connection over which another process sends the pieces, one behind the other. Without an end it goes on while the run does."""
    reader, writer = socket.socketpair(socket.AF_UNIX, kind)
    sender = os.fork()
    if not sender:
        try:
            reader.close()
            for piece in pieces:
                writer.sendall(piece)
        finally:
            os._exit(0)
    try:
        with writer:
            if has_end:
                writer.close()
            with reader:
                yield reader
    finally:
        os.waitpid(sender, 0)


@contextlib.contextmanager
def breaking_off(text, _):
    """A connection that breaks off behind the text: whoever had it left with bytes unread."""
    reader, writer = socket.socketpair()
    with reader:
        with writer:
            reader.sendall(b'unread')
            writer.sendall(text)
        yield reader


def taken(_):
    return contextlib.nullcontext(subprocess.PIPE)


def small_file(folder):
    return open(f'{folder}/printed', 'wb')


def full_device(_):
    return open('/dev/full', 'wb')


@contextlib.contextmanager
def unread_pipe(_):
    reader, writer = os.pipe()
    os.close(reader)
    yield writer
    os.close(writer)


FAILING = [('a full device', full_device), ('a pipe that nobody reads', unread_pipe), ('a closed descriptor', closed)]
