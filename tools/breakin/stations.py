"""Attacks on the stations' door of the proxy: by whoever has no certificate, has a station's, or has had one."""
import contextlib
import os
import re
import ssl
import time

from breakin.asking import STATIONS, connect, context, read
from breakin.attacks import PROXY, attack, want_none
from breakin.house import quoted
from station_room import Wrong, want

# What `openssl ca` reads, which alone signs for days of the past.
AUTHORITY = ('[ca]\\ndefault_ca=c\\n[c]\\ndatabase=ca/index.txt\\nnew_certs_dir=ca\\nrand_serial=yes\\ndefault_md=sha256\\n'
             'policy=p\\n[p]\\nCN=supplied\\n')


def speak(certificate, text=b'list hall alice\n', seconds=10, most=None):
    """What the door answers to a line; nothing where it lets nobody in."""
    try:
        with contextlib.closing(connect(STATIONS, context(certificate, most))) as stream:
            stream.sendall(text)
            return read(stream, seconds, lambda came: came.endswith(b'\n'))
    except OSError:
        return b''


def openssl(house, command):
    house.machine.run(f'cd /root; {command}')


def take(house, *names):
    """A certificate with its key, as the machine has it, in a file here."""
    path = f'{house.place}/{names[0]}.both'
    with open(path, 'wb') as file:
        for name in names:
            with open(f'{house.machine.root}/root/{name}', 'rb') as part:
                file.write(part.read() + b'\n')
    os.chmod(path, 0o600)
    return path


def signed(house, name, subject, by='stations-ca', more='', days=30):
    """A certificate of this subject, signed by another, with what signed it behind it."""
    openssl(house, f'openssl req -x509 -newkey rsa:2048 -nodes -keyout {name}.key -out {name}.crt -subj {subject!r} -days {days} '
                   + (f'-CA {by}.pem -CAkey {by}.key ' if by else '') + more)
    return take(house, f'{name}.crt', f'{name}.key', *([f'{by}.pem'] if by and by != 'stations-ca' else []))


def is_let_in(house, certificate, **words):
    return bool(speak(certificate, **words))


@attack('stations', PROXY)
def right_station(house):
    """The station of the page is let in: else all that follows would be kept out by anything."""
    told = speak(take(house, 'hall.pem', 'hall.key'))
    want(told.startswith(b'jobs '), told)
    return f'hall is told {told.split(b"%")[0][:40]!r}'


@attack('stations', PROXY)
def signed_by_a_station(house):
    """A station's key signs nothing that is let in."""
    got = []
    for name, subject in (('studio-by-hall', '/CN=studio'), ('hall-by-hall', '/CN=hall')):
        for more in ('', '-addext keyUsage=digitalSignature'):
            with contextlib.suppress(Wrong):
                got += [name] if is_let_in(house, signed(house, name, subject, 'hall', more)) else []
    shown = house.machine.told('openssl x509 -in /root/hall.pem -noout -ext basicConstraints 2>&1')
    want_none(got, f'let in (hall.pem: {" ".join(shown.split())})')
    return f'4 certificates signed by hall: none was let in; hall.pem: {" ".join(shown.split())}'


@attack('stations', PROXY)
def unlisted(house):
    """A name that nobody has entered is not let in, though the authority has signed it."""
    subjects = {'garage': '/CN=garage', 'capitals': '/CN=HALL', 'empty': '/O=room', 'slash': '/CN=hall\\/x', 'blank': '/CN=hall ',
                'begins': '/CN=hall2',
                'dot': '/CN=hall.example', 'star': '/CN=*', 'line': '/CN=hall\\nstudio', 'other-field': '/OU=hall',
                'last-of-two': '/CN=x/CN=garage'}
    got = []
    for name, subject in subjects.items():
        with contextlib.suppress(Wrong):
            got += [subject] if is_let_in(house, signed(house, name, subject)) else []
    want_none(got, 'let in')
    return f'{len(subjects)} names that are not listed: none was let in'


@attack('stations', PROXY)
def without_a_right_certificate(house):
    """Nobody is let in without a certificate, with an own one, another authority's, or one that has ended."""
    openssl(house, "openssl req -x509 -newkey rsa:2048 -nodes -keyout other-ca.key -out other-ca.pem -subj /CN=stations-ca -days 30")
    tried = {'none': None, 'its own': signed(house, 'own', '/CN=hall', None),
             'of another authority': signed(house, 'other', '/CN=hall', 'other-ca')}
    house.machine.told(f'cd /root; mkdir -p ca; : > ca/index.txt; printf {quoted(AUTHORITY)} > ca/conf; '
                       'openssl req -new -newkey rsa:2048 -nodes -keyout ended.key -out ended.csr -subj /CN=hall; '
                       'openssl ca -batch -config ca/conf -in ended.csr -out ended.crt -cert stations-ca.pem -keyfile stations-ca.key '
                       '-startdate 20200101000000Z -enddate 20210101000000Z')
    if os.path.getsize(f'{house.machine.root}/root/ended.crt'):
        tried['ended'] = take(house, 'ended.crt', 'ended.key')
    got = [name for name, certificate in tried.items() if is_let_in(house, certificate)]
    want_none(got, 'let in')
    want('ended' in tried, 'no certificate that has ended could be made')
    return f'{len(tried)} kinds ({", ".join(tried)}): none was let in'


@attack('stations', PROXY)
def old_tls(house):
    """Nor is the right station let in by TLS before 1.2."""
    hall = take(house, 'hall.pem', 'hall.key')
    got = [most.name for most in (ssl.TLSVersion.TLSv1, ssl.TLSVersion.TLSv1_1) if is_let_in(house, hall, most=most)]
    want_none(got, 'let in')
    return 'hall by TLS 1.0 and 1.1: not let in'


def lists(house):
    """The files of the proxy that name hall."""
    return house.machine.told("grep -rlE '(^|[^a-z])hall([^a-z]|$)' /etc/haproxy --include='*.cfg' --include='*.lst' --include='*.list' "
                              '--include=stations* 2>/dev/null | grep -v .pem').split()


@attack('stations', PROXY)
def struck(house):
    """A lost station is let in no more once its name is struck: neither anew, nor by a session of before, nor where it is connected."""
    names = lists(house)
    want(names, 'no file of the proxy has a list of stations, from which one could be struck')
    hall = take(house, 'hall.pem', 'hall.key')
    secret = context(hall, ssl.TLSVersion.TLSv1_2, ssl.TLSVersion.TLSv1_2)
    held = connect(STATIONS, secret)
    held.sendall(b'list hall alice\n')
    want(read(held, 10, lambda came: came.endswith(b'\n')), 'hall is not let in before')
    session = held.session
    house.machine.run('cp -a /etc/haproxy /root/haproxy.before')
    try:
        command = strike(house)
        time.sleep(3)
        got = ['anew'] if is_let_in(house, hall) else []
        with contextlib.suppress(OSError):
            again = secret.wrap_socket(__import__('socket').create_connection(('192.0.2.2', STATIONS), 10), session=session)
            with contextlib.closing(again):
                again.sendall(b'list hall alice\n')
                got += ['by a session of before'] if read(again, 5, lambda came: came.endswith(b'\n')) else []
        with contextlib.suppress(OSError):
            held.sendall(b'list hall alice\n')
            got += ['on a connection of before'] if read(held, 5, lambda came: came.endswith(b'\n')) else []
        want_none(got, f'after `{command}` hall was let in')
    finally:
        held.close()
        house.machine.told('cp -a /root/haproxy.before/. /etc/haproxy/; systemctl restart haproxy')
    return f'after `{command}`: not let in anew, by a session of before, or on a connection of before'


def strike(house):
    """Runs the command of OPERATING that strikes the station hall, and answers it."""
    with open(f'{house.tree}/docs/OPERATING.md', encoding='utf-8') as file:
        shown = [line.strip().removeprefix('# ') for line in file if line.startswith('    # ')]
    found = [command for command in shown if 'hall' in command and re.search(r'sed .*(/d\b|s/)|del map|del acl|grep -v', command)
             and ('haproxy' in command or 'stations' in command)]
    want(found, 'OPERATING has no command that strikes a station')
    told, status = house.shell.run(found[0])
    want(status == 0, f'`{found[0]}`: {told}')
    return found[0]


@attack('stations', PROXY)
def lines_of_operators(house):
    """A station opens no account, grants nothing, copies nothing and ends nothing."""
    hall = take(house, 'hall.pem', 'hall.key')
    lines = ['open evil', 'grant alice 2026-02 5', 'device hall off', 'rate hall 100', 'cancel alice 1', 'hold alice 1', 'end', 'ping',
             'accounts -',
             'jobs kate', 'ended kate 1', 'statement kate 2026-11', 'backup /var/lib/ipp-room/evil.db', 'slice /var/lib/ipp-room/evil.db',
             'check kate',
             'ipp kate 0101000200000001', '1795842660 open evil', 'devices']
    told = [speak(hall, f'{line}\n'.encode()) for line in lines]
    want(all(answer == b'bad-line\n' for answer in told), dict(zip(lines, told)))
    want(house.is_serving() and 'account evil' not in house.sends('accounts -'), 'a line was done')
    return f'{len(lines)} lines of operators: bad-line'


@attack('stations', PROXY)
def again(house):
    """What a station sends a second time charges nothing twice."""
    house.clear('bob')
    house.make_job('bob')
    number = house.jobs('bob')[-1][1]
    hall = take(house, 'hall.pem', 'hall.key')
    lines = [f'release hall bob {number} - -', f'start hall bob {number}', f'settle hall bob {number} 1 done']
    told = []
    for line in lines:
        for _ in range(2):
            told.append(speak(hall, f'{line}\n'.encode(), 3).split(b'\n')[0].decode())
    charged = house.sends('ended bob 1')[-1].split()[11]
    want(told[1] == 'not-held' and told[3] == 'not-pending' and told[5] == 'not-processing' and charged == '1', (told, charged))
    return f'release, start and settle, each twice: {told}; charged {charged}'


@attack('stations', PROXY)
def counts_more(house):
    """What a station counts beyond what was released shows in the log, in the report and on the print room's page."""
    house.clear('bob')
    house.make_job('bob')
    number = house.jobs('bob')[-1][1]
    hall = take(house, 'hall.pem', 'hall.key')
    told = [speak(hall, f'{line}\n'.encode(), 3).split(b'\n')[0].decode().split()
            for line in (f'release hall bob {number} - -', f'start hall bob {number}', f'settle hall bob {number} 9 done')]
    beyond = int(told[2][2]) - int(told[0][2])
    log = house.machine.run('tail -n 1 /var/log/ipp-room/log').strip()
    report = house.machine.run(f'ipp-room report /run/ipp-room/operators {time.strftime("%Y-%m", time.gmtime())}')
    row = next(line for line in report.split() if line.startswith('bob,'))
    page = house.machine.run('for n in 11 2 0; do curl -s --unix-socket /run/ipp-room/pages http://localhost/; sleep $n; done')
    shown = re.findall(r'beyond what was released</dt><dd>(\d+)', page)
    want(log.endswith(f' stations hall beyond bob {number} {beyond}'), f'the log: {log}')
    want(report.splitlines()[0].strip().endswith('beyond_in_month') and int(row.rsplit(',', 1)[1]) >= beyond, f'the report: {row}')
    want(shown and int(shown[-1]) >= beyond, f'the page: {shown}')
    return f'{told[0][2]} reserved, {told[2][2]} charged: {log.split(" ", 1)[1]!r}; {row}; on the page {shown[-1]}'


@attack('stations', PROXY)
def other_devices(house):
    """A station that has a door of its own acts for its own devices alone."""
    serving = house.machine.run('systemctl show -p ExecStart ipp-room; cat /etc/default/ipp-room')
    told = speak(take(house, 'hall.pem', 'hall.key'), b'list studio alice\n')
    want(told == b'not-your-device\n', f'hall asks for studio: {told[:60]!r}; a door of hall alone: {"--station " in serving}')
    log = house.machine.run('tail -n 3 /var/log/ipp-room/log')
    want('not-your-device' in log, log)
    return f'hall asks for studio: {told!r}, and in the log'


@attack('stations', PROXY)
def strange_lines(house):
    """Lines that are none, too long, or never end change nothing, and other stations are answered."""
    hall = take(house, 'hall.pem', 'hall.key')
    lines = [b'\0' * 100 + b'\n', b'list hall ' + b'a' * 70000 + b'\n', b'release hall alice 99999999999999999999 - -\n',
             b'settle hall alice -1 1 done\n',
             b'settle hall alice 1 99999999999 done\n', b'release hall alice 1 zz -\n', b'list hall alice\r\n', b' list hall alice\n',
             b'list  hall alice\n',
             b'LIST hall alice\n', b'list hall ../kate\n', b'start hall alice 1 extra\n', b'\xff\xfe\n', b'list hall alice\0\n',
             b'list\thall\talice\n', b'\n']
    told = [speak(hall, line, 5) for line in lines]
    want(all(answer.startswith(b'bad-line') for answer in told), dict(zip(lines, told)))
    want(speak(hall).startswith(b'jobs '), 'hall is not answered any more')
    return f'{len(lines)} lines: bad-line; the next line is answered'
