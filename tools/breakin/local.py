"""Attacks by another user of the machine: nobody, somebody who prints and has a shell, and the user of cupsd's filters."""
import threading
import time

from breakin.asking import KEYWORD, OCTETS
from breakin.attacks import FRONT, PROXY, attack, want_none
from breakin.front import came, is_taken, print_job
from messages import attribute
from station_room import want

# Asks at each address that is named, and prints where it was answered.
REACHES = '''
import socket, sys
def reaches(address, text):
    try:
        if address.isdigit():
            stream = socket.create_connection(("127.0.0.1", int(address)), 5)
        else:
            stream = socket.socket(socket.AF_UNIX)
            stream.settimeout(5)
            stream.connect(address)
        stream.settimeout(5)
        stream.sendall(text)
        return bool(stream.recv(1000))
    except OSError:
        return False
'''
DOORS = {'6310': b'GET / HTTP/1.1\r\nHost: a\r\n\r\n', '6311': b'list hall alice\n', '6313': b'GET /alice HTTP/1.1\r\nHost: a\r\n\r\n',
         '/run/ipp-room/clients': b'GET / HTTP/1.1\r\nHost: a\r\n\r\n', '/run/ipp-room/pages': b'GET /alice HTTP/1.1\r\nHost: a\r\n\r\n',
         '/run/ipp-room/stations': b'list hall alice\n', '/run/ipp-room/station-hall': b'list hall alice\n',
         '/run/ipp-room/operators': b'ping\n'}


def reached(house, user):
    """The doors at which this user is answered."""
    code = f'{REACHES}\nfor address, text in {DOORS!r}.items():\n    if reaches(address, text): print(address)'
    return house.python_as(user, code)[0].split()


@attack('local', FRONT)
def doors(house):
    """No door of the server is another local user's, and those of the filters of CUPS reach clients' alone."""
    got = {user: reached(house, user) for user in ('nobody', 'alice', 'lp', 'ipp-room-station')}
    for user, right in (('lp', ['/run/ipp-room/clients']), ('ipp-room-station', ['/run/ipp-room/stations', '/run/ipp-room/station-hall'])):
        got[user] = [address for address in got[user] if address not in right]
    want_none({user: addresses for user, addresses in got.items() if addresses}, 'reached')
    return f'{len(DOORS)} addresses, as nobody, alice, lp and the station: none but their own'


@attack('local', PROXY)
def doors_behind_proxy(house):
    """Behind the proxy no door of the server is another local user's."""
    got = {user: reached(house, user) for user in ('nobody', 'bob', 'www-data', 'lp')}
    want_none({user: addresses for user, addresses in got.items() if addresses}, 'reached')
    mine = reached(house, 'haproxy')
    want('/run/ipp-room/operators' not in mine, 'the proxy reaches the operators')
    return f'{len(DOORS)} addresses, as nobody, bob, www-data and lp: none; the proxy {", ".join(mine) or "none by its user alone"}'


@attack('local', FRONT)
def pins_in_ps(house):
    """No other local user sees a PIN among the words of the processes that make a document ready."""
    pin = [attribute(OCTETS, b'job-password', b'9265358979'), attribute(KEYWORD, b'job-password-encryption', b'none')]
    slow = b'%!PS-Adobe-3.0\n0 1 30000000 { pop } for\n/Helvetica 24 selectfont 72 700 moveto (Slow) show showpage\n%%EOF\n'
    code = '''
import glob, time
end = time.monotonic() + 20
found, seen = set(), 0
while time.monotonic() < end:
    for path in glob.glob("/proc/[0-9]*/cmdline"):
        try:
            words = open(path, "rb").read()
        except OSError:
            continue
        seen += 1
        if b"9265358979" in words and b"import glob" not in words:
            found.add(words.split(b"\\0")[0].decode())
    time.sleep(0.02)
print(sorted(found), seen)
'''
    told = []
    watcher = threading.Thread(target=lambda: told.append(house.python_as('nobody', code)[0]))
    watcher.start()
    time.sleep(2)
    taken = print_job('mallory', slow, b'application/postscript', b'Slow', more=pin)
    watcher.join()
    row = came(house, 'mallory', 'Slow')
    house.clear('mallory')
    want(is_taken(taken) and row and row[7] == 'password', (taken[:2], row))
    want(told[0].startswith('[]'), f'seen as nobody: {told[0]}')
    return f'20 s of looks at /proc as nobody while a job with a PIN is made ready: {told[0].strip()}'


@attack('local', FRONT)
def as_another(house):
    """A local user prints as nobody else, and changes nothing of CUPS."""
    before = house.count('kate')
    tried = {command: house.ask_as('mallory', command) for command in (
        'seq 3 | lp -d release -U kate -t AsKate', 'seq 3 | CUPS_USER=kate lp -d release -t AsKate',
                                                                       'lpadmin -p evil -E -v file:///tmp/evil',
        'lpadmin -x release', 'lpadmin -p release -v file:///dev/null', 'cupsctl WebInterface=yes', 'cupsdisable release', 'cancel -a -x',
        'cancel -a -u kate', 'lpmove release device', 'cupsreject release', 'systemctl stop cups', 'systemctl stop ipp-room',
        'lp -d device /etc/hostname')}
    time.sleep(3)
    queues = house.machine.run('lpstat -v; lpstat -p; lpstat -a; systemctl is-active cups ipp-room')
    want(house.count('kate') == before, 'a job came to the account of another')
    want('evil' not in queues and 'null' not in queues and 'disabled' not in queues and 'not accepting' not in queues
         and 'inactive' not in queues, queues)
    house.machine.told('cancel -a')
    return f'{len(tried)} commands: no job of another, no queue changed'


@attack('local', FRONT)
def login_shells(house):
    """Nobody who prints can log in where the server runs."""
    shells = {line.split(':')[0]: line.split(':')[6] for line in house.machine.run('getent passwd').splitlines()}
    got = {user: shell for user, shell in shells.items() if user in ('alice', 'ipp-room', 'ipp-room-station', 'lp')
           and 'nologin' not in shell
           and 'false' not in shell}
    want_none(got, 'may log in')
    return 'alice, who OPERATING makes, and the users of the packages: nologin'


@attack('local', FRONT)
def processes(house):
    """Another user sees nothing of the server's process, and sends it no signal."""
    pid = house.machine.run('systemctl show --property MainPID --value ipp-room').strip()
    paths = [f'/proc/{pid}/{name}' for name in ('environ', 'maps', 'mem', 'fd/0', 'root/etc/passwd', 'cwd/room.db', 'stack', 'syscall',
                                                'auxv')]
    got = [(user, path) for user in ('nobody', 'alice', 'lp') for path in paths if house.ask_as(user,
                                                                                                f'head -c 1 {path} >/dev/null')[1] == 0]
    got += [(user, signal) for user in ('nobody', 'alice', 'lp', 'ipp-room-station') for signal in ('TERM', 'KILL', 'STOP', 'HUP')
            if house.ask_as(user, f'kill -{signal} {pid}')[1] == 0]
    want_none(got, 'read or signalled')
    words = house.machine.run(f"tr '\\0' ' ' < /proc/{pid}/cmdline")
    want(house.machine.run('systemctl show --property MainPID --value ipp-room').strip() == pid and house.is_serving(), 'it ended')
    return f'{3 * len(paths)} files of /proc, 16 signals: none; its words are `{words.strip()}`'


@attack('local', FRONT)
def filters_of_jobs(house):
    """A program that runs as `lp`, as each filter does, sees no spool beyond CUPS, no data, no key, and gets no further right."""
    paths = ['/var/lib/ipp-room/room.db', '/var/lib/ipp-room', '/var/log/ipp-room/log', '/etc/shadow', '/etc/cups/ssl',
             '/var/lib/ipp-room-station/state.json', '/etc/default/ipp-room-nothing']
    got = [path for path in paths if house.ask_as('lp', f'head -c 1 {path} >/dev/null 2>&1 || ls {path}/ >/dev/null 2>&1')[1] == 0]
    groups = house.machine.run('id -nG lp')
    want(not got and 'ipp-operators' not in groups and 'ipp-stations' not in groups, (got, groups))
    return f'{len(paths)} paths: none; its groups are {groups.strip()}'


@attack('local', FRONT)
def ports_first(house):
    """Whoever takes the ports of old before the server starts neither stops it nor gets its clients."""
    code = '''
import socket, time
held = []
for port in (6310, 6311, 6313):
    try:
        stream = socket.socket()
        stream.setsockopt(socket.SOL_SOCKET, socket.SO_REUSEADDR, 1)
        stream.bind(("127.0.0.1", port))
        stream.listen()
        held.append(port)
    except OSError:
        pass
print(held, flush=True)
time.sleep(40)
'''
    house.machine.run('systemctl stop ipp-room')
    try:
        told = []
        other = threading.Thread(target=lambda: told.append(house.python_as('nobody', code)[0]))
        other.start()
        time.sleep(3)
        house.machine.told('systemctl start --no-block ipp-room')
        time.sleep(10)
        is_serving = house.is_serving()
        other.join()
    finally:
        house.machine.told('systemctl restart ipp-room')
        house.wait_until_serving()
    want(is_serving, f'while nobody listens at the ports {told[0].strip()} the server does not start')
    return f'nobody listened at {told[0].strip()} first: the server serves all the same'


@attack('local', FRONT)
def sockets_first(house):
    """Nobody else makes, moves or removes a door of the server."""
    commands = ['ln -s /tmp/evil /run/ipp-room/clients', 'rm -f /run/ipp-room/operators', 'mv /run/ipp-room /run/gone',
                'touch /run/ipp-room/evil',
                'ls /run/ipp-room', 'touch /var/lib/ipp-room/evil', 'touch /var/lib/ipp-room-station/may-print/room-alice-1-1',
                'mkdir /run/ipp-room/evil', 'rm -f /run/cups/cups.sock']
    got = [(user, command) for user in ('nobody', 'alice', 'ipp-room-station') for command in commands
           if not (user == 'ipp-room-station' and 'may-print' in command) and house.ask_as(user, command)[1] == 0]
    want(house.is_serving(), 'the server is not reached any more')
    want_none(got, 'done')
    return f'{3 * len(commands)} commands: none was done'
