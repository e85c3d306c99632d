"""Attacks on what systemd and logrotate do as root, by the users of our own services; and what these may do."""
import re

from breakin.attacks import FRONT, attack, want_none
from station_room import want, write

MOST_EXPOSED = 1.5


@attack('units', FRONT)
def exposure(house):
    """What `systemd-analyze security` says of the two services."""
    told = {}
    for unit in ('ipp-room', 'ipp-room-station'):
        shown = house.machine.told(f'systemd-analyze --no-pager security {unit}.service')
        found = re.search(r'Overall exposure level for .*: ([\d.]+)', shown)
        want(found, shown[-300:])
        told[unit] = float(found[1])
    want(max(told.values()) <= MOST_EXPOSED, told)
    return f'{told}'


@attack('units', FRONT)
def links_of_the_station(house):
    """Root gives no other folder away, whatever the station's user has made of its own."""
    own, kept = '/var/lib/ipp-room-station/may-print', '/root/may-print.before'
    house.machine.run(f'chmod 711 /root; rm -rf /root/victim; mkdir -m 700 /root/victim; systemctl stop ipp-room-station; mv {own} {kept}')
    house.ask_as('ipp-room-station', f'ln -s /root/victim {own}')
    house.machine.told('timeout 30 systemctl start ipp-room-station; sleep 2')
    owner = house.machine.run("stat -c '%U %G %a' /root/victim").strip()
    house.machine.told(f'systemctl stop ipp-room-station; rm -rf {own}; mv {kept} {own}; {start("ipp-room-station")}')
    want(owner == 'root root 700', f'a link may-print to a folder of root: it is now {owner}')
    return f'a link in the place of may-print: the folder of root stays {owner}'


def start(unit):
    return f'systemctl reset-failed {unit}; systemctl start {unit}'


# A server that was taken over: with the word `answers` it answers a ping, and only then makes a link of that door too.
TAKEN_OVER = '''#!/usr/bin/python3
import os, socket, sys, time
doors = ['clients', 'pages', 'stations', 'station-hall', 'operators']
if 'answers' in sys.argv:
    with socket.socket(socket.AF_UNIX) as door:
        door.bind('/run/ipp-room/operators')
        door.listen()
        for name in doors[:-1]:
            os.symlink('/root/victim.sock', f'/run/ipp-room/{name}')
        stream, _ = door.accept()
        stream.recv(100)
        os.symlink('/root/victim.sock', '/run/ipp-room/x')
        os.rename('/run/ipp-room/x', '/run/ipp-room/operators')
        stream.sendall(b'ok\\n')
else:
    for name in doors:
        os.symlink('/root/victim.sock', f'/run/ipp-room/{name}')
time.sleep(60)
'''
DROP_IN = '''[Service]
ExecStart=
ExecStart=/usr/local/bin/taken-over {word}
ExecStop=
NoExecPaths=
ExecPaths=
MemoryDenyWriteExecute=no
SystemCallFilter=
'''


@attack('units', FRONT)
def links_of_the_server(house):
    """Root changes no other file, whatever a server that was taken over leaves in its folder."""
    folder = f'{house.machine.root}/etc/systemd/system/ipp-room.service.d'
    house.machine.run('chmod 711 /root; rm -f /root/victim.sock; mkdir -p /etc/systemd/system/ipp-room.service.d; '
                      'python3 -c "import socket; socket.socket(socket.AF_UNIX).bind(\'/root/victim.sock\')"; chmod 600 /root/victim.sock')
    write(f'{house.machine.root}/usr/local/bin/taken-over', TAKEN_OVER, 0o755)
    owners = []
    try:
        for word in ('', 'answers'):
            write(f'{folder}/evil.conf', DROP_IN.format(word=word))
            house.machine.told('systemctl daemon-reload; systemctl stop ipp-room; systemctl start --no-block ipp-room; sleep 8')
            made = house.machine.told('ls -l /run/ipp-room')
            want(made.count('victim.sock') >= 4, f'the links were not made: {made}')
            owners.append(house.machine.run("stat -c '%U %G %a' /root/victim.sock").strip())
    finally:
        house.machine.told('rm -rf /etc/systemd/system/ipp-room.service.d; systemctl kill -s KILL ipp-room; systemctl daemon-reload; '
                           f'systemctl stop ipp-room; rm -f /run/ipp-room/*; {start("ipp-room")}')
        house.wait_until_serving()
    want(owners == ['root root 600'] * 2, f'links to a socket of root in the place of the doors: it is now {owners}')
    return f'links in the place of the doors, at once and behind a ping: the socket of root stays {owners[0]}'


@attack('units', FRONT)
def doors(house):
    """Each door has its own group, and nobody else's rights."""
    rows = house.machine.run("stat -c '%n %U %G %a' /run/ipp-room /run/ipp-room/*").splitlines()
    got = [row for row in rows if row.split()[0] != '/run/ipp-room' and (row.split()[3][-1] != '0' or row.split()[2] in ('nogroup', 'users',
                                                                                                                         'root'))]
    folder = rows[0].split()
    want(folder[1] == 'ipp-room' and folder[3][-1] in '01', rows[0])
    want_none(got, 'open to others')
    listening = [line.split()[3] for line in house.machine.run('ss -Hltn').splitlines()]
    want(not [address for address in listening if re.search(r':63(10|11|13)$', address)], f'ports: {listening}')
    return '; '.join(rows)


@attack('units', FRONT)
def rights(house):
    """The server has no right of root, no program to start, and no network but its own."""
    pid = house.machine.run('systemctl show --property MainPID --value ipp-room').strip()
    told = dict(line.split(':\t', 1) for line in house.machine.run(f'cat /proc/{pid}/status').splitlines() if ':\t' in line)
    want(int(told['CapEff'], 16) == 0 and int(told['CapBnd'], 16) == 0 and told['NoNewPrivs'] == '1' and told['Seccomp'] == '2', told)
    own = house.machine.run(f'readlink /proc/{pid}/ns/net; readlink /proc/1/ns/net').split()
    inside = house.machine.told(f'nsenter -t {pid} -m -n -S 0 bash -c true; nsenter -t {pid} -n ip -o address').strip()
    want(own[0] != own[1], 'it has the machine\'s network')
    return f'no capability, no new privilege, a filter of calls, a network of its own ({len(inside.splitlines())} addresses)'


@attack('units', FRONT)
def rotation(house):
    """logrotate does nothing to what the server's user puts in the place of its log."""
    make_victim(house)
    house.ask_as('ipp-room', 'cd /var/log/ipp-room; mv log log.kept; for n in log log.1 log.2.gz; do ln -s /root/victim.txt $n; done')
    told = house.machine.told('logrotate --force /etc/logrotate.d/ipp-room')
    house.machine.told('cd /var/log/ipp-room; rm -f log log.*gz log.1 log.2; mv log.kept log')
    check_victim(house)
    return f'links in the place of the log: a file of root stays as it was; logrotate said {" ".join(told.split())[:80]!r}'


@attack('units', FRONT)
def upgrade(house):
    """What the server's user puts into its folder does nothing when the package is configured anew."""
    make_victim(house)
    links = 'room.db-journal room.db-space.part'
    house.ask_as('ipp-room', f'cd /var/lib/ipp-room; for n in {links}; do ln -s /root/victim.txt $n; done; ln -s /root folder')
    told, status = house.machine.ask('systemctl stop ipp-room; dpkg-reconfigure -f noninteractive ipp-room 2>&1')
    house.machine.told(f'cd /var/lib/ipp-room; rm -f {links} folder; dpkg --configure -a; {start("ipp-room")}')
    house.wait_until_serving()
    check_victim(house)
    return f'links in its folder: a file and a folder of root stay as they were (status {status}: {" ".join(told.split())[-60:]!r})'


@attack('units', FRONT)
def space_of_a_link(house):
    """A link in the place of the space that serve keeps is not followed to another file."""
    folder = '/var/lib/ipp-room'
    house.machine.run(f'systemctl stop ipp-room; mv {folder}/room.db-space {folder}/kept')
    house.ask_as('ipp-room', f'cd {folder}; echo precious > precious; ln -s {folder}/precious room.db-space')
    house.machine.told('timeout 40 systemctl start ipp-room; sleep 1')
    kept, is_serving = house.machine.told(f'head -c 9 {folder}/precious').strip(), house.is_serving()
    house.machine.told(f'systemctl stop ipp-room; cd {folder}; rm -f room.db-space precious; mv kept room.db-space; {start("ipp-room")}')
    house.wait_until_serving()
    want(kept == 'precious', f'the file that the link names has {kept!r} now')
    return f'room.db-space as a link to another file: that stays as it was (serving meanwhile: {is_serving})'


def make_victim(house):
    house.machine.run('chmod 711 /root; echo secret > /root/victim.txt; chmod 600 /root/victim.txt')


def check_victim(house):
    state = house.machine.run("stat -c '%U %G %a %s' /root/victim.txt; stat -c '%U %G' /root").split('\n')
    want(state[:2] == ['root root 600 7', 'root root'], f'a file of root is now {state[0]}, its folder {state[1]}')
