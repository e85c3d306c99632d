"""Attacks on files: what others may read of them, and what is written where somebody else has put a link."""
from breakin.asking import KEYWORD, OCTETS
from breakin.attacks import FRONT, PROXY, attack, want_none
from breakin.house import OPERATORS
from messages import attribute
from station_room import want

COPY = '/var/lib/ipp-room/backup.db'
PIN = [attribute(OCTETS, b'job-password', b'27182818'), attribute(KEYWORD, b'job-password-encryption', b'none')]


@attack('files', PROXY)
def keys(house):
    """No other user reads a private key, or a hash of a password, that OPERATING has one make."""
    rows = house.machine.run("cd /root; grep -lE 'PRIVATE KEY|password \\$' *.key *.pem /etc/haproxy/* 2>/dev/null | sort -u").split()
    modes = dict(line.split()[::-1] for line in house.machine.run(f'cd /root; stat -c "%a %n" {" ".join(rows)}').splitlines())
    # This one was made by the attacker.
    got = {name: mode for name, mode in modes.items() if mode[-1] != '0' and name not in ('privkey.pem',)}
    want(any(name.startswith('/etc/haproxy') for name in modes), modes)
    want_none(got, 'others may read')
    return ', '.join(f'{name} {mode}' for name, mode in modes.items())


@attack('files', FRONT)
def of_the_packages(house):
    """Nobody else reads what the packages keep, or changes what they install."""
    kept = '/var/lib/ipp-room /var/log/ipp-room /var/lib/ipp-room-station /var/spool/cups /etc/cups/ssl /var/log/cups'
    read = [(user, path) for user in ('nobody', 'alice')
            for path in house.ask_as(user, f'find {kept} -type f \\( -readable -o -writable \\) 2>/dev/null')[0].split()]
    written = house.machine.told("for p in ipp-room ipp-room-cups ipp-room-names ipp-room-station; do dpkg -L $p; done | "
                                 "xargs -d '\\n' stat -c '%A %U %n' | grep -E '^[-d].......w| (ipp|lp|nobody)[^ ]* /'").splitlines()
    entered = [(user, path) for user in ('nobody', 'alice', 'lp') for path in ('/var/lib/ipp-room', '/var/log/ipp-room')
               if house.ask_as(user, f'ls {path}')[1] == 0]
    want(not read and not written and not entered, (read, written, entered))
    return 'data, logs, spool and keys: no file of others\' to read; nothing of the packages to change'


@attack('files', FRONT)
def made_by_hand(house):
    """Whatever the umask is, nobody else reads a database, its log, space and copies, or a log of events."""
    house.machine.run('rm -rf /tmp/room; install -d -o nobody -m 755 /tmp/room')
    house.ask_as('nobody', 'cd /tmp/room; umask 022; ipp-room create room.db; ipp-room open room.db alice; ipp-room copy room.db copy.db')
    house.ask_as('nobody', 'cd /tmp/room; umask 000; '
                           'ipp-room serve room.db 0 /tmp/room/stations /tmp/room/operators --log log >/dev/null 2>&1 & '
                           'cd /tmp/room; for n in $(seq 60); do ipp-room ping operators >/dev/null 2>&1 && break; sleep 0.5; done; '
                           "printf 'open kate\\n' | ipp-room send operators; ipp-room backup operators /tmp/room/backup.db; "
                           'stat -c "%a %n" * > modes; kill $!')
    rows = [line.split() for line in house.machine.told('cat /tmp/room/modes; rm -rf /tmp/room/modes').splitlines()]
    names = {name for _, name in rows}
    want({'room.db', 'room.db-wal', 'room.db-space', 'copy.db', 'backup.db', 'log'} <= names, rows)
    got = {name: mode for mode, name in rows if mode[-1] not in '0' and name != 'modes'}
    want_none(got, 'others may read')
    return ', '.join(f'{name} {mode}' for mode, name in rows if name != 'modes')


@attack('files', FRONT)
def copies_onto_links(house):
    """A copy is written into no file that a link in another's folder names, and onto none that is no database."""
    house.machine.run('rm -rf /tmp/shared; install -d -o nobody -m 777 /tmp/shared; echo secret > /root/victim.txt; '
                      'chmod 600 /root/victim.txt; cd /root; rm -f mine.db*; ipp-room create mine.db')
    house.ask_as('nobody', 'cd /tmp/shared; ln -s /root/victim.txt a.db.part; ln -s /root/victim.txt b.db; ln -s /root/new.txt c.db.part; '
                           'ln /etc/hostname d.db 2>/dev/null; mkdir e.db.part; mkfifo f.db.part')
    told = {name: house.machine.ask(f'cd /root; timeout 60 ipp-room copy mine.db /tmp/shared/{name}.db')[1] for name in 'abcdef'}
    state = house.machine.run("stat -c '%U %G %a %s' /root/victim.txt; cat /root/victim.txt").split('\n')
    made = house.machine.told('ls /root/new.txt 2>/dev/null').strip()
    backup = house.machine.told('for f in /tmp/shared/g.db /etc/evil.db /var/lib/ipp-room/room.db; do '
                                f'ipp-room backup {OPERATORS} $f; done')
    want(state[:2] == ['root root 600 7', 'secret'] and not made, (state, made, told))
    want('ok' not in backup.splitlines() and house.is_serving(), backup)
    return (f'`copy` onto links, a folder and a pipe ended with {told}; the files of root are as they were; '
            f'`backup` elsewhere: {" ".join(backup.split())[:90]}')


@attack('files', FRONT)
def copies_keep_nothing(house):
    """A copy has nothing of a document that has ended, and nobody else reads it; nor is a PIN in the log."""
    house.clear('bob')
    house.make_job('bob', *PIN, name=b'Report', data=b'%PDF the secret of the document')
    number = house.jobs('bob')[-1][1]
    house.sends(f'cancel bob {number}')
    house.machine.run(f'rm -f {COPY}; runuser -u ipp-room -- ipp-room backup {OPERATORS} {COPY}')
    mode = house.machine.run(f"stat -c '%U %a' {COPY}").strip()
    found = house.machine.told(f"grep -c 'secret of the document' {COPY}").strip()
    log = house.machine.told("grep -cE '27182818|3237313832383138' /var/log/ipp-room/log").strip()
    others = [user for user in ('nobody', 'alice', 'lp') if house.ask_as(user, f'cat {COPY} >/dev/null')[1] == 0]
    want(mode == 'ipp-room 600' and found == '0' and log == '0' and not others, (mode, found, log, others))
    return f'the copy is {mode}, has no byte of the document, and the log no PIN'


@attack('files', FRONT)
def licences(house):
    """Each package says under which licence it may be installed."""
    told = {}
    for package in ('ipp-room', 'ipp-room-cups', 'ipp-room-names', 'ipp-room-station'):
        text = house.machine.run(f'cat /usr/share/doc/{package}/copyright')
        own = text.split('Files: *')[1].split('\nFiles:')[0]
        told[package] = next((line for line in own.splitlines() if line.startswith('License:')), None)
    want(all(line and 'unstated' not in line for line in told.values()), told)
    return f'{told}'
