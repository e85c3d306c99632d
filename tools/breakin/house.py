"""The machines that are attacked: a Debian with the packages of a tree, set up by the commands of its docs/OPERATING.md as they stand.

Debian's own packages are put into the folder's Debian once; ours are installed anew in each machine.
"""
import contextlib
import glob
import importlib.machinery
import importlib.util
import os
import re
import select
import shutil
import subprocess

from breakin.asking import CLIENTS, GET_PRINTER, NAME, PAGES, PRINT_JOB, STRANGERS, ask
from breakin.attacks import FRONT, short
from front import PASSWORD
from machine import SURROUNDINGS, Machine, call, prepare
from messages import TOP, attribute, integer, request
from station_room import Device, wait_until, want, write

DEBIANS = ('cups cups-client cups-filters poppler-utils python3 haproxy socat openssl whois sqlite3 curl procps snmp').split()
PRINTER, IPP, HOST = 'printer.example', 631, 'printroom.example'
OPERATORS = '/run/ipp-room/operators'
AFTERNOON, ROOM, LOOKS = 'A print room in an afternoon', 'How is one room set up?', 'How do people look?'
# Seconds: of a command, and of whatever is waited for.
COMMAND, WAITS = 300, 120
# Beside alice, who OPERATING makes. None of them may log in.
USERS = ['kate', 'bob', 'mallory']
SHELL = 'while IFS= read -r shown; do . "$shown" </dev/null >"$shown.out" 2>&1; echo $?; done'


def make_packages(tree, folder):
    """The packages of a tree, in the place of those that are there."""
    os.makedirs(folder, exist_ok=True)
    for package in glob.glob(f'{folder}/*.deb'):
        os.remove(package)
    # They live as long as the run.
    fast = {'DPKG_DEB_COMPRESSOR_TYPE': 'gzip', 'DPKG_DEB_COMPRESSOR_LEVEL': '1'}
    subprocess.run([f'{tree}/packaging/deb/build', folder], check=True, stdout=subprocess.DEVNULL, env={**os.environ, **fast})
    return glob.glob(f'{folder}/*.deb')


def prepare_debian(folder, packages):
    """The Debian of machine.py, with all that is not ours."""
    prepare(folder, packages)
    if not os.path.exists(f'{folder}/has-debians'):
        base = f'{folder}/debian'
        # Nothing of it runs before a machine is begun.
        write(f'{base}/usr/sbin/policy-rc.d', '#!/bin/sh\nexit 101\n', 0o755)
        call('systemd-nspawn', '--quiet', '--register=no', '--keep-unit', '--directory', base, '--resolv-conf=copy-host', '--pipe',
             'env', 'DEBIAN_FRONTEND=noninteractive', 'apt-get', '-q', 'install', *DEBIANS)
        os.remove(f'{base}/usr/sbin/policy-rc.d')
        write(f'{folder}/has-debians', '')


def load_reader():
    """tools/shown-commands, which reads pages."""
    loader = importlib.machinery.SourceFileLoader('shown_commands', f'{TOP}/tools/shown-commands')
    module = importlib.util.module_from_spec(importlib.util.spec_from_loader(loader.name, loader))
    loader.exec_module(module)
    return module


class Shell:
    """A bash of root in the machine, which keeps its folder and what it has defined."""

    def __init__(self, machine):
        self.machine, self.count = machine, 0
        words = ['nsenter', '-t', str(machine.first), '-m', '-p', '-u', '-i', '-n', '-C', '-r', 'bash', '--norc', '-c',
                 f'cd /root; {SHELL}']
        self.process = subprocess.Popen(words, stdin=subprocess.PIPE, stdout=subprocess.PIPE, text=True, env=SURROUNDINGS)

    def run(self, command):
        """What a command prints, and its status."""
        self.count += 1
        place = f'/run/shown-{self.count}'
        with open(f'{self.machine.root}/root/.shown', 'w', encoding='utf-8') as file:
            file.write(f'{command}\n')
        self.machine.run(f'mv /root/.shown {place}')
        self.process.stdin.write(f'{place}\n')
        self.process.stdin.flush()
        want(select.select([self.process.stdout], [], [], COMMAND)[0], f'`{command}` takes over {COMMAND} s')
        status = int(self.process.stdout.readline())
        return self.machine.run(f'cat {place}.out'), status

    def end(self):
        self.process.stdin.close()
        self.process.kill()
        self.process.wait()


class House:
    """A machine that is set up as `kind` says, up to the end of the block."""

    def __init__(self, kind, folder, tree, place):
        self.kind, self.folder, self.tree, self.place = kind, folder, tree, place
        self.is_well_set_up = True

    def __enter__(self):
        with contextlib.ExitStack() as ends:
            if self.kind == FRONT:
                self.device = Device(self.place, PRINTER, IPP)
                ends.callback(self.device.end)
            self.machine = ends.enter_context(Machine(self.folder, [PRINTER]))
            for address in STRANGERS:
                call('ip', 'address', 'add', f'{address}/24', 'dev', 've-room')
            self.shell = Shell(self.machine)
            ends.callback(self.shell.end)
            self.set_up()
            self.ends = ends.pop_all()
        return self

    def __exit__(self, *_):
        self.ends.close()

    def set_up(self):
        self.machine.put(*glob.glob(f'{self.folder}/packages/*.deb'))
        shutil.copytree(f'{self.tree}/packaging', f'{self.machine.root}/root/packaging', ignore=shutil.ignore_patterns('__pycache__',
                                                                                                                       'deb'))
        # What the page's commands read.
        for name in ('tests/rows/nothing.html', 'crates/page_pages/src/style.rt'):
            os.makedirs(os.path.dirname(f'{self.machine.root}/root/{name}'), exist_ok=True)
            shutil.copy(f'{self.tree}/{name}', f'{self.machine.root}/root/{name}')
        write(f'{self.machine.root}/root/ask', '')
        with open(f'{self.machine.root}/root/ask', 'wb') as file:
            file.write(request('alice', GET_PRINTER))
        if self.kind == FRONT:
            self.follow(AFTERNOON)
        else:
            self.set_up_proxy()
        for user in USERS:
            self.machine.told(f'useradd -M -s /usr/sbin/nologin {user}; echo {user}:{PASSWORD} | chpasswd')
        self.sends('device hall on', 'device studio on', *(f'open {user}' for user in ['alice', *USERS]),
                   *(f'grant {user} 2026-01 100000' for user in ['alice', *USERS]))

    def set_up_proxy(self):
        self.machine.run('apt-get -q install ./ipp-room_*.deb ./ipp-room-names_*.deb && systemctl disable --now cups.socket cups.path cups')
        wait_until(lambda: self.machine.ask(f'ipp-room ping {OPERATORS}')[1] == 0, WAITS, 'an answer to `ping`')
        self.machine.run(f"echo '127.0.0.1 {HOST}' >> /etc/hosts; "
                         f'openssl req -x509 -newkey rsa:2048 -nodes -keyout privkey.pem -out fullchain.pem -subj /CN={HOST} -days 30 '
                         f'-addext subjectAltName=DNS:{HOST},DNS:localhost; cp fullchain.pem {HOST.split(".")[0]}.pem')
        # A line of a station that the page shows releases alice's first job.
        self.sends('open alice', 'open kate', 'device hall on', 'grant alice 2026-01 100000')
        self.make_job('alice')
        self.open_door_of_hall()
        self.follow(ROOM)
        self.follow(LOOKS)
        self.let_in(USERS[1:])

    def open_door_of_hall(self):
        """The door of the station hall alone, where the page speaks of one."""
        with open(f'{self.tree}/docs/OPERATING.md', encoding='utf-8') as file:
            option = re.search(r'--station hall=[\w/-]+', file.read())
        if option and '--station ' in self.machine.told('ipp-room serve --help'):
            self.tell_set_up(f"sed -i 's#^OPTIONS=\"#&{option[0]} #' /etc/default/ipp-room && systemctl restart ipp-room", None, 0)
            self.wait_until_serving()
        elif option:
            self.is_well_set_up = False
            print('not ok proxy: the program has no `--station`, of which OPERATING speaks: all stations share a door', flush=True)
            self.machine.run('ln -s stations /run/ipp-room/station-hall')

    def let_in(self, users):
        """Further accounts at the proxy, by the page's own loop."""
        _, commands = self.commands(ROOM)
        loop = next((command.text for command in commands if command.text.startswith('for a in alice')), None)
        if loop:
            self.tell_set_up(re.sub(r'for a in [a-z ]+;', f'for a in {" ".join(users)};', loop), None, 0)
            self.tell_set_up('systemctl reload haproxy', None, 0)

    def commands(self, title):
        """The commands of root in a section of the page, up to the first block of another kind."""
        reader = load_reader()
        with open(f'{self.tree}/docs/OPERATING.md', encoding='utf-8') as file:
            sections = reader.sections_of(file.read())
        blocks = next((section.blocks for section in sections if section.title == title), [])
        commands = []
        for block in blocks:
            if title == AFTERNOON and not block.lines[0].startswith('# '):
                # What is typed at the station's terminal.
                break
            for number, line in enumerate(block.lines, block.line):
                if line.startswith('# '):
                    commands.append(reader.Command(number, line[2:]))
                elif line.startswith('> ') and commands:
                    commands[-1].text += f'\n{line[2:]}'
                elif commands:
                    commands[-1].printed.append(line)
        return reader, commands

    def follow(self, title):
        reader, commands = self.commands(title)
        want(commands, f'OPERATING has no commands in "{title}"')
        for command in commands:
            self.tell_set_up(command.text, command.printed and (reader, command.printed), command.line)

    def tell_set_up(self, text, printed, line):
        """Runs a command of the page. What goes wrong is told, and the others go on."""
        shown, status = self.shell.run(text)
        seen = [row.rstrip() for row in shown.replace('\r', '').splitlines()]
        if status or printed and not printed[0].is_as_shown(printed[1], seen):
            self.is_well_set_up = False
            print(f'not ok {self.kind}: line {line} of OPERATING: `{text}` ended with {status}: {short(shown)}', flush=True)

    # What is done inside.

    def sends(self, *lines, address=OPERATORS):
        """The answers to lines of operators, as root."""
        return self.machine.told('printf ' + quoted('\n'.join(lines) + '\n') + f' | ipp-room send {address}').splitlines()

    def stations(self):
        """Where the server takes the lines of stations."""
        return '/run/ipp-room/stations' if self.machine.ask('test -S /run/ipp-room/stations')[1] == 0 else '6311'

    def jobs(self, account):
        """The account's jobs that have not ended, each as the fields of its line."""
        return [line.split() for line in self.sends(f'jobs {account}') if line.startswith('job ')]

    def make_job(self, account, *attributes, name=b'Essay', data=b'%PDF-1.4 of nobody'):
        """A Print-Job of one page at the server itself."""
        with open(f'{self.machine.root}/root/print', 'wb') as file:
            file.write(request(account, PRINT_JOB, attribute(NAME, b'job-name', name), integer(b'job-impressions', 1), *attributes,
                               data=data))
        door = '--unix-socket /run/ipp-room/clients' if self.machine.ask('test -S /run/ipp-room/clients')[1] == 0 else ''
        told = self.machine.run(f"curl -sS {door} -H 'Content-Type: application/ipp' --data-binary @print -o printed -w '%{{http_code}}' "
                                f'http://127.0.0.1:6310/ipp/print/{account}')
        want(told == '200', told)

    def count(self, account):
        """How many jobs the account ever had: the number of its latest one."""
        ended = [line.split() for line in self.sends(f'ended {account} 1') if line.startswith('job ')]
        return max([int(row[1]) for row in self.jobs(account) + ended], default=0)

    def clear(self, *accounts):
        """Cancels what waits."""
        for account in accounts:
            waiting = self.jobs(account)
            if waiting:
                self.sends(*(f'cancel {account} {row[1]}' for row in waiting))

    def ask_as(self, user, command):
        """What a command of the shell prints to another local user, and its status."""
        return self.machine.ask(f'cd /; setpriv --reuid={user} --regid=$(id -g {user}) --init-groups timeout 60 bash -c {quoted(command)}')

    def python_as(self, user, code):
        return self.ask_as(user, f'python3 -c {quoted(code)}')

    def python(self, code):
        return self.machine.ask(f'timeout 120 python3 -c {quoted(code)}')

    def is_serving(self):
        return self.machine.ask(f'ipp-room ping {OPERATORS}') == ('ok\n', 0)

    def wait_until_open(self):
        """A door that is shut would keep out each attack."""
        doors = [CLIENTS] if self.kind == FRONT else [CLIENTS, PAGES]
        for door in doors:
            wait_until(lambda: ask(door, '/').status, WAITS, f'an answer at port {door}')
        self.wait_until_serving()

    def wait_until_serving(self):
        wait_until(self.is_serving, WAITS, 'an answer to `ping`')


def quoted(text):
    return "'" + text.replace("'", "'\\''") + "'"
