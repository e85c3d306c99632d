"""A Debian in a folder, begun by its systemd as a machine of its own, for tools/package-tries and tools/afternoon.

`be_alone` of front.py has to be called before a machine is begun. It and the one that runs this are then a network of their own.
"""
import contextlib
import glob
import os
import pty
import select
import shutil
import subprocess
import tempfile
import time

from messages import TOP
from station_room import wait_until, want, write

SUITE, MIRROR = 'bookworm', 'http://deb.debian.org/debian'
HERE, HERE_BY_IPV6, THERE = '192.0.2.1', '2001:db8::1', '192.0.2.2'
# Seconds.
BEGINS, ANSWERS, SAYS = 300, 600, 150
APT = 'APT::Get::Assume-Yes "true";\nAPT::Install-Recommends "false";\nDPkg::Options { "--force-unsafe-io"; };\n'
SURROUNDINGS = {'PATH': '/usr/sbin:/usr/bin:/sbin:/bin', 'HOME': '/root', 'LANG': 'C.UTF-8', 'DEBIAN_FRONTEND': 'noninteractive'}


def join_network(name, place):
    """Has this machine's addresses answer under the name, before the other is there. `place` is a folder for a file."""
    for address in (f'{HERE}/32', f'{HERE_BY_IPV6}/128'):
        call('ip', 'address', 'add', address, 'dev', 'lo')
    write(f'{place}/hosts', f'127.0.0.1 localhost\n{HERE} {name}\n{HERE_BY_IPV6} {name}\n')
    call('mount', '--bind', f'{place}/hosts', '/etc/hosts')


def join_group(number):
    """A control group of its own for this process and what it begins: in one group two machines would end each other's services."""
    for place in groups():
        os.makedirs(f'{place}/machine-{number}', exist_ok=True)
        write(f'{place}/machine-{number}/cgroup.procs', str(os.getpid()))


def leave_group(number):
    """Removes the group, once all have ended that were in it."""
    for place in groups():
        for folder, _, _ in os.walk(f'{place}/machine-{number}', topdown=False):
            with contextlib.suppress(OSError):
                os.rmdir(folder)


def groups():
    """Where the groups lie by which systemd knows its services."""
    places = ['/sys/fs/cgroup', '/sys/fs/cgroup/unified', '/sys/fs/cgroup/systemd']
    return [place for place in places if os.path.exists(f'{place}/cgroup.procs')]


def prepare(folder, packages, others=()):
    """A Debian in `folder`/debian, which has fetched what these packages, files of dpkg, stand on, and others. It is kept for the next time."""
    base = f'{folder}/debian'
    if not os.path.exists(f'{folder}/is-made'):
        shutil.rmtree(base, ignore_errors=True)
        os.makedirs(folder, exist_ok=True)
        call('debootstrap', SUITE, base, MIRROR)
        open(f'{folder}/is-made', 'w').close()
    write(f'{base}/etc/apt/apt.conf.d/50room', APT)
    put(packages, f'{base}/root')
    shutil.copy('/etc/resolv.conf', f'{base}/etc/resolv.conf')
    names = ' '.join(f'./{os.path.basename(package)}' for package in packages)
    call('chroot', base, 'sh', '-c', f'cd /root && apt-get -q update && apt-get -q install --download-only {names} {" ".join(others)} && rm {names}')


def put(files, folder):
    for file in files:
        shutil.copy(file, folder)


def call(*words):
    ended = subprocess.run(words, stdin=subprocess.DEVNULL, stdout=subprocess.PIPE, stderr=subprocess.STDOUT, env=SURROUNDINGS)
    want(ended.returncode == 0, f'{" ".join(words)}: {ended.stdout.decode(errors="replace")[-2000:]}')


class Machine:
    """A run of the Debian in a folder, up to the end of the block: what it writes is gone then. `terminal` is its first one."""

    def __init__(self, folder, names=()):
        self.folder, self.names = folder, names

    def __enter__(self):
        self.place = tempfile.mkdtemp(prefix='room-', dir=self.folder)
        self.root = f'{self.place}/root'
        for name in ('upper', 'work', 'root'):
            os.mkdir(f'{self.place}/{name}')
        layers = f'lowerdir={self.folder}/debian,upperdir={self.place}/upper,workdir={self.place}/work'
        call('mount', '-t', 'overlay', '-o', layers, 'overlay', self.root)
        write(f'{self.root}/etc/hostname', 'printroom\n')
        write(f'{self.root}/etc/hosts', '127.0.0.1 localhost printroom\n' + ''.join(f'{HERE} {name}\n' for name in self.names))
        self.terminal = Terminal()
        self.log = open(f'{self.place}/log', 'wb')
        words = ['systemd-nspawn', '--quiet', '--directory', self.root, '--boot', '--register=no', '--keep-unit', '--machine=room',
                 '--network-veth', f'--bind={self.terminal.path}:/dev/tty1', '--console=read-only', '--resolv-conf=off', '--timezone=off']
        self.process = subprocess.Popen(words, stdin=subprocess.DEVNULL, stdout=self.log, stderr=self.log)
        try:
            self.wait_until_begun()
        except BaseException:
            self.__exit__()
            raise
        return self

    def __exit__(self, *_):
        self.process.terminate()
        try:
            self.process.wait(60)
        except subprocess.TimeoutExpired:
            self.process.kill()
            self.process.wait()
        self.log.close()
        self.terminal.close()
        subprocess.run(['umount', '-l', self.root], check=True)
        shutil.rmtree(self.place)

    def wait_until_begun(self):
        wait_until(self.find_first_process, BEGINS, 'the first process')
        wait_until(lambda: self.told('systemctl is-system-running').strip() in ('running', 'degraded'), BEGINS, 'the machine')
        call('ip', 'address', 'add', f'{HERE}/24', 'dev', 've-room')
        call('ip', 'link', 'set', 've-room', 'up')
        inside = ['nsenter', '-t', str(self.first), '-n', 'ip']
        call(*inside, 'address', 'add', f'{THERE}/24', 'dev', 'host0')
        call(*inside, 'link', 'set', 'host0', 'up')

    def find_first_process(self):
        want(self.process.poll() is None, f'systemd-nspawn ended: {self.printed()}')
        with open(f'/proc/{self.process.pid}/task/{self.process.pid}/children') as file:
            found = [pid for pid in file.read().split() if is_systemd(pid)]
        self.first = int(found[0]) if found else None
        return bool(found)

    def printed(self):
        with open(f'{self.place}/log', errors='replace') as file:
            return file.read()[-2000:]

    def ask(self, command):
        """What a command of the shell prints there, as root, and its status."""
        words = ['nsenter', '-t', str(self.first), '-m', '-p', '-u', '-i', '-n', '-C', '-r', 'bash', '-c', f'cd /root; {command}']
        ended = subprocess.run(words, stdin=subprocess.DEVNULL, stdout=subprocess.PIPE, stderr=subprocess.STDOUT, env=SURROUNDINGS, timeout=ANSWERS)
        return ended.stdout.decode(errors='replace'), ended.returncode

    def told(self, command):
        return self.ask(command)[0]

    def run(self, command):
        """What a command prints that has to go well."""
        printed, status = self.ask(command)
        want(status == 0, f'`{command}` ended with {status}: {printed[-2000:]}')
        return printed

    def put(self, *files):
        put(files, f'{self.root}/root')


def is_systemd(pid):
    try:
        with open(f'/proc/{pid}/comm') as file:
            return file.read() == 'systemd\n'
    except OSError:
        return False


class Terminal:
    """The terminal of a machine, and who sits at it."""

    def __init__(self):
        self.keyboard, self.other = pty.openpty()
        self.path, self.unread = os.ttyname(self.other), ''

    def close(self):
        os.close(self.keyboard)
        os.close(self.other)

    def wait_for(self, text):
        """What is shown up to this text."""
        end = time.monotonic() + SAYS
        while text not in self.unread:
            want(time.monotonic() < end, f'the terminal did not show {text!r} in {SAYS} s, but {self.unread[-500:]!r}')
            if select.select([self.keyboard], [], [], 1)[0]:
                self.read()
        said, found, self.unread = self.unread.partition(text)
        return said + found

    def read(self):
        try:
            self.unread += os.read(self.keyboard, 4096).decode('utf-8', 'replace')
        except OSError:
            # Whoever has the terminal now has hung up who had it before.
            time.sleep(0.2)

    def type(self, text):
        os.write(self.keyboard, text.encode() + b'\n')


def build(folder, *words):
    """The packages that packaging/deb/build makes in a folder, in the place of those that are there."""
    os.makedirs(folder, exist_ok=True)
    for package in glob.glob(f'{folder}/*.deb'):
        os.remove(package)
    subprocess.run([f'{TOP}/packaging/deb/build', *words, folder], check=True, stdout=subprocess.DEVNULL)
    return glob.glob(f'{folder}/*.deb')
