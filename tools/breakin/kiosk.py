"""Attacks at the keyboard of a station, and by what comes to it: names, and a device that is another one."""
import contextlib
import os
import select
import ssl
import subprocess
import threading
import time

from breakin.attacks import FRONT, attack, want_none
from machine import HERE
from station_room import Wrong, want

# Seconds within which the station asks for the next account by itself: who sits there has 60 to type, and 10 to read.
ASKS_AGAIN = 90
WORDS = '/etc/default/ipp-room-station'


def shown(house, seconds=2.0):
    """The bytes that the terminal shows from now on, for so many seconds."""
    terminal, came = house.machine.terminal, b''
    end = time.monotonic() + seconds
    while time.monotonic() < end:
        if select.select([terminal.keyboard], [], [], max(0.01, end - time.monotonic()))[0]:
            with contextlib.suppress(OSError):
                came += os.read(terminal.keyboard, 4096)
    terminal.unread = ''
    return came


def press(house, keys):
    os.write(house.machine.terminal.keyboard, keys)


def is_asking(house, seconds=ASKS_AGAIN):
    """Whether the station asks for an account: by itself, or once Enter is pressed."""
    end = time.monotonic() + seconds
    while time.monotonic() < end:
        press(house, b'\n')
        if b'Account: ' in shown(house, 1.5):
            return True
    return False


def process(house):
    return house.machine.run('systemctl show --property MainPID --value ipp-room-station').strip()


@attack('kiosk', FRONT)
def keys_that_end(house):
    """No key ends the station, or gives a shell."""
    want(is_asking(house), 'the station does not ask')
    before = process(house)
    keys = {'Ctrl-C': b'\x03', 'Ctrl-Z': b'\x1a', 'Ctrl-\\': b'\x1c', 'Ctrl-D': b'\x04', 'Ctrl-Y': b'\x19', 'Break': b'\0',
            'Escape': b'\x1b', 'Ctrl-]': b'\x1d',
            'Ctrl-L': b'\x0c', 'Ctrl-W': b'\x17', 'Ctrl-U': b'\x15', 'Ctrl-R': b'\x12', 'Ctrl-V Ctrl-C': b'\x16\x03', 'Ctrl-O': b'\x0f',
            'F1': b'\x1b[[A',
            'not UTF-8': b'\xff\xfe\xc0', 'a long line': b'x' * 20000}
    for key in keys.values():
        press(house, key * 3)
        shown(house, 0.2)
    want(is_asking(house) and process(house) == before, f'process {before} is now {process(house)}')
    return f'{len(keys)} keys, three times each: the same process asks for an account'


@attack('kiosk', FRONT)
def keys_that_stop(house):
    """Ctrl-S stops nothing."""
    want(is_asking(house), 'the station does not ask')
    press(house, b'\x13')
    shown(house, 0.5)
    press(house, b'nobody-here\n')
    came = shown(house, 5)
    press(house, b'\x11')
    shown(house, 1)
    is_asking(house)
    want(b'PIN' in came, f'behind Ctrl-S the station showed {came[:80]!r} in 5 s')
    return 'behind Ctrl-S the station asks for the PIN'


@attack('kiosk', FRONT)
def typed_escapes(house):
    """Nothing that is typed comes back as an order to the terminal."""
    house.clear('alice')
    house.make_job('alice', name=b'Paper')
    want(is_asking(house), 'the station does not ask')
    orders = b'\x1b[12;3]\x1b[2J\x1bc\x9b2J'
    press(house, orders + b'\n')
    came = shown(house, 2)
    is_asking(house)
    press(house, b'alice\n')
    came += shown(house, 2)
    press(house, b'\n')
    came += shown(house, 8)
    press(house, b'7' + orders + b' \x1b]0;x\x07\n')
    said = shown(house, 3)
    press(house, b'\n')
    is_asking(house)
    house.clear('alice')
    want(b'Which?' in came, f'the station did not ask which: {came[-200:]!r}')
    raw = [order for order in (b'\x1b[12;3]', b'\x1bc', b'\x1b]0;', b'\x9b2J') if order in came + said]
    want_none(raw, f'shown raw, in {said[-120:]!r}')
    return f'orders typed at two questions came back as {said[:60]!r}'


@attack('kiosk', FRONT)
def names(house):
    """Nor does the name of a job."""
    house.clear('alice')
    house.make_job('alice', name=b'\x1b[12;3]\x1b]0;owned\x07\x1bc\xc2\x9b2J\r\n\x08\x08evil')
    want(is_asking(house), 'the station does not ask')
    press(house, b'alice\n')
    shown(house, 1)
    press(house, b'\n')
    came = shown(house, 8)
    press(house, b'\n')
    is_asking(house)
    house.clear('alice')
    want(b'evil' in came, f'the job is not shown: {came[-200:]!r}')
    raw = [order for order in (b'\x1b[12;3]', b'\x1b]0;', b'\x1bc', b'\xc2\x9b', b'\x08') if order in came]
    want_none(raw, f'shown raw, in {came!r}')
    return 'a name of escapes is shown as text'


@attack('kiosk', FRONT)
def pins(house):
    """Wrong PINs are slowed down, also over a restart of the station."""
    from breakin.asking import KEYWORD, OCTETS
    from messages import attribute
    house.clear('alice')
    house.make_job('alice', attribute(OCTETS, b'job-password', b'3141'), attribute(KEYWORD, b'job-password-encryption', b'none'))

    def guess(pin):
        want(is_asking(house), 'the station does not ask')
        press(house, b'alice\n')
        shown(house, 1)
        press(house, pin + b'\n')
        said = shown(house, 6)
        if b'Which?' in said:
            press(house, b'all\n')
            said += shown(house, 8)
        press(house, b'\n')
        return said
    told = [guess(b'%04d' % number) for number in range(5)]
    house.machine.run('systemctl restart ipp-room-station')
    time.sleep(3)
    late = guess(b'9999')
    judged = sum(b'PIN is wrong' in said for said in told)
    waits = sum(b'Come again in' in said for said in told)
    house.clear('alice')
    want(b'9999' not in late, 'the PIN is shown')
    want(judged < 5 and waits and (b'Come again' in late or b'PIN is wrong' in late), (judged, waits, late[-200:]))
    then = 'waits' if b'Come again' in late else 'judged'
    return f'5 guesses in a row: {judged} judged, {waits} told to come again; behind a restart: {then}'


@attack('kiosk', FRONT)
def another_device(house):
    """At an `ipps` device the station trusts nobody who only has some certificate."""
    place = house.place
    subprocess.run(['openssl', 'req', '-x509', '-newkey', 'rsa:2048', '-nodes', '-keyout', f'{place}/evil.key', '-out', f'{place}/evil.pem',
                    '-subj', '/CN=evil', '-days', '2'], check=True, stdout=subprocess.DEVNULL, stderr=subprocess.DEVNULL)
    import socket
    made = ssl.SSLContext(ssl.PROTOCOL_TLS_SERVER)
    made.load_cert_chain(f'{place}/evil.pem', f'{place}/evil.key')
    asked = []
    with socket.create_server((HERE, 6443)) as listener:
        def serve():
            listener.settimeout(60)
            with contextlib.suppress(OSError):
                while True:
                    stream, _ = listener.accept()
                    with contextlib.suppress(OSError), made.wrap_socket(stream, server_side=True) as secret:
                        secret.settimeout(10)
                        asked.append(secret.recv(1000)[:40])
        server = threading.Thread(target=serve, daemon=True)
        server.start()
        before = house.machine.run(f'cat {WORDS}')
        house.machine.run(f"sed -i 's#ipp://printer.example#ipps://printer.example:6443#' {WORDS}; systemctl restart ipp-room-station")
        try:
            house.clear('bob')
            house.make_job('bob')
            told = house.machine.told('sleep 3; journalctl -b -u ipp-room-station -n 12 -o cat --no-pager')
            with contextlib.suppress(Wrong, OSError):
                if is_asking(house, 10):
                    press(house, b'bob\n')
                    shown(house, 1)
                    press(house, b'\n')
                    told += shown(house, 15).decode('utf-8', 'replace')
                    press(house, b'\n')
        finally:
            house.clear('bob')
            with open(f'{house.machine.root}/root/before', 'w', encoding='utf-8') as file:
                file.write(before)
            house.machine.run(f'cp /root/before {WORDS}; systemctl restart ipp-room-station')
    want_none(asked, 'a device with another certificate was asked')
    want('rinter' in told or 'ertificate' in told, told)
    return f'a device with a certificate of its own was asked nothing; the station said: {" ".join(told.split())[-160:]}'


@attack('kiosk', FRONT)
def console(house):
    """The package has a unit that keeps a kiosk's console to its first terminal, which its operator enables. No container has a console."""
    unit = 'ipp-room-kiosk.service'
    state = house.machine.told(f'systemctl is-enabled {unit}; systemd-analyze verify {unit}').split('\n')
    want(state[0] == 'disabled' and not any(unit in line for line in state[1:]), f'{unit}: {state}')
    words = house.machine.told('cat /usr/lib/ipp-room-station/keep-console')
    got = [name for name in ('VT_LOCKSWITCH', '/proc/sys/kernel/sysrq', '/proc/sys/kernel/cad_pid') if name not in words]
    want_none(got, 'left to the keys')
    return f'{unit} is there and is not enabled by itself; what it does was tried by hand'
