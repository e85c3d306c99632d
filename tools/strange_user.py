"""What a user of a server's machine gets of it, as JSON. tools/package-tries runs it there.

Its words are the server's process, the ports of the machine and the paths of the sockets that are tried. It answers for each what came:
`reached`, or the system's fault.
"""
import json
import os
import socket
import subprocess
import sys

SECONDS, REACHED = 10, 'reached'


def connect(address):
    """To a socket's path, or to a port by both families."""
    if not address.isdigit():
        return connect_by(socket.AF_UNIX, address)
    by_ipv4 = connect_by(socket.AF_INET, ('127.0.0.1', int(address)))
    return by_ipv4 if by_ipv4 == REACHED else connect_by(socket.AF_INET6, ('::1', int(address)))


def connect_by(family, address):
    with socket.socket(family) as stream:
        stream.settimeout(SECONDS)
        try:
            stream.connect(address)
            return REACHED
        except OSError as error:
            return error.strerror


def read(path):
    try:
        os.listdir(path) if path.endswith('/') else open(path, 'rb').close()
        return REACHED
    except OSError as error:
        return error.strerror


def enter(*words):
    """The network of the process."""
    ended = subprocess.run([*words, 'true'], stdout=subprocess.PIPE, stderr=subprocess.STDOUT, text=True)
    return ended.stdout.strip().rpartition(': ')[2] if ended.returncode else REACHED


def main():
    process, *addresses = sys.argv[1:]
    found = {address: connect(address) for address in addresses}
    for name in ('root/', 'cwd/', 'fd/', 'environ', 'mem', 'maps'):
        found[name] = read(f'/proc/{process}/{name}')
    network = ['nsenter', '--target', process, '--net']
    found['network'] = enter(*network)
    found['network, as root of a space of users'] = enter('unshare', '--user', '--map-root-user', *network)
    print(json.dumps(found))


main()
