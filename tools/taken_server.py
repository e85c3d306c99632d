"""A server that somebody has taken over: at each of its doors stands now a socket, which answers, and now a link to /etc/shadow.
tools/package-tries runs it in the place of `ipp-room serve`.
"""
import ctypes
import os
import socket
import threading

FOLDER, DOORS, TARGET = '/run/ipp-room', ('clients', 'pages', 'stations', 'operators'), '/etc/shadow'
AT_FDCWD, RENAME_EXCHANGE = -100, 2


def swap():
    rename = ctypes.CDLL(None).renameat2
    while True:
        for door in DOORS:
            path = f'{FOLDER}/{door}'.encode()
            rename(AT_FDCWD, path, AT_FDCWD, path + b'.link', RENAME_EXCHANGE)


def answer(stream):
    while True:
        asked, _ = stream.accept()
        with asked:
            try:
                asked.recv(64)
                asked.sendall(b'ok\n')
            except OSError:
                pass


def main():
    for door in DOORS:
        os.symlink(TARGET, f'{FOLDER}/{door}.link')
    threading.Thread(target=swap).start()
    for door in DOORS:
        stream = socket.socket(socket.AF_UNIX)
        stream.bind(f'{FOLDER}/{door}')
        stream.listen()
        threading.Thread(target=answer, args=[stream]).start()


main()
