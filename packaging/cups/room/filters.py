"""The filters of a job, which cupsd has begun beside its backend, each with a process group of its own."""
import os
import resource
import signal
import sys

from options import without_password

# After so long a job has to be PDF: no other is printed meanwhile.
SECONDS_TO_CONVERT = 120
# A filter may have so much of memory.
MEMORY = 2 << 30


def end_filters():
    """Ends the filters of this process's job but itself, and what they have begun."""
    for pid in filters_of_job():
        try:
            os.killpg(pid, signal.SIGKILL)
        except OSError:
            # It has ended.
            pass


def limit_filters():
    """Bounds the memory of the filters of this process's job, and of what they have begun."""
    filters, limited = list(filters_of_job()), set()
    # What one begins before it is limited shows in the next look.
    while members := [pid for pid, _, group, _ in processes() if group in filters and pid not in limited]:
        for pid in members:
            limited.add(pid)
            try:
                resource.prlimit(pid, resource.RLIMIT_AS, (MEMORY, MEMORY))
            except OSError:
                # It has ended.
                pass


def filters_of_job():
    """Like this process they are children of cupsd, and have the job's number, user, title, copies and options for words."""
    wanted = b'\0'.join([b'', *(without_password(os.fsencode(word)) for word in sys.argv[1:6]), b''])
    for pid, parent, group, words in processes():
        if parent == os.getppid() and group == pid != os.getpid() and wanted in words:
            yield pid


def processes():
    """The number of each process of the machine, its parent's, its group's, and its words without the PIN."""
    for pid in filter(str.isdigit, os.listdir('/proc')):
        try:
            # A program's name may be any bytes.
            with open(f'/proc/{pid}/stat', 'rb') as file:
                parent, group = file.read().rsplit(b')', 1)[1].split()[1:3]
            with open(f'/proc/{pid}/cmdline', 'rb') as file:
                yield int(pid), int(parent), int(group), without_password(file.read())
        except OSError:
            pass
