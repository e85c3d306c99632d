"""What cupsd tells a filter or a backend of a job: its words, its options, its documents."""
import os
import re

SECRET = re.compile(rb'(\bjob-password=)((?:\\.|[^\\ \0])+)', re.S)


def read_options(text):
    """The options of a job: words NAME=VALUE with spaces between them, in which `\\` stands before what is meant as it is."""
    words = re.findall(r'(?:\\.|[^\\ ])+', text, re.S)
    pairs = [re.sub(r'\\(.)', r'\1', word, flags=re.S).partition('=') for word in words]
    return {name: value for name, _, value in pairs}


def hide_password():
    """Puts stars over the PIN in what `ps` shows of this process."""
    try:
        with open('/proc/self/stat') as file:
            fields = file.read().rsplit(')', 1)[1].split()
        first, end = int(fields[45]), int(fields[46])
        with open('/proc/self/mem', 'r+b', buffering=0) as memory:
            memory.seek(first)
            words = memory.read(end - first)
            memory.seek(first)
            memory.write(without_password(words))
    except OSError:
        pass


def without_password(words):
    return SECRET.sub(lambda found: found[1] + b'*' * len(found[2]), words)


def count_documents(job):
    """How many documents cupsd keeps of the job. Each comes through the filters by itself, to one run of the backend."""
    count = 0
    while os.path.exists(path_of(job, count + 1)):
        count += 1
    return count


def path_of(job, place):
    """Where cupsd keeps a document of the job."""
    return f'{os.environ.get("CUPS_REQUESTROOT", "/var/spool/cups")}/d{int(job):05}-{int(place):03}'
