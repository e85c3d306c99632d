"""The device at the station: what it has, and what it counts. It alone knows what came out."""
import collections
import functools
import re
import subprocess
import sys

import ipp
import ticket

# prtMarkerCounterUnit and prtMarkerLifeCount of the first marker (RFC 3805); 7 stands for impressions.
UNIT, LIFE_COUNT = '1.3.6.1.2.1.43.10.2.1.3.1.1', '1.3.6.1.2.1.43.10.2.1.4.1.1'
IMPRESSIONS = 7
# A counter of 32 bits begins anew.
WRAPS = 1 << 32

COUNT = 'job-impressions-completed'
UNCOUNTED = (f'the printer does not count what it prints: its jobs tell no {COUNT}. `--life-count HOST` has its life counter asked '
             'by SNMP; with `--charge-released` a job costs all that was released of it, once the printer has it, whatever comes out')

Printed = collections.namedtuple('Printed', 'number state count')


class Device:
    """A device's own printer of IPP. `agent` is where it answers SNMP, as HOST or HOST:PORT, if it does. Where it does not count,
    the operator may want it all the same: `charges_released`."""

    def __init__(self, uri, trust=None, agent=None, community='public', charges_released=False):
        self.printer = ipp.Printer(uri, timeout=10, trust=trust)
        self.agent, self.community, self.charges_released = agent, community, charges_released
        # Whether it counts what comes out: its jobs show it, and until then, as None, nobody knows.
        self.counts, self.is_tried = None, False

    def supported(self):
        return self.printer.attributes([f'{name}-supported' for name in ticket.SYNTAXES])

    def obstacle(self, begins=False):
        """Why it can't print now, or None. Where a job `begins`, no other may be printed."""
        try:
            told = self.printer.attributes(['printer-state', 'printer-state-reasons', 'printer-is-accepting-jobs'])
        except (OSError, ipp.Refused) as error:
            return silence(error, ' Is it turned on?')
        if told.get('printer-state') == [ipp.PRINTER_STOPPED]:
            return f"The printer has stopped: {', '.join(ipp.texts_of(told, 'printer-state-reasons'))}."
        if told.get('printer-is-accepting-jobs') == [False]:
            return 'The printer takes no jobs now.'
        if begins and told.get('printer-state') == [ipp.PRINTER_PROCESSING]:
            return 'The printer is busy.'
        return None

    def find(self, name):
        """What the device tells of the job of this name, or None where it knows none."""
        for job in self.jobs():
            number, state = ipp.number_of(job, 'job-id'), ipp.number_of(job, 'job-state')
            if job.get('job-name') == [name] and number is not None and state is not None:
                return Printed(number, state, ipp.number_of(job, COUNT) or 0)
        return None

    def jobs(self):
        """What it tells of its jobs. Those that have ended show whether it counts."""
        jobs = self.printer.jobs(['job-id', 'job-name', 'job-state', COUNT])
        ended = [job for job in jobs if (ipp.number_of(job, 'job-state') or 0) >= ipp.CANCELED]
        if any((ipp.number_of(job, COUNT) or 0) > 0 for job in jobs):
            self.counts = True
        elif any(COUNT not in job or job['job-state'] == [ipp.COMPLETED] for job in ended):
            self.counts = False
        return jobs

    def is_uncounted(self):
        """Whether it is known that nothing would tell what comes out, and that is not what the operator wants."""
        if self.charges_released:
            return False
        if self.agent is not None:
            if self.life_count() is not None:
                return False
            log(f'{self.agent} tells no life count of impressions')
        try:
            if not self.jobs() and not self.is_tried:
                self.is_tried = True
                self.try_job()
        except (OSError, ipp.Refused):
            # It is looked at again before the next release.
            pass
        return self.counts is False

    def try_job(self):
        """Has it make a job, which gets no document and is canceled, to see whether it tells a count of it."""
        groups = self.printer.ask(ipp.CREATE_JOB, [(ipp.NAME, 'job-name', ['room-count'])])
        for tag, job in groups:
            if tag == ipp.JOB_GROUP:
                self.cancel(ipp.number_of(job, 'job-id'))
        self.jobs()

    def is_idle(self):
        return self.printer.attributes(['printer-state']).get('printer-state') == [ipp.PRINTER_IDLE]

    def cancel(self, number):
        try:
            self.printer.ask(ipp.CANCEL_JOB, [(ipp.INTEGER, 'job-id', [number])])
        except (OSError, ipp.Refused):
            # It is asked again while it prints.
            pass

    def life_count(self):
        """The impressions that it ever made, or None where it does not tell them."""
        if self.agent is None or self.asked(UNIT) != IMPRESSIONS:
            return None
        return self.asked(LIFE_COUNT)

    def asked(self, number):
        words = ['snmpget', '-v1', '-c', self.community, '-t', '2', '-r', '2', '-Oqve', self.agent, number]
        told = subprocess.run(words, stdout=subprocess.PIPE, stderr=subprocess.DEVNULL, check=False).stdout.strip()
        return int(told) if re.fullmatch(b'[0-9]{1,10}', told) else None


def silence(error, more=''):
    """What is said of a device that gave no answer."""
    if isinstance(error, ipp.Stranger):
        log(str(error))
        return 'What answers there is not known to be this printer: its certificate is another. Tell the print room.'
    return f'The printer does not answer.{more}'


@functools.cache
def log(text):
    """Tells it once, where the operator reads it."""
    print(f'ipp-room-station: {text}', file=sys.stderr, flush=True)


def came_out(before, after):
    """How many impressions lie between two life counts."""
    return (after - before) % WRAPS
