"""The queue of the local CUPS, and what it may print.

CUPS begins a job anew where it was killed in the midst of it. So for each document there is a file of its name in a folder,
which the backend `once` removes before it sends the first byte. Where the station could remove it instead, the document
was not printed, and will never be; where it is gone, it is not to be printed again.
"""
import contextlib
import os
import time

import ipp
import ticket

# Seconds in which CUPS ends a job that is canceled.
ENDS = 5


class Spooler:
    """A queue of the CUPS at a socket, and the folder of what it may print."""

    def __init__(self, door, queue, folder):
        self.queue = ipp.Printer(f'ipp://localhost/printers/{queue}', door, timeout=60)
        self.folder = folder

    def obstacle(self):
        """Why the queue can't print now, or None."""
        try:
            told = self.queue.attributes(['printer-state', 'printer-is-accepting-jobs'])
        except ipp.Refused as refused:
            return f"This station's queue: {str(refused).rstrip('.')}."
        except OSError:
            return "This station's CUPS does not answer."
        if told.get('printer-state') == [ipp.PRINTER_STOPPED] or told.get('printer-is-accepting-jobs') == [False]:
            return "This station's queue is stopped."
        return None

    def allow(self, name):
        """Returns once the document's file is on the disk."""
        os.close(os.open(f'{self.folder}/{name}', os.O_CREAT | os.O_EXCL | os.O_WRONLY, 0o600))
        self.sync()

    def withdraw(self, name):
        """Whether CUPS has not begun to print the document, which it then never will."""
        try:
            os.remove(f'{self.folder}/{name}')
        except FileNotFoundError:
            return False
        self.sync()
        return True

    def withdraw_others(self, names):
        """Removes what an earlier run of the station allowed, and did not come to hand over. A folder there allows nothing."""
        for name in os.listdir(self.folder):
            if name not in names:
                with contextlib.suppress(IsADirectoryError):
                    self.withdraw(name)

    def sync(self):
        folder = os.open(self.folder, os.O_RDONLY)
        os.fsync(folder)
        os.close(folder)

    def hand(self, name, document, chosen):
        """Gives a document to CUPS, with its copies and its ticket. Answers CUPS's number of it."""
        asked = [(ipp.NAME, 'job-name', [name]), (ipp.FORMAT, 'document-format', [document.format])]
        of_job = [(ipp.INTEGER, 'copies', [document.copies]), *ticket.attributes(chosen)]
        if chosen.get('sides') != 'one-sided':
            # From the last page to the first CUPS would put a blank side before an odd number of them.
            of_job.append((ipp.KEYWORD, 'outputorder', ['normal']))
        groups = self.queue.ask(ipp.PRINT_JOB, asked, of_job, document.data)
        return next((ipp.number_of(job, 'job-id') for tag, job in groups if tag == ipp.JOB_GROUP), None)

    def find(self, name):
        """Number and state of the job of this name, or None where CUPS has none."""
        # CUPS tells the names of those that have ended only beside what it has to read from its disk.
        for job in self.queue.jobs(['job-id', 'job-name', 'job-state', 'job-uuid']):
            number, state = ipp.number_of(job, 'job-id'), ipp.number_of(job, 'job-state')
            if job.get('job-name') == [name] and number is not None and state is not None:
                return number, state
        return None

    def cancel(self, name):
        """Ends the job of this name."""
        found = self.find(name)
        if found is not None and found[1] < ipp.CANCELED:
            self.queue.ask(ipp.CANCEL_JOB, [(ipp.INTEGER, 'job-id', [found[0]])])

    def remove(self, name, number):
        """Has CUPS forget the job of this name, with its document. Whether nothing is left of it.

        Where its number is known it is asked for by that: a job in whose midst CUPS was stopped is in no list of it
        afterwards, and begins anew at a later start.
        """
        try:
            found = self.find(name)
            number = number or (found[0] if found else None)
            if number is None:
                return True
            self.cancel(name)
            self.wait_for_end(name)
            if self.has(number, name):
                self.queue.ask(ipp.CANCEL_JOB, [(ipp.INTEGER, 'job-id', [number]), (ipp.BOOLEAN, 'purge-job', [True])])
            return not self.has(number, name)
        except (OSError, ipp.Refused):
            return False

    def wait_for_end(self, name):
        end = time.monotonic() + ENDS
        while time.monotonic() < end:
            found = self.find(name)
            if found is None or found[1] >= ipp.CANCELED:
                return
            time.sleep(0.3)

    def has(self, number, name):
        """Whether CUPS has a job of this number and name."""
        try:
            asked = [(ipp.INTEGER, 'job-id', [number]), (ipp.KEYWORD, 'requested-attributes', ['job-name'])]
            groups = self.queue.ask(ipp.GET_JOB, asked)
        except ipp.Refused as refused:
            if refused.status == ipp.NOT_FOUND:
                return False
            raise
        return any(job.get('job-name') == [name] for tag, job in groups if tag == ipp.JOB_GROUP)
