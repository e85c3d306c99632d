"""One document that was handed to CUPS, until its end: the device counts its pages, and the job is charged by that."""
import time

import device
import ipp

# Seconds: how long CUPS may leave a document alone, and how long its filters may take; how long the device may know nothing
# of one that CUPS is done with, or wait for the bytes of one that nobody sends any more; and between two questions of how
# things stand.
LEFT_ALONE, FILTERED, MISSING, STALLED, ASK = 60, 900, 3, 30, 5


def pages(count):
    return '1 page' if count == 1 else f'{count} pages'


class Following:
    """Looks at one document, time after time. Its `end` in the state is then `done`, `failed`, or `unprinted` where nothing came out,
    and nothing will."""

    def __init__(self, printing, job, handed):
        self.printing, self.job, self.handed, self.name = printing, job, handed, handed['name']
        self.spooler, self.device, self.screen = printing.spooler, printing.device, printing.screen
        self.begun = self.heard = self.asked = time.monotonic()
        self.missing = self.stalled = None
        self.number, self.is_stopped, self.is_life_told, self.told = None, False, False, ''

    def look(self):
        """Asks CUPS first, and then the device: a document that CUPS is done with has come to the device, or never will."""
        now = time.monotonic()
        queue = self.state_in_queue()
        try:
            printed = self.device.find(self.name)
        except (OSError, ipp.Refused) as error:
            self.tell(device.silence(error))
            self.missing = None
            self.without_device(now, queue)
        else:
            self.heard = now
            self.with_device(now, queue, printed)
        if self.handed['end'] is None and now - self.asked >= ASK:
            self.asked = now
            self.ask_around(now)

    def with_device(self, now, queue, printed):
        if printed is None:
            self.without_record(now, queue)
            return
        self.missing = None
        self.note(printed)
        self.end_printed(printed)
        self.end_stalled(now, queue, printed)

    def state_in_queue(self):
        """What CUPS does with the document: it is `printing`, `waiting`, `done`, or None where CUPS does not answer."""
        try:
            found = self.spooler.find(self.name)
        except (OSError, ipp.Refused):
            return None
        if found is None or found[1] >= ipp.CANCELED:
            return 'done'
        return 'printing' if found[1] == ipp.PROCESSING else 'waiting'

    def note(self, printed):
        """Keeps what the device tells."""
        handed = self.handed
        self.number = printed.number
        if not handed['seen'] or printed.count > handed['count']:
            handed['seen'], handed['count'] = True, max(printed.count, handed['count'])
            self.printing.state.save_if_possible()
            self.tell(pages(handed['count']))

    def end_printed(self, printed):
        """Ends the document where the device has. The life count stands in for a count that the device does not keep."""
        if printed.state < ipp.CANCELED:
            return
        if self.handed['count'] == 0 and self.handed['before'] is not None:
            if not self.is_device_idle():
                return
            self.handed['count'] = self.count_of_life()
        self.end('done' if printed.state == ipp.COMPLETED else 'failed')
        if printed.state == ipp.ABORTED and self.handed['is_counted'] and self.handed['count'] == 0:
            self.end_unprinted()

    def end(self, how):
        """The document has ended so. A count of 0 is one that the device did not keep, unless it is known to count."""
        self.handed['is_counted'] = self.handed['count'] > 0 or self.is_life_told or self.device.counts is True
        self.handed['end'] = how

    def end_unprinted(self):
        """Nothing came out, and nothing will. It may be printed another time, unless it was stopped."""
        self.handed['end'] = 'failed' if self.is_stopped else 'unprinted'

    def is_device_idle(self):
        try:
            return self.device.is_idle()
        except (OSError, ipp.Refused):
            return False

    def without_record(self, now, queue):
        """The device knows nothing of the document: it has not come yet, never will, or the device has forgotten it."""
        if not self.handed['seen'] and queue != 'done':
            self.missing = None
            self.withdraw_untaken(now, queue)
            return
        if queue != 'done':
            self.cancel_in_queue()
        self.missing = self.missing or now
        if queue == 'done' and now - self.missing >= MISSING:
            self.give_up()

    def withdraw_untaken(self, now, queue):
        """Takes a document back that CUPS does not come to print. One that it has begun is waited for as a device is."""
        most = FILTERED if queue == 'printing' else LEFT_ALONE
        if now - self.begun > most and self.spooler.withdraw(self.name):
            self.end_unprinted()
        elif now - self.begun > self.printing.patience:
            self.cancel_in_queue()
            self.give_up()

    def without_device(self, now, queue):
        """The device does not answer: it is waited for as long as the operator wants, since it may print all the same."""
        if queue == 'done' and self.spooler.withdraw(self.name):
            self.end_unprinted()
        elif now - self.heard > self.printing.patience:
            self.cancel_in_queue()
            if queue == 'done':
                self.give_up()

    def give_up(self):
        """CUPS is done with the document, and the device tells nothing of it."""
        if self.spooler.withdraw(self.name):
            self.end_unprinted()
            return
        self.handed['count'] = self.count_of_life()
        self.end('failed')

    def count_of_life(self):
        """What came out by the device's life count, else the last count that it told of the document."""
        told = self.handed['count']
        after = self.device.life_count() if self.handed['before'] is not None else None
        if after is None:
            return told
        self.is_life_told = True
        return max(told, min(self.most(), device.came_out(self.handed['before'], after)))

    def most(self):
        """What can have come out: others may have copied at the device. A copy ends with an empty side at most."""
        if not self.job['impressions']:
            return device.WRAPS
        others = sum(other['count'] for other in self.job['documents'] if other is not self.handed)
        return (self.job['impressions'] + self.job['of']) * self.job['copies'] - others

    def end_stalled(self, now, queue, printed):
        """Cancels at the device what waits there for bytes that nobody sends any more."""
        if queue != 'done' or printed.state not in (ipp.PENDING, ipp.HELD):
            self.stalled = None
            return
        self.stalled = self.stalled or now
        if now - self.stalled > STALLED:
            self.stalled = None
            self.device.cancel(printed.number)

    def ask_around(self, now):
        """Whether a device that answers waits for somebody, and whether the owner has canceled the job."""
        obstacle = self.device.obstacle() if self.heard == now else None
        if obstacle:
            self.tell(obstacle)
        if self.is_stopped or self.printing.is_canceled(self.job):
            self.stop()

    def stop(self):
        """Ends the document at CUPS and at the device. What came out until then is charged."""
        self.is_stopped = True
        self.tell('It is being stopped.')
        if self.spooler.withdraw(self.name):
            self.handed['end'] = 'failed'
            return
        self.cancel_in_queue()
        if self.number is not None:
            self.device.cancel(self.number)

    def cancel_in_queue(self):
        try:
            self.spooler.cancel(self.name)
        except (OSError, ipp.Refused):
            # It is tried again at a later look.
            pass

    def tell(self, text):
        if text != self.told:
            self.told = text
            self.screen.say('  ' + text)
