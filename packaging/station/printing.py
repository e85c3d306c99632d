"""The way of a job from its release to its settling. The state on the disk always tells how far it is, so that a station
that was ended in the midst of it goes on from there.
"""
import secrets
import time
from typing import NamedTuple

import ipp
import ticket
from device import UNCOUNTED, log
from following import Following, pages
from server import MOST, Lost, Refused

# How often a document is handed over, and the seconds between two tries and between two looks at the device. How long a device
# that can't print is waited for before a job is released: its owner may have gone.
TRIES, AGAIN, LOOK, MOST_WAIT = 4, 5, 0.5, 600
# Refusals that say nothing of the job: a disk that is full, a door that the operator has set for another device.
LATER = ('failed', 'not-your-device')


class Plan(NamedTuple):
    """How a job is to be printed: as which device of the server, the impressions that somebody told who was asked for them, and where
    there are prices the units of an impression, those that are reserved for the job, and what has the price."""
    device: str
    impressions: int | None = None
    units: int | None = None
    cost: int | None = None
    what: str = ''


class Printing:
    """Prints one job at a time of those that `server` has, at the device of this name there, or by `prices` at one of several names."""

    def __init__(self, name, server, spooler, printer, state, screen, patience, prices=None):
        self.name, self.server, self.spooler, self.device = name, server, spooler, printer
        self.state, self.screen, self.patience, self.prices = state, screen, patience, prices
        self.names = prices.devices if prices else [name]
        # Those of the jobs that were released: on the disk there is none.
        self.pins = {}

    def obstacle(self):
        """Why nothing can be printed now, or None."""
        try:
            self.state.save()
        except OSError as error:
            return f"This station's disk: {error.strerror}."
        return self.spooler.obstacle() or self.device.obstacle() or self.uncounted()

    def uncounted(self):
        """What is said where nothing would tell what comes out, or None."""
        if not self.device.is_uncounted():
            return None
        log(UNCOUNTED)
        return 'This printer does not count what it prints. Tell the print room.'

    def wait_for_device(self, job=None):
        """Waits until the device can print a job: one that is released, or else not for long. Whether it can: somebody may type `stop`,
        or cancel the job."""
        told, end = None, time.monotonic() + MOST_WAIT
        while obstacle := self.device.obstacle(begins=True):
            if obstacle != told:
                self.screen.say(f'  {obstacle} It is waited for.')
                told = obstacle
            if not job:
                self.renew()
            if self.is_stop_typed(AGAIN) or (self.is_canceled(job) if job else time.monotonic() > end):
                return False
        return True

    def renew(self):
        """Is heard by the server, also where nobody comes: a proxy keeps a name for the station that it has heard."""
        try:
            for name in self.names:
                if self.server.ask(f'list {name} {name}') == 'not-your-device':
                    log(f'the print server does not let this station be {name}: another one is, or has to be')
        except Lost:
            # Whoever releases a job is told.
            pass

    def release(self, account, row, password, plan):
        """Has a job released, prints and settles it. Answers the word of a refusal, or None."""
        is_released = row.state != 'held'
        if is_released and row.has_password and self.pins.get((account, row.job)) != password:
            # The server asks for no PIN any more.
            return 'password' if (account, row.job) in self.pins else 'released'
        aside, self.state.aside = self.state.aside, [kept for kept in self.state.aside if kept[:2] != [account, row.job]]
        self.state.job = {'account': account, 'job': row.job, 'released': is_released, 'copies': row.copies,
                          'impressions': plan.impressions or row.impressions, 'of': None, 'documents': [], 'end': None,
                          'asked': row.state == 'processing', 'has_pin': row.has_password, 'device': plan.device, 'units': plan.units,
                          'cost': plan.cost}
        try:
            self.state.save()
            word = None if is_released else self.ask_release(account, row.job, password, plan)
        except OSError as error:
            word = f'disk: {error.strerror}'
        if word:
            self.state.job, self.state.aside = None, aside
            self.state.save_if_possible()
            return word
        self.pins[account, row.job] = password
        self.carry_on()
        return None

    def ask_release(self, account, job, password, plan):
        """The word of a refusal, or None where it is released, or no answer came."""
        digits = password.encode().hex() or '-'
        try:
            word = self.server.ask(f'release {plan.device} {account} {job} {digits} {plan.impressions or "-"}')
        except Lost:
            return None
        self.state.job['released'] = word.startswith('ok ')
        return None if self.state.job['released'] else word

    def carry_on(self):
        """Prints what is not printed yet of the job that the state has, if any, and settles it."""
        job = self.state.job
        self.spooler.withdraw_others([document['name'] for document in job['documents']] if job else [])
        if job is None:
            return
        if job['end'] is None:
            job['end'] = self.print_rest(job)
            self.state.save_if_possible()
        if job['end'] == 'unprinted':
            self.set_aside(job)
        elif job['end'] != 'elsewhere':
            self.settle(job)
        self.state.leftovers += [[document['name'], document['number']] for document in job['documents']]
        self.state.job = None
        self.state.save_if_possible()
        self.tidy()

    def tidy(self):
        """Has CUPS remove what was printed, with its documents."""
        left = [[name, number] for name, number in self.state.leftovers if not self.spooler.remove(name, number)]
        if left != self.state.leftovers:
            self.state.leftovers = left
            self.state.save_if_possible()

    def set_aside(self, job):
        """Keeps a started job of which nothing came out, so that it can be chosen again here."""
        self.state.aside.append([job['account'], job['job'], time.time(), job.get('has_pin', True), self.named(job)])
        self.screen.say('Nothing came out, and nothing is charged. It waits here for another try.')

    def is_aside(self, account, row):
        return row.state == 'processing' and [account, row.job] in [kept[:2] for kept in self.state.aside]

    def end_aside(self):
        """Settles those jobs set aside that were canceled, that have waited too long, or whose PIN is not known any more."""
        for kept in list(self.state.aside):
            # Earlier versions keep no device.
            account, number, since, has_pin, device = [*kept, self.name][:5]
            job = {'account': account, 'job': number, 'documents': [], 'end': 'failed', 'impressions': None, 'copies': 1, 'device': device}
            if self.is_canceled(job) or time.time() - since > self.patience or (has_pin and (account, number) not in self.pins):
                self.settle(job)
                self.state.aside.remove(kept)
                self.state.save_if_possible()

    def print_rest(self, job):
        """How the job ended: `done`, `failed`, `unprinted` where nothing came out, and nothing will, or `elsewhere` where the server
        has nothing of it for this device."""
        number = f"{job['account']}'s job {job['job']}"
        for handed in [document for document in job['documents'] if document['end'] is None]:
            self.screen.say(f'{number} goes on.')
            if self.follow(job, handed) == 'unprinted' and handed['seen']:
                return 'failed' if job['documents'] else 'unprinted'
        ends = [document['end'] for document in job['documents']]
        if 'failed' in ends or (ends and len(ends) == job['of']):
            return 'failed' if 'failed' in ends else 'done'
        if not self.wait_for_device(job):
            return 'failed' if job.get('asked', True) else 'elsewhere'
        try:
            documents = self.fetch(job)
        except Refused as refused:
            self.screen.say(f'{number} is not printed here ({refused.word}).' if refused.word != 'another-price' else
                            f'The print server has another price for {number} than was shown. It is left alone. Tell the print room.')
            return 'failed' if refused.word == 'stopping' or ends else 'elsewhere'
        return self.print_documents(job, documents)

    def fetch(self, job):
        """The documents of a job that is released, which starts it, or once more of one that was started."""
        while True:
            try:
                return self.fetch_once(job)
            except Lost:
                self.wait_for_server()
            except Refused as refused:
                if refused.word not in LATER:
                    raise
                self.wait_for_server(f'says {refused.word}')

    def fetch_once(self, job):
        if not job['released'] and not self.is_here(job):
            raise Refused('not-released')
        if not job.get('asked', True) and self.has_another_price(job):
            raise Refused('another-price')
        which = f"{self.named(job)} {job['account']} {job['job']}"
        was_asked = self.keep_asked(job)
        try:
            return self.server.documents(f'start {which}')
        except Refused as refused:
            # Where this station has not asked before, another one has started the job.
            if refused.word != 'not-pending' or not was_asked:
                raise
        return self.server.documents(f'again {which}')

    def keep_asked(self, job):
        """Keeps that the job may have been started from now on. Whether that was so before."""
        if job.get('asked', True):
            return True
        job['asked'] = True
        try:
            self.state.save()
        except OSError as error:
            job['asked'] = False
            raise Refused(f'disk: {error.strerror}') from error
        return False

    def wait_for_server(self, word='does not answer'):
        self.screen.say(f'The print server {word}. It is asked again.')
        self.screen.wait(AGAIN)

    def row(self, job):
        """What the server tells of a job, or None where it has ended or another device has it."""
        return next((row for row in self.server.jobs(self.named(job), job['account']) if row.job == job['job']), None)

    def named(self, job):
        """As which device the job is printed. Earlier versions keep none."""
        return job.get('device') or self.name

    def has_another_price(self, job):
        """Whether something else is reserved for a job than its owner agreed to."""
        if job.get('cost') is None:
            return False
        row = self.row(job)
        return row is not None and row.reserved != job['cost']

    def is_canceled(self, job):
        """Whether its owner has canceled it since it was started."""
        try:
            row = self.row(job)
        except (Lost, Refused):
            return False
        return row is not None and row.state == 'stopping'

    def is_here(self, job):
        row = self.row(job)
        return row is not None and row.device == self.named(job)

    def print_documents(self, job, documents):
        """Prints those that are not printed yet, once the device can do what all of them ask for."""
        try:
            tickets = [ticket.read(document.data) for document in documents]
        except ticket.Bad as bad:
            self.screen.say(f'Its ticket asks for {bad}, which this station does not know. Nothing is printed or charged.')
            return 'failed'
        if job.get('units') is not None:
            tickets = self.priced(job['units'], tickets)
            if tickets is None:
                return 'failed'
        supported = self.supported() if any(tickets) else {}
        if supported is None:
            return 'failed'
        lacking = [choice for chosen in tickets for choice in ticket.lacking(chosen.items(), supported)]
        if lacking:
            self.screen.say(f"This printer does not have {', '.join(lacking)}. Nothing is printed or charged.")
            return 'failed'
        job['of'] = len(documents)
        for number in range(len(job['documents']), len(documents)):
            end = self.print_document(job, number, documents[number], tickets[number])
            if end == 'unprinted' and job['documents']:
                # What stands before it came out.
                end = 'failed'
            if end != 'done':
                return end
        return 'done'

    def priced(self, units, tickets):
        """The tickets with all that their prices depend on; None where one has a higher price than this, or none, which is said."""
        filled = [self.prices.filled(chosen) for chosen in tickets] if self.prices else []
        prices = [self.prices.price(chosen) for chosen in filled]
        if self.prices and all(price is not None and price.units <= units for price in prices):
            return filled
        self.screen.say('Its documents ask for something else than was priced. Nothing is printed or charged.')
        return None

    def supported(self):
        """What the device has, or None where somebody types `stop` before it answers."""
        while True:
            try:
                return self.device.supported()
            except (OSError, ipp.Refused):
                self.screen.say('The printer does not answer. It is asked again.')
                if self.is_stop_typed(AGAIN):
                    return None

    def print_document(self, job, number, document, chosen):
        """How a document ended: `done`, `failed` or `unprinted`."""
        told = 'CUPS does not take it'
        for attempt in range(TRIES):
            if attempt:
                self.screen.say(f'{told}. It is handed over again.')
            if (attempt and self.is_stop_typed(AGAIN)) or not self.wait_for_device(job):
                return 'failed'
            try:
                handed = self.permit(job, number)
            except OSError as error:
                told = f"This station's disk: {error.strerror}"
                continue
            try:
                handed['number'] = self.spooler.hand(handed['name'], document, chosen)
                self.state.save_if_possible()
                told = 'CUPS has not printed it'
            except ipp.Refused as refused:
                told = f"This station's queue: {refused}"
            except OSError as error:
                # It may have it nevertheless.
                told = f"This station's CUPS: {error}"
            end = self.follow(job, handed)
            if end != 'unprinted' or handed['seen']:
                # What the device has had its owner chooses again, or does not.
                return end
        self.screen.say(f'{told}. Nothing more of it is printed.')
        return 'unprinted'

    def permit(self, job, number):
        """Allows the next document to be printed, under a name that no other ever had."""
        name = f"room-{job['account']}-{job['job']}-{number + 1}-{secrets.token_hex(4)}"
        handed = {'name': name, 'number': None, 'before': self.device.life_count(), 'count': 0, 'seen': False, 'is_counted': True,
                  'end': None}
        self.spooler.allow(name)
        job['documents'].append(handed)
        try:
            self.state.save()
        except OSError:
            job['documents'].remove(handed)
            self.spooler.withdraw(name)
            raise
        return handed

    def follow(self, job, handed):
        """Waits until a document that was handed to CUPS has ended, and keeps what the device counts. Answers how it ended:
        `done`, `failed`, or `unprinted` where nothing came out, and nothing will."""
        following = Following(self, job, handed)
        while handed['end'] is None:
            following.look()
            if handed['end'] is None and self.is_stop_typed(LOOK):
                following.stop()
        if handed['end'] == 'unprinted':
            job['documents'].remove(handed)
            self.state.leftovers.append([handed['name'], handed['number']])
        self.state.save_if_possible()
        return handed['end']

    def count(self, job):
        """The impressions to be charged. Where the device has had a document and counted nothing, those that were released."""
        counted = sum(document['count'] for document in job['documents'])
        if all(document.get('is_counted', True) for document in job['documents'] if document['seen']):
            return counted
        return max(counted, (job['impressions'] or 0) * job['copies'])

    def is_stop_typed(self, seconds):
        line = self.screen.pause(seconds)
        return line is not None and line.strip().lower() == 'stop'

    def settle(self, job):
        """Tells the server what the device has counted, until that is answered."""
        self.pins.pop((job['account'], job['job']), None)
        count = min(MOST, self.count(job))
        line = f"settle {self.named(job)} {job['account']} {job['job']} {count} {job['end']}"
        how = 'Printed' if job['end'] == 'done' else 'It has failed, or was stopped'
        while True:
            try:
                charged, left = self.server.settle(line)
                self.screen.say(f'{how}: {pages(count)}. Units charged: {charged}, left: {left}.')
                return
            except Lost:
                self.wait_for_server()
            except Refused as refused:
                if refused.word not in LATER:
                    # It was settled before, by this station or by hand.
                    self.screen.say(f'{how}: {pages(count)} ({refused.word}).')
                    return
                self.wait_for_server(f'says {refused.word}')
