"""What people see and do at a station: one after another signs in, chooses jobs, and has them printed."""
import re
import time

import prices
import ticket
from following import pages
from ipp import Refused as NotTold
from printing import Plan
from server import Lost, Refused
from signing import THINKS

# Seconds: how long a person has to read.
READS = 10
REFUSALS = {'password': 'The PIN is wrong.', 'incomplete': 'Its documents have not all come yet.',
            'impressions-unknown': 'Nobody has told how many pages it has.', 'no-job': 'It is not there any more.',
            'device-off': 'The print room has turned this printer off.',
            'no-device': 'The print room does not know this printer.',
            'not-your-device': 'The print server does not let this station use this printer. Another one may have its name.',
            'not-held': 'It was released elsewhere just now.',
            'rate': 'It was released for another price. Hold it on your page, and release it here.',
            'released': 'It is released, and its PIN is not known here any more. Hold it, and release it again.',
            'failed': 'The print server could not do it. Try again.'}
OF_DEVICES = ('device-off', 'no-device', 'not-your-device')


class Kiosk:
    def __init__(self, printing, sign_on):
        self.printing, self.name, self.screen, self.sign_on = printing, printing.name, printing.screen, sign_on
        self.server, self.device, self.guesses = printing.server, printing.device, sign_on.guesses

    def run(self):
        """Serves people until the terminal ends."""
        while True:
            self.printing.tidy()
            self.printing.end_aside()
            self.screen.clear()
            self.screen.say(f'{self.name}: release your jobs here.')
            self.screen.say(self.sign_on.about())
            if self.sign_on.comes():
                self.serve()
                self.screen.say('Thank you. Press Enter.')
                self.screen.pause(READS)
            else:
                self.printing.renew()

    def serve(self):
        """Who came, up to the end."""
        account = self.sign_on.account()
        if account is None:
            return
        if self.sign_on.wants:
            rows = self.waiting(account)
            pin = self.ask_pin(account) if any(row.has_password for row in rows) else ''
        else:
            pin = self.ask_pin(account)
            rows = self.waiting(account) if pin is not None else []
        if pin is None or not rows:
            return
        for row, plan in self.agreed(self.plans(self.chosen(account, rows))):
            if not self.release(account, row, pin, plan):
                return

    def ask_pin(self, account):
        """The PIN of the account's jobs; None where it is not asked now, which is said."""
        pin = self.screen.ask('PIN (Enter for none): ', THINKS, hidden=True)
        wait = self.guesses.wait(account)
        if pin is not None and wait:
            self.screen.say(f'Wrong PINs were tried for this account. Come again in {wait} seconds.')
            return None
        return pin

    def waiting(self, account):
        """The account's jobs that can be printed here."""
        try:
            rows, refusals = self.listed(account)
        except Lost:
            self.screen.say('The print server does not answer. Come again later.')
            return []
        for name, word in refusals.items():
            which = '' if name == self.name else f'{name}: '
            self.screen.say(f'There is no account {account}.' if word == 'no-account' else which + REFUSALS.get(word, word))
        rows = [row for row in rows if row.state in ('held', 'pending') or self.printing.is_aside(account, row)]
        if not rows and not refusals:
            self.screen.say('No job waits.')
        return rows

    def listed(self, account):
        """The account's jobs that no other device has, and the words by which the server refuses names of this one."""
        rows, refusals = {}, {}
        for name in self.printing.names:
            try:
                rows.update((row.job, row) for row in self.server.jobs(name, account) if row.job not in rows)
            except Refused as refused:
                refusals[name] = refused.word
                if refused.word == 'no-account':
                    break
        return [rows[job] for job in sorted(rows)], refusals

    def chosen(self, account, rows):
        """Those jobs that the person wants."""
        self.screen.say(f'Jobs of {account}:')
        for row in rows:
            self.screen.say('  ' + told(row))
        obstacle = self.printing.obstacle()
        if obstacle:
            self.screen.say(obstacle + ' Nothing can be printed now.')
            return []
        self.say_offer()
        line = self.screen.ask('Which? Their numbers, or `all` (Enter for none): ', THINKS) or ''
        words = [] if self.sign_on.is_misread(line.strip()) else line.replace(',', ' ').lower().split()
        strange = [word for word in words if word != 'all' and word not in [str(row.job) for row in rows]]
        if strange:
            # What is longer is no number of a job, but maybe a card or a password.
            self.screen.say(f"No job {', '.join(word if len(word) <= 6 else '?' for word in strange)} waits here.")
            return []
        return [row for row in rows if 'all' in words or str(row.job) in words]

    def say_offer(self):
        """What the printer has."""
        try:
            self.screen.say(f'This printer has {ticket.offer(self.device.supported())}.')
        except (OSError, NotTold):
            pass
        for price in self.printing.prices.prices if self.printing.prices else ():
            self.screen.say(f'  {units(price.units)} a page: {prices.said(price)}')

    def plans(self, rows):
        """Those of these jobs that can be printed, each with its plan. Of the others it is said why not."""
        try:
            supported = self.device.supported() if rows else {}
        except (OSError, NotTold):
            self.screen.say('The printer does not answer. Nothing is released.')
            return []
        plans = [(row, self.plan(row, supported)) for row in rows]
        return [(row, plan) for row, plan in plans if plan is not None]

    def plan(self, row, supported):
        """How a job is to be printed; None where it can't be, which is said."""
        lacking = ticket.lacking(self.wanted(row), supported)
        if lacking:
            self.screen.say(f"Job {row.job}, {row.name}: this printer does not have {', '.join(lacking)}. The job is left alone.")
            return None
        price = self.price(row) if self.printing.prices else None
        if price is None and self.printing.prices:
            return None
        impressions = None
        if row.impressions is None and row.state == 'held':
            impressions = self.ask_pages(row)
            if impressions is None:
                return None
        if price is None:
            return Plan(self.name, impressions)
        cost = price.units * (impressions or row.impressions) * row.copies if row.state == 'held' else row.reserved
        return Plan(price.device, impressions, price.units, cost, prices.said(price))

    def wanted(self, row):
        """What the documents of a job ask for, as far as its name tells it, and what else its price depends on."""
        known = self.printing.prices.defaults.items() if self.printing.prices else ()
        return [*row.ticket, *((name, value) for name, value in known if name not in dict(row.ticket))]

    def price(self, row):
        """The price of a job; None where it can't be printed for one, which is said."""
        table, bound = self.printing.prices, row.device if row.device in self.printing.names else None
        price = table.dearest(row.ticket)
        if price is None:
            asks = ', '.join(f'{name}={value}' for name, value in self.wanted(row) if name in table.defaults)
            self.screen.say(f'Job {row.job}, {row.name}: there is no price here for {asks}. The job is left alone.')
            return None
        if row.state != 'held' and price.units > (table.units[bound] if bound else 1):
            self.screen.say(f'Job {row.job}, {row.name}: {REFUSALS["rate"]}')
            return None
        return price._replace(device=bound, units=table.units[bound]) if bound and row.state != 'held' else price

    def agreed(self, plans):
        """Those of these jobs that the person wants for their prices: all or none."""
        if not plans or not self.printing.prices:
            return plans
        for row, plan in plans:
            count = row.impressions or plan.impressions
            copies = f', {row.copies} copies' if row.copies > 1 else ''
            # A job that is released has the price that it was released for.
            rate = plan.cost // (count * row.copies) if count else plan.units
            self.screen.say(f"Job {row.job}, {row.name}: {pages(count) if count else 'pages unknown'}{copies}, {plan.what}, "
                            f'{units(rate)} a page: {units(plan.cost)}.')
        line = self.screen.ask(f'Print for {units(sum(plan.cost for _, plan in plans))}? (yes): ', THINKS) or ''
        if line.strip().lower() == 'yes':
            return plans
        self.screen.say('Nothing is printed.')
        return []

    def release(self, account, row, pin, plan):
        """Releases a job and prints it. Whether to go on with the next."""
        self.screen.say(f'Job {row.job}, {row.name} (`stop` and Enter end it):')
        if not self.printing.wait_for_device():
            self.screen.say('  The job is left alone.')
            return False
        word = self.printing.release(account, row, pin if row.has_password else '', plan)
        if word is None:
            return True
        # Of one of several names: it may be on as the others.
        which = f'{plan.device}: ' if plan.device != self.name and word in OF_DEVICES else ''
        self.screen.say(f'  {which}{explained(word)}')
        if word == 'password':
            self.guesses.wrong(account)
        return word != 'password'

    def ask_pages(self, row):
        line = self.screen.ask(f'How many pages has job {row.job}, {row.name}? ', THINKS) or ''
        if re.fullmatch('[1-9][0-9]{0,4}', line.strip()):
            return int(line)
        self.screen.say('That is no number of pages. The job is left alone.')
        return None


def units(count):
    return '1 unit' if count == 1 else f'{count} units'


def told(row):
    """A job as a line."""
    count = pages(row.impressions) if row.impressions else 'pages unknown'
    copies = f', {row.copies} copies' if row.copies > 1 else ''
    made = time.strftime('%d %b %H:%M', time.localtime(row.created))
    return f"{row.job:6}  {made}  {count}{copies}{', with a PIN' if row.has_password else ''}  {row.name}"


def explained(word):
    """The server's word of a refusal, as people say it."""
    quota = re.fullmatch('quota ([0-9]+) (-?[0-9]+)', word)
    return f'It needs {quota[1]} units, and {quota[2]} are left.' if quota else REFUSALS.get(word, word)
