"""Lets jobs go on that wait for room in their account, the oldest of an account first, and those that a killed cupsd has left held.

Only a try shows whether there is room: whoever could ask the release server would be every account there. A try costs the front what the
job costs it. So of an account the oldest job alone is tried, a minute after it was held, then less and less often, and of all accounts a few
a minute. A job that got through is followed by the next at once.

cupsd keeps in job.cache when it tries a job again, and reads that file only where no job's own file is newer, by whole seconds. A cupsd that
was killed between writing the two holds the job for good.
"""
import time

from front_jobs import FrontJobs, Job

# Seconds: between two tries of an account, at first and at most; and how long a job is tried behind its making.
FIRST, LAST, PATIENCE = 60, 480, 86400
# Tries of all accounts in a minute.
MOST_TRIES = 6
# Seconds that a job is seen held by nobody, which are more than the JobRetryInterval.
LEFT = 60


class Tries:
    """Of an account: the number of the job that was tried last, when that was, and how long to wait from then on."""

    def __init__(self, now: float):
        self.job, self.at, self.wait = None, now, FIRST


class LeftHeld:
    """Lets go what a killed cupsd has left held. `clock` tells seconds that only grow."""

    def __init__(self, jobs: FrontJobs, clock=time.monotonic):
        self.jobs, self.clock, self.seen = jobs, clock, {}

    def look(self, jobs: dict[str | None, list[Job]]) -> list[Job]:
        """Lets go those of all accounts that have been seen so for a minute. Answers which."""
        now, left = self.clock(), [job for of_account in jobs.values() for job in of_account if job.is_left_held]
        self.seen = {(job.number, job.made): self.seen.get((job.number, job.made), now) for job in left}
        return [job for job in left if now - self.seen[job.number, job.made] >= LEFT and self.jobs.let_go(job)]


class GoingOn:
    """The tries of all accounts. `clock` tells seconds that only grow, `today` those of the calendar."""

    def __init__(self, jobs: FrontJobs, clock=time.monotonic, today=time.time):
        self.jobs, self.clock, self.today, self.accounts, self.moments = jobs, clock, today, {}, []

    def look(self, jobs: dict[str | None, list[Job]]) -> list[Job]:
        """Lets go what may be tried now of all accounts' jobs. Answers which."""
        now, due = self.clock(), []
        for account, of_account in jobs.items():
            job = account and self.next_of(account, of_account, now)
            if job and now - self.accounts[account].at >= self.accounts[account].wait:
                due.append((self.accounts[account].at, account, job))
        self.accounts = {account: tries for account, tries in self.accounts.items() if account in jobs}
        self.moments = [moment for moment in self.moments if now - moment < 60]
        return [job for _, account, job in sorted(due)[:MOST_TRIES - len(self.moments)] if self.is_let_go(account, job, now)]

    def next_of(self, account: str, jobs: list[Job], now: float) -> Job | None:
        """The job of the account that is tried next; None while the last one is under way."""
        tries, job = self.accounts.get(account), self.oldest(jobs)
        if tries and any(other.number == tries.job and not other.has_ended and not other.may_go_on for other in jobs):
            return None
        if job is None:
            self.accounts.pop(account, None)
        elif tries is None:
            self.accounts[account] = Tries(now)
        elif tries.job is not None and tries.job != job.number:
            # The one before got through, or is gone.
            tries.job, tries.wait = None, 0
        return job

    def oldest(self, jobs: list[Job]) -> Job | None:
        return next((job for job in jobs if job.is_full and self.today() - job.made < PATIENCE), None)

    def is_let_go(self, account: str, job: Job, now: float) -> bool:
        tries = self.accounts[account]
        tries.wait = min(2 * tries.wait, LAST) if tries.job == job.number else FIRST
        tries.job, tries.at = job.number, now
        self.moments.append(now)
        return self.jobs.let_go(job)
