"""The page of what the front has of an account's jobs: which wait there and why, which were refused and why."""
import datetime
import html
import re

from front_jobs import STOPPED, Job

# What a browser may do with the page: have the style sheet of the other pages, and send its forms back.
POLICY = "default-src 'none'; style-src 'self'; img-src data:; form-action 'self'; base-uri 'none'; frame-ancestors 'none'"
MOST_TITLE, MOST_WHY, MOST_SHOWN = 255, 500, 200

PAGE = """<!DOCTYPE html>
<html lang="en">
<head>
<meta charset="utf-8">
<meta name="viewport" content="width=device-width, initial-scale=1">
<link rel="icon" href="data:,">
<link rel="stylesheet" href="/style.css">
<title>{title} - Farojuniper</title>
</head>
<body>
<header class="banner"><div><span class="brand">Farojuniper</span><span class="quiet">Print room</span></div></header>
<main id="main">
{note}{body}</main>
<footer class="foot"><p class="quiet">A job that waits here has not reached the release server. A day after it was held it is canceled.
Times are in UTC.</p></footer>
</body>
</html>
"""
ACCOUNT = """<div class="title"><div><p class="quiet">The shared queue</p>
<h1>{account}</h1></div>
<a href="/{account}">The account's page</a></div>
"""
TABLE = """<section class="card">
<header><h2>{title}</h2></header>
<table class="jobs">
<thead><tr><th scope="col" class="number">No.</th><th scope="col">Job</th><th scope="col">State</th><th scope="col">Made</th>\
<th scope="col"><span class="unseen">Acts</span></th></tr></thead>
<tbody>
{rows}</tbody>
</table>
{rest}</section>
"""
ROW = """<tr><td class="number" data-label="Job">{number}</td><th scope="row" id="job-{number}"><bdi>{title}</bdi></th>
<td><span class="state">{state}</span><small>{why}</small></td>
<td class="when" data-label="Made"><time datetime="{stamp}">{made}</time></td>
<td class="acts">{acts}</td></tr>
"""
FORM = """<form method="post" action="/{account}/queue"><input type="hidden" name="job" value="{number}">\
<input type="hidden" name="token" value="{token}"><button class="first" aria-describedby="job-{number}">{word}</button></form>"""
NOTE = '<div class="note{kind}" role="alert"><p>{text}</p></div>\n'
CARD = '<section class="card"><h1>{title}</h1>\n<p>{text}</p></section>\n'


def page_of(account: str, jobs: list[Job], token_of, note: str = '') -> str:
    """The page of these jobs of an account. `token_of` makes the token of a job's form, `note` says what came of the last one."""
    waiting, refused = [job for job in jobs if not job.has_ended], [job for job in reversed(jobs) if job.is_refused]
    body = ACCOUNT.format(account=account)
    if not waiting and not refused:
        body += CARD.format(title='Nothing waits here', text='The front has no job of this account, and has refused none within a day.')
    for title, chosen in (('Waiting at the front', waiting), ('Refused or canceled', refused)):
        if chosen:
            body += table_of(title, account, chosen, token_of)
    return PAGE.format(title=f'{account}: the shared queue', note=note, body=body)


def table_of(title: str, account: str, jobs: list[Job], token_of) -> str:
    rows = ''.join(row_of(account, job, token_of) for job in jobs[:MOST_SHOWN])
    rest = f'<p class="quiet">{len(jobs) - MOST_SHOWN} more are not shown.</p>\n' if len(jobs) > MOST_SHOWN else ''
    return TABLE.format(title=title, rows=rows, rest=rest)


def row_of(account: str, job: Job, token_of) -> str:
    made = datetime.datetime.fromtimestamp(job.made, datetime.timezone.utc)
    acts = ''
    if job.may_go_on:
        word = 'Start again' if job.state == STOPPED else 'Let go on'
        acts = FORM.format(account=account, number=job.number, token=token_of(job), word=word)
    return ROW.format(number=job.number, title=shown(job.title, MOST_TITLE) or 'untitled', state=state_of(job), why=shown(reason_of(job), MOST_WHY),
                      stamp=f'{made:%Y-%m-%dT%H:%MZ}', made=f'{made.day} {made:%b %Y, %H:%M}', acts=acts)


def state_of(job: Job) -> str:
    if job.is_refused:
        return 'Canceled'
    return ('Stopped' if job.state == STOPPED else 'Held') if job.may_go_on else 'Under way'


def reason_of(job: Job) -> str:
    """Why the job is as it is."""
    why = job.why.strip()
    if job.is_full:
        return f'{why} It goes on by itself once there is room.'.strip()
    if job.is_left_held:
        return f'{why} It goes on by itself.'.strip()
    if job.may_go_on:
        return why or 'It waits until you let it go on.'
    return why or 'It waits for its turn.'


def note_of(is_good: bool, number: int) -> str:
    text = f'Job {number} goes on.' if is_good else f'Job {number} does not go on: it is not held any more. Look below.'
    return NOTE.format(kind=' good' if is_good else '', text=text)


def plain_page(title: str, text: str) -> str:
    """A page that says one thing."""
    return PAGE.format(title=title, note='', body=CARD.format(title=title, text=html.escape(text)))


def shown(text: str, most: int) -> str:
    """A text of somebody's, as it may stand in the page: a line of so many letters, with `?` for controls and what turns the line around."""
    text = re.sub(r'\s+', ' ', text[:4 * most]).strip()
    text = ''.join(letter if letter.isprintable() else '?' for letter in text)
    return html.escape(text if len(text) <= most else text[:most - 2] + '..')
