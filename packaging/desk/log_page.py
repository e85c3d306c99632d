"""The page /ACCOUNT/log: what the logs tell of an account's jobs and quota, in the dress of the server's pages."""
import datetime
import html
import re
from urllib.parse import urlencode

from looking import Told
from telling import Row

# What a browser may do with the page: have the style sheet and the script of the other pages, and send the form to it.
POLICY = ("default-src 'none'; style-src 'self'; script-src 'self'; img-src data:; connect-src 'self'; form-action 'self'; base-uri 'none'; "
          "frame-ancestors 'none'")
PAGE = """<!DOCTYPE html>
<html lang="en">
<head>
<meta charset="utf-8">
<meta name="viewport" content="width=device-width, initial-scale=1">
<link rel="icon" href="data:,">
<link rel="stylesheet" href="/style.css">
<title>{title} - Farojuniper</title>
<script src="/page.js" defer></script>
</head>
<body>
<a class="skip" href="#main">Skip to the content</a>
<header class="banner"><div><span class="brand">Farojuniper</span><span class="quiet">Desk</span></div></header>
<main id="main">
<nav class="pager" aria-label="Desk"><a href="/">All accounts</a><a href="/devices.html">Devices</a></nav>
{body}</main>
<footer class="foot"><p class="quiet">The log has no names of jobs. Requests that only look are left out.
Times that name no zone are in UTC.</p></footer>
</body>
</html>
"""
TITLE = """<div class="title"><div><p class="quiet">What the log tells</p>
<h1>{account}</h1></div>
<a href="/{account}">The account</a></div>
"""
NARROW = """<form class="card find screen" method="get" action="/{account}/log"><div><label for="job">Job</label>
<input id="job" name="job" inputmode="numeric" maxlength="6" pattern="[1-9][0-9]*" autocomplete="off" value="{job}"></div>
<button>Show</button></form>
"""
CARD = """<section class="card" aria-labelledby="told">
<header><h2 id="told">{heading}</h2>{all}</header>
{table}{rest}</section>
"""
TABLE = """<table class="jobs dense">
<thead><tr><th scope="col">When</th><th scope="col">What was asked</th><th scope="col">By whom</th>\
<th scope="col">What it came to</th></tr></thead>
<tbody>
{rows}</tbody>
</table>
"""
ROW = """<tr><td class="when" data-label="When"><time datetime="{stamp}">{moment}</time></td><th scope="row">{what}{reason}</th>
<td data-label="By">{who}</td><td data-label="Came to">{came}</td></tr>
"""
NOTE = '<div class="note" role="alert"><div>{texts}</div></div>\n'
REFUSED = '<section class="card sheet"><h1>{title}</h1>\n<p>{text}</p></section>\n'


def page_of(account: str, job: int | None, before: int | None, told: Told) -> str:
    faults = ''.join(f'<p>{html.escape(fault)}</p>' for fault in told.faults)
    note = NOTE.format(texts=faults) if faults else ''
    heading = f'Job {job}' if job else 'All jobs, and the quota'
    everything = f'<a href="/{account}/log">All of {account}</a>' if job or before else ''
    table = TABLE.format(rows=''.join(row_of(account, row, job) for row in told.rows)) if told.rows else '<p>Nothing is told here.</p>\n'
    narrow = NARROW.format(account=account, job=job or '')
    card = CARD.format(heading=heading, all=everything, table=table, rest=older_of(account, job, told.older))
    title = f'{account}, job {job}' if job else account
    return PAGE.format(title=f'{title}: the log', body=TITLE.format(account=account) + note + narrow + card)


def older_of(account: str, job: int | None, older: int | None) -> str:
    """A link to what is older."""
    if older is None:
        return ''
    query = urlencode({**({'job': job} if job else {}), 'before': older})
    return f'<nav class="pager" aria-label="Pages"><a rel="next" href="/{account}/log?{html.escape(query)}">What is older</a></nav>\n'


def row_of(account: str, row: Row, job: int | None) -> str:
    moment = datetime.datetime.fromtimestamp(row.moment, datetime.timezone.utc)
    what = html.escape(row.what)
    if row.job and row.job != job:
        what = re.sub(rf'job {row.job}\b', f'<a href="/{account}/log?job={row.job}">job {row.job}</a>', what, count=1)
    reason = f'<small><bdi>{html.escape(row.reason)}</bdi></small>' if row.reason else ''
    return ROW.format(stamp=f'{moment:%Y-%m-%dT%H:%M:%SZ}', moment=f'{moment.day} {moment:%b %Y, %H:%M}', what=what, reason=reason,
                      who=html.escape(row.who), came=html.escape(row.came))


def plain_page(title: str, text: str) -> str:
    """A page that says one thing."""
    return PAGE.format(title=title, body=REFUSED.format(title=html.escape(title), text=html.escape(text)))
