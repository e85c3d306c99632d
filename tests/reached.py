"""What a step of a list of events reached: `ACT STATE: OUTCOME`, by the line, the rows before it and behind it, and its answer.

ACT is the request's operation or the line's word, STATE that of its job before by the rows, and OUTCOME the word of a refusal, else
the state of its job behind, or what was answered.
"""
from collections import namedtuple

from database import is_by_hand
from notation import OPERATIONS, spell

Job = namedtuple('Job', 'account job name password state open stopping copies impressions reserved charged documents rate device created '
                        'started ended')
STATES = {3: 'pending', 4: 'held', 5: 'processing', 7: 'canceled', 8: 'aborted', 9: 'completed'}
NAMES = {code: name for name, code in OPERATIONS.items()}
JOB_ID = spell('job-id = 0')[:-4]
STATUS_MESSAGE = spell('status-message = ""')[:-2]
LAST_JOB = 999999


def names_reached(account, line, answers, before, after):
    """The names of what a step reached, by the rows before it and behind it."""
    if is_by_hand(line):
        return
    act, number = act_and_job(line)
    job, next_job = job_of(before, account, number), {row[0]: row[2] for row in before['account']}.get(account)
    state = f' {state_name(job)}' if number and next_job else ''
    if act in ('device', 'rate'):
        state = ' known' if line.split(' ')[2] in [row[0] for row in before['device']] else ' unknown'
    said, is_refusal = answer_said(answers[0])
    outcome = said if is_refusal or not number else state_name(job_of(after, account, number))
    yield f'{act}{state}: {outcome}' + (' after the last number' if next_job and next_job > LAST_JOB else '')
    if act == 'release' and outcome == 'bound' and job.password:
        yield 'release of a job with a password'
    if said == 'documents':
        yield from names_of_documents(answers[::2])


def act_and_job(line):
    """What the line or its request is called, and the number of the job that it names, 0 where it names none."""
    _, word, *words = line.split(' ')
    if word == 'ipp':
        body = bytes.fromhex(words[1])
        return (NAMES.get(int.from_bytes(body[2:4], 'big'), 'ipp'), job_id_in(body)) if len(body) >= 8 else ('ipp', 0)
    return word, int(words[2]) if word in ('release', 'start', 'settle') else 0


def job_id_in(text):
    _, found, behind = text.partition(JOB_ID)
    return int.from_bytes(behind[:4], 'big') if found else 0


def job_of(rows, account, number):
    return next((Job(*row) for row in rows['job'] if row[:2] == (account, number)), None)


def state_name(job):
    if job is None:
        return 'no job'
    state = STATES[job.state]
    if state == 'held':
        return ('open' if job.open else 'held') + ('' if job.documents else ' without a document')
    if state == 'pending' and job.device:
        return 'bound'
    return 'stopping' if job.stopping and state == 'processing' else state


def answer_said(answer):
    """The word of a refusal, the status of an answer or what a line says, and whether it is a refusal."""
    word, _, rest = answer.partition(' ')
    if word == 'document':
        return 'documents', False
    if word != 'ipp':
        return word, word != 'ok'
    _, refused, behind = bytes.fromhex(rest).partition(STATUS_MESSAGE)
    length = int.from_bytes(behind[:2], 'big')
    return (behind[2:2 + length].decode().split(' ')[0], True) if refused else (rest[4:8], False)


def names_of_documents(lines):
    """How many documents were handed out, and what the line of each says but its numbers."""
    yield f'handed out: {len(lines)} documents'
    for line in lines:
        _, _, copies, media_type, length = line.split(' ')
        yield f'handed out: copies {copies}'
        yield f'handed out: {media_type}'
        if length == '0':
            yield 'handed out: an empty document'
