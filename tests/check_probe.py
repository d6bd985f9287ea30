"""Single calls through the probe: the model, the recorder's probe and the second program's, line for line."""

import zlib
from collections import Counter
from functools import partial
from itertools import combinations, zip_longest

import model
import probes
import programs
from edges import between_blocks, clauses, edges
from model import FIELDS, WAITING_FIELDS, Station
from parallel import in_parallel
from probes import CALLS, CHECKS, MOST_WORDS, Probes
from reached import CHANGES, CHANGES_REFUSED
from report import SHOWN, cut, save

BATCH_BYTES = 8_000_000
KINDS = {
    'sound': 2_000, 'willing': 3_000, 'drops': 2_000, 'changes': 2_000, 'waiters': 1_000, 'damaged': 2_000, 'begun': 500,
    'recalls': 500, 'losses': 500, 'chance': 500, 'opens': 500, 'stacked': 3_000, 'other_rooms': 250, 'rooms': 1,
}
NAMES = ('refusal', 'kind', 'number', 'unit', 'value', *FIELDS)
# Any generator state and either way of hearing are sound, and another C is refused 1: damage there breaks no rule.
NEVER_UNSOUND = ('C', 's', 'heard')
# No unit follows the last, a find in sampling is refused, and no result is owed when a level begins.
IN_SAMPLING = (
    'row one short of i', 'row at i', 'watch one short of i', 'level 2', 'a level begins', 'a plan waiting in sampling',
    'a plan waiting, row at i', 'a plan waiting, level 2', 'a plan waiting, watch on',
)
NO_SUCH_TURN = {
    (probes.UNIT, 'last at its limit'), (probes.RESULT, 'a level begins'), *((probes.FIND, limit) for limit in IN_SAMPLING),
}


def check(report, pair, options):
    jobs = {name: programs.probe_job(name) for name in pair}
    tally = Counter()
    for counts, agreed, said in in_parallel(run_task, [(jobs, *task) for task in tasks(options)]):
        tally.update(counts)
        report.passed += agreed
        for what in said:
            report.check(False, what)
    report.reached(tally, goals())
    lengths = sum(tally[f'length {length}'] > 0 for length in range(MOST_WORDS + 1))
    report.check(lengths == MOST_WORDS + 1, f'memories of {lengths:,} lengths, not of every one to {MOST_WORDS:,} words')
    return covered(tally)


def portions(options):
    return max(1, options.count // 500)


def tasks(options):
    """What each process does: a seed, a kind of request, and how many or which. The numbers grow with --count."""
    for at in range(portions(options)):
        for kind, count in KINDS.items():
            yield f'{options.seed}-{at}', kind, count
    yield options.seed, 'edges', list(edges())
    for start in range(0, MOST_WORDS + 1, 400):
        yield f'{options.seed}-{start}', 'lengths', range(start, min(start + 400, MOST_WORDS + 1))


def run_task(task):
    """Requests of one kind: what they tried, how many agreed, and where they did not."""
    jobs, seed, kind, argument = task
    tally, agreed, said = Counter(), 0, []
    for batch in batches(getattr(Probes(f'{seed}-{kind}'), kind)(argument)):
        for what in compare(jobs, batch, tally):
            if what is None:
                agreed += 1
            else:
                said.append(what() if len(said) < SHOWN else kind)
    return tally, agreed, said


def batches(stream):
    """Lists of requests that fit a run of a program."""
    batch, size = [], 0
    for made in stream:
        batch.append(made)
        size += 9 * len(made.queue) + 400
        if size > BATCH_BYTES:
            yield batch
            batch, size = [], 0
    if batch:
        yield batch


def compare(jobs, batch, tally):
    """For each request None where all agree, else a function that says what differs."""
    sent = [probes.written(made.words()) for made in batch]
    answers = {'model': [probes.written(answered(made, tally)) for made in batch]}
    for name, output in programs.outputs(jobs, b''.join(line + b'\n' for line in sent)).items():
        answers[name] = output.split(b'\n')[:-1]
    for made, *lines in zip_longest(batch, *answers.values(), fillvalue=b''):
        yield None if len(set(lines)) == 1 else partial(difference, made, dict(zip(answers, lines)))


def answered(made, tally):
    """The model's answer; what it refused, and before which other checks that applied as well, is counted."""
    answer = model.probe(made.words())
    call, refusal = CALLS[made.call], answer[0]
    tally.update(('calls', f'refusal {refusal}', f'{call}: {refusal}', f'{made.about}: {refusal}', f'length {len(made.queue)}'))
    tally.update(f'{call}: {refusal} before {other}' for other in probes.applying(made)[1:])
    if made.call != probes.OPEN and refusal in (0, 10):
        tally.update(f'{call} at {limit}' for limit in probes.limits(made.st))
    if made.call != probes.OPEN and refusal == 0:
        tally.update(probes.drops_seen(made, Station(answer[5:])))
    if made.call == probes.CHANGE:
        tally.update(probes.change_seen(made, refusal))
    return answer


# ---- What must have been seen

def goals():
    numbers = [f'refusal {number}' for number in range(1, 12)]
    by_call = [f'{CALLS[call]}: {number}' for call, checks in CHECKS.items() for number in (0, *checks)]
    fields = [f'damaged {field}: 2' for field in FIELDS if field not in NEVER_UNSOUND]
    fields += [f'damaged {field}, no plan waiting: 2' for field in WAITING_FIELDS]
    waiters = [f'any plan waiting: {number}' for number in (0, 2)]
    turns = [(call, limit) for call in probes.ON_A_RECORD for limit in probes.LIMITS if (call, limit) not in NO_SUCH_TURN]
    sides = [f'edge {clause}: {number}' for clause, *_ in clauses() for number in (0, 2)]
    sides += [f'edge {name}: 0' for name, _ in between_blocks()]
    limits = [f'{CALLS[call]} at {limit}' for call, limit in turns]
    recalls = ['unrecalled below screened: 0', 'unrecalled at screened: 0', 'unrecalled above screened: 2']
    losses = ['lost below the gap: 0', 'lost at the gap: 0', 'lost above the gap: 2']
    records = [*fields, *waiters, *sides, *probes.begun_goals(), *recalls, *losses]
    return [*numbers, *by_call, *orders(), *records, *limits, *CHANGES, *CHANGES_REFUSED, *probes.DROPS]


def orders():
    """Each check of a call before each later one. No number is both at most the last unit and above the limit."""
    return [
        f'{CALLS[call]}: {first} before {other}'
        for call, checks in CHECKS.items() for first, other in combinations(checks, 2) if (first, other) != (6, 7)
    ]


def covered(tally):
    seen = sum(tally[order] > 0 for order in orders())
    return ''.join((
        f'{tally["calls"]:,} calls, memories of every length to {MOST_WORDS:,} words, each field damaged, ',
        f'{len(list(clauses()))} edges of a sound record, {len(CHANGES)} kinds of change, {len(probes.DROPS)} of a drop or of none',
        *(f'\n    {name}: done {tally[name + ": 0"]:,}, refused {refusals(tally, call)}' for call, name in CALLS.items()),
        f'\n    {seen} of {len(orders())} orders of two checks that both apply, calls at each of {len(probes.LIMITS)} limits',
    ))


def refusals(tally, call):
    return ', '.join(f'{number} {tally[f"{CALLS[call]}: {number}"]:,}' for number in CHECKS[call])


def difference(made, answers):
    """The call, the record and the first word in which the answers differ."""
    if not made:
        return 'probe: more answers than requests'
    record = ' '.join(f'{field}={word}' for field, word in zip(FIELDS, made.st.words()) if word)
    split = {name: answer.split() for name, answer in answers.items()}
    longest = max(map(len, split.values()))
    at = next(at for at in range(longest) if len({tuple(answer[at:at + 1]) for answer in split.values()}) > 1)
    where = NAMES[at] if at < len(NAMES) else f'queue word {at - len(NAMES)}'
    saved = save(f'probe {made.about} {zlib.crc32(probes.written(made.words())):08x}', probes.written(made.words()) + b'\n')
    said = [f'probe, {made.about}: {CALLS[made.call]} {made.arguments}, {len(made.queue)} queue words: {where} differs']
    said += [f'  request: {saved}', f'  record: {record}']
    said += [f'  {name}, from there: {cut(b" ".join(answer[at:at + 6])) or "(nothing)"}' for name, answer in split.items()]
    return '\n'.join(said)
