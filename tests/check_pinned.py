"""Pinned tables: what the proofs compute from the definitions is what the stored sessions and the model say.

The tables stand in crates/rules/proofs. A session there has the name of the stored session whose calls and answers it has.
"""

import re

import edges
import model
import programs
from programs import ROOT
from script import words

PROOFS = ROOT / 'crates' / 'rules' / 'proofs'
SESSIONS = ROOT / 'sessions'
CODES = {'UnitOf': 2, 'Result': 3, 'Interrupt': 4, 'CheckFind': 5, 'Tick': 6, 'Take': 7, 'change': 9}
CHANGE = 'change kind n i S x N demand = Change (record { kind = kind; n = n; i = i; s = S; x = x; period = N }) demand'
DEMANDS = {'false': 0, 'true': 1}
NUMERAL = r'0x[0-9A-F]+|\d+'


def check(report, pair, options):
    told = calls = 0
    for table in (sessions, runs, example):
        for name, text, answers in table(report):
            told += 1
            calls += text.count(b'\n')
            held_to_stored(report, name, text, answers)
    ends = held_to_model(report)
    records = held_to_edges(report)
    return f'{told} sessions, {calls:,} calls; {ends} plans, entries, memories and changes; {records} records'


def held_to_stored(report, name, text, answers):
    if not (SESSIONS / f'{name}.in').exists():
        report.check(False, f'no stored session has the name of the pinned table {name}')
        return
    stored = {part: (SESSIONS / f'{name}.{part}').read_bytes() for part in ('in', 'out')}
    report.agreed(f'{name} (calls)', stored['in'], {'stored': stored['in'], 'proof': text})
    report.agreed(name, stored['in'], {'stored': stored['out'], 'proof': answers})


# ---- The text of a proof

def read(report, file, theorem):
    """A proof's text without its comments; the theorem over its tables has to be in it."""
    text = re.sub(r'(?m)^\s*--.*\n', '', (PROOFS / file).read_text())
    report.check(f'\npub {theorem}\n' in text, f'{file} has no theorem {theorem}')
    return text


def tables(report, text, type, listed):
    """The definitions of a type, by the name of the stored session; the list under the theorem has each of them, and none is missing."""
    pinned = re.findall(rf'(?ms)^unfoldable pub (pinned_\S+) : {type}$\n^\1 =$(.*?)^    \}}$', text)
    found = {name.replace('_', '-'): body for name, body in pinned}
    named = re.search(rf'(?m)^{listed} = (.*) ∷ \[\]$', text)
    expected = {path.stem for path in SESSIONS.glob('pinned-*.in') if path.stem.startswith('pinned-csp-') == (type == 'Session')}
    report.check(set(found) == expected, f'the pinned tables are {sorted(found)} and the stored sessions {sorted(expected)}')
    report.check(named and named[1].split(' ∷ ') == [name for name, _ in pinned], f'the list {listed} does not name each table once')
    return found


def number(word):
    return int(word, 0)


# ---- Sessions.antt

def sessions(report):
    text = read(report, 'Sessions.antt', 'sessions_hold : all_of seen sessions ≡ all_of due sessions')
    report.check(f'\n{CHANGE}\n' in text, 'Sessions.antt does not have the numbers of a change in the order of a frame')
    names = definitions(text)
    for name, body in tables(report, text, 'Session', 'sessions').items():
        plan, seed, rows, tallies = session_parts(body)
        lines = [words(1, *plan, seed)]
        answers = [model.DONE]
        for call, answer in expanded(names, rows):
            code, *arguments = call.split()
            lines.append(words(CODES[code], *map(argument, arguments)))
            answers.append(tuple(map(number, spelled(names, answer).removesuffix(' ∷ []').split(' ∷ '))))
        report.check(model_tallies(lines) == tallies, f'{name}: the tallies are not those of the model')
        yield name, b''.join(line + b'\n' for line in lines), b''.join(map(model.written, answers))


def argument(word):
    """A number, or whether a change is on demand."""
    return DEMANDS[word] if word in DEMANDS else number(word)


def definitions(text):
    """The names for answers and for rows: parameters and what stands for them."""
    found = re.findall(r'(?m)^(\w+)((?: [a-z]+)*) = (.* (?:∷ \[\]|▸ .*))$', text)
    return {name: (parameters.split(), meaning) for name, parameters, meaning in found}


def spelled(names, term):
    """A name and its arguments, put into what the name stands for."""
    name, *arguments = term.split()
    parameters, meaning = names[name]
    given = dict(zip(parameters, arguments, strict=True))
    return ' '.join(given.get(word, word) for word in meaning.split())


def expanded(names, rows):
    """The calls of rows joined by ++, each with its answer."""
    for row in re.split(r'\s+\+\+\s+', rows):
        call, joins, answer = row.partition(' ▸ ')
        if joins:
            yield call, answer
        else:
            yield from expanded(names, spelled(names, row))


def session_parts(body):
    plan = re.search(r'plan = record \{ kind = (\d+); n = (\d+); i = (\d+); s = (\d+); x = (\d+); period = (\d+) \};', body)
    seed = re.search(rf'seed = ({NUMERAL});', body)
    rows = re.search(r'(?s)rows =\s+(.*?);', body)
    tallies = re.search(r'tallies = (.*) ∷ \[\];', body)
    return [number(word) for word in plan.groups()], number(seed[1]), rows[1], [number(word) for word in tallies[1].split(' ∷ ')]


def model_tallies(lines):
    program = model.Program()
    for line in lines:
        program.answer(line)
    station = program.station
    return [station.conforming, station.defective, station.passed, station.missed]


# ---- Program.antt and Example.antt: lines of text

QUOTED = r'"((?:[^"\\]|\\.)*)"'


def unquoted(text):
    return text.encode().decode('unicode_escape').encode('latin-1')


def exchanged(body):
    """The lines that are sent and the lines that answer them."""
    rows = re.findall(rf'{QUOTED} ▸ {QUOTED}', body)
    return tuple(b''.join(unquoted(row[side]) + b'\n' for row in rows) for side in (0, 1))


def runs(report):
    text = read(report, 'Program.antt', 'runs_hold : all_printed runs ≡ all_due runs')
    for name, body in tables(report, text, 'Run', 'runs').items():
        sent, answers = exchanged(body)
        torn = [unquoted(re.search(rf'{field} = {QUOTED};', body)[1]) for field in ('torn', 'torn_answer')]
        yield name, sent + torn[0], answers + torn[1]


def example(report):
    text = read(report, 'Example.antt', 'example : program example_input ≡ example_output')
    yield 'example', *exchanged(text)


# ---- Edges.antt

def held_to_model(report):
    lists = 'plans ++ entries ++ memories ++ changes'
    text = read(report, 'Edges.antt', f'edges_hold : all_seen ({lists}) ≡ all_due ({lists})')
    kinds = {'plan': plan_due, 'find': entry_due, 'words': memory_due, 'change': change_due}
    rows = re.findall(r'\b(plan|find|words|change)((?: \d+)+) ▸ (\w+(?: \d+)*)', text)
    for kind, numbers, due in rows:
        said = kinds[kind](*map(number, numbers.split()))
        report.check(due == said, f'{kind}{numbers}: {due} in the proof, and {said} by the model')
    for kind in kinds:
        report.check(any(row[0] == kind for row in rows), f'Edges.antt has no row of {kind}')
    plans, changes = ([list(map(number, row[1].split())) for row in rows if row[0] == kind] for kind in ('plan', 'change'))
    second_says(report, [[words(1, *plan, 0)] for plan in plans])
    second_says(report, [[words(1, *change[:6], 0), words(9, *change[6:], 0)] for change in changes])
    return len(rows)


def plan_due(*plan):
    return 'taken' if model.plan_in_range(*plan) else 'refused 3'


def entry_due(*entry):
    plan = model.table_plan(*entry)
    return 'absent' if plan is None else ' '.join(['entered', *map(str, plan)])


def memory_due(count):
    return 'taken' if model.room_of([0] * count) else 'refused 1'


def change_due(*plans):
    """A change right after an open with the plan in force, which has to be one."""
    _, station = model.open_station([0] * 24, *plans[:6], 0)
    refusal = model.change(station, [0] * 24, *plans[6:], 0)[0]
    return f'refused {refusal}' if refusal else 'taken'


def second_says(report, sessions):
    """The second program says the same of the plans and of the changes."""
    job = programs.recorder_job(programs.SECOND)
    for lines in sessions:
        text = b''.join(line + b'\n' for line in lines)
        report.agreed(lines[-1].decode(), text, {'model': model.run(text), 'second': programs.output(job, text)})


# ---- Records.antt

def held_to_edges(report):
    """The table has each record of the probe's edges, with what the model says of it, and no other."""
    text = read(report, 'Records.antt', 'records_hold : all_seen records ≡ all_due records')
    rows = dict(re.findall(r'(?<!\()\b((?:(?:waits(?: \d+){6}|loses \d+) \()?(?:screening|sampling)(?: \d+)+\)?) ▸ (passes|unsound)', text))
    due = {record_row(station): 'passes' if model.sound(station) else 'unsound' for _, *pair in edges.edges() for station in pair}
    for row, said in due.items():
        report.check(rows.get(row) == said, f'{row}: {rows.get(row, "nothing")} in the proof, and {said} by the model')
    report.check(set(rows) == set(due), f'Records.antt has rows that are no edge: {sorted(set(rows) - set(due))[:3]}')
    return len(rows)


def record_row(station):
    """A record by its numbers, as the table has it; before it the plan that waits, or how many LONG events its gap has lost,
    where there are any; room, generator and the flag heard are the same in all of them."""
    phases = {
        model.SCREENING: ('screening', model.SCREENING_FIELDS),
        model.SAMPLING: ('sampling', model.SAMPLING_FIELDS),
    }
    name, fields = phases[station.phase]
    tallies, numbers = ('conforming', 'defective', 'passed', 'missed', 'owed', 'last'), ('silent', 'told', 'oldest', 'next')
    row = spaced(name, *(getattr(station, field) for field in (*model.PLAN_FIELDS, *tallies, *fields, *numbers)))
    waiting = model.waiting_plan(station)
    if waiting != model.NO_PLAN:
        return f'{spaced("waits", *waiting)} ({row})'
    return f'{spaced("loses", station.lost)} ({row})' if station.lost else row


def spaced(name, *numbers):
    return ' '.join([name, *map(str, numbers)])
