"""The table in crates/rules/proofs/UnseenMet.antt, what calls and answers show after a history: held to the reading of W13.

The definitions compute that table in a proof. Here the answers to the same calls come from the model, and what they show
from the reading, which knows neither the definitions nor the proofs.
"""

import re
from pathlib import Path

import model
from unseen import Reading

TABLE = Path(__file__).resolve().parent.parent / 'crates' / 'rules' / 'proofs' / 'UnseenMet.antt'
ROWS = 21
TYPES = {'csp1': model.CSP_1, 'csp2': model.CSP_2, 'csp_f': model.CSP_F, 'csp_t': model.CSP_T, 'csp_v': model.CSP_V}
FRAMES = {'UnitOf': 2, 'Result': 3, 'Interrupt': 4, 'CheckFind': 5, 'Tick': 6, 'Take': 7}
# S of every plan in the table.
S = 9
PLAN = r'plan_of (\w+) (\d+) (\d+) (\d+)'
ROW = re.compile(rf'(?m)^    (?:∷ )?(row|row_on) \({PLAN}\) \((.*) ∷ \[\]\) (\d+) (true|false) (\[\]|\([^()]*\)) (\d+) (\d+)$')
CHANGE = re.compile(rf'Change \({PLAN}\) (true|false)')


def check(report):
    rows = ROW.findall(TABLE.read_text())
    report.check(len(rows) == ROWS, f'{TABLE.name} has {len(rows)} rows that can be read, and {ROWS} are due')
    for form, type, n, i, x, calls, *shown in rows:
        due = heard(type, (n, i, x), calls.split(' ∷ '))
        report.check(due[form] == seen(shown), f'{TABLE.name} has {shown} where the reading has {due[form]}: {calls}')


def seen(shown):
    """Last unit, whether its result is awaited, run, need, and the last column of the row."""
    last, awaits, run, need, count = shown
    return int(last), awaits == 'true', [int(unit) for unit in re.findall(r'\d+', run)], int(need), int(count)


def heard(type, numbers, calls):
    """What the reading has after these calls, by the form of a row: its last column counts samples, or a watch's."""
    program, reading = model.Program(), Reading()
    for frame in [(1, plan_words(type, *numbers, 0)), *(frame_of(call) for call in calls)]:
        line = ' '.join([f'{frame[0]:02X}', *(f'{word:08X}' for word in frame[1])])
        reading.hear(frame, tuple(program.answer(line.encode())))
    both = reading.last, reading.owed, reading.run, reading.need
    to_come = 0 if reading.watched is None else reading.plan.i - reading.watched
    return {'row': (*both, reading.row if reading.sampling() else 0), 'row_on': (*both, to_come)}


def frame_of(call):
    change = CHANGE.fullmatch(call)
    if change:
        *plan, demand = change.groups()
        return 9, plan_words(*plan, int(demand == 'true'))
    name, *words = call.split()
    return FRAMES[name], [int(word) for word in words]


def plan_words(type, n, i, x, last):
    """The words of a frame that has a plan: type, n, i, S, x, N, and one more."""
    return [TYPES[type], int(n), int(i), S, int(x), 0, last]
