"""Every cell of both tables, through frame 08: i by START, S by the alarm, n by the orders, N by the limit of units; and the
seed by the orders too, be it written or a station number."""

import random

import model
import programs
from model import CSP_F, CSP_T, TABLE_III_A_4, TABLE_V, TABLE_V_AQL
from script import Script


def check(report, pair, options):
    jobs = {name: programs.recorder_job(name) for name in pair}
    sessions = [*table_v(), *table_iii_a_4()]
    for name, script in sessions:
        text = script.text()
        report.agreed(name, text, {'model': script.expected(), **programs.outputs(jobs, text)})
    for number in (None, 5_000):
        absent(report, jobs, options, number)
    return f'{len(sessions)} entries of the two tables by their i, n and S or N; {2 * ABSENT:,} entries that are not there'


def table_v():
    for letter, row in enumerate(TABLE_V, 1):
        for aql in TABLE_V_AQL:
            script = Script()
            script.station_number(5_000 * letter + aql)
            script.table(CSP_T, letter, aql, seed=None)
            to_the_alarm(script)
            to_sampling(script)
            yield f'table-v-{letter}-{aql}', script


def to_the_alarm(script):
    """A defect as unit S - 1 raises no LONG; the next one, as unit S, does."""
    S, i = script.station.S, script.station.i
    while script.station.screened < S - 2:
        script.good(min(i - 1, S - 2 - script.station.screened))
        if script.station.screened < S - 2:
            script.bad()
    script.bad()
    script.take_all()
    script.bad()
    script.take_all()


def to_sampling(script):
    """One unit less than i, then i itself, then two blocks."""
    script.good(script.station.i - 1)
    script.take_all()
    script.good()
    script.units(2 * script.station.n)
    script.take_all()


def table_iii_a_4():
    """The first period of each row with a seed that is written, and the last with a station number."""
    first = 1
    for last, cells in TABLE_III_A_4:
        for letter in range(1, len(cells) + 1):
            for N, seed in ((first, letter), (last, None)):
                script = Script()
                script.station_number(5_000 * letter)
                script.table(CSP_F, letter, 40, N, seed)
                to_the_period_end(script)
                yield f'table-iii-a-4-{letter}-{N}', script
        first = last + 1


def to_the_period_end(script):
    N = script.station.N
    if script.station.i < N:
        to_sampling(script)
    script.take_all()
    script.unit(N + 1)
    script.unit(N)
    script.unit(N + 1)
    script.take_all()


ABSENT = 1_000


def absent(report, jobs, options, number):
    """Entries that no table has, many to a session: a refused open leaves the next one free, and the station number as it is.

    Without a number those that leave their seed off get 9 before anything is looked up, and come on top of the others.
    """
    chosen = random.Random(f'{options.seed}-absent-{number}')
    near = (*range(13), 39, 40, 41, 399, 400, 500, 650, 10_000, 10_001, 70_000, 1_000_000, 1_000_001, 2 ** 32 - 1)
    script = Script()
    looked_up = 0
    if number:
        script.station_number(number)
    while looked_up < ABSENT:
        entry = [chosen.choice((3, 4, chosen.choice(near))), *(chosen.choice(near) for _ in range(3))]
        if model.table_plan(*entry) is None:
            seed = chosen.choice((None, 0, 7))
            script.table(*entry, seed=seed)
            looked_up += bool(number) or seed is not None
    name, text = f'table-absent-entries-{number}', script.text()
    report.agreed(name, text, {'model': script.expected(), **programs.outputs(jobs, text)})
