"""How soon neighbouring stations choose different places (document 02, W6).

That stations with different numbers are in different states is proved (crates/rules/specs/Neighbours.antt); that they choose different
places is counted here. Twelve stations are run, and their places read off the orders. Of every two numbers that are as close as those of
twelve neighbours the block in which they part is found by the step and the place that the recorder has. The formula of document 01 is
the second opinion on both, and docs/REGULATOR.md has the tables that come of it.
"""

import re
from collections import namedtuple
from itertools import zip_longest

import programs
from check_unseen import answers_of, frames_of
from model import CSP_T, MOST_STATIONS, PHASE, TABLE_V_N
from script import Script

UNIT, TAKE = 2, 7
STATIONS = range(1, 13)
BLOCKS = 8
AQL = 1_500                   # i is 25 or more, and so many samples in a row does no station here take: each stays at level 0
FREQUENCIES = TABLE_V_N[:10]  # by letter; K has the n of J
SOURCE = programs.ROOT / 'tests' / 'neighbours.c'
PAGE = programs.ROOT / 'docs' / 'REGULATOR.md'
HEADING = '## Do neighbouring stations choose the same places?\n'

# Of a block's length: how many pairs of neighbours there are, how many part in block 1 and how many by block 2, the latest block in which
# a pair parts, and the first pair that does.
Parting = namedtuple('Parting', 'n pairs in_first by_second latest one other')


def check(report, pair, options):
    jobs = {name: programs.recorder_job(name) for name in pair}
    counts = {name: [] for name in jobs}
    for letter in letters():
        twelve_stations(report, jobs, letter, counts)
    partings = every_parting()
    for letter, due in zip(letters(), partings):
        parts_latest(report, jobs, letter, due)
    if programs.RECORDER in pair:
        by_recorder(report, partings)
    twelve, pairs = {name: table_of_twelve(rows) for name, rows in counts.items()}, table_of_pairs(partings)
    on_the_page(report, twelve, pairs, partings[0].pairs)
    shown = ''.join(f'\n    {line}' for line in (*twelve[pair[0]], '', *pairs, ''))
    return f'{shown}\n    {len(STATIONS)} stations through {BLOCKS} blocks, and {partings[0].pairs:,} pairs, for {len(FREQUENCIES)} n'


def letters():
    return range(1, len(FREQUENCIES) + 1)


# ---- Document 01, "Sampling"

def step(s):
    return (1664525 * s + 1013904223) % 2 ** 32


def place(s, L):
    return s * L // 2 ** 32


def places_due(seed, n, blocks):
    s, due = seed, []
    for _ in range(blocks):
        s = step(s)
        due.append((place(s, n),))
    return due


# ---- Places that programs choose

def twelve_stations(report, jobs, letter, counts):
    """With one seed they choose the same places throughout; how many different ones with their numbers is counted, by program."""
    by_number = [chosen(report, jobs, letter, number, None, BLOCKS) for number in STATIONS]
    by_seed = [chosen(report, jobs, letter, number, 0, BLOCKS) for number in STATIONS]
    for name in jobs:
        counts[name].append(different(name, by_number))
        alike = different(name, by_seed)
        report.check(alike == [1] * BLOCKS, f'{name}, letter {letter}: stations with seed 0 choose {alike} different places in a block')


def different(name, stations):
    """How many different places the stations choose, block by block."""
    return [len(set(places)) for places in zip(*(station[name] for station in stations))]


def parts_latest(report, jobs, letter, due):
    """The first of the pairs that take longest choose the same places up to that block, and there different ones."""
    one, other = (chosen(report, jobs, letter, number, None, due.latest) for number in (due.one, due.other))
    for name in jobs:
        same = [a == b for a, b in zip(one[name], other[name])]
        as_due = same == [True] * (due.latest - 1) + [False]
        report.check(as_due, f'{name}, n {due.n}: stations {due.one} and {due.other} do not part in block {due.latest}: {same}')


def chosen(report, jobs, letter, number, seed, blocks):
    """The places that each program has a station choose; they are held to the formula."""
    n = FREQUENCIES[letter - 1]
    script = session(letter, number, seed, blocks)
    name, text = f'neighbours-{letter}-{number}-{seed}', script.text()
    outputs = programs.outputs(jobs, text)
    report.agreed(name, text, {'model': script.expected(), **outputs})
    places = {who: places_read(text, output, n) for who, output in outputs.items()}
    due = places_due(number if seed is None else seed, n, blocks)
    for who, read in places.items():
        report.check(read == due, f'{name}: {who} chooses {read}, and {due} is due')
    return places


def session(letter, number, seed, blocks):
    """Every unit conforms. Without a seed the open takes the number."""
    script = Script()
    script.station_number(number)
    script.table(CSP_T, letter, AQL, seed=seed)
    script.good(script.station.i)
    script.units(blocks * script.station.n)
    script.take_all()
    return script


def places_read(text, output, n):
    """Block by block the places of the units ordered inspected. The one PHASE tells which unit they are counted from, and that the
    station stayed at level 0; none are read where it does not.
    """
    heard = [(frame[0], answer) for frame, answer in zip(frames_of(text), answers_of(output)) if answer]
    phases = [(unit, value) for code, (_, kind, _, unit, value) in heard if code == TAKE and kind == PHASE]
    if [value for _, value in phases] != [1]:
        return []
    (begun, _), = phases
    orders = [answer[4] for code, answer in heard if code == UNIT][begun:]
    blocks = [orders[at:at + n] for at in range(0, len(orders), n)]
    return [tuple(at for at, order in enumerate(block) if order) for block in blocks]


# ---- Every two neighbours

def neighbours():
    """All pairs of station numbers as close as the first and the last of the twelve, or closer."""
    farthest = len(STATIONS) - 1
    return [(a, b) for a in range(1, MOST_STATIONS) for b in range(a + 1, min(a + farthest, MOST_STATIONS) + 1)]


def every_parting():
    pairs = neighbours()
    return [parting(n, pairs) for n in FREQUENCIES]


def parting(n, pairs):
    """By the formula. The pairs that have not parted are looked at once more in each block."""
    together, states, left = pairs, range(MOST_STATIONS + 1), [len(pairs)]
    while together:
        last = together[0]
        states = [step(s) for s in states]
        places = [place(s, n) for s in states]
        together = [(a, b) for a, b in together if places[a] == places[b]]
        left.append(len(together))
    return Parting(n, left[0], left[0] - left[1], left[0] - left[2], len(left) - 1, *last)


def by_recorder(report, partings):
    """The same by the library that has the recorder's own step and place."""
    job = programs.c_under_kit('neighbours', (SOURCE,), ('-O2',), (programs.static_library('places'),))
    words = [MOST_STATIONS, len(STATIONS) - 1, *FREQUENCIES]
    lines = programs.output([*job, *map(str, words)], b'').decode().splitlines()
    for line, due in zip_longest(lines, partings):
        report.check(due and line == ' '.join(map(str, due)), f'the recorder\'s step and place give {line}, and {due} is due')


# ---- The page

def table_of_twelve(rows):
    head = ('n', *(f'block {block}' for block in range(1, BLOCKS + 1)))
    return [row_of(head), '|---' * len(head) + '|', *(row_of((n, *row)) for n, row in zip(FREQUENCIES, rows))]


def table_of_pairs(partings):
    head = ('n', 'in block 1', 'by block 2', 'all by block', 'the first two that take so long')
    rows = [(p.n, f'{p.in_first:,}', f'{p.by_second:,}', p.latest, f'{p.one:,} and {p.other:,}') for p in partings]
    return [row_of(head), '|---' * len(head) + '|', *map(row_of, rows)]


def row_of(cells):
    return f'| {" | ".join(map(str, cells))} |'


def on_the_page(report, twelve, pairs, count):
    """The section has the two tables, the first as each program gives it, and says of how many pairs the second speaks."""
    section = PAGE.read_text().partition(HEADING)[2].partition('\n## ')[0]
    shown = [table.splitlines() for table in re.findall(r'(?m)(?:^\|.*\n)+', section)]
    report.check(len(shown) == 2, f'{PAGE.name} has {len(shown)} tables on neighbours, and 2 are due')
    first, second = (*shown, [], [])[:2]
    for name, due in twelve.items():
        held(report, first, due, name)
    held(report, second, pairs, 'the formula')
    said = re.findall(r'([\d,]+) pairs', section)
    report.check(said == [f'{count:,}'], f'{PAGE.name} speaks of {said} pairs, and {count:,} were counted')


def held(report, shown, due, by):
    for line, row in zip_longest(shown, due):
        report.check(line == row, f'{PAGE.name} has {line}, and by {by} it is {row}')
