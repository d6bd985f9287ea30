"""Words for numbers, answers and events. bin/journal and bin/session both speak them, so they stand here once.

Documents 01 and 02 give each number its meaning: a refusal, a kind of event, a value.
"""

import re
from struct import Struct

NUMBERS = Struct('>BBIII')
LINE = re.compile(rb'[0-9A-F]{2} [0-9A-F]{2} [0-9A-F]{8} [0-9A-F]{8} [0-9A-F]{8}\n')
ANSWERS = re.compile(rb'(?:[0-9A-F]{2} [0-9A-F]{2}(?: [0-9A-F]{8}){3}\n)+[0-9A-F ]{0,32}')  # the last may be torn
START, PHASE, LONG, DEFECT, MISSED, SILENCE, CHECK, INTERRUPT, GAP, PLAN = range(1, 11)
LEAST_N, MOST_N = 2, 200  # a plan's frequency is one in n
MOST_STATION = 65_535     # the last station number; the first is 1

ILL_FORMED = 'an ill-formed frame'
NO_RESULT = 'a result neither 0 nor 1'
SECOND_OPEN = 'a second open'
NO_SEED = 'neither seed nor station number'
NO_NUMBER = f'not from 1 to {MOST_STATION:,}'
TOO_LATE = 'after an accepted open'
NOT_OPEN = 'no station is open'
NO_PLAN = 'a plan number is out of range'
NO_ENTRY = 'the table has no such entry'
NO_CHANGE = 'another type, CSP-F, or i does not go with n'
REFUSALS = {
    1: 'the queue memory is not the station\'s',
    2: f'no sound record, or {NOT_OPEN}',
    3: f'{NO_PLAN}, or {NO_ENTRY}',
    4: 'an inspection result is owed',
    5: 'no result is owed',
    6: 'the unit number is not above the last',
    7: 'the unit number is above the limit',
    8: 'not in screening, or nothing is left to recall',
    9: f'{ILL_FORMED}, {NO_RESULT}, {SECOND_OPEN}, no seed, or a station number too late or out of range',
    10: 'fewer than three event numbers are left',
    11: f'no such change: {NO_CHANGE}',
}
KINDS = {
    START: 'START', PHASE: 'PHASE', LONG: 'LONG', DEFECT: 'DEFECT', MISSED: 'MISSED', SILENCE: 'SILENCE',
    CHECK: 'CHECK', INTERRUPT: 'INTERRUPT', GAP: 'GAP', PLAN: 'PLAN',
}
PHASES = ('screening', 'sampling level 0', 'sampling level 1', 'sampling level 2')
PLACES = ('in screening', 'in sampling')
ORDERS = ('pass', 'inspect')
NO_UNIT = ' ' * 9
COLUMNS = f'{"event":<9}  {"number":>9}  {"unit":>9}  what it says\n'
NOTE = f'{"":>9}  ! {{}}\n'  # beneath a row: what is wrong with it
SHOWN = 5
LONGEST_QUOTE = 50


# ---- Words for numbers

def counted(count, noun):
    return f'{count:,} {noun}' if count == 1 else f'{count:,} {noun}s'


def span(first, last):
    return f'{first:,}' if first == last else f'{first:,} to {last:,}'


def few(parts, noun=None):
    """A list to be read: the first few, and how many more there are; of what, where the parts have other numbers in them."""
    more = len(parts) - SHOWN
    rest = counted(more, f'more {noun}') if noun else f'{more:,} more'
    return ', '.join(parts[:SHOWN]) + (f' and {rest}' if more > 0 else '')


def spans(ranges):
    return few([span(first, last) for first, last in ranges])


def single(ranges):
    """Whether they are one number."""
    return ranges[0][0] == ranges[-1][1]


def one_in(n):
    """A frequency."""
    return f'one in {n:,}'


# ---- Words for an entry of the journal

def named(names, value):
    return names[value] if value < len(names) else f'value {value:,}'


def without_value(words, value):
    return words if value == 0 else f'value {value:,}'


def new_plan(n):
    return f'a new plan takes force: {one_in(n)}' if LEAST_N <= n <= MOST_N else f'value {n:,}'


def among(count, long):
    """What a marker counts among so many dropped events: a single one is a LONG, or is none."""
    if count == 1 and long <= 1:
        return 'a LONG' if long else 'no LONG'
    return f'of them {long:,} LONG' if long else 'no LONG among them'


def gap(number, long, count):
    if count == 0:
        return f'value 0, unit {long:,}' if long else 'value 0'
    return f'{counted(count, "event")} dropped: {span(number, number + count - 1)}, {among(count, long)}'


SAYING = {
    START: lambda unit, value: f'clearance number {value:,}',
    PHASE: lambda unit, value: named(PHASES, value),
    LONG: lambda unit, value: f'{counted(value, "unit")} screened since the sequence began',
    DEFECT: lambda unit, value: named(PLACES, value),
    MISSED: lambda unit, value: f'{counted(value, "unit")} not seen: {span(unit, unit + value - 1)}' if value else 'value 0',
    SILENCE: lambda unit, value: f'{counted(value, "tick")} in a row with no unit',
    CHECK: lambda unit, value: without_value('a defect found in a screened unit', value),
    INTERRUPT: lambda unit, value: without_value('screening starts anew', value),
    PLAN: lambda unit, value: new_plan(value),
}


def entry(kind, number, unit, value):
    """The columns of an event or of a marker: its name, its number, its unit, and what it says. A marker has no unit."""
    if kind == GAP:
        said = gap(number, unit, value)
    elif kind in SAYING:
        said = SAYING[kind](unit, value)
    else:
        return f'kind {kind:<4}  {number:>9,}  {unit:>9,}  value {value:,}'
    seen = f'{unit:>9,}' if unit and kind != GAP else NO_UNIT
    return f'{KINDS[kind]:<9}  {number:>9,}  {seen}  {said}'


def quoted(line):
    """A line as text that does no harm to a terminal, cut where it is long."""
    text = line.decode('ascii', 'backslashreplace')
    return repr(text[:LONGEST_QUOTE]) + (' ..' if len(text) > LONGEST_QUOTE else '')


# ---- Reading

def answer(line):
    """The five numbers of an answer line, or None where it is none."""
    return NUMBERS.unpack(bytes.fromhex(line.decode())) if LINE.fullmatch(line) else None


def all_answers(text):
    """Whether text is answer lines and nothing else."""
    return ANSWERS.fullmatch(text) is not None


def ends_in_cr_lf(text):
    """Whether every line feed stands behind a carriage return, which is how some editors write a file."""
    feeds = text.count(b'\n')
    return feeds > 0 and text.count(b'\r\n') == feeds
