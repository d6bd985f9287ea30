"""Frames in words: what a line of a session asks, and what an answer to it can be."""

import re

from lib.words import (
    LEAST_N, MOST_N, MOST_STATION, NO_CHANGE, NO_ENTRY, NO_NUMBER, NO_PLAN, NO_RESULT, NO_SEED, NOT_OPEN, REFUSALS, SECOND_OPEN,
    TOO_LATE, counted, quoted, span,
)

OPEN, UNIT, RESULT, INTERRUPTED, FIND, TICK, TAKE, TABLE, CHANGE, STATION = range(1, 11)
NO_FRAME = 0
FRAME = re.compile(rb'[0-9A-F]{2}(?: [0-9A-F]{8})*')
LONGEST_LINE = 80
MOST_UNITS = 1_000_000
MOST_CLEARANCE = 10_000
MOST_SCREENED = 100_000
WORDS = {
    OPEN: (7,), UNIT: (1,), RESULT: (1,), INTERRUPTED: (0,), FIND: (0,), TICK: (0,), TAKE: (0,), TABLE: (4, 5), CHANGE: (7,),
    STATION: (1,),
}
NAMES = {
    NO_FRAME: 'ill-formed', OPEN: 'open', UNIT: 'unit', RESULT: 'result', INTERRUPTED: 'interrupt', FIND: 'check find',
    TICK: 'tick', TAKE: 'take', TABLE: 'open from table', CHANGE: 'change',
    STATION: 'numbering',  # not 'station number', which a count behind it would seem to be
}
TYPES = {1: 'CSP-1', 2: 'CSP-2', 3: 'CSP-F', 4: 'CSP-T', 5: 'CSP-V'}
LETTERS = 'ABCDEFGHIJK'
LETTERS_N = (2, 3, 4, 5, 7, 10, 15, 25, 50, 100, 100)  # n of each letter, in both tables
RESULTS = ('conforming', 'defective')

# The refusals that the program gives to each call, and the words where they say more than those for any call.
REFUSED = {
    NO_FRAME: {9: ''},
    OPEN: {3: NO_PLAN, 9: SECOND_OPEN},
    TABLE: {3: NO_ENTRY, 9: SECOND_OPEN},
    UNIT: {2: NOT_OPEN, 4: '', 6: '', 7: '', 10: ''},
    RESULT: {2: NOT_OPEN, 5: '', 9: NO_RESULT, 10: ''},
    INTERRUPTED: {2: NOT_OPEN, 4: '', 10: ''},
    FIND: {2: NOT_OPEN, 4: '', 8: '', 10: ''},
    TICK: {2: NOT_OPEN, 10: ''},
    TAKE: {2: NOT_OPEN},
    CHANGE: {2: NOT_OPEN, 3: NO_PLAN, 4: '', 10: '', 11: NO_CHANGE},
    STATION: {9: TOO_LATE},
}


def read_frame(line):
    """The code and the words of a line, its line feed cut off. What is no frame has the code NO_FRAME and the line."""
    if len(line) <= LONGEST_LINE and FRAME.fullmatch(line):
        code, *words = (int(part, 16) for part in line.split(b' '))
        if len(words) in WORDS.get(code, ()) and (code != CHANGE or words[-1] <= 1):
            return code, tuple(words)
    return NO_FRAME, (line,)


def read_frames(text):
    """Every line of a session as a frame. A last line without line feed is ill-formed, whatever it holds."""
    *lines, torn = text.split(b'\n')
    known = {}
    frames = []
    for line in lines:
        frame = known.get(line)
        if frame is None:
            frame = read_frame(line)
            if len(line) < 3:
                known[line] = frame  # ticks and takes are most of what comes again
        frames.append(frame)
    return frames + [(NO_FRAME, (torn, 'with no line feed'))] if torn else frames


# ---- What a call asks, in words

def asked(code, words):
    return ASKING[code](*words)


def plan(type, n, i, S, x, N):
    """The numbers that the type has; all of them where there is no such type."""
    numbers = {'n': n, 'i': i, 'S': S, 'x': x, 'N': N}
    idle = {'CSP-F': 'Sx', 'CSP-V': 'N'}.get(TYPES.get(type), 'xN') if type in TYPES else ''
    told = [f'{name} {number:,}' for name, number in numbers.items() if number or name not in idle]
    return ' '.join([TYPES.get(type, f'type {type:,}'), *told])


def seeded(*words):
    *numbers, seed = words
    return f'{plan(*numbers)} seed 0x{seed:X}'


def change_asked(*words):
    *numbers, demanded = words
    return f'change {"on demand " if demanded else ""}to {plan(*numbers)}'


def table_entry(type, letter, aql, N, *seed):
    """The entry that is asked for, and the seed where it is written out."""
    name = LETTERS[letter - 1] if 1 <= letter <= len(LETTERS) else f'{letter:,}'
    percent = f'{aql // 1000:,}.{aql % 1000:03}'.rstrip('0')
    percent += '0' if percent.endswith('.') else ''
    period = f' N {N:,}' if N else ''
    given = f' seed 0x{seed[0]:X}' if seed else ''
    return f'{TYPES.get(type, f"type {type:,}")} letter {name} AQL {percent}{period}{given}'


def unit_limit(code, words):
    """The last unit number of an opened plan: the period under CSP-F."""
    period = words[5] if code == OPEN else words[3]
    return period if TYPES.get(words[0]) == 'CSP-F' else MOST_UNITS


def frequency(code, words):
    """The n of an opened plan; None for a letter that no table has."""
    if code == OPEN:
        return words[1]
    return LETTERS_N[words[1] - 1] if 1 <= words[1] <= len(LETTERS) else None


def gives_seed(code, words):
    """Whether an open has its seed written out, 0 included. One that has not takes the station number."""
    return len(words) == max(WORDS[code])


def is_station_number(number):
    return 1 <= number <= MOST_STATION


def in_range(type, n, i, S, x, N):
    """Whether a plan that another may change to is within document 01's ranges: of any type but CSP-F."""
    reduced = 1 <= x <= i if TYPES[type] == 'CSP-V' else x == 0
    return LEAST_N <= n <= MOST_N and 1 <= i <= MOST_CLEARANCE and i <= S <= MOST_SCREENED and reduced and N == 0


def result_asked(value):
    return f'result: {RESULTS[value]}' if value < len(RESULTS) else f'result {value:,}'


ASKING = {
    NO_FRAME: lambda *line: 'ill-formed frame',
    OPEN: lambda *words: f'open {seeded(*words)}',
    TABLE: lambda *words: f'open {table_entry(*words)}',
    UNIT: lambda number: f'unit {number:,}',
    RESULT: result_asked,
    INTERRUPTED: lambda: 'interrupt',
    FIND: lambda: 'check find',
    TICK: lambda: 'tick',
    TAKE: lambda: 'take',
    CHANGE: change_asked,
    STATION: lambda number: f'station number {number:,}',
}


# ---- What was answered, in words

def refused(code, words, refusal, opened):
    """A call and its refusal, with the reason; of an ill-formed frame the line itself."""
    if code == NO_FRAME:
        line, *torn = words
        return ' '.join([f'ill-formed frame: refused {refusal}  {quoted(line)}', *torn])
    return f'{asked(code, words).replace(": ", " ")}: refused {refusal}, {reason(code, words, refusal, opened)}'


def reason(code, words, refusal, opened):
    """Why a call is refused so. `opened`: an open was accepted before it."""
    if code == STATION and not is_station_number(*words):
        return f'{TOO_LATE} and {NO_NUMBER}' if opened else NO_NUMBER
    if code == TABLE and refusal == 9 and not opened:
        return NO_SEED
    return REFUSED[code].get(refusal) or REFUSALS[refusal]


def skipped(first, last):
    """The units that an accepted unit call has passed over."""
    return f', {counted(last - first + 1, "unit")} not seen: {span(first, last)}' if first <= last else ''


def answer_fault(code, answer):
    """Why the program could not answer a call so, or None."""
    refusal, kind, number, unit, value = answer
    if refusal and refusal not in REFUSED[code]:
        return f'no {NAMES[code]} is refused with {refusal}'
    if not refusal and code == NO_FRAME:
        return 'an ill-formed frame is refused with 9'
    if kind and code != TAKE:
        return 'only a take tells an event'
    if value and not kind and code != UNIT:
        return 'only a unit is given an order'
    return None
