"""How long the line can go unseen: request W13 read off frames and answers, of stored sessions and of random ones; and
what a marker has lost, request W4.

A reading that finds no fault shows little if it could find none. So wrong readings, each with one sentence of a
request taken otherwise, hear the same sessions, and each must find a fault in some and none in most. And the right one
must find a fault in the second program where a mistake that bears on the requests is switched on in it.
"""

from collections import Counter
from functools import partial

import programs
import shown
from check_random import listing
from check_stored import FOLDER
from drive import Driver
from model import CSP_1, CSP_2, CSP_F, CSP_T, CSP_V, PHASE, UNIT_LIMIT, read_frame
from parallel import in_parallel
from reached import waits
from unseen import BREAKS, FIND, GOALS, UNIT, Reading

ANSWER = 5
FRAMES = 'frames'
# Each wrong reading must find no fault in at least this share of all stored sessions.
AGREED = 0.5
# The second program's mistakes in a run, in a need, in a stay, in what ends sampling, or in what a marker has lost.
MISTAKES = (2, 3, 5, 8, 12, 16, 20, 21, 22, 23)
# The request's own numbers: the unit with which a stored session leaves screening, and the orders of its last units.
LEFT_WITH = {
    'left-after-266-units': 266, 'unit-200-missed': 466, 'two-pass-in-a-row': 2, 'five-pass-over-a-change': 2, 'what-breaks-a-run': 9,
}
LAST_ORDERS = {'two-pass-in-a-row': [1, 0, 0, 1], 'five-pass-over-a-change': [1, 0, 0, 0, 0, 0, 1]}


# ---- Wrong readings

class Unbroken(Reading):
    """A run goes on after one of the things that break it."""

    def __init__(self, cause):
        self.goes_on_after = cause
        super().__init__()

    def break_run(self, cause):
        if cause != self.goes_on_after:
            super().break_run(cause)

    def consecutive(self):
        """Such a run has a hole, which is this reading's own; the answers are to tell that it is wrong."""


class EqualBreaks(Reading):
    def equal(self, demand):
        if demand:
            self.break_run('')


class RefusedFindBreaks(Reading):
    def refused(self, frame, refusal):
        if frame and frame[0] == FIND and not self.sampling():
            self.break_run('')


class AlwaysI(Reading):
    def reduced(self):
        return False


class NewIJudges(Reading):
    def reduced(self):
        return self.plan.type == CSP_V and self.row >= (self.waiting or self.plan).i


class ChangeLeavesNeed(Reading):
    def raise_need(self):
        pass


class WaitingNeed(Reading):
    def wait(self, plan):
        super().wait(plan)
        self.need = min(self.need, plan.i)


class RunHoldsSampling(Reading):
    def begin_watch(self):
        self.back_to_screening('', self.last)


class OneLess(Reading):
    def never_unseen(self, L):
        return 2 * L - 2


class LevelsAlike(Reading):
    def length(self, level):
        return self.plan.n


class ChangeEndsNoStay(Reading):
    def stay_after_change(self):
        if self.stay.level:
            super().stay_after_change()


class WatchEndsStay(Reading):
    def begin_watch(self):
        super().begin_watch()
        self.begin_stay(0)


class CountGoesOn(Reading):
    def __init__(self):
        self.before = 0
        super().__init__()

    def lost(self, first, last):
        self.before += super().lost(first, last)
        return self.before


class CountedWhenRaised(Reading):
    def __init__(self):
        self.counted = 0
        super().__init__()

    def lost(self, first, last):
        """Those raised since the last marker."""
        since, self.counted = self.counted, len(self.raised)
        return super().lost(since + 1, self.counted)


WRONG = {
    **{f'a run goes on after {cause}': partial(Unbroken, cause) for cause in BREAKS},
    'an equal frequency on demand breaks a run': EqualBreaks,
    'a refused find breaks a run': RefusedFindBreaks,
    'the need is always i': AlwaysI,
    'the new i judges CSP-V\'s samples': NewIJudges,
    'a change in screening leaves the need': ChangeLeavesNeed,
    'a waiting plan\'s i is the need': WaitingNeed,
    'sampling is in force while the run goes on': RunHoldsSampling,
    'one of 2L - 2 units in a row is inspected': OneLess,
    'L is n at every level': LevelsAlike,
    'a change with no PHASE ends no stay': ChangeEndsNoStay,
    'a watch ends a stay': WatchEndsStay,
    'a marker leaves its count of LONG to the next': CountGoesOn,
    'LONG counts when it is raised': CountedWhenRaised,
}


# ---- Random sessions

class Stretches(Driver):
    """Small plans and stretches of good units: runs clear, levels rise, blocks go by, and some changes come as late as can be."""

    def __init__(self, seed):
        super().__init__(seed)
        self.weights = self.random.choice(((60, 6, 1, 1, 2, 2, 15, 4, 3, 1), (60, 3, 3, 3, 8, 2, 15, 6, 3, 1)))
        self.unseen = 0

    def open_somehow(self):
        type = self.random.choice((CSP_1, CSP_2, CSP_F, CSP_T, CSP_T, CSP_V, CSP_V, CSP_V))
        n, i = self.random.choice((2, 3, 3, 4)), self.random.randrange(1, 7)
        S = 0 if type == CSP_F else i + self.random.randrange(12)
        x = self.random.randrange(1, max(i, 2)) if type == CSP_V else 0
        self.open(type, n, i, S, x, UNIT_LIMIT if type == CSP_F else 0, self.seed())

    def unit(self, k=None):
        answer = super().unit(k)
        if not answer[0]:
            self.unseen = 0 if answer[4] else self.unseen + 1
        return answer

    def wish(self):
        """A change where the next unit must be inspected seldom comes by itself, nor one that finds CSP-V's row at i."""
        late = self.station.n > 2 and self.unseen == 2 * self.station.n - 2
        return 0.5 if late or self.long_row() and not waits(self.station) else super().wish()

    def do_stretch(self):
        """Three blocks of the level, each inspected unit good."""
        for _ in range(3 * self.station.n * 2 ** self.station.level):
            if self.station.owed:
                self.result(0)
            elif self.station.last < self.limit():
                self.unit()


def sessions(options):
    """How many are heard; one in four is of the kind that other parts send."""
    return options.count // 5


def drivers(options):
    for at in range(sessions(options)):
        yield f'unseen-{options.seed}-{at}', Driver if at % 4 == 0 else Stretches


# ---- The part

def check(report, pair, options):
    jobs = {name: programs.recorder_job(name) for name in pair}
    stored = [(jobs, path.stem, path.read_bytes()) for path in sorted(FOLDER.glob('*.in'))]
    random = [(jobs, name, driver) for name, driver in drivers(options)]
    as_asked(report)
    shown.check(report)
    by_stored, by_random = heard(report, hear_session, stored), heard(report, hear_random, random)
    for group, counts in (('stored', by_stored), ('random', by_random)):
        report.reached({f'{group}: {goal}': counts[goal] for goal in GOALS}, [f'{group}: {goal}' for goal in GOALS])
    for wrong in WRONG:
        told = by_stored[wrong]
        report.check(told, f'no stored session tells that this is wrong: {wrong}')
        looks_right = len(stored) - told >= AGREED * len(stored) > 0
        report.check(looks_right, f'{told} of {len(stored)} stored sessions tell that this is wrong, which does not look right: {wrong}')
    report.reached(by_random, WRONG)
    for number in MISTAKES:
        report.check(found(number, stored), f'the reading finds no fault in the answers of mistake {number}')
    return covered(len(stored), len(random), by_stored + by_random)


def covered(stored, random, counts):
    heard = f'{stored} stored sessions and {random:,} random ones, {counts[FRAMES]:,} frames{listing(counts, GOALS)}'
    return f'{heard}\n    {len(MISTAKES)} mistakes; {len(WRONG)} wrong readings, and how many sessions tell of each:{listing(counts, WRONG)}'


def as_asked(report):
    """The stored answers of the request's own examples."""
    for name, unit in LEFT_WITH.items():
        left = [at for _, kind, _, at, value in answers_of((FOLDER / f'{name}.out').read_bytes()) if kind == PHASE and value == 1]
        report.check(left == [unit], f'sessions/{name}.out does not leave screening with unit {unit} alone')
    for name, due in LAST_ORDERS.items():
        frames, answers = frames_of((FOLDER / f'{name}.in').read_bytes()), answers_of((FOLDER / f'{name}.out').read_bytes())
        orders = [answer[4] for (code, _), answer in zip(frames, answers) if code == UNIT]
        report.check(orders[-len(due):] == due, f'the last orders in sessions/{name}.out are not {due}')


def heard(report, hear, tasks):
    """What was reached, and how many sessions tell each wrong reading."""
    counts = Counter()
    for name, text, faults, reached in in_parallel(hear, tasks):
        counts.update(reached)
        for program, fault in faults.items():
            report.faultless(f'{name} by {program}', text, fault)
    return counts


def hear_random(task):
    jobs, name, driver = task
    return hear_session((jobs, name, driver(name).drive()))


def hear_session(task):
    """In a process of its own: the fault in each program's answers; what the first's reach, and which wrong readings they tell."""
    jobs, name, text = task
    frames = frames_of(text)
    outputs = {program: answers_of(output) for program, output in programs.outputs(jobs, text).items()}
    readings = {program: Reading() for program in outputs}
    faults = {program: fault_in(readings[program], frames, outputs[program]) for program in outputs}
    first = next(iter(outputs))
    told = [wrong for wrong, reading in WRONG.items() if fault_in(reading(), frames, outputs[first])]
    return name, text, faults, readings[first].reached + Counter(told) + Counter({FRAMES: len(frames)})


def found(number, stored):
    """Whether a stored session shows the mistake."""
    words = programs.recorder_job(programs.mistaken(number))
    return any(fault_in(Reading(), frames_of(text), answers_of(programs.output(words, text))) for _, _, text in stored)


def fault_in(reading, frames, answers):
    """The first thing wrong in what a program answered, with its frame, or None."""
    if len(answers) != len(frames) or None in answers:
        return f'{len(answers) - answers.count(None):,} answers to {len(frames):,} frames'
    for at, (frame, answer) in enumerate(zip(frames, answers), 1):
        reading.hear(frame, answer)
        if reading.fault:
            return f'{reading.fault}: frame {at:,}'
    reading.end()
    return reading.fault and f'{reading.fault}: the end'


def frames_of(text):
    """None for an ill-formed line, and for a last one without line feed."""
    *lines, torn = text.split(b'\n')
    return [read_frame(line) for line in lines] + [None] * (torn != b'')


def answers_of(output):
    return [answer_of(line) for line in output.split(b'\n')[:-1]]


def answer_of(line):
    """The five numbers of an answer line, or None."""
    try:
        numbers = tuple(int(part, 16) for part in line.split(b' '))
    except ValueError:
        return None
    return numbers if len(numbers) == ANSWER else None
