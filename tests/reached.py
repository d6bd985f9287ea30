"""Counts what random sessions reach: a comparison that never came near a rule says nothing about it."""

from collections import Counter, namedtuple
from itertools import permutations
from operator import attrgetter

from model import (
    CHANGE, CHECK, CSP_2, CSP_F, CSP_T, CSP_V, DEFECT, FRAME, INTERRUPT, LONG, MARKER, MISSED, MOST_STATIONS, NO_PLAN, OPEN, PHASE,
    PLAN, SAMPLING, SCREENING, SILENCE, START, STATION_NUMBER, TABLE_OPEN, UNIT_LIMIT, WAITING_FIELDS, WORD, block_length,
    plan_in_range, read_frame, slot, step, table_plan, waiting_plan,
)

SEEN = (
    'type', 'n', 'i', 'S', 'x', 'N', 'C', 'phase', 'need', 'run', 'screened', 'unrecalled', 'level', 'place', 'chosen', 'row', 'watch',
    'watched', 'owed', 'last', 'silent', 'heard', 'told', 'oldest', 'next', 'lost', *WAITING_FIELDS,
)
View = namedtuple('View', SEEN)
look = attrgetter(*SEEN)

PLANS = {1: 'CSP-1', 2: 'CSP-2', 3: 'CSP-F', 4: 'CSP-T', 5: 'CSP-V'}
KINDS = {
    START: 'START', PHASE: 'PHASE', LONG: 'LONG', DEFECT: 'DEFECT', MISSED: 'MISSED', SILENCE: 'SILENCE',
    CHECK: 'CHECK', INTERRUPT: 'INTERRUPT', MARKER: 'marker', PLAN: 'PLAN',
}
PHASES = {SCREENING: 'screening', SAMPLING: 'sampling'}

# ---- The names of changes, for random sessions and for the probe

CHANGEABLE = [plan for type, plan in PLANS.items() if type != CSP_F]
WAYS = [f'{frequency} frequency{demand}' for frequency in ('higher', 'lower', 'equal') for demand in ('', ' on demand')]
# With a plan waiting, a request replaces it, clears it, or leaves it where the frequency is equal.
CHANGES = (
    *(f'{way} in {phase} under {plan}' for way in WAYS for phase in PHASES.values() for plan in CHANGEABLE),
    *(f'{way} in {phase}, {who} waiting' for way in WAYS for phase in PHASES.values() for who in ('a plan', 'none')),
)
WHY_NOT_ALLOWED = ('type differs', 'CSP-F', 'n rises and i does not', 'n falls and i does not')
NOT_IN_RANGE = ('n below 2', 'n above 200', 'i below 1', 'i above 10,000', 'S below i', 'S above 100,000', 'x', 'N')
CHANGES_REFUSED = (
    *(f'change 11: {reason}' for reason in WHY_NOT_ALLOWED),
    *(f'change 3: {number}' for number in NOT_IN_RANGE),
)


def waits(st):
    return waiting_plan(st) != NO_PLAN


def change_as(st, plan, demand):
    """What a change that is taken is called: by the plan's type, and by what was waiting."""
    n = plan[1]
    frequency = 'higher' if n < st.n else 'lower' if n > st.n else 'equal'
    way = f'{frequency} frequency{" on demand" if demand else ""} in {PHASES[st.phase]}'
    return f'{way} under {PLANS[st.type]}', f'{way}, {"a plan" if waits(st) else "none"} waiting'


def change_refused_as(st, plan, refusal):
    """Why a change is refused 11 or 3, where there is one reason alone: another could not speak for it."""
    reasons = {11: why_not_allowed(st, *plan[:3]), 3: why_not_in_range(*plan)}.get(refusal, [])
    return [f'change {refusal}: {reason}' for reason in reasons] if len(reasons) == 1 else []


def why_not_allowed(st, type, n, i):
    holds = (type != st.type, type == st.type == CSP_F, n > st.n and i <= st.i, n < st.n and i >= st.i)
    return [reason for reason, here in zip(WHY_NOT_ALLOWED, holds) if here]


def why_not_in_range(type, n, i, S, x, N):
    """For the types that a change can be asked of."""
    x_wrong = not 1 <= x <= i if type == CSP_V else x != 0
    holds = (n < 2, n > 200, i < 1, i > 10_000, S < i, S > 100_000, x_wrong, N != 0)
    return [number for number, here in zip(NOT_IN_RANGE, holds) if here]


# ---- The goals

# Where a waiting plan is taken up, and what looks like such a place and is none.
PLACES = ('the shift to sampling', 'a reverting defect', 'a missed stretch', 'an interrupt')
ON_DEMAND = 'a change on demand'
NO_PLACES = (
    'unit in screening', 'jump in screening', 'interrupt in screening', 'find', 'defect in screening', 'tick in screening',
    'unit in sampling', 'a level begins', 'watch starts', 'watch ends', 'tick in sampling',
)

# What is dropped counts, and not what drops it: every kind but START, which comes first, drops a LONG. Neighbours are never
# both LONG, since each follows its DEFECT.
LOST = (
    *(f'marker that lost {how_many} LONG' for how_many in ('no', 'one', 'two or three', 'four or more')),
    'marker of a LONG alone', 'marker that lost no LONG, one told before', 'marker that lost no LONG, one held',
    'marker that lost LONG after another that did', 'marker that lost no LONG after one that did',
    *(f'LONG dropped by {KINDS[kind]}' for kind in KINDS if kind not in (START, MARKER)),
    'LONG raised into a full queue drops no LONG',
    'one LONG of two dropped in one call', 'one LONG of three dropped in one call', 'two LONG of three dropped in one call',
    'LONG dropped, another held', 'LONG dropped, none held', 'LONG dropped in several calls before the marker',
    'first LONG dropped as a gap widens', 'gap that lost LONG widens with none',
    'LONG lost, a call that raises nothing', 'LONG lost, a refused call',
)

# W6. A number is refused in four ways that a mistake may take for a number; what is refused after one leaves it, and another
# replaces it, as the orders of a table open without seed show. The three frames, each good by itself, come in every order.
TABLES = {CSP_T: 'Table V', CSP_F: 'Table III-A-4'}
OUT_OF_RANGE = {0: '0', MOST_STATIONS + 1: '65,536', WORD - 1: 'FFFFFFFF'}
LOW_BITS = 'in range in its low bits'
LEFT_BY = ('a refused number', 'an ill-formed 0A', 'a refused 01', 'a refused 08', 'a number before it')
BEFORE_OPEN = {OPEN: '01', TABLE_OPEN: '08', STATION_NUMBER: '0A'}
STATION_NUMBERS = (
    'station number 1', 'station number 65,535', 'station number replaced', 'the same station number again',
    *(f'station number {number}, {who} before' for number in (*OUT_OF_RANGE.values(), LOW_BITS) for who in ('none', 'one')),
    *(f'station number after {code}, {where}' for code in ('01', '08') for where in ('in range', 'out of range')),
    'station number with 0 words', 'station number with 2 words',
    *(f'neither seed nor station number, entry {where}' for where in ('there', 'absent')),
    *(f'absent entry {seed}' for seed in ('with seed', 'with the station number')),
    *(f'{table} with {seed}' for table in TABLES.values() for seed in ('seed', 'seed over a station number', 'the station number')),
    'seed 0 over a station number', '01 over a station number',
    *(f'seed is the station number after {what}' for what in LEFT_BY),
    *(f'no seed after an open, {who} station number' for who in ('a', 'no')),
    'block drawn from the station number', 'place that seed 0 would not choose',
    *(f'{", ".join(order)}: 08 {seed}' for order in permutations(BEFORE_OPEN.values()) for seed in ('with seed', 'without seed')),
)

# What a run must reach at least once. Refusal 1 needs another memory and 10 eight million events: neither is a
# matter of random frames, and other parts reach both.
GOALS = (
    *(f'opened {plan}' for plan in PLANS.values()),
    *(f'refusal {number}' for number in (*range(2, 10), 11)),
    'ill-formed frame', 'open after an open', 'result neither 0 nor 1',
    *(f'{plan} sampling' for plan in PLANS.values()),
    *(f'{plan} reverts' for plan in PLANS.values()),
    'level 1', 'level 2', 'revert from level 1', 'revert from level 2',
    'watch starts', 'watch ends', 'watch reverts', 'second watch of a stay',
    'need x', 'need i after a short row', 'need x lost to a defect', 'need x cleared', 'find under need x', 'row stops at i',
    'period ends', 'last unit number', 'LONG at S', 'LONG above S', 'defect one below S',
    'jump in screening', 'jump in sampling', 'jump at first', 'jump cuts a run', 'jump after i good samples',
    'interrupt in screening', 'interrupt in sampling', 'interrupt after i good samples',
    'find', 'find in sampling', 'find with none left', 'find while owed', 'find after a find', 'find at S', 'find above S',
    'find with a unit heard', 'find in a silence',
    'LONG at the first defect after a find', 'LONG at a later defect after a find', 'LONG after a find, none left to recall',
    'LONG after a find and a change at once', *(f'LONG after a find under {plan}' for plan in CHANGEABLE),
    'defect below S after a find', 'defect after a find under CSP-F',
    *(f'no LONG after a find and {place}' for place in (*PLACES[1:], ON_DEMAND)),
    'silence begins', 'silence goes on', 'tick after a unit', 'tick while owed',
    'gap begins', 'gap widens', 'two drops in one call', 'marker of more than two',
    *(f'taken {kind}' for kind in KINDS.values()), 'nothing to take',
    *CHANGES, *CHANGES_REFUSED,
    'change before an open', 'demand neither 0 nor 1', 'change while owed', 'refused change, a plan waiting',
    'change before the first unit', 'change in a silence',
    'new plan between the waiting one and the one in force', 'waiting plan replaced by another',
    'change at once keeps a run', 'change at once ends need x', 'LONG by the new S alone', 'no LONG by the new S alone',
    'change at once within a block', 'change at once, watch on', 'change at once, no watch',
    'change at once at level 1', 'change at once at level 2', 'change on demand, watch on',
    'change on demand at level 1', 'change on demand at level 2', 'change on demand, row at i',
    *(f'taken up at {place} under {plan}' for place in PLACES for plan in CHANGEABLE),
    'taken up from need x', 'taken up from level 1', 'taken up from level 2',
    'CSP-V reverts to the new x', 'CSP-V reverts to the new i',
    'jump to the new i after i good samples', 'interrupt to the new i after i good samples',
    *(f'not taken up: {turn}' for turn in NO_PLACES),
    'three events in one call', 'three drops in one call',
    *LOST, *STATION_NUMBERS,
)


class Finds:
    """The finds of a screening sequence: units screened before a find count in LONG, those of the sequence before do not."""

    def __init__(self):
        self.latest = None    # the record at the latest find of this sequence
        self.defects = 0      # how many came after it
        self.changed = False  # whether a change at once did
        self.left = 0         # screened at the end of the sequence before, where a find was in it
        self.place = ''       # what began this one

    def find(self, before):
        """A find raises no LONG, however many are screened."""
        if self.latest and self.latest.last == before.last:
            yield 'find after a find'
        if before.S and before.screened >= before.S:
            yield 'find at S' if before.screened == before.S else 'find above S'
        self.latest, self.defects, self.changed = before, 0, False

    def ended(self, screened):
        self.left = screened if self.latest else 0
        self.latest = None

    def defect(self, after):
        if self.latest:
            self.defects += 1
            yield from self.after_a_find(after)
        elif after.screened < after.S <= after.screened + self.left:
            yield f'no LONG after a find and {self.place}'

    def after_a_find(self, after):
        """LONG is told apart where the units since the find would not have raised it."""
        if after.type == CSP_F:
            yield 'defect after a find under CSP-F'
        elif after.screened < after.S:
            yield 'defect below S after a find'
        elif after.screened - self.latest.screened < after.S:
            yield f'LONG at {"the first" if self.defects == 1 else "a later"} defect after a find'
            yield f'LONG after a find under {PLANS[after.type]}'
            if after.unrecalled == 0:
                yield 'LONG after a find, none left to recall'
            if self.changed:
                yield 'LONG after a find and a change at once'


class Raised:
    """The kinds of all events raised, the first at 0: what a gap lost is told by them, whatever the record says."""

    def __init__(self):
        self.kinds = []
        self.told = False  # whether a LONG has been taken
        self.lost = []     # how many LONG events each marker has told

    def hear(self, station, queue):
        """The events of a call, which are held when it ends."""
        for number in range(len(self.kinds) + 1, station.next):
            self.kinds.append(queue[slot(station, number)] >> 24)

    def in_gap(self, station):
        return self.kinds[station.told - 1:station.oldest - 1].count(LONG)

    def dropped(self, before, after):
        """Event m drops event m - C."""
        gone = self.kinds[before.oldest - 1:after.oldest - 1]
        for kind, comes in zip(gone, self.kinds[before.oldest - 1 + before.C:]):
            if kind == LONG:
                yield f'LONG dropped by {KINDS[comes]}'
            elif comes == LONG:
                yield 'LONG raised into a full queue drops no LONG'
        if LONG in gone:
            yield from self.long_dropped(before, after, gone.count(LONG), len(gone))
        elif before.lost:
            yield 'gap that lost LONG widens with none'

    def long_dropped(self, before, after, alarms, gone):
        yield f'LONG dropped, {"another" if LONG in self.kinds[after.oldest - 1:] else "none"} held'
        if gone > 1:
            yield f'{("one", "two")[alarms - 1]} LONG of {("two", "three")[gone - 2]} dropped in one call'
        if before.lost:
            yield 'LONG dropped in several calls before the marker'
        elif before.told < before.oldest:
            yield 'first LONG dropped as a gap widens'

    def marker(self, before):
        lost = self.in_gap(before)
        yield f'marker that lost {("no", "one", "two or three", "two or three", "four or more")[min(lost, 4)]} LONG'
        if lost == before.oldest - before.told:
            yield 'marker of a LONG alone'
        if any(self.lost):
            yield 'marker that lost LONG after another that did' if lost else 'marker that lost no LONG after one that did'
        if not lost and self.told:
            yield 'marker that lost no LONG, one told before'
        if not lost and LONG in self.kinds[before.oldest - 1:]:
            yield 'marker that lost no LONG, one held'
        self.lost.append(lost)


def good_words(code, words):
    """Whether one of the three frames that have their place before the open is good by itself."""
    if code == STATION_NUMBER:
        return 1 <= words[0] <= MOST_STATIONS
    return plan_in_range(*words[:6]) if code == OPEN else table_plan(*words[:4]) is not None


class Numbers:
    """The station number of a session: what gives it, what leaves it, and which seed an open takes."""

    def __init__(self):
        self.number = None
        self.left_by = set()  # what came since it was taken, and left it
        self.opened_by = ''   # the code of the accepted open
        self.zero = None      # where the number is the seed: what seed 0 would be after as many draws
        self.came = []        # the three codes, in the order in which they first came with good words
        self.seeded = ''      # how the first 08 of them came

    def hear(self, frame, refusal):
        code, words = frame
        if code not in BEFORE_OPEN:
            return
        calls = {OPEN: self.open, TABLE_OPEN: self.table_open, STATION_NUMBER: self.station_number}
        yield from calls[code](words, refusal)
        yield from self.in_order(code, words)
        if code != STATION_NUMBER and not refusal:
            self.opened_by = BEFORE_OPEN[code]

    def ill_formed(self, text):
        if text.startswith(b'0A') and FRAME.fullmatch(text):
            self.left_by.add('an ill-formed 0A')
            yield f'station number with {text.count(b" ")} words'

    def station_number(self, words, refusal):
        number = words[0]
        if self.opened_by:
            yield f'station number after {self.opened_by}, {"in" if good_words(STATION_NUMBER, words) else "out of"} range'
        elif refusal:
            self.left_by.add('a refused number')
            yield f'station number {OUT_OF_RANGE.get(number, LOW_BITS)}, {"one" if self.number else "none"} before'
        else:
            yield from self.taken(number)

    def taken(self, number):
        if number in (1, MOST_STATIONS):
            yield f'station number {number:,}'
        if self.number:
            yield 'the same station number again' if number == self.number else 'station number replaced'
        self.left_by = {'a number before it'} if self.number not in (None, number) else set()
        self.number = number

    def table_open(self, words, refusal):
        seedless = len(words) == 4
        if self.opened_by:
            yield from [f'no seed after an open, {"a" if self.number else "no"} station number'] * seedless
        elif refusal == 9:
            yield f'neither seed nor station number, entry {"there" if table_plan(*words) else "absent"}'
        elif refusal:
            self.left_by.add('a refused 08')
            yield f'absent entry {"with the station number" if seedless else "with seed"}'
        elif seedless:
            self.zero = 0
            yield f'{TABLES[words[0]]} with the station number'
            yield from (f'seed is the station number after {what}' for what in self.left_by)
        else:
            yield f'{TABLES[words[0]]} with seed{" over a station number" if self.number else ""}'
            yield from ['seed 0 over a station number'] * (self.number is not None and words[4] == 0)

    def open(self, words, refusal):
        if refusal:
            self.left_by.add('a refused 01')
        elif self.number:
            yield '01 over a station number'

    def in_order(self, code, words):
        if BEFORE_OPEN[code] in self.came or not good_words(code, words):
            return
        self.came.append(BEFORE_OPEN[code])
        if code == TABLE_OPEN:
            self.seeded = 'with seed' if len(words) == 5 else 'without seed'
        if len(self.came) == len(BEFORE_OPEN):
            yield f'{", ".join(self.came)}: 08 {self.seeded}'

    def drawn(self, before, after):
        """A block's first unit, where the number is the seed."""
        if self.zero is None:
            return
        self.zero = step(self.zero)
        yield 'block drawn from the station number'
        if after.chosen != self.zero * block_length(before) // WORD:
            yield 'place that seed 0 would not choose'


class Watcher:
    """Looks at the record before and after each frame."""

    def __init__(self):
        self.count = Counter()
        self.watches = 0
        self.old_S = 0
        self.finds = Finds()
        self.raised = Raised()
        self.numbers = Numbers()
        self.calls = {
            OPEN: self.opened, 2: self.unit, 3: self.result, 4: self.interrupt, 5: self.find, 6: self.tick, 7: self.take,
            TABLE_OPEN: self.opened, CHANGE: self.changed,
        }

    def view(self, station):
        return View._make(look(station)) if station else None

    def reach(self, *goals):
        self.count.update(goals)

    def observe(self, text, before, answer, station, queue):
        frame = read_frame(text)
        refusal = answer[0]
        if refusal:
            self.reach(f'refusal {refusal}', *(['LONG lost, a refused call'] if before and before.lost else []))
        if frame is None:
            self.ill_formed(text)
            return
        self.reach(*self.numbers.hear(frame, refusal))
        if refusal:
            self.refused(frame, before, refusal)
        elif frame[0] != STATION_NUMBER:
            self.raised.hear(station, queue)
            self.calls[frame[0]](frame, before, answer, self.view(station))
            if before:
                self.drops(before, self.view(station))

    def ill_formed(self, text):
        self.reach('ill-formed frame', *self.numbers.ill_formed(text))
        if text.startswith(b'%02X' % CHANGE) and read_frame(text[:-8] + b'%08X' % 0):
            self.reach('demand neither 0 nor 1')

    def refused(self, frame, before, refusal):
        code = frame[0]
        if code == CHANGE:
            self.refused_change(frame, before, refusal)
        if code in (OPEN, TABLE_OPEN) and before:
            self.reach('open after an open')
        if code == 3 and refusal == 9:
            self.reach('result neither 0 nor 1')
        if code == 2 and refusal == 7 and before.last == (before.N or UNIT_LIMIT):
            self.reach('period ends' if before.type == CSP_F else 'last unit number')
        if code == 5 and before:
            in_phase = 'find in sampling' if before.phase == SAMPLING else 'find with none left'
            self.reach('find while owed' if before.owed else in_phase)

    def refused_change(self, frame, before, refusal):
        if before is None:
            self.reach('change before an open')
            return
        self.reach(*change_refused_as(before, frame[1][:6], refusal))
        if refusal == 4:
            self.reach('change while owed')
        if waits(before):
            self.reach('refused change, a plan waiting')

    # ---- Accepted calls

    def opened(self, frame, before, answer, after):
        self.reach(f'opened {PLANS[after.type]}')

    def unit(self, frame, before, answer, after):
        if after.last == before.last + 1:
            self.no_place(before, 'unit in sampling' if before.phase == SAMPLING else 'unit in screening')
            if before.phase == SAMPLING and before.place == 0:
                self.reach(*self.numbers.drawn(before, after))
            return
        self.reach('jump in screening' if before.phase == SCREENING else 'jump in sampling')
        if before.last == 0:
            self.reach('jump at first')
        if before.run:
            self.reach('jump cuts a run')
        if before.type == CSP_V and before.row == before.i:
            self.reach('jump after i good samples')
        self.new_sequence(before, 'jump', 'a missed stretch')

    def result(self, frame, before, answer, after):
        defective = frame[1][0] == 1
        if before.phase == SCREENING:
            self.screened(before, after, defective)
        else:
            self.sampled(before, after, defective)

    def screened(self, before, after, defective):
        if after.phase == SAMPLING:
            self.sampling_begins(before, after)
        if not defective:
            return
        if before.need < before.i:
            self.reach('need x lost to a defect')
        if before.S and after.screened >= before.S - 1:
            above = after.screened - before.S
            self.reach('defect one below S' if above < 0 else 'LONG at S' if above == 0 else 'LONG above S')
        if self.old_S and (after.screened < self.old_S) != (after.screened < after.S):
            self.reach('no LONG by the new S alone' if after.screened < after.S else 'LONG by the new S alone')
        self.reach(*self.finds.defect(after))
        self.no_place(before, 'defect in screening')

    def sampling_begins(self, before, after):
        self.watches = self.old_S = 0
        self.finds.ended(before.screened + 1)
        self.reach(f'{PLANS[after.type]} sampling')
        if before.need < before.i:
            self.reach('need x cleared')
        if waits(before):
            self.taken_up(before, 'the shift to sampling')
            if before.need < before.i:
                self.reach('taken up from need x')

    def sampled(self, before, after, defective):
        if after.phase == SCREENING:
            self.reverted(before, after)
        if after.level > before.level:
            self.reach(f'level {after.level}')
            self.no_place(before, 'a level begins')
        if before.type == CSP_V and before.row == before.i and not defective:
            self.reach('row stops at i')
        if after.watch > before.watch:
            self.watches += 1
            self.reach('watch starts', *(['second watch of a stay'] if self.watches > 1 else []))
            self.no_place(before, 'watch starts')
        if before.watch and not defective and not after.watch:
            self.reach('watch ends')
            self.no_place(before, 'watch ends')

    def reverted(self, before, after):
        self.sequence(before, 'a reverting defect')
        self.reach(f'{PLANS[before.type]} reverts')
        if before.level:
            self.reach(f'revert from level {before.level}')
        if before.type == CSP_2:
            self.reach('watch reverts')
        if waits(before):
            self.reverted_with_new_plan(before, after)
        elif before.type == CSP_V and before.x < before.i:
            self.reach('need x' if after.need == before.x else 'need i after a short row')

    def reverted_with_new_plan(self, before, after):
        self.taken_up(before, 'a reverting defect')
        if before.level:
            self.reach(f'taken up from level {before.level}')
        if before.type == CSP_V and after.x < after.i:
            self.reach('CSP-V reverts to the new x' if before.row == before.i else 'CSP-V reverts to the new i')

    def interrupt(self, frame, before, answer, after):
        self.reach('interrupt in screening' if before.phase == SCREENING else 'interrupt in sampling')
        if before.type == CSP_V and before.row == before.i:
            self.reach('interrupt after i good samples')
        self.new_sequence(before, 'interrupt', 'an interrupt')

    def find(self, frame, before, answer, after):
        self.reach('find', 'find with a unit heard' if before.heard else 'find in a silence' if before.silent else 'find after a tick')
        if before.need < before.i:
            self.reach('find under need x')
        self.reach(*self.finds.find(before))
        self.no_place(before, 'find')

    def tick(self, frame, before, answer, after):
        self.reach('tick after a unit' if before.heard else 'silence goes on' if before.silent else 'silence begins')
        if before.owed:
            self.reach('tick while owed')
        self.no_place(before, f'tick in {PHASES[before.phase]}')

    def take(self, frame, before, answer, after):
        kind, count = answer[1], answer[4]
        self.reach(f'taken {KINDS[kind]}' if kind else 'nothing to take')
        if kind == LONG:
            self.raised.told = True
        if kind == MARKER:
            self.reach(*self.raised.marker(before), *(['marker of more than two'] if count > 2 else []))

    def drops(self, before, after):
        """What a call that raised events pushed out."""
        if after.next == before.next + 3:
            self.reach('three events in one call')
        if after.next == before.next:
            self.reach(*(['LONG lost, a call that raises nothing'] if before.lost and before.told == after.told else []))
            return
        if after.oldest == before.oldest:
            return
        self.reach(*self.raised.dropped(before, after))
        self.reach('gap widens' if before.told < before.oldest else 'gap begins')
        if after.oldest > before.oldest + 1:
            self.reach('two drops in one call' if after.oldest == before.oldest + 2 else 'three drops in one call')

    # ---- Changes

    def changed(self, frame, before, answer, after):
        *plan, demand = frame[1]
        self.reach(*change_as(before, plan, demand))
        if before.last == 0 and after.n != before.n:
            self.reach('change before the first unit')
        if before.silent and not before.heard:
            self.reach('change in a silence')
        if waits(before):
            self.second_request(before, after, plan[1])
        if after.n != before.n:
            (self.on_demand if demand else self.at_once)(before)

    def second_request(self, before, after, n):
        if min(before.n, before.waiting_n) < n < max(before.n, before.waiting_n):
            self.reach('new plan between the waiting one and the one in force')
        if waits(after) and waiting_plan(after) != waiting_plan(before):
            self.reach('waiting plan replaced by another')

    def on_demand(self, before):
        self.old_S = 0
        self.sequence(before, ON_DEMAND)
        if before.watch:
            self.reach('change on demand, watch on')
        if before.level:
            self.reach(f'change on demand at level {before.level}')
        if before.type == CSP_V and before.row == before.i:
            self.reach('change on demand, row at i')

    def at_once(self, before):
        (self.at_once_in_screening if before.phase == SCREENING else self.at_once_in_sampling)(before)

    def at_once_in_screening(self, before):
        """The S before it is kept until sampling starts: a defect that it would judge otherwise is told apart."""
        self.old_S = before.S
        self.finds.changed = True
        if before.run:
            self.reach('change at once keeps a run')
        if before.need < before.i:
            self.reach('change at once ends need x')

    def at_once_in_sampling(self, before):
        if before.place:
            self.reach('change at once within a block')
        if before.type == CSP_2 and not before.watch:
            self.reach('change at once, no watch')
        if before.watched:
            self.reach('change at once, watch on')
        if before.level:
            self.reach(f'change at once at level {before.level}')

    def new_sequence(self, before, turn, place):
        """A jump or an interrupt: a waiting plan is taken up in sampling and waits on in screening."""
        self.sequence(before, place)
        if not waits(before):
            return
        if before.phase == SCREENING:
            self.no_place(before, f'{turn} in screening')
            return
        self.taken_up(before, place)
        if before.type == CSP_V and before.row == before.i:
            self.reach(f'{turn} to the new i after i good samples')

    def sequence(self, before, place):
        """A new one, from either phase: in sampling the one before has ended already."""
        if before.phase == SCREENING:
            self.finds.ended(before.screened)
        self.finds.place = place

    def taken_up(self, before, place):
        self.reach(f'taken up at {place} under {PLANS[before.type]}')

    def no_place(self, before, turn):
        if waits(before):
            self.reach(f'not taken up: {turn}')
