"""W13 read off frames and answers alone: when sampling is in force, and how long the line can go unseen.

A Reading hears each frame of a session with the answer that a program gave to it, and nothing else: no record of the
model's, and none of the probe's. It keeps the units of the run, the plan and the need in force and the orders of each
stay at one sampling level, and says where an answer is not what the documents say of that history. The model and the
second program are stations; this is what the sentence of request W13 says of one, so it draws no place and works out no
order. It keeps the events raised too, and no queue: what request W4 says of a marker is read off them.
"""

from collections import Counter, namedtuple

from model import (
    CHANGE, CHECK, CSP_2, CSP_T, CSP_V, DEFECT, INTERRUPT, LONG, MARKER, MISSED, PHASE, PLAN, SILENCE, START, STATION_NUMBER,
    table_plan,
)
from reached import KINDS, PLANS

Plan = namedtuple('Plan', 'type n i S x N')
Entry = namedtuple('Entry', 'kind unit value')
UNIT, FIND = 2, 5

# ---- What starts a sequence or breaks a run, and what does neither

OPEN, DEFECTIVE, FOUND, JUMP, STOP, DEMAND = 'an open', 'a defect', 'a find', 'a missed unit', 'an interrupt', 'a change on demand'
BREAKS = (DEFECTIVE, FOUND, JUMP, STOP, DEMAND)
ENDS_SAMPLING = (DEFECTIVE, JUMP, STOP, DEMAND)
TICK, TAKE, REFUSED, WAITS, EQUAL = 'a tick', 'a take', 'a refused call', 'a change that waits', 'an equal frequency on demand'
BREAKS_NOTHING = (TICK, TAKE, REFUSED, WAITS, EQUAL)

LEVELS = range(3)
GOALS = (
    *(f'{plan} leaves screening' for plan in PLANS.values()),
    *(f'run broken by {cause}' for cause in BREAKS),
    *(f'run one short of need broken by {cause}' for cause in BREAKS),
    *(f'run not broken by {cause}' for cause in BREAKS_NOTHING),
    'need raised during a run', 'raised need reached', 'need x reached', 'need x lost to a defect',
    'old need reached, a plan waiting',
    'watch on: run broken, sampling in force',
    *(f'sampling ended by {cause}' for cause in ENDS_SAMPLING),
    *(f'stay at CSP-T level {level}' for level in LEVELS),
    *(f'2L - 1 units in a stay at CSP-T level {level}' for level in LEVELS),
    'stay ended by a change, no PHASE', 'stay ended by a change and PHASE',
    '2L - 2 pass between two inspected, L = 2', '2L - 2 pass between two inspected, L above 2', '2L - 1 pass over a change',
    'left screening: told', 'left screening: in a gap', 'PHASE 1 that left no screening: told',
    'no LONG in a gap', 'LONG in a gap', 'several LONG in a gap',
    'find refused in sampling', 'find refused, none left to recall',
)


class Stay:
    """The orders of the units that came in one stay at one sampling level, a sign for each: 1 inspected, 0 passed."""

    def __init__(self, level, length, first):
        self.level = level
        self.length = length
        self.first = first
        self.orders = ''

    def blocks(self):
        """Those whose units all came, and the rest of the last one."""
        return [self.orders[at:at + self.length] for at in range(0, len(self.orders), self.length)]

    def passed_at_end(self):
        return len(self.orders) - len(self.orders.rstrip('0'))

    def passed_at_first(self):
        return len(self.orders) - len(self.orders.lstrip('0'))


class Reading:
    """One session. A wrong reading is one of these with a method bent."""

    def __init__(self):
        self.fault = None
        self.reached = Counter()
        self.plan = self.waiting = None
        self.last, self.owed = 0, False
        self.silent, self.heard = 0, False
        self.run, self.need, self.need_at_first, self.came = [], 0, 0, False
        self.screened = self.recallable = 0
        self.stay, self.row, self.watched = None, 0, None
        self.before_change = None
        self.raised, self.told, self.left = [], 0, set()
        self.calls = {
            1: self.opened, UNIT: self.unit, 3: self.result, 4: self.interrupt, FIND: self.find, 6: self.tick, 7: self.take,
            8: self.opened_from_table, CHANGE: self.changed, STATION_NUMBER: self.numbered,
        }

    def hold(self, good, what):
        if not good and self.fault is None:
            self.fault = what

    def reach(self, *goals):
        self.reached.update(goals)

    # ---- The frames

    def hear(self, frame, answer):
        """A frame's code and words, or None where it is ill-formed, and the five numbers of its answer."""
        refusal = answer[0]
        if frame and frame[0] == FIND and self.plan:
            self.find_answered(refusal)
        if frame is None or refusal:
            self.refused(frame, refusal)
        else:
            code, words = frame
            self.calls[code](words, answer)

    def end(self):
        self.end_stay()

    def refused(self, frame, refusal):
        self.unbroken(REFUSED)

    def opened(self, words, answer):
        self.plan = Plan(*words[:6])
        self.raise_event(START, 0, self.plan.i)
        self.sequence(OPEN, self.plan.i)

    def opened_from_table(self, words, answer):
        self.opened(table_plan(*words[:4]), answer)

    def numbered(self, words, answer):
        """A station number is a seed at most, and a seed is no matter of this reading; it comes before the open."""
        self.hold(self.plan is None, 'a station number is taken after an open')

    def unit(self, words, answer):
        k, order = words[0], answer[4]
        if k > self.last + 1:
            self.missed(k)
        self.last, self.owed, self.heard = k, order == 1, True
        if self.sampling():
            self.stay.orders += str(order)
        else:
            self.hold(order == 1, f'unit {k:,} passes in screening')

    def result(self, words, answer):
        self.hold(self.owed, f'a result is taken, and unit {self.last:,} was not ordered inspected')
        self.owed = False
        if words[0] == 0:
            self.conforming()
        else:
            self.defective()

    def interrupt(self, words, answer):
        self.raise_event(INTERRUPT, self.last, 0)
        self.back_to_screening(STOP, self.last)

    def find(self, words, answer):
        self.raise_event(CHECK, self.last, 0)
        self.recallable -= 1
        self.break_run(FOUND)

    def find_answered(self, refusal):
        """A find is refused 8 in sampling, always, and in screening exactly where nothing is left to recall."""
        due = 4 if self.owed else 8 if self.sampling() or self.recallable == 0 else 0
        self.hold(refusal == due, f'a check find gets {refusal}, and {due} is due')
        if due == 8:
            self.reach('find refused in sampling' if self.sampling() else 'find refused, none left to recall')

    def tick(self, words, answer):
        self.unbroken(TICK)
        self.silent = 0 if self.heard else self.silent + 1
        if not self.heard:
            self.raise_event(SILENCE, self.last, self.silent)
        self.heard = False

    # ---- The run, the need, and whether sampling is in force

    def sampling(self):
        """In force exactly when, since the latest start of a sequence, there came a run as long as the need at its end."""
        return self.came

    def sequence(self, cause, need):
        self.break_run(cause)
        self.came = False
        self.need = self.need_at_first = need
        self.screened = self.recallable = 0
        self.end_stay()

    def break_run(self, cause):
        if self.run and not self.sampling():
            self.reach(f'run broken by {cause}')
            if len(self.run) == self.need - 1:
                self.reach(f'run one short of need broken by {cause}')
        self.run = []

    def unbroken(self, cause):
        if self.run and not self.sampling():
            self.reach(f'run not broken by {cause}')

    def conforming(self):
        """The unit joins the run."""
        self.run.append(self.last)
        if self.sampling():
            self.good_sample()
            return
        self.screened += 1
        self.recallable += 1
        if len(self.run) >= self.need:
            self.came = True
            self.leave_screening()

    def leave_screening(self):
        self.consecutive()
        self.left_with(self.plan)
        self.raise_event(PHASE, self.last, 1)
        self.left.add(len(self.raised))
        self.take_up(self.last)
        self.watched = None
        self.begin_stay(0)

    def consecutive(self):
        ending_here = list(range(self.last - len(self.run) + 1, self.last + 1))
        self.hold(self.run == ending_here, f'the run that ends in unit {self.last:,} is not of consecutive units')

    def left_with(self, plan):
        self.reach(f'{PLANS[plan.type]} leaves screening')
        if self.need < plan.i:
            self.reach('need x reached')
        if self.need > self.need_at_first:
            self.reach('raised need reached')
        if self.waiting:
            self.reach('old need reached, a plan waiting')

    def defective(self):
        sampling = self.sampling()
        self.raise_event(DEFECT, self.last, 1 if sampling else 0)
        self.break_run(DEFECTIVE)
        if sampling:
            self.bad_sample()
            return
        self.screened += 1
        if self.need < self.plan.i:
            self.reach('need x lost to a defect')
        self.need = self.plan.i
        if 0 < self.plan.S <= self.screened:
            self.raise_event(LONG, self.last, self.screened)

    def back_to_screening(self, cause, unit, reduced=False):
        """A new sequence from either phase; a waiting plan is taken up at a return from sampling alone."""
        if self.sampling():
            self.reach(f'sampling ended by {cause}')
            self.raise_event(PHASE, unit, 0)
            self.take_up(unit)
        self.sequence(cause, self.plan.x if reduced else self.plan.i)

    def missed(self, k):
        self.raise_event(MISSED, self.last + 1, k - self.last - 1)
        self.back_to_screening(JUMP, k)

    # ---- Samples: what ends sampling, and what changes its level

    def good_sample(self):
        self.row += 1
        if self.watched is not None:
            self.watched += 1
            if self.watched == self.plan.i:
                self.watched = None
        if self.plan.type == CSP_T and self.stay.level < 2 and self.row == self.plan.i:
            self.raise_event(PHASE, self.last, self.stay.level + 2)
            self.begin_stay(self.stay.level + 1)

    def bad_sample(self):
        if self.plan.type == CSP_2 and self.watched is None:
            self.begin_watch()
        else:
            self.back_to_screening(DEFECTIVE, self.last, self.reduced())

    def begin_watch(self):
        """The run is broken, and sampling is in force all the same: a run as long as the need came, and no sequence since."""
        self.watched = 0
        self.reach('watch on: run broken, sampling in force')

    def reduced(self):
        """Whether a revert leaves need x: the plan in force at the samples judges them."""
        return self.plan.type == CSP_V and self.row >= self.plan.i

    # ---- Stays

    def begin_stay(self, level):
        self.end_stay()
        self.row = 0
        self.stay = Stay(level, self.length(level), self.last + 1)

    def length(self, level):
        return self.plan.n * 2 ** level

    def never_unseen(self, L):
        """How many units in a row have one that is inspected among them."""
        return 2 * L - 1

    def end_stay(self):
        stay, self.stay = self.stay, None
        if stay is None:
            return
        L, where = stay.length, f'in the stay from unit {stay.first:,} on, L {stay.length}'
        rows = self.never_unseen(L)
        self.hold('0' * rows not in stay.orders, f'{rows} units in a row pass {where}')
        for at, block in enumerate(stay.blocks(), 1):
            inspected, whole = block.count('1'), len(block) == L
            self.hold(inspected == 1 or inspected == 0 and not whole, f'{inspected} units of block {at:,} are inspected {where}')
        self.stayed(stay)

    def stayed(self, stay):
        """What a stay has shown; one that a change began may go on where the one before it had passed units."""
        before, self.before_change = self.before_change, None
        if before and before.passed_at_end() + stay.passed_at_first() >= 2 * max(before.length, stay.length) - 1:
            self.reach('2L - 1 pass over a change')
        if '1' + '0' * (2 * stay.length - 2) + '1' in stay.orders:
            self.reach(f'2L - 2 pass between two inspected, L {"= 2" if stay.length == 2 else "above 2"}')
        if self.plan.type == CSP_T and stay.orders:
            self.reach(f'stay at CSP-T level {stay.level}')
            if len(stay.orders) >= 2 * stay.length - 1:
                self.reach(f'2L - 1 units in a stay at CSP-T level {stay.level}')

    # ---- W1: the plan in force

    def changed(self, words, answer):
        *numbers, demand = words
        plan = Plan(*numbers)
        higher = plan.n < self.plan.n
        if plan.n == self.plan.n:
            self.equal(demand)
        elif demand:
            self.on_demand(plan)
        elif higher != self.sampling():
            self.wait(plan)
        elif higher:
            self.at_once_in_sampling(plan)
        else:
            self.at_once_in_screening(plan)

    def equal(self, demand):
        """Changes nothing, on demand too, and what waits goes on waiting."""
        if demand:
            self.unbroken(EQUAL)

    def wait(self, plan):
        self.waiting = plan
        self.unbroken(WAITS)

    def take_force(self, plan, unit):
        self.plan, self.waiting = plan, None
        self.raise_event(PLAN, unit, plan.n)

    def take_up(self, unit):
        if self.waiting:
            self.take_force(self.waiting, unit)

    def on_demand(self, plan):
        if self.sampling():
            self.reach(f'sampling ended by {DEMAND}')
            self.raise_event(PHASE, self.last, 0)
        self.take_force(plan, self.last)
        self.sequence(DEMAND, plan.i)

    def at_once_in_screening(self, plan):
        if self.run:
            self.reach('need raised during a run')
        self.take_force(plan, self.last)
        self.raise_need()

    def raise_need(self):
        self.need = self.plan.i

    def at_once_in_sampling(self, plan):
        """A watch that is on stays on, with count 0. Only a level that ends is told by PHASE; the stay ends in any case."""
        level = self.stay.level
        if self.stay.orders:
            self.reach('stay ended by a change and PHASE' if level else 'stay ended by a change, no PHASE')
        if level:
            self.raise_event(PHASE, self.last, 1)
        self.take_force(plan, self.last)
        self.watched = None if self.watched is None else 0
        self.stay_after_change()

    def stay_after_change(self):
        ended = self.stay
        self.begin_stay(0)
        self.before_change = ended

    # ---- The journal

    def raise_event(self, kind, unit, value):
        self.raised.append(Entry(kind, unit, value))

    def take(self, words, answer):
        self.unbroken(TAKE)
        _, kind, number, unit, value = answer
        if kind == 0:
            self.hold(self.told == len(self.raised), f'nothing is told, and {len(self.raised) - self.told} events are not')
            return
        last = number + value - 1 if kind == MARKER else number
        self.hold(number == self.told + 1, f'event {number:,} is told after {self.told:,}')
        self.hold(number <= last <= len(self.raised), f'events {number:,} to {last:,} are told, and {len(self.raised):,} were raised')
        self.told = last
        if kind == MARKER:
            self.marker(number, last, unit)
        elif self.fault is None:
            self.entry(number, Entry(kind, unit, value))

    def marker(self, first, last, lost):
        due = self.lost(first, last)
        self.hold(lost == due, f'the marker of events {first:,} to {last:,} has {lost:,} LONG, and {due:,} are due')
        self.reach(('no LONG in a gap', 'LONG in a gap', 'several LONG in a gap')[min(due, 2)])
        self.reach(*('left screening: in a gap' for hidden in self.left if first <= hidden <= last))

    def lost(self, first, last):
        """W4: the number of LONG events in the history under the numbers that a marker names."""
        return sum(event.kind == LONG for event in self.raised[first - 1:last])

    def entry(self, number, told):
        """The phases are told as they were, DEFECT's included; of other events the kind alone is this reading's matter."""
        due = self.raised[number - 1]
        same = told == due if due.kind in (PHASE, DEFECT) else told.kind == due.kind
        self.hold(same, f'event {number:,} is {KINDS.get(told.kind)} {told[1:]}, and {KINDS[due.kind]} {due[1:]} is due')
        if number in self.left:
            self.reach('left screening: told')
        elif due.kind == PHASE and due.value == 1:
            self.reach('PHASE 1 that left no screening: told')
