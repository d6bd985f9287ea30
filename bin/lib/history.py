"""What a station can write: the rules of documents 01 and 02 as they show in the journal alone.

A History hears the entries in their order and says of each why no station could have written it, or nothing. It knows
neither the plan's type nor S, and n only where it is told the plan that was opened or a PLAN has come; it draws on what
the entries tell and on nothing else. Whatever a marker or a hole may hide it forgets, so that it never calls impossible
what a station can write. A change of plan leaves much open: in screening the same PLAN may come at once, and run and
screened go on, or on demand, and they start anew. So where they count from is one of several units. A check find starts
run anew and leaves screened: LONG counts every unit since the sequence began, and so tells where it did. A marker
counts the LONG among the events that it names: no more than can stand right behind a DEFECT, each with a unit of its own.
"""

from lib.calls import MOST_CLEARANCE, MOST_UNITS
from lib.words import (
    CHECK, DEFECT, INTERRUPT, KINDS, LEAST_N, LONG, MISSED, MOST_N, PHASE, PHASES, PLAN, SILENCE, START, counted, one_in,
)

MOST_EVENTS = 8_000_000
LAST_FIRST = MOST_EVENTS - 2  # the last number for a call's first event: three are left when a call is taken
LATEST = {PLAN: MOST_EVENTS, PHASE: MOST_EVENTS - 1, LONG: MOST_EVENTS - 1}  # PLAN alone is ever the third of a call
LEAST_ROOM = 8
SCREENING, SAMPLING = 0, 1
CSP_2, CSP_T = 'CSP-2', 'CSP-T'
NO_CAUSE = 'PHASE with no cause'
BY_MARKER = ', since each LONG that the marker counts has a unit of its own'
BLOCK = {2: 1, 3: 2}  # L, in multiples of n, at the level that a PHASE to level 1 or to level 2 leaves


class Impossible(Exception):
    """Why no station could have written an entry."""


def demand(held, why):
    if not held:
        raise Impossible(why)


class Due:
    """What the entry just told calls for: an event of this kind and unit comes next, or may come next."""

    def __init__(self, kind, unit, certain, cause):
        self.kind, self.unit, self.certain, self.cause = kind, unit, certain, cause


class Sequence:
    """A screening sequence as it may be: it began after a unit from `earliest` to `latest`."""

    def __init__(self, earliest, latest):
        self.earliest, self.latest = earliest, latest
        self.spent = 0  # its units that were told to be defective or recalled, each of them another one

    def spend(self, unit):
        """One unit more is spent, up to this one, so it began before as many. Whether it can have."""
        self.spent += 1
        self.latest = min(self.latest, unit - self.spent)
        return self.earliest <= self.latest

    def units(self, last):
        """How many units it has up to this one, in words."""
        least = counted(last - self.latest, 'unit')
        return least if self.earliest == self.latest else f'{least} or more'


class History:
    """`asked`: the n of each change of plan that was taken, where the calls are known; None where they are not."""

    def __init__(self, asked=None):
        self.asked = asked
        self.opened = None             # the n that was opened, where it is known
        self.clearance = None          # the i that was opened, once START has told it
        self.type = None               # CSP-2 or CSP-T, once an event has shown that it is
        self.last = 0                  # the last unit, as far as it is told
        self.settled = 0               # up to this unit no result can be owed
        self.shown = ''                # what shows these two, where no entry does
        self.forget_plan()
        self.forget()

    def forget_plan(self):
        self.n = LEAST_N, MOST_N       # the least and the most that n and i in force can be
        self.i = 1, MOST_CLEARANCE
        self.forget_alarm()

    def forget_alarm(self):
        self.long_at = MOST_UNITS + 1  # the least number of units screened at which LONG came: S is no more
        self.quiet_at = 0              # the most at which a defect came with no LONG: S is more, or there is no alarm

    def forget(self):
        """What an event that is not told may have changed."""
        if self.asked is None or self.asked:
            self.forget_plan()
        self.phase = None              # 0 screening, 1 to 3 sampling level 0 to 2
        self.level_from = None         # the unit after which the level began
        self.forget_screening()
        self.silence = None            # the unit and the count of the last SILENCE
        self.due = None
        self.alone = True              # the event before is not known
        self.may_cause = True          # and it may be the DEFECT of a LONG

    def forget_screening(self):
        self.run_from = ()             # the units after which run may count, none where that is not known
        self.sequences = [Sequence(0, MOST_UNITS)]  # one of these is the screening sequence
        self.reduced = True            # need may be below i, as under CSP-V

    # ---- Hearing

    def hear(self, kind, number, unit, value, unraised=None):
        """Why no station could write this entry after those before it, or None. `unraised`: why its calls do not raise it."""
        try:
            if (kind == START) != (number == 1):
                raise Impossible('a second START' if kind == START else 'event 1 is START')
            if unit > MOST_UNITS:
                raise Impossible(f'unit numbers end at {MOST_UNITS:,}')
            if number > LAST_FIRST and number > LATEST.get(kind, LAST_FIRST):
                raise Impossible(f'no {KINDS[kind]} has a number above {LATEST.get(kind, LAST_FIRST):,}')
            if self.due is not None or kind in FOLLOWING:
                self.answer_due(kind, unit, value)
            if unraised is not None:
                raise Impossible(unraised)  # before its rule, which learns from it
            RULES[kind](self, number, unit, value)
        except Impossible as why:
            self.take_as_is(unit)
            return str(why)
        self.alone = self.may_cause = False
        return None

    def take_as_is(self, unit):
        """After an impossible entry the next ones are held to it and to no more, so that one fault is said once."""
        self.forget()
        self.last, self.settled, self.shown = unit, max(0, unit - 1), ''

    def answer_due(self, kind, unit, value):
        """Whether the entry is what the one before calls for. LONG comes for no other reason."""
        due, self.due, self.caused = self.due, None, None
        called = due is not None and due.kind == kind and (kind != PHASE or value == SCREENING)
        if called and unit == due.unit:
            self.caused = due
        elif called and (due.certain or kind == LONG):
            raise Impossible(f'the {due.cause} just before it calls for unit {due.unit:,}')
        elif due is not None and due.certain:
            raise Impossible(f'the {due.cause} just before it calls for {KINDS[due.kind]} next')
        else:
            self.demand_cause(kind)
            self.nothing_came(due)

    def demand_cause(self, kind):
        """LONG has its DEFECT before it, told or hidden."""
        if kind == LONG and not self.may_cause:
            before = 'the last event that the marker names cannot be its cause'
            raise Impossible(before if self.alone else 'no cause for it stands just before it')

    def nothing_came(self, due):
        """What it shows that a defect was followed by neither LONG nor PHASE."""
        if due is None:
            return
        if due.kind == LONG:
            self.quiet_at = max(self.quiet_at, self.least_screened(due.unit))
        elif due.cause == 'DEFECT' and due.kind == PHASE:
            self.settle_type(CSP_2)

    def settle_type(self, type):
        """A defective sample that does not revert is CSP-2's, a level is CSP-T's; no plan has both."""
        demand(self.type in (None, type), f'earlier events are {self.type}\'s, and this one is {type}\'s')
        self.type = type

    # ---- Units

    def at(self, unit, settles, handled):
        """The last unit is this one. `handled`: its result has just been given; `settles`: none is owed."""
        if unit < self.last:
            raise Impossible(f'units run backwards: unit {self.last:,} came before{self.shown}')
        if handled and unit <= self.settled:
            raise Impossible(f'the result of unit {unit:,} was given before{self.shown}')
        if self.phase == SCREENING and self.run_from:
            self.before_sampling(unit, settles and not handled)
        self.last, self.settled, self.shown = unit, unit if settles else max(self.settled, unit - 1), ''

    def before_sampling(self, unit, settled):
        """Run reaches need at the latest i units on, and then PHASE is told."""
        end = max(self.run_from) + self.i[1]
        if unit > end or (settled and unit == end):
            raise Impossible(f'sampling starts with unit {end:,} at the latest, and no PHASE before tells it')

    def screen(self, unit, reduced=False):
        """A screening sequence starts after this unit."""
        self.phase, self.level_from = SCREENING, None
        self.run_from, self.sequences, self.reduced = (unit,), [Sequence(unit, unit)], reduced

    def least_screened(self, unit):
        """What screened is at least, this unit counted."""
        return unit - max(sequence.latest for sequence in self.sequences)

    def spend(self, unit):
        """A unit of the sequence was defective or recalled: what had none left for it is not the sequence."""
        self.sequences = [sequence for sequence in self.sequences if sequence.spend(unit)]
        demand(self.sequences, 'no screened unit is left to recall')

    # ---- One rule for each kind

    def start(self, number, unit, value):
        demand(unit == 0, 'START has unit 0')
        demand(1 <= value <= MOST_CLEARANCE, f'a clearance number is 1 to {MOST_CLEARANCE:,}')
        self.clearance, self.silence = value, (0, 0)
        self.i = value, value
        if self.opened is not None:
            self.n = self.opened, self.opened
        self.screen(0)

    def phase_told(self, number, unit, value):
        demand(value < len(PHASES), 'PHASE has a value from 0 to 3')
        demand(unit > 0, 'no phase changes before a unit has come')
        if value == SCREENING:
            self.revert(unit)
        else:
            self.sample(unit, value)

    def revert(self, unit):
        """MISSED and INTERRUPT have said what starts; a defective sample reverts here; with no cause it is a demand."""
        cause = NO_CAUSE
        if self.caused is not None:
            cause = self.caused.cause
            if cause == 'DEFECT':
                self.screen(unit, reduced=self.type is None)
        elif self.alone:
            cause = None
            self.at(unit, settles=False, handled=False)
            self.phase = SCREENING
        else:
            demand(self.phase != SCREENING, 'the phase is screening already')
            self.at(unit, settles=True, handled=False)
            self.screen(unit)
        self.due = Due(PLAN, unit, cause == NO_CAUSE, cause)

    def sample(self, unit, value):
        if self.phase == value:
            raise Impossible(f'the phase is {PHASES[value]} already')
        if value == SAMPLING and self.drops(unit):
            self.at(unit, settles=True, handled=False)
            self.due = Due(PLAN, unit, True, 'PHASE to level 0')
        else:
            self.step(unit, value)
        self.forget_screening()
        self.phase, self.level_from = value, unit

    def drops(self, unit):
        """Whether sampling goes back to level 0 by a change of plan, as under CSP-T; its unit may have been told."""
        after_marker = self.phase is None and self.type != CSP_2 and unit <= self.settled
        return after_marker or self.phase not in (None, SCREENING)

    def step(self, unit, value):
        """A conforming unit leads from screening to level 0, or to the next level."""
        if self.phase not in (None, value - 1):
            raise Impossible(f'no step leads from {PHASES[self.phase]} to {PHASES[value]}')
        self.at(unit, settles=True, handled=True)
        if value > SAMPLING:
            self.settle_type(CSP_T)
            self.samples_enough(unit, value)
        elif self.run_from:
            self.run_enough(unit)

    def run_enough(self, unit):
        """Run has reached need, which tells i: need is i, or where it may be x no more than i."""
        least, most = self.i
        fit = [unit - began for began in self.run_from if self.reduced or unit - began >= least]
        if not fit:
            first = min(self.run_from)
            began, known = f'unit {first:,}' if first else 'START', f'{least:,}' if least == most else f'{least:,} or more'
            raise Impossible(f'{counted(unit - first, "unit")} since {began}, and the clearance number is {known}')
        self.i = max(least, min(fit)), most if self.reduced else min(most, max(fit))

    def samples_enough(self, unit, value):
        """A level is left with the i-th good sample, one from each block."""
        if self.level_from is None:
            return
        least, most = BLOCK[value] * self.n[0] * (self.i[0] - 1) + 1, BLOCK[value] * self.n[1] * self.i[1]
        if not least <= unit - self.level_from <= most:
            bound, samples = ('least', self.i[0]) if unit - self.level_from < least else ('most', self.i[1])
            units = counted(least if bound == 'least' else most, 'unit')
            raise Impossible(f'{counted(samples, "good sample")} after unit {self.level_from:,} take at {bound} {units}')

    def long_screening(self, number, unit, value):
        if self.caused is None:
            self.at(unit, settles=True, handled=True)
            self.defect_in_screening(unit)
        demand(0 < value <= unit, 'it counts no unit, or more than have come')
        self.begun(unit - value, unit)
        demand(value >= self.i[0], 'S is no less than the clearance number, and this is')
        demand(value > self.quiet_at, f'a defect at {self.quiet_at:,} units screened raised none')
        self.long_at, self.i = min(self.long_at, value), (self.i[0], min(self.i[1], value))

    def begun(self, began, unit):
        """The sequence began after that unit, since LONG counts all that were screened in it, up to this one."""
        fit = [sequence for sequence in self.sequences if sequence.earliest <= began <= sequence.latest]
        if not fit:
            came = ' or '.join(dict.fromkeys(sequence.units(unit) for sequence in self.sequences))
            raise Impossible(f'{came} came since the sequence began')
        for sequence in fit:
            sequence.earliest = sequence.latest = began
        self.sequences = fit

    def defect(self, number, unit, value):
        demand(value in (0, 1), 'DEFECT has the value 0 or 1')
        if self.phase is not None and value != min(self.phase, 1):
            raise Impossible(f'the phase is {PHASES[self.phase]}')
        self.at(unit, settles=True, handled=True)
        if value == SCREENING:
            self.defect_in_screening(unit)
            self.due = Due(LONG, unit, self.least_screened(unit) >= self.long_at, 'DEFECT')
        else:
            self.due = Due(PHASE, unit, self.type == CSP_T, 'DEFECT')

    def defect_in_screening(self, unit):
        """Run starts anew, and under CSP-V need is i again."""
        self.phase, self.run_from, self.reduced = SCREENING, (unit,), False
        self.spend(unit)

    def missed(self, number, unit, value):
        demand(unit > 0 and value > 0, 'MISSED names one unit or more, from 1 on')
        demand(unit + value <= MOST_UNITS, f'the unit after those missed is above {MOST_UNITS:,}')
        self.at(unit - 1, settles=True, handled=False)
        self.restart(unit + value, unit + value - 1, 'MISSED')

    def interrupt(self, number, unit, value):
        demand(value == 0, 'INTERRUPT has the value 0')
        self.at(unit, settles=True, handled=False)
        self.restart(unit, unit, 'INTERRUPT')

    def restart(self, handled, before, cause):
        """A new sequence after the unit `before`; PHASE tells it where the phase was not screening."""
        if self.phase != SCREENING:
            self.due = Due(PHASE, handled, self.phase is not None, cause)
        self.screen(before)
        self.last, self.settled = handled, before

    def silent(self, number, unit, value):
        """The count goes on while the last unit stays, and starts anew at 1 with another."""
        self.at(unit, settles=False, handled=False)
        if self.silence is None:
            demand(1 <= value < number, 'no such count of ticks fits its number')
        else:
            count = self.silence[1] + 1 if unit == self.silence[0] else 1
            if value != count:
                raise Impossible(f'the count of ticks with no unit is {count:,} here')
        self.silence = (unit, value)

    def check(self, number, unit, value):
        demand(value == 0, 'CHECK has the value 0')
        demand(unit > 0, 'no unit was screened')
        if self.phase not in (None, SCREENING):
            raise Impossible(f'the phase is {PHASES[self.phase]}')
        self.at(unit, settles=True, handled=False)
        self.phase, self.run_from = SCREENING, (unit,)  # the sequence goes on, and screened with it
        self.spend(unit)

    # ---- A marker

    def dropped(self, first, count, long, unraised=None):
        """Why no station could drop these events with so many LONG among them, or None. `unraised`: why its calls raise fewer."""
        try:
            may_cause = self.places_for(first, count, long)
            demand(unraised is None, unraised)
            self.units_for(long)
        except Impossible as why:
            self.forget()
            return str(why)
        if long == 0:
            self.nothing_came(self.due_long())
        self.forget()
        self.may_cause = may_cause
        return None

    def due_long(self):
        """The LONG that a DEFECT told just before has, or may have; None where it can have none."""
        due = self.due
        return due if due is not None and due.kind == LONG and self.may_be_long(due.unit) else None

    def may_be_long(self, unit):
        """Whether screened, this unit counted, can be S or more."""
        most = unit - min(sequence.earliest for sequence in self.sequences)
        return most >= self.i[0] and most > self.quiet_at

    def places_for(self, first, count, long):
        """Whether the last of these events may be the DEFECT of a LONG behind them.

        A LONG stands right behind its DEFECT. So no two are neighbours, and the first of these is one only where the event
        before it may be its DEFECT.
        """
        due, due_long = self.due, self.due_long()
        known = first == 1 or (due is not None and due.certain and due_long is None)  # the first is START, or PHASE, or PLAN
        caused = first > 2 and (due_long is not None or self.may_cause)
        places = count - known + caused
        demand(long <= count, f'it counts {long:,} LONG among {counted(count, "event")}')
        if long > places // 2:
            raise Impossible(too_many(first, places // 2))
        if long == 0 and due_long is not None and due_long.certain:
            raise Impossible('the DEFECT just before it calls for LONG next, and it counts none')
        return long <= (places - 1) // 2

    def units_for(self, long):
        """Each LONG is of a unit of its own, whose result was given; one may be of the DEFECT told just before."""
        own = long - (self.due_long() is not None)
        if own > 0:
            demand(self.settled + own <= MOST_UNITS, f'unit numbers end at {MOST_UNITS:,}, and each LONG has one of its own')
            self.last = self.settled = self.settled + own
            self.shown = BY_MARKER

    # ---- A change of plan

    def plan(self, number, unit, value):
        """A plan takes force: in sampling a higher frequency, at level 0; in screening any, since it may be on demand."""
        demand(LEAST_N <= value <= MOST_N, f'PLAN has a value from {LEAST_N} to {MOST_N}')
        demand(self.n != (value, value), f'{one_in(value)} is in force already')
        if self.phase is not None and self.phase > SAMPLING:
            raise Impossible(f'the phase is {PHASES[self.phase]}, and PHASE tells first that the level is 0')
        if self.phase == SAMPLING and value >= self.n[1]:
            raise Impossible(f'in sampling only a higher frequency takes force, and {self.lowest()}')
        higher = self.phase == SAMPLING or value <= self.n[0]
        with_phase = self.caused is not None and not higher  # it may be of the call that PHASE is of
        owed = self.alone or (with_phase and self.caused.cause in (None, 'MISSED'))
        self.at(unit, settles=not owed, handled=False)
        self.change_clearance(higher, value >= self.n[1])
        if self.phase == SAMPLING:
            self.level_from = unit
        elif self.phase == SCREENING:
            self.change_in_screening(unit, higher, with_phase and self.caused.cause in (None, 'DEFECT'))
        self.n = value, value
        self.forget_alarm()

    def lowest(self):
        return f'{one_in(self.n[1])} is in force' if self.n[0] == self.n[1] else f'none is below {one_in(MOST_N)}'

    def change_clearance(self, higher, lower):
        """i rises where n does and falls where n does."""
        least, most = self.i
        demand(not higher or most > 1, 'the clearance number falls with n, and it is 1')
        demand(not lower or least < MOST_CLEARANCE, f'the clearance number rises with n, and it is {MOST_CLEARANCE:,}')
        self.i = least + 1 if lower else 1, most - 1 if higher else MOST_CLEARANCE

    def change_in_screening(self, unit, higher, by_defect):
        """A higher frequency is on demand; a lower one may be, or be at once, and under CSP-V need may be x at a revert."""
        if higher:
            self.screen(unit)
            return
        self.run_from = also(self.run_from, unit)
        self.sequences.append(Sequence(unit, unit))
        self.reduced = self.reduced and by_defect


def also(units, unit):
    """One unit more that a count may begin after; what is not known stays so."""
    return tuple(sorted({*units, unit})) if units else ()


def too_many(first, most):
    """Words for a marker that counts more LONG than the most that can be among the events from the first on."""
    start = 'event 1 is START, and ' if first == 1 else ''
    return f'{start}a LONG stands right behind its DEFECT, so {f"at most {most:,}" if most else "none"} of these can be LONG'


FOLLOWING = (PHASE, LONG, PLAN)
RULES = {
    START: History.start, PHASE: History.phase_told, LONG: History.long_screening, DEFECT: History.defect,
    MISSED: History.missed, SILENCE: History.silent, CHECK: History.check, INTERRUPT: History.interrupt, PLAN: History.plan,
}


def marker_fault(number, value):
    """Why no station could write a marker: it names numbers, and C newer events pushed out each of them."""
    if value == 0:
        return 'a marker names one number or more'
    if number + value - 1 > MOST_EVENTS - LEAST_ROOM:
        return f'no number above {MOST_EVENTS - LEAST_ROOM:,} is ever dropped'
    return None
