"""A session as its frames and answers tell it: a row for each frame, and a summary.

It claims nothing that the frames and answers do not show. The phases come from the journal's entries that were taken;
where a marker stands for them, or no take has told them yet, the phase is not told.
"""

from collections import Counter, deque

from lib import calls, words
from lib.calls import CHANGE, FIND, INTERRUPTED, NO_FRAME, OPEN, RESULT, STATION, TABLE, TAKE, TICK, TYPES, UNIT
from lib.history import SAMPLING, SCREENING
from lib.journal import Journal, plain_fault
from lib.phases import Phases, own_phase
from lib.seeds import Seeds
from lib.unseen import Runs, Unseen
from lib.words import CHECK, DEFECT, GAP, INTERRUPT, KINDS, LONG, MISSED, PHASE, PLAN, SILENCE, START, counted, one_in

FRAME, CALL = 9, 22  # columns
NUMBERS_END = 10  # a refusal that no call asks for: it comes when the event numbers run out
NO_SUCH_UNIT = 'no such unit has come'
HEAD = f'{"frame":>{FRAME}}  {"call and answer":<{CALL}}  {words.COLUMNS}'


def row(at, text, fault=None):
    return f'{at:>{FRAME},}  {text}\n' + (words.NOTE.format(fault) if fault else '')


class Tally:
    """The units, each counted once, as the accepted calls tell them."""

    def __init__(self):
        self.last = self.conforming = self.defective = self.passed = self.owed = 0
        self.missed = []

    def unit(self, number, order):
        if number > self.last + 1:
            self.missed.append((self.last + 1, number - 1))
        self.last = number
        self.owed = order
        self.passed += 1 - order

    def result(self, value):
        self.owed = 0
        if value:
            self.defective += 1
        else:
            self.conforming += 1

    def unseen(self):
        return sum(last - first + 1 for first, last in self.missed)


SAME, AT_ONCE, WAITS, EITHER = 'same', 'at once', 'waits', 'either'  # what a change does, as far as it is known
HIGHER = {
    AT_ONCE: ': higher, at once', WAITS: ': higher, waits for the shift to sampling',
    EITHER: ': higher, at once in sampling, else at the shift to it',
}
LOWER = {
    AT_ONCE: ': lower, at once', WAITS: ': lower, waits for the return to screening',
    EITHER: ': lower, at once in screening, else at the return to it',
}


class Plans:
    """The plans that may be in force, now or once a waiting one is taken up, as the accepted calls tell them."""

    def __init__(self):
        self.type = None
        self.may = set()  # n and i of each; i is None where a table has it

    def opened(self, code, said):
        self.type = TYPES.get(said[0])
        self.may = {(calls.frequency(code, said), said[2] if code == OPEN else None)}

    def now(self, force):
        """Those that may be in force at this call; `force` is its n, where it is known."""
        return {plan for plan in self.may if plan[0] == force} or self.may

    def refusal(self, force, type, n, i, S, x, N):
        """The refusal that a change asks for, 0 where it asks for none, and None where the calls do not tell."""
        if TYPES.get(type) != self.type or self.type == 'CSP-F':
            return 11
        against = {refused_against(n, i, *plan) for plan in self.now(force)}
        if against == {False}:
            return 0 if calls.in_range(type, n, i, S, x, N) else 3
        return 11 if against == {True} else None

    def change(self, force, phase, n, i, demanded):
        """An accepted change: what it does, and that in words, as far as it is known."""
        now = self.now(force)
        known = {n for n, _ in now}
        if known == {n}:
            return SAME, ': the same frequency, nothing changes'
        if n in known or None in known:
            self.may.add((n, i))
            return EITHER, ''
        if demanded:
            self.may = {(n, i)}
            return AT_ONCE, ': at once, by a fresh screening sequence'
        self.may = now | {(n, i)}
        return taken_up(n < min(known), n > max(known), phase)


def taken_up(higher, lower, phase):
    """A higher frequency is taken up in sampling, a lower one in screening."""
    if not higher and not lower:
        return EITHER, ''
    when = EITHER if phase is None else AT_ONCE if higher == (phase != SCREENING) else WAITS
    return when, (HIGHER if higher else LOWER)[when]


def refused_against(n, i, n_in_force, i_in_force):
    """Whether a change is refused 11 where this plan is in force; None where that is not known."""
    if n == n_in_force:
        return False
    if None in (n_in_force, i_in_force):
        return None
    return i <= i_in_force if n > n_in_force else i >= i_in_force


class Raised:
    """The events that the accepted calls raise for certain: PHASE, LONG and most PLAN do not follow from the calls alone."""

    def __init__(self):
        self.least = 0         # so many events were raised, or more
        self.more = False      # more may have been raised since a take came back empty
        self.quiet = True      # no unit since the last tick, or since the open
        self.silent = 0
        self.untold = deque()  # those that were not told yet
        self.followed = True   # no marker and no fault stands between, so the next one to be told is known
        self.asked = []        # n of each accepted change that a PLAN may still tell, and the last unit at the call

    def surely(self, kind, unit, value=None):
        """An event; its value is None where the calls do not tell it."""
        self.least += 1
        self.more = True
        if self.followed:
            self.untold.append((kind, unit, value))

    def perhaps(self):
        self.more = True

    def tick(self, last):
        self.silent = self.silent + 1 if self.quiet else 0
        if self.quiet:
            self.surely(SILENCE, last, self.silent)
        self.quiet = True

    def told(self, kind, unit, value):
        """Why the calls do not raise an event that is told next, or None."""
        if kind == PLAN and not self.asked_for(unit, value):
            return f'no change that was taken asks for {one_in(value)} here'
        if kind in (PHASE, LONG) or not self.followed:
            return None
        if kind == PLAN and not self.surely_next(value):
            return None  # one that waited, or was raised in a phase that the calls do not tell
        due = self.untold.popleft() if self.untold else None
        if due and due[:2] == (kind, unit) and due[2] in (None, value):
            return None
        self.lose()
        return f'the calls raise {KINDS[due[0]]} with unit {due[1]:,} here' if due else 'no call has raised it'

    def surely_next(self, n):
        return bool(self.untold) and self.untold[0][::2] == (PLAN, n)

    def asked_for(self, unit, n):
        """Whether a change asks for this plan; those before it are replaced by then."""
        at = next((at for at, (asked, last) in enumerate(self.asked) if asked == n and last <= unit), None)
        if at is not None:
            del self.asked[:at + 1]
        return at is not None

    def lose(self):
        """What is told next is not known any more, until a take comes back empty."""
        self.followed = False
        self.untold.clear()

    def left(self, told):
        """So many events are untold, or more."""
        return max(0, self.least - told, len(self.untold))

    def emptied(self, told):
        self.lose()
        self.least, self.more, self.followed = told, False, True


class Session:
    def __init__(self):
        self.journal = Journal(asked=set(), unraised=self.alarms_unraised)
        self.tally = Tally()
        self.raised = Raised()
        self.phases = Phases()
        self.unseen = Unseen()
        self.runs = Runs()
        self.plan = None
        self.seeds = Seeds()
        self.plans = Plans()
        self.waits = None     # the plan that waits, unless an untold event has taken it up
        self.limit = 0
        self.calls = Counter()
        self.refusals = Counter()
        self.events = Counter()
        self.told = None      # the last event that was told
        self.gaps = []        # each stretch that markers name, their count of LONG, and the events told before and after it
        self.empty = 0        # takes that came back empty

    # ---- Hearing

    def hear(self, at, code, said, answer):
        """The row of a frame and its answer; beneath it what is wrong, where something is."""
        self.calls[code] += 1
        refusal, kind, number, unit, value = answer
        fault = self.answer_fault(code, said, answer)
        if fault is not None:
            raw = '%02X %02X %08X %08X %08X' % answer
            self.behind_fault(code, said, answer)
            return row(at, f'{calls.asked(code, said)}: {raw}', self.journal.cannot_be(at, fault))
        if refusal:
            self.refusals[refusal] += 1
            return row(at, calls.refused(code, said, refusal, self.plan is not None))
        if kind:
            return self.entry(at, kind, number, unit, value)
        return row(at, HEARD[code](self, code, said, value))

    def answer_fault(self, code, said, answer):
        """Why the program could not answer this call so now, or None."""
        fault = calls.answer_fault(code, answer) or (plain_fault(*answer) if answer[0] or not answer[1] else None)
        if fault is not None:
            return fault
        fault = self.refusal_fault(code, said, answer[0])
        if fault is not None:
            return fault
        left = self.raised.left(self.journal.last)
        if code == TAKE and left and not any(answer):
            return f'{counted(left, "event")} or more are untold'
        follows = self.journal.history.due
        if code == TAKE and follows and follows.certain and not any(answer):
            return f'the {follows.cause} that was told calls for {KINDS[follows.kind]} next'
        return None

    def refusal_fault(self, code, said, refusal):
        """Why the calls so far do not ask for this refusal, or for none, or None."""
        due = self.due(code, said)
        if due is None and refusal == 9:
            seed = self.seeds.there(code, said)  # it is an open: of those of which nothing is due, only they can get 9
            return f'no open was accepted before it, and {seed}' if seed else None
        if due is None or refusal in (due, NUMBERS_END):
            return None
        return f'refusal {due} is due here: {calls.reason(code, said, due, self.plan is not None)}' if due else 'no refusal is due here'

    def due(self, code, said):
        """The refusal that the calls so far ask for, 0 where they ask for none, and None where they do not tell."""
        if code == NO_FRAME:
            return 9
        if code == STATION:
            return 0 if not self.plan and calls.is_station_number(*said) else 9
        if code in (OPEN, TABLE):
            return 9 if self.plan or self.seeds.absent(code, said) else None
        if not self.plan:
            return 2
        if code == RESULT:
            return 9 if said[0] > 1 else 0 if self.tally.owed else 5
        if self.tally.owed and code in (UNIT, INTERRUPTED, FIND, CHANGE):
            return 4
        if code == CHANGE:
            return self.plans.refusal(self.in_force()[0], *said[:-1])
        if code == UNIT:
            return 6 if said[0] <= self.tally.last else 7 if said[0] > self.limit else 0
        return None if code == FIND else 0

    def behind_fault(self, code, said, answer):
        """Before the open, what an answer that cannot be leaves behind: the frames after it are not blamed for it."""
        if self.plan:
            return
        if code == STATION:
            self.seeds.doubt()
        elif code in (OPEN, TABLE) and not answer[0]:
            self.opened(code, said, 0)

    def entry(self, at, kind, number, unit, value):
        """A take that tells an entry."""
        before, began = self.journal.history.phase, self.journal.history.run_from
        fault = self.journal.hear(at, kind, number, unit, value)
        if fault or kind in (GAP, PLAN):
            self.waits = None
        if fault or kind == GAP:
            self.raised.lose()
        if fault is None and kind == GAP:
            self.gap(number, number + value - 1, unit)
        elif fault is None:
            self.event(kind, number, unit)
            self.phases.told(before, kind, min(unit, self.tally.last), value, self.may_drop())
            fault = self.not_raised(at, kind, unit, value)
        if fault is None and kind == PHASE and self.leaves(before, value):
            fault = self.left_screening(at, unit, began)
        self.raised.least = max(self.raised.least, self.journal.last)
        return row(at, f'{"take":<{CALL}}  {words.entry(kind, number, unit, value)}', fault)

    def not_raised(self, at, kind, unit, value):
        """Whether the calls raise an event that a station could write; what is wrong, or None."""
        why = self.raised.told(kind, unit, value)
        if unit > self.tally.last:
            why = NO_SUCH_UNIT
        return self.journal.cannot_be(at, why) if why else None

    def alarms_unraised(self, count, unit):
        """Why the calls do not raise so many LONG, or one with this unit, or None: each has a defective result of its own."""
        defective = self.tally.defective
        if unit > self.tally.last:
            return NO_SUCH_UNIT
        if count and self.plans.type == 'CSP-F':
            return 'CSP-F has no alarm'
        if count > defective:
            return f'that makes {count:,} LONG with {counted(defective, "defective result")}'
        return None

    def leaves(self, before, value):
        """Whether a PHASE tells for certain that screening was left: one to level 0 may also come from a higher level."""
        came_from = own_phase(PHASE, value, self.may_drop()) if before is None else before
        return value == SAMPLING and came_from == SCREENING

    def left_screening(self, at, unit, began):
        """Screening was left with this unit, after a run that began after one of those. What is wrong with that, or None."""
        firsts = self.runs.firsts(unit, began)
        if not firsts:
            return self.journal.cannot_be(at, f'unit {unit:,} was not found conforming, and no other is the last of screening')
        self.runs.left.append((unit, firsts))
        return None

    def may_drop(self):
        """Whether a level may have been left for level 0: by a change of plan under CSP-T."""
        return bool(self.journal.asked) and self.plans.type == 'CSP-T'

    def event(self, kind, number, unit):
        self.events[kind] += 1
        self.told = (kind, number, unit)
        if self.gaps and self.gaps[-1]['after'] is None:
            self.gaps[-1]['after'] = self.told

    def gap(self, first, last, long):
        """Markers that follow each other name one stretch to a reader."""
        if self.gaps and self.gaps[-1]['after'] is None:
            self.gaps[-1]['last'] = last
            self.gaps[-1]['long'] += long
        else:
            self.gaps.append({'first': first, 'last': last, 'long': long, 'before': self.told, 'after': None})

    # ---- Accepted calls that tell no entry: what each does here, and its words

    def opened(self, code, said, value):
        taken = self.seeds.opened(code, said)
        self.plan = (code, (calls.seeded(*said) if code == OPEN else calls.table_entry(*said)) + taken)
        self.plans.opened(code, said)
        self.journal.opened_with(calls.frequency(code, said))
        self.limit = calls.unit_limit(code, said)
        self.raised.surely(START, 0, said[2] if code == OPEN else None)
        return calls.asked(code, said) + taken

    def numbered(self, code, said, value):
        self.seeds.accepted(*said)
        return calls.asked(code, said)

    def unit(self, code, said, value):
        number, = said
        first = self.tally.last + 1
        self.unseen.unit(self.tally.last, number, value)
        self.tally.unit(number, value)
        self.raised.quiet = False
        if number > first:
            self.raised.surely(MISSED, first, number - first)
        return f'unit {number:,}: {words.ORDERS[value]}' + calls.skipped(first, number - 1)

    def result(self, code, said, value):
        self.tally.result(*said)
        if said[0]:
            self.raised.surely(DEFECT, self.tally.last)
        else:
            self.raised.perhaps()
            self.runs.conforming(self.tally.last)
        return calls.asked(code, said)

    def interrupted(self, code, said, value):
        self.runs.broken()
        self.raised.surely(INTERRUPT, self.tally.last, 0)
        return calls.asked(code, said)

    def found(self, code, said, value):
        self.runs.broken()
        self.raised.surely(CHECK, self.tally.last, 0)
        return calls.asked(code, said)

    def ticked(self, code, said, value):
        self.raised.tick(self.tally.last)
        return calls.asked(code, said)

    def changed(self, code, said, value):
        _, n, i, *_, demanded = said
        does, in_words = self.plans.change(*self.in_force(), n, i, demanded)
        if does != SAME:
            self.waits = calls.plan(*said[:-1]) if does == WAITS else None
            self.journal.asked.add(n)
            self.raised.asked.append((n, self.tally.last))
        if does == AT_ONCE:
            self.raised.surely(PLAN, self.tally.last, n)
        elif does == EITHER:
            self.raised.perhaps()
        if demanded:
            self.sequence_demanded(does)
        return calls.asked(code, said) + in_words

    def sequence_demanded(self, does):
        """A change on demand begins a screening sequence, unless its frequency is the one in force."""
        if does == AT_ONCE:
            self.runs.broken()
        elif does == EITHER:
            self.runs.perhaps_broken(self.tally.last)

    def nothing(self, code, said, value):
        self.empty += 1
        self.raised.emptied(self.journal.last)
        self.all_told()
        return 'take: nothing to tell'

    def waiting(self):
        """The plan that waits, where that is certain."""
        return self.waits if self.empty and not self.raised.more else None

    def in_force(self):
        """The n and the phase in force, where every event has been told and tells them; None where not."""
        force, phase = self.journal.frequencies.force, self.journal.history.phase
        return (force, phase) if self.empty and not self.raised.more else (None, None)

    def all_told(self):
        """Every event has been told, so the phase and the frequency in force are those of the units so far."""
        self.phases.through(self.tally.last, self.journal.history.phase)
        self.journal.frequencies.through(self.tally.last, self.journal.frequencies.force)

    def stretches(self):
        """The units up to the last, as stretches of one phase each."""
        if self.empty and not self.raised.more:
            self.all_told()
        return self.phases.labelled(self.tally.last, self.tally.missed)

    def frequencies(self):
        """The frequencies in force over the units up to the last, to be looked at."""
        if self.empty and not self.raised.more:
            self.all_told()
        return self.journal.frequencies.lines(self.tally.last, self.tally.missed)


HEARD = {
    OPEN: Session.opened, TABLE: Session.opened, UNIT: Session.unit, RESULT: Session.result, TICK: Session.ticked,
    INTERRUPTED: Session.interrupted, FIND: Session.found, TAKE: Session.nothing, CHANGE: Session.changed,
    STATION: Session.numbered,
}
