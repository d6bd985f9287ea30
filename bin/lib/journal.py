"""The journal that a file of answers tells: which event numbers it accounts for, and whether a station could write it."""

from lib.alarms import Alarms
from lib.frequency import Frequencies
from lib.history import MOST_EVENTS, RULES, History, marker_fault
from lib.words import GAP, LONG, PLAN, REFUSALS, START, counted, few, single, span, spans

IMPOSSIBLE = 'no station could write this: '


class Journal:
    """What the entries so far have told.

    Where the calls are known, `asked` is the n of each change of plan that was taken, and `unraised` says why the calls do
    not raise so many LONG in all, or one with such a unit, or None.
    """

    def __init__(self, asked=None, unraised=None):
        self.last = 0          # the highest number told or named
        self.missing = []      # stretches that no entry names
        self.marked = []       # stretches that a marker names
        self.repeated = []     # stretches that came again, or late
        self.impossible = []   # the lines that no station could write
        self.plans = 0         # changes of plan that were told
        self.asked = asked
        self.unraised = unraised
        self.alarms = Alarms()
        self.history = History(asked)
        self.frequencies = Frequencies(asked)

    def opened_with(self, n):
        """The n of the plan that was opened, which no entry tells."""
        self.history.opened = self.frequencies.opened = n

    # ---- Hearing

    def hear(self, line, kind, number, unit, value):
        """Accounts for an entry. Answers what is wrong with it, in words, or None."""
        if number == self.last + 1 <= MOST_EVENTS and kind in RULES:
            self.last = number  # an event in its place, as nearly all are
            return self.possible(line, kind, number, unit, value)
        fault = alone_fault(kind, number, value)
        if fault is not None:
            return self.cannot_be(line, fault, kind)
        last = number + value - 1 if kind == GAP else number
        if number <= self.last:
            return self.out_of_order(line, kind, number, last)
        hole = self.hole_before(number)
        self.last = last
        if kind == GAP:
            return self.marker(line, number, last, unit) or hole
        return self.possible(line, kind, number, unit, value) or hole

    def possible(self, line, kind, number, unit, value):
        unfounded = self.unfounded(1, unit) if kind == LONG else None
        fault = self.history.hear(kind, number, unit, value, unfounded)
        if fault is None:
            self.frequencies.told(kind, unit, value)
            self.plans += kind == PLAN
            self.alarms.told += kind == LONG
            return None
        self.frequencies.lose()
        return self.cannot_be(line, fault, kind)

    def marker(self, line, first, last, long):
        """A marker that counts so many LONG: its numbers are named, whether it can count so many or not."""
        join(self.marked, first, last)
        self.frequencies.lose()
        fault = self.history.dropped(first, last - first + 1, long, self.unfounded(long))
        if fault is not None:
            return self.cannot_be(line, fault)
        self.alarms.marker(first, last, long)
        return None

    def unfounded(self, more, unit=0):
        """Why the calls, where they are known, do not raise so many LONG more, or None."""
        return self.unraised(self.alarms.raised() + more, unit) if self.unraised else None

    def hole_before(self, number):
        if number == self.last + 1:
            return None
        self.history.forget()
        self.frequencies.lose()
        join(self.missing, self.last + 1, number - 1)
        return f'missing before this: {span(self.last + 1, number - 1)}'

    def out_of_order(self, line, kind, first, last):
        join(self.repeated, first, last)
        self.alarms.late += kind == LONG
        if kind == START:
            return self.cannot_be(line, 'a second START')
        return f'out of order: {span(first, last)} after {self.last:,}'

    def cannot_be(self, line, why, kind=None):
        """Notes a line that no station could write; `kind`: of the entry that its row shows."""
        self.impossible.append(line)
        self.alarms.unsound += kind == LONG
        return IMPOSSIBLE + why

    # ---- Closing

    def sound(self):
        return not (self.missing or self.repeated or self.impossible)

    def closing(self):
        """Which numbers are accounted for. A journal has no end of its own, so it cannot show that it is whole."""
        if self.last == 0:
            return 'No event is told; this file cannot tell what was raised.'
        parts = [f'missing: {spans(self.missing)}' if self.missing else 'all accounted for']
        if self.repeated:
            parts.append(f'out of order: {spans(self.repeated)}')
        if self.marked:
            parts.append(f'only named by a marker: {spans(self.marked)}')
        parts.append(f'this file cannot tell what came after {self.last:,}')
        return f'{"Event" if self.last == 1 else "Events"} {span(1, self.last)}: {"; ".join(parts)}.'

    def doubts(self):
        """Why it is not known of every event up to the last what it was, or that it was dropped."""
        whys = []
        if self.missing:
            events, are = ('event', 'is') if single(self.missing) else ('events', 'are')
            whys.append(f'{events} {spans(self.missing)} {are} missing')
        if self.repeated:
            whys.append('entries are out of order')
        if self.impossible:
            whys.append('no station could write this journal')
        return whys

    def alarms_told(self):
        """How many alarms there were up to the last event, and whether one was lost, as far as that is known."""
        return self.alarms.line(self.last, self.doubts())

    def verdict(self, noun='line'):
        """A line on what no station could write, or None."""
        if not self.impossible:
            return None
        lines = few([f'{line:,}' for line in self.impossible])
        return f'No station could write this journal: {counted(len(self.impossible), noun)} cannot be ({noun} {lines}).'


def join(stretches, first, last):
    """Adds a stretch; two that meet are one to a reader."""
    if stretches and stretches[-1][1] == first - 1:
        first = stretches.pop()[0]
    stretches.append((first, last))


# ---- What is wrong with an answer by itself

def alone_fault(kind, number, value):
    """Why no entry has these words, whatever came before it, or None."""
    if kind != GAP and kind not in RULES:
        return f'there is no kind {kind}'
    if not 1 <= number <= MOST_EVENTS:
        return f'event numbers are 1 to {MOST_EVENTS:,}'
    return marker_fault(number, value) if kind == GAP else None


def plain_fault(refusal, kind, number, unit, value):
    """Why no answer that tells no event has these words, or None."""
    if refusal and refusal not in REFUSALS:
        return f'there is no refusal {refusal}'
    if refusal and (kind or number or unit or value):
        return 'a refusal has zeros behind its number'
    if not refusal and (number or unit or value > 1):
        return 'an answer with no event has at most an order, 0 or 1'
    return None
