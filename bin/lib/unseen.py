"""How long the line went unseen, and which units came before screening was left, as the calls of a session tell it.

A unit is unseen where it passed, and where it was missed: no call that was taken names it, and a later one jumps over
it. It is seen where it was ordered inspected.
"""

from bisect import bisect

from lib.calls import MOST_UNITS
from lib.phases import NOT_SEEN
from lib.words import counted, few, span

PASSED = 'passed'


class Unseen:
    """Units in a row of which none was ordered inspected: the longest of these stretches."""

    def __init__(self):
        self.stretch = []  # the one that goes on, in parts: the first unit, the last, what befell them
        self.longest = []
        self.times = 0     # stretches as long as the longest

    def unit(self, before, number, order):
        """A unit that was taken, and the last before it."""
        if number > before + 1:
            self.add(before + 1, number - 1, NOT_SEEN)
        if order:
            self.end()
        else:
            self.add(number, number, PASSED)

    def add(self, first, last, what):
        if self.stretch and self.stretch[-1][2] == what:
            first = self.stretch.pop()[0]
        self.stretch.append((first, last, what))

    def end(self):
        """A unit is seen, or none comes any more."""
        stretch, self.stretch = self.stretch, []
        if length(stretch) > length(self.longest):
            self.longest, self.times = stretch, 1
        elif stretch and length(stretch) == length(self.longest):
            self.times += 1

    def line(self, last, owed):
        """The longest in words, where this is the session's last unit. `owed`: it is ordered inspected, and that is all."""
        self.end()
        then = f'; the result of unit {last:,} is owed' if owed else ''
        if not self.longest:
            return f'none: every unit was {"ordered " if owed else ""}inspected{then}'
        first, end = self.longest[0][0], self.longest[-1][1]
        where = f'{span(first, end)} ({befell(self.longest)})'
        if self.times > 1:
            where += f', the first of {self.times:,} such stretches'
        elif end == last:
            where += ', and the session ends there'
        return f'at most {counted(end - first + 1, "unit")} in a row: {where}{then}'


def length(stretch):
    return stretch[-1][1] - stretch[0][0] + 1 if stretch else 0


def befell(stretch):
    """What befell the units of a stretch: which of them, where not all fared alike."""
    if len(stretch) == 1:
        return stretch[0][2]
    return few([f'{span(first, last)} {what}' for first, last, what in stretch])


class Runs:
    """Conforming units in a row. Those before the last of screening are what it was left for.

    A unit that passed, was missed or was defective parts two runs by its number. An interrupt, a check find and a fresh
    sequence on demand leave no number out, so they are told.
    """

    def __init__(self):
        self.runs = []        # the first unit of each, and the last
        self.goes_on = False
        self.doubts = []      # the last unit at each change of which the calls do not tell whether it broke the run
        self.left = []        # the units with which screening was left, each with those that can be its run's first

    def conforming(self, unit):
        if self.goes_on and self.runs[-1][1] == unit - 1:
            self.runs[-1] = self.runs[-1][0], unit
        else:
            self.runs.append((unit, unit))
        self.goes_on = True

    def broken(self):
        self.goes_on = False

    def perhaps_broken(self, unit):
        self.doubts.append(unit)

    def firsts(self, unit, after=()):
        """The units that can be the first of the run which ends with this one; none where it was not found conforming.

        `after`: the units after which it can have begun by the journal's entries, where they tell.
        """
        at = bisect(self.runs, (unit, MOST_UNITS)) - 1
        if at < 0 or self.runs[at][1] < unit:
            return []
        first = self.runs[at][0]
        by_calls = {first, *(doubt + 1 for doubt in self.doubts if first <= doubt < unit)}
        return sorted(by_calls & {began + 1 for began in after} or by_calls)

    def lines(self):
        """A line for each time that screening was left."""
        return [line(unit, *firsts) for unit, firsts in self.left]


def line(unit, first, *later):
    """That screening was left with a unit, after a run that began with the first; or with a later one, if there is doubt."""
    units = counted(unit - first + 1, 'conforming unit')
    doubt = f', or from {" or ".join(f"{start:,}" for start in later)} on' if later else ''
    return f'screening at unit {unit:,}, after {units} in a row: {span(first, unit)}{doubt}'
