"""What held over the unit numbers, as stretches and as a strip of text; the phases."""

from lib.history import SAMPLING, SCREENING
from lib.words import CHECK, DEFECT, LONG, MISSED, PHASE, PHASES, span

NOT_SEEN = 'missed'
NOT_TOLD = 'not told'
SIGNS = {**dict(zip(PHASES, '#012')), NOT_SEEN: '.', NOT_TOLD: '?'}
KEY = '# screening, 0 1 2 sampling level, . a missed stretch, ? not told'
WIDTH = 100
MOST_ROWS = 24


class Stretches:
    """What held at each unit, as far as the entries told so far show it."""

    def __init__(self):
        self.stretches = []  # the first unit, the last, what held or None
        self.covered = 0

    def through(self, unit, held):
        """This held at the units up to this one."""
        if unit > self.covered:
            first = self.covered + 1
            if self.stretches and self.stretches[-1][2] == held:
                first = self.stretches.pop()[0]
            self.stretches.append((first, unit, held))
            self.covered = unit

    def labelled(self, last, missed):
        """Each stretch of units up to the last, with what it was; units that never came are missed whatever held."""
        self.through(last, None)
        edges = {edge for first, end, *_ in (*self.stretches, *missed) for edge in (first, end + 1)}
        marks = sorted({1, *(min(edge, last + 1) for edge in edges)})
        labels = Labels([(first, end, self.name(held)) for first, end, held in self.stretches])
        unseen = Labels([(first, end, NOT_SEEN) for first, end in missed])
        parts = []
        for first, after in zip(marks, marks[1:]):
            label = unseen.at(first) or labels.at(first)
            if parts and parts[-1][2] == label:
                first = parts.pop()[0]
            parts.append((first, after - 1, label))
        return parts


class Phases(Stretches):
    """The phase that each unit was handled in."""

    def name(self, phase):
        return NOT_TOLD if phase is None else PHASES[phase]

    def told(self, before, kind, unit, value, may_drop):
        """An entry tells that the phase before it held up to its unit. After a marker it may tell that unit's own."""
        if kind == MISSED:
            self.through(unit - 1, before)
            self.through(unit + value - 1, SCREENING)
        elif before is None:
            self.through(unit - 1, None)
            self.through(unit, own_phase(kind, value, may_drop))
        else:
            self.through(unit, before)


def own_phase(kind, value, may_drop):
    """The phase of an entry's own unit, where the entry alone tells it: a change to sampling comes from the step before.

    `may_drop`: a change of plan may have led to level 0 from a higher one.
    """
    if kind == PHASE and value > SCREENING:
        return None if value == SAMPLING and may_drop else value - 1
    return SCREENING if kind in (CHECK, LONG) or (kind == DEFECT and value == SCREENING) else None


class Labels:
    """Looks up stretches in order."""

    def __init__(self, stretches):
        self.stretches, self.next = stretches, 0

    def at(self, unit):
        while self.next < len(self.stretches) and self.stretches[self.next][1] < unit:
            self.next += 1
        found = self.next < len(self.stretches) and self.stretches[self.next][0] <= unit
        return self.stretches[self.next][2] if found else None


# ---- To be looked at

def rows(parts):
    """A row for each stretch, and how many more there are."""
    shown = [(span(first, last), label) for first, last, label in parts[:MOST_ROWS]]
    width = max((len(units) for units, _ in shown), default=0)
    more = len(parts) - MOST_ROWS
    return [f'{units:<{width}}  {label}' for units, label in shown] + ([f'and {more:,} more stretches'] if more > 0 else [])


def strip(parts, signs=SIGNS):
    """One sign for each few units, which shows what most of them were; a missed stretch of any length counts as one.

    Answers the signs, and how many units each stands for. A jump over many units would else leave nothing to be seen.
    """
    sizes = [1 if label == NOT_SEEN else last - first + 1 for first, last, label in parts]
    each = -(-sum(sizes) // WIDTH)
    drawn, counts, room = '', {}, each
    for size, (_, _, label) in zip(sizes, parts):
        while size:
            taken = min(size, room)
            counts[label] = counts.get(label, 0) + taken
            size, room = size - taken, room - taken
            if not room:
                drawn, counts, room = drawn + signs[most(counts)], {}, each
    return drawn + (signs[most(counts)] if counts else ''), each


def scale(each):
    return 'one sign a unit' if each == 1 else f'one sign for {each:,} units'


def most(counts):
    """What most units were; of equals, the earliest."""
    return max(counts, key=counts.get)
