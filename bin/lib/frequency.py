"""The frequency in force over the unit numbers: what the journal's entries show of it, as stretches and as a strip of text.

START begins the plan that was opened, and each PLAN another, for the units after its own: a unit has the one that
was in force as it came. Where a marker or a hole stands, a PLAN may be hidden, and nothing is known up to the next one.
"""

from string import ascii_letters

from lib.phases import NOT_SEEN, NOT_TOLD, Stretches, rows, scale, strip
from lib.words import MISSED, PLAN, START, one_in

OPENED = 'as opened'
OTHER = '+'  # the sign of whatever the letters do not reach


class Frequencies(Stretches):
    """`asked`: the n of each change that was taken, where the calls are known; None where they are not."""

    def __init__(self, asked=None):
        super().__init__()
        self.asked = asked
        self.opened = OPENED  # the n that was opened, where it is known
        self.force = None     # the n in force, OPENED, or None where that is not told
        self.missed = []

    def name(self, held):
        return NOT_TOLD if held is None else held if held == OPENED else one_in(held)

    # ---- Hearing

    def told(self, kind, unit, value):
        """An entry that a station could write."""
        if kind == START:
            self.force = self.opened
        elif kind == MISSED:
            self.through(unit + value - 1, self.force)
            self.missed.append((unit, unit + value - 1))
        else:
            self.through(unit, self.force)
            if kind == PLAN:
                self.force = value

    def lose(self):
        """Events are not told, or not as they were; where no change was taken they cannot be of one."""
        self.force = None if self.asked is None or self.asked else self.opened

    # ---- To be looked at

    def lines(self, last, missed, then=()):
        """A row for each stretch up to the last unit, further rows, and a strip where there is more than one to see."""
        parts = self.labelled(last, [])
        return [*rows(parts), *then, *(drawn(self.labelled(last, missed)) if len(parts) > 1 else [])]

    def so_far(self, last_event):
        """The lines of a journal, which does not tell the last unit: what is in force at its end may hold on."""
        until = f', unless an event after {last_event:,} says otherwise' if self.force is not None else ''
        return self.lines(self.covered, self.missed, [f'from unit {self.covered + 1:,} on: {self.name(self.force)}{until}'])


def drawn(parts):
    """The strip, and what each sign in it means."""
    signs = signs_of([label for _, _, label in parts])
    shown, each = strip(parts, signs)
    words = {'.': 'a missed stretch', OTHER: 'any other'}
    key = {sign: words.get(sign, label) for label, sign in signs.items() if sign in shown}
    return [f'[{shown}]', f'{scale(each)}: ' + ', '.join(f'{sign} {label}' for sign, label in key.items())]


def signs_of(labels):
    """A letter for each frequency, in the order in which they come."""
    signs = {NOT_SEEN: '.', NOT_TOLD: '?'}
    letters = dict(zip((label for label in dict.fromkeys(labels) if label not in signs), ascii_letters))
    return {label: signs.get(label) or letters.get(label, OTHER) for label in labels}
