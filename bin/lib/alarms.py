"""Whether an alarm was lost: the LONG events that a journal's entries tell, and those that its markers count.

Where every number is told or named, the two sum to the LONG events that were raised. Where one is not, nothing is known
of it, and no sum is said.
"""

from lib.words import few, span


class Alarms:
    def __init__(self):
        self.told = 0      # LONG entries in their order that a station could write
        self.late = 0      # and those out of order
        self.unsound = 0   # and those that no station could write
        self.dropped = 0   # LONG events that markers count
        self.markers = 0
        self.lost = []     # of each marker that counts one: the first number that it names, the last, and how many

    def marker(self, first, last, long):
        self.markers += 1
        self.dropped += long
        if long:
            self.lost.append((first, last, long))

    def raised(self):
        return self.told + self.dropped

    def line(self, last, doubts):
        """How many there were up to an event, and whether one was lost. `doubts`: why not all up to it is known."""
        told = f'up to event {last:,}: {self.counted()}' + (f', {self.dropped:,} dropped' if self.markers else '')
        if doubts:
            return f'{told}; whether {"another" if self.lost else "one"} was lost is not told: {" and ".join(doubts)}'
        return f'{told}, {self.raised():,} raised' + ('' if self.lost else '; no alarm was lost')

    def counted(self):
        """How many are told; which of them, where a row shows one that is not among these."""
        which = (' in order' if self.late else '') + (' that a station could write' if self.unsound else '')
        return f'{self.told:,} LONG told{which}'

    def loud(self):
        """The sentence that nobody should overlook, or None where no marker counts a LONG."""
        if not self.lost:
            return None
        were, them = ('was', 'it') if self.dropped == 1 else ('were', 'them')
        where = few([counted_in(*marker) for marker in self.lost], 'marker')
        return f'ALARM LOST: {self.dropped:,} LONG {were} dropped, and no entry tells {them}: {where}.'


def counted_in(first, last, long):
    return f'event {first:,}' if first == last else f'{long:,} among {span(first, last)}'
