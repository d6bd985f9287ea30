"""Random sessions that know the state: the model runs beside them, so that the rare turns of every plan are reached."""

import random

from model import (
    CSP_2, CSP_F, CSP_T, CSP_V, LONG, MOST_STATIONS, PROGRAM_ROOM, SAMPLING, SCREENING, TABLE_V_AQL, UNIT_LIMIT, refused, sound,
    written,
)
from reached import Watcher, waits
from script import Script, words

# How often each call comes when no result is owed. A line of work is mostly units; each profile leans one way.
CALLS = ('unit', 'stretch', 'jump', 'interrupt', 'find', 'tick', 'take', 'change', 'refused', 'ill_formed')
PROFILES = {
    'work': (80, 1, 1, 1, 2, 4, 10, 1, 1, 1),
    'journal': (40, 1, 3, 3, 3, 10, 40, 3, 1, 1),
    'quiet': (20, 1, 2, 2, 2, 60, 4, 2, 1, 1),
    'rough': (50, 1, 10, 10, 15, 5, 10, 5, 2, 2),
    'changing': (60, 5, 2, 2, 3, 3, 10, 10, 1, 1),
    'checked': (60, 1, 1, 1, 20, 2, 10, 2, 1, 1),
    'hostile': (40, 1, 3, 3, 5, 5, 10, 5, 20, 20),
}
# The new n and i beside those in force: below (-1), equal (0) or above (1).
ALLOWED = ((-1, -1), (-1, -1), (1, 1), (1, 1), (0, 1), (0, -1))
NOT_ALLOWED = ((-1, 0), (-1, 1), (1, 0), (1, -1))
SEEDS = (0, 1, 2 ** 31, 2 ** 32 - 1)
# Station numbers at the ends of their range; those above it have one in their low bits but for 65,536.
NUMBERS = (1, 2, MOST_STATIONS - 1, MOST_STATIONS)
NO_NUMBERS = (0, MOST_STATIONS + 1, MOST_STATIONS + 2, 2 ** 31 + 7, 2 ** 32 - 1)
ODD_NUMBERS = (0, 1, 2, 3, 7, 8, 9, 200, 201, 10_000, UNIT_LIMIT, UNIT_LIMIT + 1, 2 ** 31, 2 ** 32 - 1)


class Driver(Script):
    """One random session."""

    def __init__(self, seed):
        super().__init__()
        self.random = random.Random(seed)
        self.watcher = Watcher()
        self.weights = PROFILES[self.random.choice(list(PROFILES))]
        self.bad_share = 0.0
        self.faults = []

    def line(self, text):
        before = self.watcher.view(self.station)
        answer = super().line(text)
        self.watcher.observe(text, before, answer, self.station, self.program.queue)
        if self.station:
            self.hold(sound(self.station), 'the record is not sound')
            self.hold(self.station.lost == self.watcher.raised.in_gap(self.station), 'lost is not the number of LONG events in the gap')
        return answer

    def hold(self, good, what):
        if not good:
            self.faults.append(f'after frame {len(self.lines)} {what}')

    def chance(self, share):
        return self.random.random() < share

    # ---- The whole

    def drive(self):
        """The session's input."""
        self.prelude()
        self.open_somehow()
        while self.chance(0.2):
            self.too_late()
        if self.chance(0.1):
            self.near_the_limit()
        for _ in range(self.random.randrange(100, 400)):
            self.turn()
            if self.station.last == self.limit() and self.chance(0.05):
                break
        if self.chance(0.5):
            self.take(12)
        return self.text() + self.ending()

    def expected_for(self, text):
        """The model's answers, the one to a last line without line feed included."""
        return self.expected() + (b'' if text.endswith(b'\n') else written(refused(9)))

    def ending(self):
        return self.random.choice((b'07', b'0', b'02 00000001', b'\r')) if self.chance(0.05) else b''

    def prelude(self):
        """Some sessions try calls and refused opens before they open, or a table open that is one with a station number."""
        turns = (
            self.ill_formed, self.early_call, self.refused_open, self.refused_table, self.number_somehow,
            lambda: self.table(*self.entry(), seed=None),
        )
        while self.station is None and self.chance(0.3):
            self.random.choice(turns)()

    def turn(self):
        if self.chance(0.02):
            self.bad_share = self.random.choice((0.0, 0.0, 0.05, 0.3, 0.8))
        if self.station.owed and self.chance(0.9):
            self.result(1 if self.chance(max(self.bad_share, self.luck())) else 0)
        elif self.recallable() and self.chance(0.2):
            self.find()
        elif self.alarm_held() and self.chance(0.2):
            self.push_out()
        elif self.chance(self.wish()):
            self.change_to(*self.random.choice(ALLOWED))
        else:
            getattr(self, 'do_' + self.random.choices(CALLS, self.weights)[0])()

    def luck(self):
        """A defect where one seldom falls by itself."""
        st = self.station
        if waits(st):
            return 0.3 if st.phase == SAMPLING else 0.0
        unwatched = st.type == CSP_2 and st.phase == SAMPLING and not st.watch
        return 0.2 if st.level or self.long_row() or self.reduced() or unwatched or self.checked() else 0.0

    def wish(self):
        """A change where one seldom falls by itself, or a second one."""
        st = self.station
        if waits(st):
            return 0.05
        if self.reduced() or st.watched:
            return 0.4
        if st.level or self.long_row():
            return 0.1
        return 0.02 if st.phase == SAMPLING else 0.0

    def long_row(self):
        return self.station.type == CSP_V and self.station.row == self.station.i

    def reduced(self):
        return self.station.phase == SCREENING and self.station.need < self.station.i

    def checked(self):
        """A find in this sequence, and LONG at the next defect."""
        return self.watcher.finds.latest and self.station.screened + 1 >= self.station.S > 0

    def recallable(self):
        """A find under need x seldom comes by itself."""
        return not self.station.owed and self.station.unrecalled and self.reduced()

    def held(self):
        """The kinds in the queue, the oldest first."""
        return self.watcher.raised.kinds[self.station.oldest - 1:]

    def alarm_held(self):
        """LONG is in the queue as sampling is in force: three events of one call seldom drop one by themselves."""
        st = self.station
        return st.C == PROGRAM_ROOM and st.phase == SAMPLING and not st.owed and LONG in self.held()

    def push_out(self):
        """A LONG among the oldest, a lower frequency that mostly waits, a full queue, and what takes the plan up."""
        oldest = self.random.randrange(1, 4)
        while LONG not in self.held()[:oldest]:
            self.take()
        self.change_to(1, 1)
        while len(self.held()) < PROGRAM_ROOM:
            self.tick()
        self.random.choice((self.do_interrupt, self.do_jump))()

    # ---- Opens

    def seed(self):
        return self.random.choice(SEEDS) if self.chance(0.2) else self.random.getrandbits(32)

    def open_somehow(self):
        if self.chance(0.5):
            self.before_open()
        if self.chance(0.25):
            self.open_from_table()
        else:
            self.open_plan()

    def open_plan(self):
        type = self.random.randrange(1, 6)
        n = self.random.choice((2, 2, 3, 3, 4, 5, 7, self.random.randrange(2, 201)))
        i = self.random.choice((1, 2, 2, 3, 3, 4, 6, self.random.randrange(1, 40)))
        S = 0 if type == CSP_F else i + self.random.randrange(12)
        x = min(i, self.random.choice((1, 2, self.random.randrange(1, i + 1)))) if type == CSP_V else 0
        N = self.random.choice((self.random.randrange(1, 150), UNIT_LIMIT)) if type == CSP_F else 0
        self.open(type, n, i, S, x, N, self.seed())

    def entry(self):
        """One that a table has; those of Table III-A-4 seldom come to sampling."""
        if self.chance(0.65):
            return CSP_T, self.random.randrange(1, 12), self.random.choice(TABLE_V_AQL[-3:]), 0
        return CSP_F, self.random.randrange(1, 9), 40, self.random.randrange(1, 80_000)

    def open_from_table(self):
        """Half of all without a seed: where there is no station number yet that gets 9, and then one is given."""
        entry, seed = self.entry(), self.random.choice((None, None, 0, self.seed()))
        while self.table(*entry, seed) == refused(9) and self.station is None:
            self.before_open()

    def before_open(self):
        """A station number, and what leaves it or takes its place."""
        self.number_somehow()
        while self.chance(0.6):
            self.random.choice((self.number_somehow, self.refused_open, self.refused_table))()

    def too_late(self):
        """What has its place before an accepted open."""
        self.random.choice((self.open_plan, self.open_from_table, self.number_somehow))()

    def number_somehow(self):
        """Mostly a station number, else one out of range or a wrong number of words."""
        number = self.random.choice((*NUMBERS, *(self.random.randrange(1, MOST_STATIONS) for _ in NUMBERS)))
        self.line(self.random.choice((
            *[words(10, number)] * 5, *[words(10, self.random.choice(NO_NUMBERS))] * 3, words(10), words(10, number, number),
        )))
        if self.chance(0.1):
            self.line(self.lines[-1])

    def refused_open(self):
        plan = [self.random.choice(ODD_NUMBERS) for _ in range(7)]
        plan[1] = 201
        self.line(words(1, *plan))

    def refused_table(self):
        self.table(*self.random.choices(ODD_NUMBERS, k=3), N=UNIT_LIMIT + 1, seed=self.random.choice((None, self.seed())))

    def early_call(self):
        change = words(9, 1, 2, 1, 1, 0, 0, 1)
        self.line(self.random.choice((words(2, 1), words(3, 0), words(3, 2), words(4), words(5), words(6), words(7), change)))

    # ---- Calls on an open station

    def limit(self):
        return self.station.N or UNIT_LIMIT

    def near_the_limit(self):
        """A jump to the last few unit numbers, so that a session reaches the end."""
        self.unit(max(1, self.limit() - self.random.randrange(30)))

    def do_unit(self):
        self.unit()

    def do_stretch(self):
        """Good units alone, as far as a rare place: levels, long rows and the ends of watches lie beyond many of them."""
        for _ in range(50):
            if self.station.owed:
                self.result(0)
            elif self.station.level == 2 or self.long_row() or self.station.last == self.limit():
                break
            else:
                self.unit()

    def do_jump(self):
        self.unit(self.station.last + self.random.choice((2, 2, 3, 10, 1000)))

    def do_interrupt(self):
        self.interrupt()

    def do_find(self):
        self.find()

    def do_tick(self):
        self.tick(self.random.choice((1, 1, 2, 5)))

    def do_take(self):
        self.take(self.random.choice((1, 1, 2, 10)))

    def do_change(self):
        self.change_to(*self.random.choice(self.random.choice((ALLOWED, ALLOWED, NOT_ALLOWED))))

    def change_to(self, n_side, i_side):
        st = self.station
        n, i = self.beside(st.n, n_side, 2), self.beside(st.i, i_side, 1)
        if self.chance(0.03):
            i = 10_001
        S = 0 if st.type == CSP_F else i + self.random.randrange(12)
        x = self.random.randrange(1, i + 1) if st.type == CSP_V and i else 0
        plan = [st.type, n, i, S, x, st.N]
        if self.chance(0.1):
            plan[self.random.randrange(6)] = self.random.choice((*ODD_NUMBERS, 4, 5, 6, 100_001))
        self.change(*plan, demand=1 if self.chance(0.3) else 0)

    def beside(self, number, side, least):
        """A number near another on that side; out of range where there is none between it and the least."""
        other = max(0, number + side * self.random.choice((1, 1, 2, 5)))
        return max(other, least) if number > least else other

    def do_refused(self):
        """Calls that a sound line would not send, though the state may allow some."""
        self.random.choice((
            lambda: self.unit(self.station.last),
            lambda: self.unit(self.random.choice(ODD_NUMBERS[:7])),
            lambda: self.unit(self.limit() + 1),
            lambda: self.unit(2 ** 32 - 1),
            lambda: self.result(self.random.choice((0, 1, 2, 2 ** 31, 2 ** 32 - 1))),
            self.open_plan, self.open_from_table, self.number_somehow, self.refused_open, self.refused_table,
        ))()

    def do_ill_formed(self):
        self.ill_formed()

    # ---- Ill-formed lines

    def ill_formed(self):
        """A good line with one thing wrong in it, or a line of bytes."""
        plan, table, change = words(1, 1, 2, 3, 4, 0, 0, 0xABCDEF), words(8, 4, 1, 400, 0), words(9, 1, 2, 3, 4, 0, 0, 1)
        good = self.random.choice((plan, table, change, words(2, 0xA1), words(3, 0xF), words(7), words(10, 0xA1)))
        at = self.random.randrange(len(good) + 1)
        self.line(self.random.choice((
            good.lower() + b'a',
            good[:at] + b' ' + good[at:],
            good[:at] + b'\t' + good[at + 1:],
            good + self.random.choice((b'\r', b' ', b'0', b' 00000000 00000000 00000000')),
            good + b' ' * self.random.choice((79, 80, 81, 500)),
            good[:at].rstrip() + b'-',
            words(9, 1, 2, 3, 4, 0, 0, self.random.choice((2, 256, 2 ** 31, 2 ** 32 - 1))),
            bytes(self.random.choice(range(11, 256)) for _ in range(self.random.randrange(100))),
            b'',
        )))
