"""Records for the probe: reached, made up within document 01's letter, at its limits, damaged, and random."""

import random

import model
from drive import Driver
from model import (
    CSP_2, CSP_F, CSP_T, CSP_V, EVENT_LIMIT, FIELDS, FLAGS, LONG, SAMPLING_FIELDS, SCREENING_FIELDS, UNIT_LIMIT,
    WAITING_FIELDS, WORD, Station,
)

# Kinds that are not LONG's: those with one bit of its byte turned over, the one above it, and others with a 3 in them.
NEAR_LONG = (*(LONG ^ 1 << bit for bit in range(8)), 4, 0x30, 0x33, 0)
EXTREMES = (0, 1, 2, 2 ** 31, WORD - 1, UNIT_LIMIT, UNIT_LIMIT + 1, EVENT_LIMIT + 1, EVENT_LIMIT + 2, 10_000, 100_001)


class Records:
    def __init__(self, seed):
        self.random = random.Random(seed)

    def pick(self, low, high):
        """A number of low to high, its ends more often than chance has it."""
        ends = [end for end in (low, low + 1, high - 1, high) if low <= end <= high]
        return self.random.choice((*ends, self.random.randint(low, high), self.random.randint(low, min(high, low + 8))))

    def word(self):
        return self.random.choice((self.random.getrandbits(32), self.random.choice(EXTREMES)))

    def memory(self, room):
        """Words that another may have written: take hands them back as they are. Many look like the first of a LONG."""
        number = self.random.getrandbits
        return [self.random.choice((number(32), self.head(number(24)))) for _ in range(3 * room)]

    def head(self, number):
        """An entry's first word, of LONG's kind or nearly so."""
        return self.random.choice((LONG, self.random.choice(NEAR_LONG))) * 2 ** 24 + number

    # ---- Records that a history reaches

    def reached(self, room, count):
        """Stations of one random session in a queue of the given room, each with its memory."""
        driver = Driver(self.random.random())
        driver.program.queue = self.memory(room)
        driver.open_somehow()
        if driver.chance(0.2):
            driver.near_the_limit()
        for _ in range(count):
            for _ in range(self.random.randrange(1, 25)):
                driver.turn()
            yield Station(driver.station.words()), list(driver.program.queue)

    # ---- Records that document 01's letter allows, whether a history reaches them or not

    def made_up(self, room):
        st = Station()
        self.plan(st)
        st.C, st.s = room, self.word()
        self.tallies(st)
        self.random.choice((self.screening, self.sampling))(st)
        if self.random.random() < 0.5:
            self.waiting(st)
        self.numbers(st)
        assert model.sound(st), st.words()
        return st

    def plan(self, st):
        st.type = self.random.randrange(1, 6)
        st.n = self.pick(2, 200)
        st.i = self.pick(1, 10_000)
        st.S = 0 if st.type == CSP_F else self.pick(st.i, 100_000)
        st.x = self.pick(1, st.i) if st.type == CSP_V else 0
        st.N = self.pick(1, 1_000_000) if st.type == CSP_F else 0

    def plan_beside(self, st, n_side, i_side):
        """A plan of the same type with n and i below those in force (-1), at them (0) or above (1).

        Where document 01 has no number on that side, the first one out of its range is taken.
        """
        n, i = self.beside(st.n, n_side, 2, 200), self.beside(st.i, i_side, 1, 10_000)
        S = 0 if st.type == CSP_F else self.pick(min(i, 100_000), 100_000)
        x = self.pick(min(1, i), i) if st.type == CSP_V else 0
        N = self.pick(1, 1_000_000) if st.type == CSP_F else 0
        return [number % WORD for number in (st.type, n, i, S, x, N)]

    def beside(self, number, side, low, high):
        if side < 0:
            return self.pick(min(low, number - 1), number - 1)
        return self.pick(number + 1, max(high, number + 1)) if side else number

    def waiting(self, st):
        """A higher frequency waits in screening and a lower one in sampling, where there is a plan that can."""
        side = -1 if st.phase == model.SCREENING else 1
        plan = self.plan_beside(st, side, side)
        if st.type != CSP_F and model.plan_in_range(*plan):
            model.set_waiting(st, plan)

    def tallies(self, st):
        st.last = self.pick(0, model.unit_limit(st))
        st.owed = self.random.randrange(2) if st.last else 0
        rest = st.last - st.owed
        for field in self.random.sample(('conforming', 'defective', 'passed', 'missed'), 4):
            share = self.pick(0, rest)
            setattr(st, field, share)
            rest -= share
        setattr(st, field, share + rest)

    def screening(self, st):
        st.phase = model.SCREENING
        st.need = self.random.choice((st.i, st.x)) if st.type == CSP_V else st.i
        st.run = self.pick(0, min(st.need - 1, st.conforming))
        st.screened = self.pick(st.run, st.last - st.owed)
        if st.run < st.S - 1 <= st.last - st.owed and self.random.random() < 0.3:
            st.screened = st.S - self.random.randrange(2)
            st.screened = min(st.screened, st.last - st.owed)
        st.unrecalled = self.pick(st.run, min(st.conforming, st.screened))

    def left_to_recall(self, room):
        """In screening, with one unit less left to recall than were screened, as many, or one more, which is not sound."""
        st = self.made_up(room)
        while st.phase != model.SCREENING or not st.conforming:
            st = self.made_up(room)
        st.screened = self.pick(0, st.conforming - 1)
        st.unrecalled = max(0, st.screened + self.random.choice((-1, 0, 1)))
        st.run = self.pick(0, min(st.need - 1, st.unrecalled, st.screened))
        return st

    def sampling(self, st):
        st.phase = model.SAMPLING
        st.level = self.random.randrange(3) if st.type == CSP_T else 0
        length = model.block_length(st)
        st.chosen = self.pick(0, length - 1)
        st.place = (st.chosen + 1) % length if st.owed else self.random.choice((0, st.chosen, self.pick(0, length - 1)))
        if st.type == CSP_V:
            st.row = self.pick(0, st.i)
        if st.type == CSP_T and st.level < 2:
            st.row = self.pick(0, st.i - 1)
        if st.type == CSP_2 and self.random.random() < 0.6:
            st.watch, st.watched = 1, self.pick(0, st.i - 1)
        self.as_begun(st)

    def first_in_block(self, room):
        """A block's first unit comes next, with no row and nothing owed: sound or not, as the plan and the chosen place are."""
        st = Station()
        self.plan(st)
        st.C, st.s = room, self.word()
        self.tallies(st)
        st.missed, st.owed = st.missed + st.owed, 0
        st.phase = model.SAMPLING
        st.level = self.random.randrange(3) if st.type == CSP_T else 0
        st.chosen = self.pick(0, model.block_length(st) - 1)
        self.numbers(st)
        return st

    def as_begun(self, st):
        """Where the fields tell of a level that has just begun, no place has been chosen in it."""
        if st.phase == model.SAMPLING and model.level_begins(st):
            st.chosen = 0

    def numbers(self, st):
        self.numbers_from(st, self.random.choice((2, 3, st.C + 1, st.C + 2, self.pick(2, EVENT_LIMIT + 1))))
        if self.random.random() < 0.2:
            self.last_numbers(st)
        st.heard = self.random.randrange(2)

    def last_numbers(self, st):
        """Four numbers left, three, two, one, or none."""
        self.numbers_from(st, self.random.randrange(EVENT_LIMIT - 3, EVENT_LIMIT + 2))

    def numbers_from(self, st, next):
        """Queues that are empty, full or nearly so, and full ones with a gap."""
        self.holding(st, next, min(self.random.choice((0, 1, st.C - 2, st.C - 1, st.C, st.C)), next - 1))

    def holding(self, st, next, held):
        """Of the numbers in a gap any number may have been LONG, all of them too."""
        st.next, st.oldest = next, next - held
        st.told = self.pick(1, st.oldest) if held == st.C else st.oldest
        st.lost = self.pick(0, st.oldest - st.told)
        st.silent = self.pick(0, st.next - 2)

    def full(self, st):
        """A full queue, with a gap or with none, and numbers enough for any call."""
        self.holding(st, self.pick(st.C + 1, EVENT_LIMIT - 2), st.C)

    def about_the_gap(self, room):
        """As many LONG events lost as there are numbers in the gap, one less, or one more, which is not sound."""
        st = self.made_up(room)
        self.full(st)
        st.lost = max(0, st.oldest - st.told + self.random.choice((-1, 0, 1)))
        return st

    # ---- Records that break a rule, or may

    def with_damage(self, st, field):
        """The record with one field changed by one or to an extreme. A flag can only be turned over."""
        words = dict(zip(FIELDS, st.words()))
        value = words[field]
        if field in FLAGS:
            words[field] = 1 - value
        else:
            near = ((value + 1) % WORD, (value - 1) % WORD)
            words[field] = self.random.choice((*near, *near, self.word()))
        if words['phase'] != st.phase:
            self.other_phase(words)
        return Station(words.values())

    def other_phase(self, words):
        """Fields of the other phase do not exist: when the phase is turned over the old ones are gone, and new ones come."""
        gone, fresh = (SCREENING_FIELDS, SAMPLING_FIELDS) if words['phase'] else (SAMPLING_FIELDS, SCREENING_FIELDS)
        words.update((field, 0) for field in gone)
        words.update((field, self.random.choice((0, 1))) for field in fresh)

    def fields_of(self, st):
        """The fields that the record has in its phase."""
        absent = SAMPLING_FIELDS if st.phase == model.SCREENING else SCREENING_FIELDS
        return [field for field in FIELDS if field not in absent]

    def any_record(self):
        """Words of chance; flags are 0 or 1, and fields of the other phase do not exist. Half of them have no plan waiting."""
        st = Station(self.word() for _ in FIELDS)
        for flag in FLAGS:
            setattr(st, flag, self.random.randrange(2))
        if self.random.random() < 0.5:
            model.clear(st, WAITING_FIELDS)
        model.clear(st, SAMPLING_FIELDS if st.phase == model.SCREENING else SCREENING_FIELDS)
        return st
