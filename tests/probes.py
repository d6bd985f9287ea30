"""Requests for the probe: one call on one record and one memory, as words. Each comes with the name of what it tries."""

import struct
from itertools import product

import model
from model import (
    EVENT_LIMIT, LEAST_ROOM, LONG, MOST_EVENTS_OF_A_CALL, MOST_ROOM, SAMPLING, SCREENING, WAITING_FIELDS, WORD, Station,
)
from reached import PLANS, change_as, change_refused_as
from records import NEAR_LONG, Records

OPEN, UNIT, RESULT, INTERRUPT, FIND, TICK, TAKE, CHANGE = range(1, 9)
CALLS = {
    OPEN: 'open', UNIT: 'unit', RESULT: 'result', INTERRUPT: 'interrupt', FIND: 'check find', TICK: 'tick', TAKE: 'take',
    CHANGE: 'change',
}
ON_A_RECORD = range(UNIT, CHANGE + 1)
# The documents' checks of each call, in order.
CHECKS = {
    OPEN: (1, 3), UNIT: (1, 2, 10, 4, 6, 7), RESULT: (1, 2, 10, 9, 5), INTERRUPT: (1, 2, 10, 4), FIND: (1, 2, 10, 4, 8),
    TICK: (1, 2, 10), TAKE: (1, 2), CHANGE: (1, 2, 10, 4, 11, 3),
}
# Where the new n and i stand beside those in force: below (-1), equal (0) or above (1).
ALLOWED = ((-1, -1), (1, 1), (0, -1), (0, 0), (0, 1))
NOT_ALLOWED = ((-1, 0), (-1, 1), (1, 0), (1, -1))
DEMANDS = (0, 0, 0, 1, 1, 2, 2 ** 31, WORD - 1)
SMALL_ROOMS = (8, 9, 10, 11, 12, 16)
ROOMS = (*SMALL_ROOMS, 31, 64, 100, 255, 256, 1000, 2048, 4095, 4096)
SMALL_PLAN = [model.CSP_1, 2, 3, 4, 0, 0, 0]
MOST_WORDS = 12_400


class Request:
    """A call with its arguments, the record and the memory."""

    def __init__(self, about, call, arguments, st, queue):
        self.about, self.call, self.arguments, self.st, self.queue = about, call, list(arguments), st, queue

    def words(self):
        return [self.call, *self.arguments, *[0] * (7 - len(self.arguments)), *self.st.words(), *self.queue]


def written(words):
    """Upper-case words of 8 digits, single spaces."""
    return struct.pack(f'>{len(words)}I', *words).hex(' ', 4).upper().encode()


class Probes(Records):
    def argument(self, call, st):
        if call == UNIT:
            limit = model.unit_limit(st)
            near = (st.last + 1, st.last + 1, st.last + 2, st.last, st.last + 9, limit, limit + 1, 0, self.word())
            return [self.random.choice(near) % WORD]
        if call == RESULT:
            return [self.random.choice((0, 0, 0, 1, 1, 1, 2, WORD - 1, 2 ** 31))]
        if call == CHANGE:
            return [*self.new_plan(st), self.random.choice(DEMANDS)]
        return []

    def new_plan(self, st):
        """Mostly one that the plan in force may be changed to."""
        plan = self.plan_beside(st, *self.random.choice(self.random.choice((ALLOWED, ALLOWED, NOT_ALLOWED))))
        return self.one_off(plan) if self.random.random() < 0.2 else plan

    def one_off(self, plan):
        """A plan with one number off by one, or of chance."""
        at = self.random.randrange(6)
        other = self.random.choice(((plan[at] + 1) % WORD, (plan[at] - 1) % WORD, self.word()))
        return [*plan[:at], other, *plan[at + 1:]]

    def request(self, about, call, st, queue):
        if call == OPEN:
            return Request(about, OPEN, SMALL_PLAN, Station(), queue)
        return Request(about, call, self.argument(call, st), st, queue)

    def any_call(self):
        return self.random.choice(ON_A_RECORD)

    # ---- The kinds of request

    def sound(self, count):
        """Reached and made-up records in small rooms, every call."""
        for _ in range(count // 12):
            room = self.random.choice(SMALL_ROOMS)
            for st, queue in (*self.reached(room, 1), (self.made_up(room), self.memory(room))):
                for call in ON_A_RECORD:
                    yield self.request('sound', call, st, queue)

    def willing(self, count):
        """Records on which the call can be done, often with the last event numbers next."""
        for _ in range(count):
            room = self.random.choice(SMALL_ROOMS)
            made = self.request('willing', self.any_call(), self.made_up(room), self.memory(room))
            (self.owing if made.call == RESULT else self.owing_nothing)(made)
            if made.call == UNIT:
                made.arguments = [made.st.last + self.random.choice((1, 1, 2, 9))]
            if made.call == RESULT:
                made.arguments = [self.random.randrange(2)]
            if made.call == FIND and made.st.phase == SCREENING and made.st.conforming:
                made.st.unrecalled = max(made.st.unrecalled, 1)
                made.st.screened = max(made.st.screened, 1)
            if made.call == CHANGE:
                made.arguments[:6] = self.plan_beside(made.st, *self.random.choice(ALLOWED))
            if self.random.random() < 0.3:
                self.last_numbers(made.st)
            yield made

    def drops(self, count):
        """Calls that raise events into a full queue; the oldest entries are LONG, under their own numbers or others, or nearly so."""
        for made in self.willing(count):
            made.about = 'a full queue'
            self.full(made.st)
            for number in range(made.st.oldest, made.st.oldest + MOST_EVENTS_OF_A_CALL):
                made.queue[model.slot(made.st, number)] = self.head(self.random.choice((number, self.random.getrandbits(24))))
            yield made

    def edges(self, clauses):
        """Every call on the records to both sides of each edge of "A sound record"."""
        for clause, *both in clauses:
            for st in both:
                for call in ON_A_RECORD:
                    yield self.request(f'edge {clause}', call, st, self.memory(st.C))

    def changes(self, count):
        """Changes of every kind, on reached and made-up records with a plan waiting and with none; seldom with a result owed."""
        for _ in range(count):
            room = self.random.choice(SMALL_ROOMS)
            (reached,) = self.reached(room, 1)
            made = self.request('a change', CHANGE, *self.random.choice((reached, (self.made_up(room), self.memory(room)))))
            if self.random.random() < 0.9:
                self.owing_nothing(made)
            yield made

    def waiters(self, count):
        """Records in which any plan may wait: one that can, one beside the plan in force on any side, one with a number off."""
        for _ in range(count):
            room = self.random.choice(SMALL_ROOMS)
            st, queue = self.made_up(room), self.memory(room)
            sides = self.random.choice((-1, 0, 1)), self.random.choice((-1, 0, 1))
            plan = self.random.choice((model.waiting_plan(st), self.plan_beside(st, *sides)))
            model.set_waiting(st, self.one_off(plan) if self.random.random() < 0.5 else plan)
            yield self.request('any plan waiting', self.any_call(), st, queue)

    def damaged(self, count):
        """Every field of a sound record changed, field after field."""
        for _ in range(count // 20):
            room = self.random.choice(SMALL_ROOMS)
            st, queue = self.made_up(room), self.memory(room)
            for field in self.fields_of(st):
                yield self.request(damaged_as(st, field), self.any_call(), self.with_damage(st, field), queue)

    def begun(self, count):
        """Records that look like a level's beginning, with the chosen place 0 or another."""
        for _ in range(count):
            room = self.random.choice(SMALL_ROOMS)
            st = self.first_in_block(room)
            yield self.request(begun_as(st.type, st.level, st.chosen == 0), self.any_call(), st, self.memory(room))

    def recalls(self, count):
        """Records in screening with about as many units left to recall as were screened."""
        for _ in range(count):
            room = self.random.choice(SMALL_ROOMS)
            st = self.left_to_recall(room)
            yield self.request(recalls_as(st), self.any_call(), st, self.memory(room))

    def losses(self, count):
        """Records whose gap has lost about as many LONG events as it is long."""
        for _ in range(count):
            room = self.random.choice(SMALL_ROOMS)
            st = self.about_the_gap(room)
            yield self.request(loses_as(st), self.any_call(), st, self.memory(room))

    def chance(self, count):
        """Records of chance words, mostly with a memory that fits."""
        for _ in range(count):
            st = self.any_record()
            room = self.random.choice((8, 8, 9, 4))
            if self.random.random() < 0.8:
                st.C = room
            yield self.request('chance', self.any_call(), st, self.memory(room))

    def opens(self, count):
        """Plans in range, with one number off, or with one of chance; the record sent along says nothing to an open."""
        for _ in range(count):
            st = self.made_up(8)
            plan = st.words()[:6]
            if self.random.random() < 0.6:
                plan = self.one_off(plan)
            size = self.random.choice((24, 24, 27, 30, 0, 23, 25, 26, 3 * self.random.randrange(40)))
            queue = [self.random.getrandbits(32) for _ in range(size)]
            yield Request('open', OPEN, [*plan, self.word()], self.random.choice((st, Station())), queue)

    def rooms(self, rounds):
        """Every call in rooms from 8 to 4,096, with queues that are empty, full and overflowing."""
        for room in ROOMS * rounds:
            st, queue = self.made_up(room), self.memory(room)
            for call in CALLS:
                yield self.request(f'room {room}', call, st, queue)

    def other_rooms(self, count):
        """Whole entries, but not as many as the station has."""
        for _ in range(count):
            room = self.random.choice(SMALL_ROOMS)
            other = self.random.choice((room - 1, room + 1, 2 * room, 4))
            yield self.request('another room', self.any_call(), self.made_up(room), self.memory(other))

    def lengths(self, lengths):
        """Memories of the given numbers of words, with the room that comes nearest."""
        words = self.memory(MOST_WORDS // 3 + 1)
        for length in lengths:
            room = min(max(length // 3, LEAST_ROOM), MOST_ROOM)
            yield self.request(f'{length} words', self.random.choice(list(CALLS)), self.made_up(room), words[:length])

    def stacked(self, count):
        """Several checks apply at once: the first in the documents' order is given."""
        for _ in range(count):
            call = self.random.choice(list(CALLS))
            made = self.request('stacked', call, self.made_up(8), self.memory(8))
            for number, fault in self.faults():
                if number in CHECKS[call] and self.random.random() < 0.5:
                    fault(made)
            yield made

    # ---- What makes each check apply; those that change the record soundly come first

    def faults(self):
        return (
            (10, self.no_numbers), (4, self.owing), (5, self.owing_nothing), (8, self.nothing_to_recall), (6, self.low_unit),
            (7, self.high_unit), (9, self.odd_result), (11, self.no_such_change), (3, self.bad_plan), (2, self.unsound),
            (1, self.misfit),
        )

    def no_numbers(self, made):
        self.numbers_from(made.st, self.random.choice((EVENT_LIMIT - 1, EVENT_LIMIT, EVENT_LIMIT + 1)))

    def owing(self, made):
        st = made.st
        if st.missed and not st.owed:
            st.missed -= 1
            st.owed = 1
            st.place = (st.chosen + 1) % model.block_length(st) if st.phase == SAMPLING else 0
            st.screened = min(st.screened, st.last - 1)

    def owing_nothing(self, made):
        made.st.missed += made.st.owed
        made.st.owed = 0
        self.as_begun(made.st)

    def nothing_to_recall(self, made):
        if made.st.phase == SCREENING:
            made.st.run = made.st.unrecalled = 0

    def low_unit(self, made):
        made.arguments = [self.random.choice((0, made.st.last))]

    def high_unit(self, made):
        made.arguments = [model.unit_limit(made.st) + 1]

    def odd_result(self, made):
        made.arguments = [2]

    def no_such_change(self, made):
        made.arguments[:6] = self.plan_beside(made.st, *self.random.choice(NOT_ALLOWED))

    def bad_plan(self, made):
        made.arguments[self.random.randrange(6)] = WORD - 1

    def unsound(self, made):
        made.st.silent = made.st.next - 1

    def misfit(self, made):
        made.queue = self.random.choice((made.queue[:21], made.queue[:23], [], made.queue + [0, 0, 0]))


def applying(made):
    """Every check of the call that applies, in the documents' order, each looked at by itself."""
    st, first = made.st, (made.arguments or [0])[0]
    room = model.room_of(made.queue)
    applies = {
        1: room == 0 or (made.call != OPEN and room != st.C),
        2: not model.sound(st),
        3: made.call in (OPEN, CHANGE) and not model.plan_in_range(*made.arguments[:6]),
        4: st.owed,
        5: not st.owed,
        6: first <= st.last,
        7: first > model.unit_limit(st),
        8: st.phase != SCREENING or st.unrecalled == 0,
        9: first not in (0, 1),
        10: st.next > EVENT_LIMIT - 2,
        11: made.call == CHANGE and model.not_allowed(st, *made.arguments[:3]),
    }
    return [number for number in CHECKS[made.call] if applies[number]]


def begun_as(type, level, zero):
    """The name of such a record."""
    return f'begun {PLANS[type]} level {level}, chosen {"0" if zero else "not 0"}'


def begun_goals():
    """Both sides for each type and level: only under CSP-T below level 2 and under CSP-V is a chosen place refused."""
    for type in PLANS:
        for level in range(3 if type == model.CSP_T else 1):
            told = type == model.CSP_V or (type == model.CSP_T and level < 2)
            yield f'{begun_as(type, level, True)}: 0'
            yield f'{begun_as(type, level, False)}: {2 if told else 0}'


def recalls_as(st):
    """The name of such a record."""
    above = st.unrecalled - st.screened
    return f'unrecalled {"below" if above < 0 else "above" if above else "at"} screened'


def loses_as(st):
    """The name of such a record."""
    above = st.lost - (st.oldest - st.told)
    return f'lost {"below" if above < 0 else "above" if above else "at"} the gap'


def damaged_as(st, field):
    """A word of a waiting plan is one thing, and a word where no plan waits another."""
    none_waits = field in WAITING_FIELDS and model.waiting_plan(st) == model.NO_PLAN
    return f'damaged {field}, no plan waiting' if none_waits else f'damaged {field}'


def change_seen(made, refusal):
    """What a change was, where it was taken, or the one reason for which it was not."""
    *plan, demand = made.arguments
    return change_as(made.st, plan, demand) if refusal == 0 else change_refused_as(made.st, plan, refusal)


# ---- What a call drops, by what the memory has

IN_GAP = ('no gap', 'none of a gap lost', 'some of a gap lost', 'all of a gap lost')
DROPS = (
    *(f'dropped {", ".join(kinds)}' for drops in range(1, MOST_EVENTS_OF_A_CALL + 1) for kinds in product(('LONG', 'another'), repeat=drops)),
    *(f'{what} dropped, {gap}' for what in ('LONG', 'no LONG') for gap in IN_GAP),
    *(f'dropped kind {kind:02X}' for kind in NEAR_LONG),
    'dropped LONG under its own number', 'dropped LONG under another number', 'dropped another with LONG in the words beside it',
    *(f'nothing dropped, {gap}' for gap in IN_GAP), *(f'marker, {gap}' for gap in IN_GAP[1:]),
)


def drops_seen(made, after):
    """What an accepted call did, by the memory and the numbers it found and the record it left."""
    st, gap = made.st, gap_as(made.st)
    if after.next == st.next:
        return [f'marker, {gap}' if made.call == TAKE and st.told < st.oldest else f'nothing dropped, {gap}']
    gone = [made.queue[at:at + 3] for at in (model.slot(st, number) for number in range(st.oldest, after.oldest))]
    kinds = [head >> 24 for head, *_ in gone]
    if not gone:
        return []
    seen = [f'dropped {", ".join("LONG" if kind == LONG else "another" for kind in kinds)}']
    seen += [f'{"LONG" if LONG in kinds else "no LONG"} dropped, {gap}']
    for number, (head, *beside) in enumerate(gone, st.oldest):
        seen += dropped_as(number, head, beside)
    return seen


def gap_as(st):
    length = st.oldest - st.told
    return IN_GAP[0 if length == 0 else 1 if st.lost == 0 else 2 if st.lost < length else 3]


def dropped_as(number, head, beside):
    if head >> 24 == LONG:
        yield f'dropped LONG under {"its own" if head & 0xFFFFFF == number else "another"} number'
        return
    yield f'dropped kind {head >> 24:02X}'
    if LONG in (word >> 24 for word in beside):
        yield 'dropped another with LONG in the words beside it'


LIMITS = (
    *(f'next {number:,}' for number in range(EVENT_LIMIT - 3, EVENT_LIMIT + 2)),
    'last at its limit', 'run one short of need', 'need x', 'screened one short of S', 'screened at S', 'screened above S',
    'one left to recall', 'unrecalled at screened', 'unrecalled at conforming', 'S between unrecalled and screened',
    'row one short of i', 'row at i', 'watch one short of i', 'level 2', 'a level begins',
    'queue empty', 'queue full', 'queue one short of full', 'gap', 'lost 0 in a gap', 'lost at its most', 'silent at its most',
    'a plan waiting in screening', 'a plan waiting in sampling', 'a plan waiting one step off',
    'a plan waiting, run one short of need', 'a plan waiting, row at i', 'a plan waiting, level 2', 'a plan waiting, watch on',
)


def limits(st):
    """The limits of the documents that a sound record stands at."""
    held = st.next - st.oldest
    screening, sampling = st.phase == SCREENING, st.phase == SAMPLING
    waiting = model.waiting_plan(st) != model.NO_PLAN
    at = {
        f'next {st.next:,}': True,
        'last at its limit': st.last == model.unit_limit(st),
        'run one short of need': screening and st.run == st.need - 1,
        'need x': screening and st.need < st.i,
        'screened one short of S': screening and st.screened == st.S - 1,
        'screened at S': screening and st.screened == st.S > 0,
        'screened above S': screening and st.screened > st.S > 0,
        'one left to recall': st.unrecalled == 1,
        'unrecalled at screened': st.unrecalled == st.screened > 0,
        'unrecalled at conforming': st.unrecalled == st.conforming > 0,
        'S between unrecalled and screened': 0 < st.unrecalled < st.S <= st.screened,
        'row one short of i': sampling and st.row == st.i - 1,
        'row at i': sampling and st.row == st.i,
        'watch one short of i': st.watch and st.watched == st.i - 1,
        'level 2': st.level == 2,
        'a level begins': sampling and model.level_begins(st),
        'queue empty': held == 0,
        'queue full': held == st.C,
        'queue one short of full': held == st.C - 1,
        'gap': st.told < st.oldest,
        'lost 0 in a gap': st.told < st.oldest and st.lost == 0,
        'lost at its most': st.lost == st.oldest - st.told > 0,
        'silent at its most': st.silent == st.next - 2,
        'a plan waiting in screening': waiting and screening,
        'a plan waiting in sampling': waiting and sampling,
        'a plan waiting one step off': waiting and abs(st.waiting_n - st.n) == abs(st.waiting_i - st.i) == 1,
        'a plan waiting, run one short of need': waiting and screening and st.run == st.need - 1,
        'a plan waiting, row at i': waiting and sampling and st.row == st.i,
        'a plan waiting, level 2': waiting and st.level == 2,
        'a plan waiting, watch on': waiting and st.watch,
    }
    return [name for name, holds in at.items() if holds]
