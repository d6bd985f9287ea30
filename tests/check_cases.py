"""The model against the documents' own numbers: document 01's example, its nine cases and what it says of the tables, and
the sentences of document 02 on a change of plan, on a check find, on what a gap marker has lost and on a station number.

Every other part compares with the model, so the model must have been held to the document first.
"""

import model
from check_stored import FOLDER
from model import (
    CHECK, CSP_1, CSP_2, CSP_F, CSP_T, CSP_V, DEFECT, DONE, INTERRUPT, LONG, PHASE, PLAN, SAMPLING, SCREENING, SILENCE, START,
    TABLE_III_A_4, TABLE_V, refused,
)
from script import Script

EXAMPLE = b'''\
00 00 00000000 00000000 00000000
00 00 00000000 00000000 00000001
00 00 00000000 00000000 00000000
00 00 00000000 00000000 00000001
00 00 00000000 00000000 00000000
00 00 00000000 00000000 00000001
00 00 00000000 00000000 00000000
00 00 00000000 00000000 00000000
00 00 00000000 00000000 00000001
00 01 00000001 00000000 00000002
00 02 00000002 00000002 00000001
00 05 00000003 00000005 00000001
00 02 00000004 00000006 00000000
00 00 00000000 00000000 00000000
'''


def check(report, pair, options):
    report.check((FOLDER / 'example.out').read_bytes() == EXAMPLE, 'sessions/example.out is not document 01\'s example')
    cases = (case_1, case_2, case_3, case_4, case_5, case_6, case_7, case_8, case_9)
    for number, case in enumerate(cases, 1):
        for at, holds in enumerate(case(), 1):
            report.check(holds, f'the model breaks document 01\'s case {number}, at its check {at}')
    for request, requested in (('W1', CHANGES), ('W2', FINDS), ('W4', LOSSES), ('W6', NUMBERS)):
        for case in requested:
            for at, holds in enumerate(case(), 1):
                report.check(holds, f'the model breaks {request} in {case.__name__}, at its check {at}')
    for law, holds in table_laws().items():
        report.check(holds, f'the model\'s tables: {law}')
    laws = f'{len(FINDS)} laws of a find, {len(LOSSES)} of what a marker has lost, {len(NUMBERS)} of a station number'
    requests = f'{len(CHANGES)} changes of plan, {laws}'
    return f'the example, {len(cases)} cases, {requests} and {len(table_laws())} laws of the tables'


def opened(*plan, **more):
    script = Script()
    script.open(*plan, **more)
    return script


def counts(script):
    st = script.station
    return st.need, st.run, st.screened, st.unrecalled


def tallies(script):
    st = script.station
    return st.conforming, st.defective, st.passed, st.missed, st.owed, st.last


def letter_a():
    """Letter A, AQL 10.0: n 2, i 5, S 12."""
    script = Script()
    script.table(CSP_T, 1, 10_000)
    return script


def last_event(script):
    """The newest event held, as a take would tell it."""
    st, queue = script.station, script.program.queue
    at = model.slot(st, st.next - 1)
    return queue[at] >> 24, queue[at + 1], queue[at + 2]


# ---- The nine cases

def case_1():
    states = [0]
    for _ in range(3):
        states.append(model.step(states[-1]))
    yield states[1:] == [0x3C6EF35F, 0x47502932, 0xD1CCF6E9]
    for length, places in ((2, [0, 0, 1]), (100, [23, 27, 81])):
        script = opened(CSP_1, length, 1)
        script.good()
        orders = []
        while len(orders) < 3 * length:
            orders.append(script.unit()[4])
            if orders[-1]:
                script.result(0)
        yield [at % length for at, order in enumerate(orders) if order] == places


def case_2():
    script = letter_a()
    yield script.station.n == 2
    script.good(4)
    yield script.station.phase == SCREENING
    script.good()
    yield script.station.phase == SAMPLING


def case_3():
    for unit, alarm in ((12, True), (11, False)):
        script = letter_a()
        while script.station.screened < unit - 1:
            (script.bad if script.station.run == 4 else script.good)()
        script.bad()
        yield (last_event(script) == (LONG, unit, unit)) == alarm


def case_4():
    script = letter_a()
    script.good(5)
    for length in (4, 8, 8):
        script.good(5)
        yield model.block_length(script.station) == length


def case_5():
    for good, phase in ((2, SCREENING), (3, SAMPLING)):
        script = opened(CSP_2, 2, 3)
        script.good(3)
        script.bad()
        script.good(good)
        script.bad()
        yield script.station.phase == phase


def case_6():
    for good, need in ((2, 3), (3, 1)):
        script = opened(CSP_V, 2, 3, x=1)
        script.good(3 + good)
        script.bad()
        yield script.station.need == need
    script.bad()
    yield script.station.need == 3


def case_7():
    script = opened(CSP_F, 2, 1, N=2)
    script.units(2)
    yield script.unit(3) == refused(7)


def case_8():
    script = opened(CSP_1, 2, 3)
    script.good(2)
    yield script.find() == DONE
    yield script.station.run == 0
    yield script.find() == DONE
    yield script.find() == refused(8)


def case_9():
    """W4: the marker shows 0 LONG."""
    script = opened(CSP_1, 2, 1)
    script.tick(10)
    yield script.take() == (0, 9, 1, 0, 3)
    yield script.take() == (0, SILENCE, 4, 0, 3)


# ---- W1: changes of plan

def told(script):
    """The events that takes tell, without their numbers, up to "nothing"."""
    script.take_all()
    return [(kind, unit, value) for _, kind, _, unit, value in script.answers[-9:-1] if kind]


def waits_in_screening():
    """A higher frequency waits for the shift to sampling; the old need decides when."""
    script = opened(CSP_1, 3, 3, 5)
    yield script.change(CSP_1, 2, 2, 2) == DONE
    script.good(2)
    yield script.station.phase == SCREENING and script.station.n == 3
    script.good()
    yield script.station.phase == SAMPLING and plan_in_force(script) == [CSP_1, 2, 2, 2, 0, 0]
    yield told(script) == [(START, 0, 3), (PHASE, 3, 1), (PLAN, 3, 2)]


def waits_in_sampling():
    """A lower one waits for the return to screening; a level change is none."""
    script = opened(CSP_T, 3, 1, 5)
    script.good()
    yield script.change(CSP_T, 5, 4, 4) == DONE
    script.good()
    yield script.station.level == 1 and script.station.n == 3
    script.interrupt()
    yield script.station.need == 4 and script.station.n == 5
    last = script.station.last
    yield told(script) == [(START, 0, 1), (PHASE, 1, 1), (PHASE, last, 2), (INTERRUPT, last, 0), (PHASE, last, 0), (PLAN, last, 5)]


def at_once_in_screening():
    """A lower one is taken up at once: need is the new i, under CSP-V too, and run and screened stay."""
    script = opened(CSP_V, 2, 3, x=2)
    script.good(6)
    script.bad()
    script.good()
    yield script.station.need == 2
    script.change(CSP_V, 5, 4, 4, x=1)
    yield counts(script) == (4, 1, 1, 1)
    yield last_event(script) == (PLAN, script.station.last, 5)


def at_once_in_sampling():
    """A higher one is taken up at once: a watch stays on with count 0, and a level that ends is told."""
    script = opened(CSP_2, 4, 3)
    script.good(3)
    script.bad()
    script.good(2)
    yield script.station.watched == 2
    script.change(CSP_2, 3, 2, 2)
    yield (script.station.watch, script.station.watched, script.station.place, script.station.chosen) == (1, 0, 0, 0)
    script = opened(CSP_T, 4, 2)
    script.good(6)
    script.take_all()
    script.change(CSP_T, 3, 1, 1)
    yield script.station.level == 0
    yield told(script)[-2:] == [(PHASE, script.station.last, 1), (PLAN, script.station.last, 3)]


def on_demand():
    """Any change is made at once by a fresh sequence with the new i; whatever waited is gone."""
    for n, i in ((2, 2), (5, 4)):
        script = opened(CSP_1, 3, 3, 5)
        script.good(2)
        script.change(CSP_1, 2, 1, 1)
        script.change(CSP_1, n, i, 5, demand=1)
        yield counts(script) == (i, 0, 0, 0)
        yield model.waiting_plan(script.station) == model.NO_PLAN
        yield told(script)[-1] == (PLAN, 2, n)


def old_i_judges():
    """Taken up as CSP-V reverts: the old i judges the samples, and need is the new x or the new i."""
    for good, need in ((2, 6), (3, 2)):
        script = opened(CSP_V, 2, 3, x=1)
        script.good(3 + good)
        script.change(CSP_V, 3, 6, 6, x=2)
        script.bad()
        yield script.station.need == need


def equal_or_refused():
    """Equal frequencies change nothing, and 11 comes before 3; a waiting plan stays in both."""
    script = opened(CSP_1, 4, 4)
    script.change(CSP_1, 3, 3, 3)
    before = script.station.words()
    yield script.change(CSP_1, 4, 9, 9, demand=1) == DONE
    yield script.change(CSP_2, 3, 3, 3) == refused(11) == script.change(0, 3, 3, 3)
    yield script.change(CSP_1, 1000, 4, 4) == refused(11) == script.change(CSP_1, 2, 4, 4)
    yield script.change(CSP_1, 0, 3, 3) == refused(3) == script.change(CSP_1, 3, 3, 2)
    yield script.station.words() == before
    script = opened(CSP_F, 4, 4, N=9)
    yield script.change(CSP_F, 3, 3, 0, N=9) == refused(11)


def plan_in_force(script):
    return script.station.words()[:6]


CHANGES = (
    waits_in_screening, waits_in_sampling, at_once_in_screening, at_once_in_sampling, on_demand, old_i_judges, equal_or_refused,
)


# ---- W2: screened units after a find

def find_leaves_screened():
    """A find sets run to 0 and leaves screened; unrecalled falls by 1, and need and the tallies stay."""
    script = opened(CSP_V, 2, 4, x=3)
    script.good(8)
    script.bad()
    script.good(2)
    before = tallies(script)
    yield counts(script) == (3, 2, 2, 2)
    yield script.find() == DONE and counts(script) == (3, 0, 2, 1)
    yield script.find() == DONE and counts(script) == (3, 0, 2, 0)
    yield script.find() == refused(8) and counts(script) == (3, 0, 2, 0)
    yield tallies(script) == before


def alarm_follows():
    """LONG counts the units before a find; it comes at the next defect, and never at a find."""
    script = opened(CSP_1, 2, 3, 4)
    script.good(2)
    script.find()
    script.bad()
    yield last_event(script) == (DEFECT, 3, 0)
    script.good()
    script.find()
    yield last_event(script) == (CHECK, 4, 0)
    script.bad()
    yield last_event(script) == (LONG, 5, 5)


def new_sequence_counts_anew():
    """A jump, an interrupt, a return and a change on demand set screened to 0 after a find, as they did."""
    turns = (
        lambda script: script.unit(script.station.last + 2),
        lambda script: script.interrupt(),
        lambda script: [script.good(), script.bad()],
        lambda script: script.change(CSP_1, 3, 4, 4, demand=1),
    )
    for turn in turns:
        script = opened(CSP_1, 2, 3, 4)
        script.good(2)
        script.find()
        script.good(2)
        turn(script)
        yield counts(script) == (script.station.i, 0, 0, 0)


def unrecalled_at_most_screened():
    """In a sound record; every call on another gets 2."""
    script = opened(CSP_1, 2, 3, 4)
    script.good(2)
    script.bad()
    script.good()
    yield counts(script) == (3, 1, 4, 3)
    script.station.screened = 3
    yield model.sound(script.station)
    script.station.screened = 2
    yield not model.sound(script.station)
    yield script.find() == refused(2)


FINDS = (find_leaves_screened, alarm_follows, new_sequence_counts_anew, unrecalled_at_most_screened)


# ---- W4: what a marker has lost. With i 1 and S 1 each defect in screening is DEFECT and LONG, the first of them 2 and 3.

def numbers(script):
    st = script.station
    return st.told, st.oldest, st.next, st.lost


def marker_owns_up():
    """Its unit word is the number of LONG events among those it names, and the next one counts anew."""
    script = opened(CSP_1, 2, 1, 1)
    yield numbers(script) == (1, 1, 2, 0)
    script.bad(4)
    yield numbers(script) == (1, 2, 10, 0)
    script.bad()
    yield numbers(script) == (1, 4, 12, 1)
    script.bad()
    yield numbers(script) == (1, 6, 14, 2)
    yield script.take() == (0, 9, 1, 2, 5)
    yield numbers(script) == (6, 6, 14, 0)
    script.tick(2)
    yield script.take() == (0, 9, 6, 0, 1)
    script.tick()
    yield script.take() == (0, 9, 7, 1, 1)
    yield script.take() == (0, DEFECT, 8, 4, 0)
    yield script.take() == (0, LONG, 9, 4, 4)


def counted_where_dropped():
    """A LONG that finds the queue full counts nothing when it comes, and 1 when a later event drops it."""
    script = opened(CSP_1, 2, 1, 1)
    script.tick(7)
    script.bad()
    yield numbers(script) == (1, 3, 11, 0)
    yield script.take() == (0, 9, 1, 0, 2)
    script.tick(8)
    yield numbers(script) == (3, 10, 18, 0)
    script.tick()
    yield numbers(script) == (3, 11, 19, 1)
    yield script.take() == (0, 9, 3, 1, 8)


def neither_told_nor_held():
    """A LONG that was told and one that is held are none of those that a marker names."""
    script = opened(CSP_1, 2, 1, 1)
    script.bad(2)
    yield script.take(3) == (0, LONG, 3, 1, 1)
    script.tick(8)
    yield script.take() == (0, 9, 4, 0, 1)
    yield script.take() == (0, LONG, 5, 2, 2)


def two_of_three():
    """One call may drop three, the first and the last of them LONG."""
    script = opened(CSP_1, 2, 1, 1)
    script.bad(2)
    script.good()
    script.take(2)
    script.change(CSP_1, 3, 2, 2)
    script.tick(5)
    yield numbers(script) == (3, 3, 11, 0)
    script.interrupt()
    yield numbers(script) == (3, 6, 14, 2)
    yield script.take() == (0, 9, 3, 2, 3)


def kind_in_memory():
    """What is dropped is read where it stands: kind 3, whatever its number, even if another has written it; no other kind."""
    for head, lost in ((0x03000000, 1), (0x03FFFFFF, 1), (0x04000003, 0), (0x02FFFFFF, 0), (0x83000001, 0), (0x00030303, 0), (3, 0)):
        script = opened(CSP_1, 2, 1, 1)
        script.tick(7)
        script.program.queue[0:3] = head, 0x03000000, 0x03000000
        script.tick()
        yield script.take() == (0, 9, 1, lost, 1)


def no_call_else():
    """Refused calls and calls that raise nothing leave it; a refused open has 0."""
    script = opened(CSP_1, 3, 1, 1)
    script.bad(5)
    script.unit()
    yield script.unit() == refused(4) and script.result(2) == refused(9)
    yield script.tick() == DONE and script.change(CSP_2, 2, 1) == refused(4)
    yield numbers(script) == (1, 4, 12, 1)
    answer, station = model.open_station(script.program.queue, CSP_1, 1, 1, 1, 0, 0, 0)
    yield answer == refused(3) and station.words() == [0] * 37


def at_most_the_gap():
    """In a sound record the count is at most the gap's length, and 0 where there is none; every call on another gets 2."""
    script = opened(CSP_1, 2, 1, 1)
    script.bad(5)
    for lost, sound in ((0, True), (3, True), (4, False), (2 ** 32 - 1, False)):
        script.station.lost = lost
        yield model.sound(script.station) == sound
    yield script.take() == refused(2) == script.tick()
    script.station.lost = 3
    yield script.take() == (0, 9, 1, 3, 3)
    script.station.lost = 1
    yield script.take() == refused(2)


LOSSES = (
    marker_owns_up, counted_where_dropped, neither_told_nor_held, two_of_three, kind_in_memory, no_call_else, at_most_the_gap,
)


# ---- W6: station numbers

def without_seed(script, *entry):
    return script.table(*(entry or (CSP_T, 1, 10_000)), seed=None)


def numbered(*given):
    script = Script()
    for number in given:
        script.station_number(number)
    return script


def number_is_the_seed():
    """From 1 to 65,535, and the last one that was given; the answer is zeros."""
    for given in ((1,), (65_535,), (7, 8), (8, 7), (7, 7), (1, 65_535, 256)):
        script = numbered(*given)
        yield set(script.answers) == {DONE}
        yield without_seed(script) == DONE and script.station.s == given[-1]


def number_out_of_range():
    """9, and it is neither kept, nor cut to sixteen bits, nor does it take away the one before."""
    for number in (0, 65_536, 65_537, 2 ** 31 + 7, 2 ** 32 - 1):
        script = numbered(number)
        yield script.answers == [refused(9)] and without_seed(script) == refused(9)
        script = numbered(7, number)
        yield script.answers[-1] == refused(9) and without_seed(script) == DONE and script.station.s == 7


def nine_before_three():
    """A table open with neither seed nor station number gets 9, whatever its entry; with one of them an absent entry gets 3."""
    for entry, refusal in (((CSP_T, 1, 10_000), 0), ((CSP_T, 12, 10_000), 3), ((CSP_F, 1, 40, 0), 3), ((CSP_1, 1, 400), 3)):
        script = Script()
        yield without_seed(script, *entry) == refused(9) and script.station is None
        yield script.table(*entry, seed=0) == refused(refusal)
        yield without_seed(numbered(7), *entry) == refused(refusal)


def stays_after_refused_opens():
    script = numbered(7)
    yield script.open(CSP_1, 1, 1) == refused(3) == script.table(CSP_T, 12, 400, seed=9) == without_seed(script, CSP_T, 12, 400)
    yield without_seed(script) == DONE and script.station.s == 7


def written_seed_wins():
    """0 is a seed too; and frame 01 has its own."""
    for seed in (0, 9):
        script = numbered(7)
        yield script.table(CSP_T, 1, 10_000, seed=seed) == DONE and script.station.s == seed
        script = numbered(7)
        yield script.open(CSP_1, 2, 2, seed=seed) == DONE and script.station.s == seed


def number_after_an_open():
    """9, in range or not, and no record and no queue is touched."""
    for script in (opened(CSP_1, 2, 2), letter_a(), numbered(7)):
        if script.station is None:
            without_seed(script)
        before = script.station.words(), list(script.program.queue)
        for number in (0, 1, 65_535, 65_536):
            yield script.station_number(number) == refused(9) == without_seed(script)
        yield (script.station.words(), script.program.queue) == before


def two_neighbours():
    """The same frames but for the number: the places differ, though twelve stations with seed 0 have the same ones."""
    orders = []
    for number in (7, 8):
        script = numbered(number)
        without_seed(script)
        script.good(5)
        orders.append([])
        while script.station.last < 13:
            orders[-1].append(script.unit()[4])
            script.result(0)
    yield orders[0] != orders[1]


NUMBERS = (
    number_is_the_seed, number_out_of_range, nine_before_three, stays_after_refused_opens, written_seed_wins, number_after_an_open,
    two_neighbours,
)


# ---- The tables

def rising(numbers):
    return all(low < high for low, high in zip(numbers, numbers[1:]))


def table_laws():
    rows = TABLE_V[:10]
    falling_i = all(rising([i for i, _ in reversed(row)]) for row in rows)
    rising_i = all(rising([i for i, _ in column]) for column in zip(*rows))
    s_breaks = [(at, column) for at, row in enumerate(rows) for column in range(7) if row[column][1] <= row[column + 1][1]]
    s_rises = all(rising([S for _, S in column]) for column in zip(*rows))
    letters = all(rising(cells) for _, cells in TABLE_III_A_4)
    periods = all(sorted(column) == list(column) for column in zip(*(cells for _, cells in TABLE_III_A_4)))
    return {
        'Table V: i falls along each row': falling_i,
        'Table V: i rises down each column': rising_i,
        'Table V: S falls along each row, but for G at 2.5': s_breaks == [(6, 3)],
        'Table V: S rises down each column': s_rises,
        'Table V: J and K are alike': TABLE_V[9] == TABLE_V[10],
        'Table III-A-4: i rises with the letter': letters,
        'Table III-A-4: i never falls with N': periods,
    }
