"""Each clause of "A sound record" at its edge: the last record that it lets pass and the first that it does not.

The two differ from one plain record in the named fields alone, so that no other clause can speak for the one at hand.
Where a clause does not hold of a plan, records that it would refuse are there to be taken.
"""

import model
from model import CSP_1, CSP_2, CSP_F, CSP_T, CSP_V, EVENT_LIMIT, SAMPLING, SCREENING, UNIT_LIMIT, WAITING_FIELDS, Station
from reached import PHASES

ALL = (CSP_1, CSP_2, CSP_F, CSP_T, CSP_V)
CHANGEABLE = (CSP_1, CSP_2, CSP_T, CSP_V)
TALLIES = dict(conforming=7, defective=2, passed=3, missed=4, owed=0, last=16)
NO_UNITS = dict.fromkeys(TALLIES, 0)
OWED = dict(owed=1, last=17)


def plain(type, phase):
    """A sound record in the middle of everything."""
    fields = dict(type=type, n=4, i=5, S=9, C=8, s=1, phase=phase, silent=3, told=16, oldest=16, next=20, **TALLIES)
    if type == CSP_F:
        fields.update(S=0, N=50)
    if type == CSP_V:
        fields.update(x=3)
    if phase == SCREENING:
        fields.update(need=5, run=2, screened=6, unrecalled=4)
    else:
        fields.update(place=2, chosen=1)
    if phase == SAMPLING and type in (CSP_T, CSP_V):
        fields.update(row=3)
    if phase == SAMPLING and type == CSP_2:
        fields.update(watch=1, watched=2)
    return fields


def with_waiting(type, phase):
    """The same with a plan waiting: a higher frequency in screening, a lower one in sampling."""
    n, i = (2, 3) if phase == SCREENING else (6, 8)
    x = 2 if type == CSP_V else 0
    return {**plain(type, phase), **dict(zip(WAITING_FIELDS, (type, n, i, 9, x, 0)))}


def but(*types):
    return [type for type in ALL if type not in types]


def clauses():
    """Clause, the record that both are changed from, types of plan, phase, the sound change, and the one that is not."""
    for start, parts in (
        (plain, (plan_clauses, tally_clauses, screening_clauses, sampling_clauses, beginning_clauses, number_clauses)),
        (plain, (lost_clauses, no_waiting_clauses)),
        (with_waiting, (waiting_clauses, waiting_range_clauses)),
    ):
        for part in parts:
            yield from ((clause, start, *rest) for clause, *rest in part())


def plan_clauses():
    yield 'type from 1', [CSP_1], SCREENING, {}, dict(type=0)
    yield 'type to 5', [CSP_1], SCREENING, {}, dict(type=6)
    yield 'n from 2', ALL, SCREENING, dict(n=2), dict(n=1)
    yield 'n to 200', ALL, SCREENING, dict(n=200), dict(n=201)
    yield 'i from 1', [CSP_1], SAMPLING, dict(i=1), dict(i=0)
    yield 'i to 10,000', [CSP_1, CSP_2, CSP_T, CSP_V], SAMPLING, dict(i=10_000, S=100_000), dict(i=10_001, S=100_000)
    yield 'i to 10,000 under CSP-F', [CSP_F], SAMPLING, dict(i=10_000), dict(i=10_001)
    yield 'S from i', but(CSP_F), SAMPLING, dict(S=5), dict(S=4)
    yield 'S to 100,000', but(CSP_F), SAMPLING, dict(S=100_000), dict(S=100_001)
    yield 'S not 0', but(CSP_F), SAMPLING, dict(S=9), dict(S=0)
    yield 'S 0 for CSP-F', [CSP_F], SAMPLING, {}, dict(S=9)
    yield 'x from 1', [CSP_V], SAMPLING, dict(x=1), dict(x=0)
    yield 'x to i', [CSP_V], SAMPLING, dict(x=5), dict(x=6)
    yield 'x 0 but for CSP-V', but(CSP_V), SAMPLING, {}, dict(x=1)
    yield 'N from 1', [CSP_F], SAMPLING, dict(N=1, **NO_UNITS), dict(N=0, **NO_UNITS)
    yield 'N to 1,000,000', [CSP_F], SAMPLING, dict(N=1_000_000), dict(N=1_000_001)
    yield 'N 0 but for CSP-F', but(CSP_F), SAMPLING, {}, dict(N=50)


def tally_clauses():
    for field in ('conforming', 'defective', 'passed', 'missed', 'owed'):
        yield f'{field} counted in last', ALL, SCREENING, {}, {field: TALLIES[field] + 1}
    yield 'last no more than the tallies', ALL, SCREENING, {}, dict(last=17)
    most = UNIT_LIMIT - 12
    yield 'last to 1,000,000', but(CSP_F), SAMPLING, dict(last=UNIT_LIMIT, missed=most), dict(last=UNIT_LIMIT + 1, missed=most + 1)
    yield 'last to N', [CSP_F], SAMPLING, dict(N=16), dict(N=15)


def screening_clauses():
    yield 'need is i', but(CSP_V), SCREENING, {}, dict(need=6)
    yield 'need is i, not less', but(CSP_V), SCREENING, {}, dict(need=4)
    yield 'need is i or x', [CSP_V], SCREENING, dict(need=3), dict(need=4)
    yield 'run below need', ALL, SCREENING, dict(run=4, unrecalled=5), dict(run=5, unrecalled=5)
    yield 'run below need x', [CSP_V], SCREENING, dict(need=3), dict(need=3, run=3)
    yield 'screened to last', ALL, SCREENING, dict(screened=16), dict(screened=17)
    yield 'screened to last less owed', ALL, SCREENING, dict(screened=16, **OWED), dict(screened=17, **OWED)
    yield 'run to unrecalled', ALL, SCREENING, dict(unrecalled=2), dict(unrecalled=1)
    yield 'unrecalled to screened', ALL, SCREENING, dict(unrecalled=6), dict(unrecalled=7)
    yield 'unrecalled to screened, owed', ALL, SCREENING, dict(unrecalled=6, **OWED), dict(unrecalled=7, **OWED)
    none = dict(run=0, screened=0)
    yield 'unrecalled to a screened of 0', ALL, SCREENING, dict(unrecalled=0, **none), dict(unrecalled=1, **none)
    yield 'unrecalled to screened, need x', [CSP_V], SCREENING, dict(need=3, unrecalled=6), dict(need=3, unrecalled=7)
    yield 'unrecalled to conforming', ALL, SCREENING, dict(unrecalled=7, screened=9), dict(unrecalled=8, screened=9)


def sampling_clauses():
    yield 'level to 2', [CSP_T], SAMPLING, dict(level=2, row=0), dict(level=3, row=0)
    yield 'level 0 but for CSP-T', but(CSP_T), SAMPLING, {}, dict(level=1)
    for field in ('place', 'chosen'):
        yield f'{field} below n', ALL, SAMPLING, {field: 3}, {field: 4}
        yield f'{field} below 2n', [CSP_T], SAMPLING, {'level': 1, field: 7}, {'level': 1, field: 8}
        yield f'{field} below 4n', [CSP_T], SAMPLING, {'level': 2, 'row': 0, field: 15}, {'level': 2, 'row': 0, field: 16}
    for place in (0, 1, 3):
        yield f'owed, not {place} after 1', ALL, SAMPLING, OWED, dict(place=place, **OWED)
    yield 'owed, counted round', ALL, SAMPLING, dict(chosen=3, place=0, **OWED), dict(chosen=3, place=3, **OWED)
    for level in (0, 1):
        yield f'row below i at level {level}', [CSP_T], SAMPLING, dict(level=level, row=4), dict(level=level, row=5)
    yield 'row 0 at level 2', [CSP_T], SAMPLING, dict(level=2, row=0), dict(level=2, row=1)
    yield 'row to i under CSP-V', [CSP_V], SAMPLING, dict(row=5), dict(row=6)
    yield 'row 0 under other plans', but(CSP_T, CSP_V), SAMPLING, {}, dict(row=1)
    yield 'watch count below i', [CSP_2], SAMPLING, dict(watched=4), dict(watched=5)
    yield 'no count without a watch', [CSP_2], SAMPLING, dict(watch=0, watched=0), dict(watch=0, watched=1)
    yield 'no count under other plans', but(CSP_2), SAMPLING, {}, dict(watched=1)
    yield 'no watch under other plans', but(CSP_2), SAMPLING, {}, dict(watch=1)


def beginnings():
    """Where a record tells that a level has just begun: a name, the type and the level."""
    yield from ((f'CSP-T level {level}', CSP_T, level) for level in (0, 1))
    yield 'CSP-V', CSP_V, 0


def beginning_clauses():
    """The chosen place is 0 when a level begins, and free once a row, a place or owed shows that it began before."""
    for name, type, level in beginnings():
        last = 4 * 2 ** level - 1
        begun = dict(level=level, row=0, place=0)
        for chosen in (1, last):
            yield f'chosen 0, not {chosen}, when {name} begins', [type], SAMPLING, dict(begun, chosen=0), dict(begun, chosen=chosen)
        not_yet = dict(begun, chosen=last)
        yield f'{name} begins with no row', [type], SAMPLING, dict(not_yet, row=1), not_yet
        yield f'{name} begins at place 0', [type], SAMPLING, dict(not_yet, place=1), not_yet
        yield f'{name} begins with nothing owed', [type], SAMPLING, dict(not_yet, **OWED), not_yet


def between_blocks():
    """Records with nothing to tell a level that begins from a place between two blocks: any chosen place is sound."""
    for name, type, level in (('CSP-1', CSP_1, 0), ('CSP-2', CSP_2, 0), ('CSP-F', CSP_F, 0), ('CSP-T level 2', CSP_T, 2)):
        for chosen in (0, 1, 4 * 2 ** level - 1):
            fields = dict(level=level, row=0, place=0, chosen=chosen, watch=0, watched=0)
            yield f'{name} between two blocks, chosen {chosen}', station({**plain(type, SAMPLING), **fields})


def number_clauses():
    last, past = (dict.fromkeys(('told', 'oldest', 'next'), EVENT_LIMIT + 1 + over) for over in (0, 1))
    yield 'told from 1', ALL, SAMPLING, dict(told=1, oldest=2, next=10), dict(told=0, oldest=2, next=10)
    yield 'told to oldest', ALL, SAMPLING, {}, dict(told=17)
    yield 'oldest to next', ALL, SAMPLING, dict(told=20, oldest=20), dict(told=21, oldest=21)
    yield 'next from 2', ALL, SAMPLING, dict(told=1, oldest=1, next=2, silent=0), dict(told=1, oldest=1, next=1, silent=0)
    yield 'next to 8,000,001', ALL, SAMPLING, last, past
    yield 'held to C', ALL, SAMPLING, dict(told=12, oldest=12), dict(told=11, oldest=11)
    yield 'a gap in a full queue alone', ALL, SAMPLING, dict(told=11, oldest=12), dict(told=12, oldest=13)
    yield 'silent to next less 2', ALL, SAMPLING, dict(silent=18), dict(silent=19)


def lost_clauses():
    """As many LONG events as the gap is long, in either phase and whatever C is, and none where there is no gap."""
    def most(count, **numbers):
        return dict(numbers, lost=count), dict(numbers, lost=count + 1)

    for phase in (SCREENING, SAMPLING):
        where = PHASES[phase]
        yield f'lost 0 with no gap in {where}', ALL, phase, *most(0)
        yield f'lost 0 with no gap in {where}, queue full', [CSP_1], phase, *most(0, told=12, oldest=12)
        yield f'lost to a gap of one in {where}', [CSP_1], phase, *most(1, told=11, oldest=12)
        yield f'lost to a gap of three in {where}', ALL, phase, *most(3, told=9, oldest=12)
        yield f'lost to a gap above C in {where}', [CSP_1], phase, *most(11, told=1, oldest=12)
    yield 'lost to the longest gap', [CSP_1], SAMPLING, *most(EVENT_LIMIT - 8, told=1, oldest=EVENT_LIMIT - 7, next=EVENT_LIMIT + 1)


def no_waiting_clauses():
    """No plan waits where all six words are 0, and under CSP-F never."""
    for phase in (SCREENING, SAMPLING):
        for field in WAITING_FIELDS:
            yield f'no {field} alone in {PHASES[phase]}', [CSP_1], phase, {}, {field: 1}
        for type, other in ((CSP_F, dict(waiting_S=0, waiting_N=50)), (CSP_1, dict(waiting_S=9))):
            plan = {**with_waiting(type, phase), **other}
            waiting = {field: plan[field] for field in WAITING_FIELDS}
            yield f'no type {type} waiting under CSP-F in {PHASES[phase]}', [CSP_F], phase, {}, waiting


def waiting_clauses():
    """The waiting plan is of the type in force, and its n and its i are both below in screening, both above in sampling."""
    for phase, nearest, side in ((SCREENING, dict(n=3, i=4), 1), (SAMPLING, dict(n=5, i=6), -1)):
        where = PHASES[phase]
        for field, least in nearest.items():
            name, near = f'waiting_{field}', {f'waiting_{field}': least}
            yield f'{name} not that in force in {where}', CHANGEABLE, phase, near, {name: least + side}
            yield f'{name} not on the other side in {where}', CHANGEABLE, phase, near, {name: least + 2 * side}
        other = dict(waiting_n=5, waiting_i=6) if phase == SCREENING else dict(waiting_n=3, waiting_i=4)
        yield f'waiting plan not of the other phase in {where}', CHANGEABLE, phase, {}, other
        for type in (0, *ALL, 6):
            others = [here for here in CHANGEABLE if here != type]
            yield f'waiting_type the same, not {type}, in {where}', others, phase, {}, of_type(type)


def of_type(type):
    """What makes a waiting plan one of another type, in range where there is such a type."""
    by_type = {CSP_F: dict(waiting_S=0, waiting_x=0, waiting_N=50), CSP_V: dict(waiting_x=2)}
    return dict(waiting_type=type, **by_type.get(type, dict(waiting_x=0)))


def waiting_range_clauses():
    """The waiting plan's own range; a limit on the far side from the plan in force is reached in one phase alone."""
    yield 'waiting_n from 2', CHANGEABLE, SCREENING, dict(waiting_n=2), dict(waiting_n=1)
    yield 'waiting_n to 200', CHANGEABLE, SAMPLING, dict(waiting_n=200), dict(waiting_n=201)
    yield 'waiting_i from 1', [CSP_1, CSP_2, CSP_T], SCREENING, dict(waiting_i=1), dict(waiting_i=0)
    yield 'waiting_i to 10,000', CHANGEABLE, SAMPLING, dict(waiting_i=10_000, waiting_S=100_000), dict(waiting_i=10_001, waiting_S=100_000)
    yield 'waiting_x from 1', [CSP_V], SCREENING, dict(waiting_x=1), dict(waiting_x=0)
    yield 'waiting_x to waiting_i', [CSP_V], SCREENING, dict(waiting_x=3), dict(waiting_x=4)
    yield 'waiting_x to waiting_i, above x', [CSP_V], SAMPLING, dict(waiting_x=8), dict(waiting_x=9)
    for phase, i in ((SCREENING, 3), (SAMPLING, 8)):
        where = PHASES[phase]
        yield f'waiting_S from waiting_i in {where}', CHANGEABLE, phase, dict(waiting_S=i), dict(waiting_S=i - 1)
        yield f'waiting_S to 100,000 in {where}', CHANGEABLE, phase, dict(waiting_S=100_000), dict(waiting_S=100_001)
        yield f'waiting_x 0 but for CSP-V in {where}', [CSP_1, CSP_2, CSP_T], phase, {}, dict(waiting_x=1)
        yield f'waiting_N 0 in {where}', CHANGEABLE, phase, {}, dict(waiting_N=50)


def station(fields):
    return Station(fields.get(field, 0) for field in model.FIELDS)


def edges():
    """Clause, the sound record and the unsound one; and where there is no clause, the sound record alone."""
    for name, sound in between_blocks():
        assert model.sound(sound), name
        yield name, sound
    for clause, start, types, phase, kept, broken in clauses():
        for type in types:
            sound, unsound = (station({**start(type, phase), **change}) for change in (kept, broken))
            assert model.sound(sound) and not model.sound(unsound), clause
            yield clause, sound, unsound
