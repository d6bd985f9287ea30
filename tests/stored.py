"""The stored sessions in words. `tests/record` writes sessions/ from them; the docstring is the line of its README."""

from itertools import permutations

from model import CSP_1, CSP_2, CSP_F, CSP_T, CSP_V
from script import Script, words

SESSIONS = {}
A, B, G, H, I, K = 1, 2, 7, 8, 9, 11
TOP = 2 ** 32 - 1


def session(write):
    """Registers a session under its function's name."""
    SESSIONS[write.__name__.replace('_', '-')] = write
    return write


def text_of(write):
    script = Script()
    ending = write(script)
    return script.text() + (ending or b'')


# ---- Document 01's example and its nine cases, where frames can show them

@session
def example(s):
    """Document 01's example, whole."""
    s.open(CSP_1, 2, 2, 3)
    s.good(2)
    s.unit(3)
    s.result(0)
    s.unit(4)
    s.unit(6)
    s.take(5)


@session
def case_1_blocks_of_2(s):
    """Case 1: seed 0 chooses places 0, 0 and 1 in the first three blocks of 2."""
    s.open(CSP_1, 2, 1)
    s.good()
    s.units(6)
    s.take_all()


@session
def case_1_blocks_of_100(s):
    """Case 1: seed 0 chooses places 23, 27 and 81 in the first three blocks of 100."""
    s.open(CSP_1, 100, 1)
    s.good()
    s.units(300)
    s.take_all()


@session
def case_2_clearance(s):
    """Case 2: letter A, AQL 10.0: four conforming units do not start sampling, the fifth does."""
    s.table(CSP_T, A, 10_000)
    s.take(2)
    s.good(4)
    s.take()
    s.good()
    s.take(2)


@session
def case_3_defect_as_twelfth(s):
    """Case 3: letter A, AQL 10.0: a defect as 12th unit screened raises LONG."""
    s.table(CSP_T, A, 10_000)
    s.bad()
    s.good(4)
    s.bad()
    s.good(4)
    s.bad()
    s.take_all()
    s.bad()
    s.take_all()


@session
def case_3_defect_as_eleventh(s):
    """Case 3: letter A, AQL 10.0: a defect as 11th unit screened raises no LONG, and the run then clears."""
    s.table(CSP_T, A, 10_000)
    s.bad(2)
    s.good(4)
    s.bad()
    s.good(3)
    s.bad()
    s.take_all()
    s.good(5)
    s.take_all()


@session
def case_4_levels(s):
    """Case 4: letter A, AQL 10.0: 5 good samples give blocks of 4, 10 blocks of 8, 15 still 8."""
    s.table(CSP_T, A, 10_000)
    s.good(5)
    s.good(5)
    s.take_all()
    s.good(5)
    s.take_all()
    s.good(5)
    s.units(32)
    s.take_all()


@session
def case_5_watch_reverts(s):
    """Case 5: CSP-2, i = 3: defect, 2 good, defect reverts."""
    s.open(CSP_2, 3, 3, seed=7)
    s.good(3)
    s.bad()
    s.good(2)
    s.bad()
    s.take_all()


@session
def case_5_watch_ends(s):
    """Case 5: CSP-2, i = 3: defect, 3 good, defect stays in sampling and starts a new watch, which the next defect ends."""
    s.open(CSP_2, 3, 3, seed=7)
    s.good(3)
    s.bad()
    s.good(3)
    s.bad()
    s.take_all()
    s.good(2)
    s.bad()
    s.take_all()


@session
def case_6_reduced_need(s):
    """Case 6: CSP-V, i = 3, x = 1: a defect after 2 good samples gives need 3, after 3 need 1; a defect then, need 3."""
    s.open(CSP_V, 2, 3, x=1)
    s.good(3)
    s.good(2)
    s.bad()
    s.good(3)
    s.good(3)
    s.bad()
    s.take_all()
    s.good()
    s.take_all()
    s.good(3)
    s.bad()
    s.bad()
    s.good(2)
    s.take_all()
    s.good()
    s.take_all()


@session
def case_7_period_of_2(s):
    """Case 7: CSP-F, N = 2: unit 3 gets 7."""
    s.open(CSP_F, 2, 1, N=2)
    s.good()
    s.units(1)
    s.unit(3)
    s.take_all()


@session
def case_8_check_finds(s):
    """Case 8: a check find after 2 good of need 3 sets run to 0; a second find is taken, a third gets 8."""
    s.open(CSP_1, 4, 3)
    s.good(2)
    s.find()
    s.find()
    s.find()
    s.good(2)
    s.take_all()
    s.good()
    s.take_all()


@session
def case_9_ten_ticks(s):
    """Case 9: open and ten ticks: the marker names 1, no LONG and count 3, then come the events 4 to 11."""
    s.open(CSP_1, 2, 1)
    s.tick(10)
    s.take(10)


# ---- Each plan reaching all that it can

@session
def csp_1_round(s):
    """CSP-1: screening, sampling, a defect, screening again, LONG, sampling again."""
    s.open(CSP_1, 4, 3, 6, seed=0xDEADBEEF)
    s.good(3)
    s.good(5)
    s.bad()
    s.take_all()
    s.good(2)
    s.bad()
    s.good(2)
    s.bad()
    s.take_all()
    s.good(3)
    s.units(20)
    s.take_all()


@session
def csp_2_keeps_its_block(s):
    """CSP-2: watches begin and end within blocks of 7 and disturb none: each block has exactly one unit inspected."""
    s.open(CSP_2, 7, 2, seed=1)
    s.good(2)
    for _ in range(4):
        s.bad()
        s.units(3)
        s.good(2)
        s.units(2)
    s.take_all()
    s.units(70)
    s.take_all()


@session
def csp_2_new_stay(s):
    """CSP-2: a watch does not outlive its stay; after the return to sampling the first defect starts one anew."""
    s.open(CSP_2, 2, 2, seed=3)
    s.good(2)
    s.bad(2)
    s.good(2)
    s.bad()
    s.good()
    s.interrupt()
    s.good(2)
    s.bad()
    s.take_all()
    s.good(2)
    s.bad()
    s.bad()
    s.take_all()


@session
def csp_f_period_end(s):
    """CSP-F: the period of 9 ends in sampling; further units get 7, and ticks and takes go on."""
    s.open(CSP_F, 3, 2, N=9, seed=5)
    s.good(2)
    s.units(7)
    s.unit(10)
    s.unit(TOP)
    s.unit(9)
    s.tick(2)
    s.interrupt()
    s.take_all()


@session
def csp_f_short_period(s):
    """CSP-F: i above N: every unit is inspected; S = 0 raises no alarm, however long the screening, with finds and without."""
    s.open(CSP_F, 2, 10_000, N=30)
    s.good(3)
    for _ in range(4):
        s.bad()
        s.good(2)
    s.take_all()
    for _ in range(4):
        s.find()
        s.bad()
        s.good(2)
    s.take_all()
    s.units(3)
    s.unit()
    s.take_all()


@session
def csp_t_reverts(s):
    """CSP-T: a defect reverts from level 0, from level 1 and from level 2; sampling starts at level 0 each time."""
    s.open(CSP_T, 3, 2, 50, seed=9)
    for samples in (1, 2, 3, 4, 6):
        s.good(2)
        s.good(samples)
        s.bad()
        s.take_all()
    s.good(3)
    s.take_all()


@session
def csp_t_drops_the_block(s):
    """CSP-T: a change of level drops the rest of its block and counts from the next unit; level 2 has blocks of 400."""
    s.open(CSP_T, 100, 1, 100_000, seed=0x80000000)
    s.good()
    s.good()
    s.good()
    s.take_all()
    s.units(820)
    s.take_all()


@session
def csp_v_row(s):
    """CSP-V: the row stops at i and counts one stay alone; x below i; after x good units sampling is back."""
    s.open(CSP_V, 3, 4, x=2, seed=11)
    s.good(4)
    s.good(9)
    s.bad()
    s.take_all()
    s.good(2)
    s.good(3)
    s.bad()
    s.take_all()
    s.good(2)
    s.take_all()
    s.good(2)
    s.good(4)
    s.bad()
    s.good(1)
    s.bad()
    s.good(3)
    s.take_all()
    s.good()
    s.take_all()


@session
def csp_v_need_i(s):
    """CSP-V: an interrupt and a jump give need i even after i good samples; a check find keeps need x."""
    s.open(CSP_V, 2, 3, x=2, seed=2)
    s.good(6)
    s.interrupt()
    s.good(2)
    s.take_all()
    s.good(4)
    s.unit(s.station.last + 3)
    s.result(0)
    s.good(1)
    s.take_all()
    s.good(1)
    s.good(3)
    s.bad()
    s.good()
    s.find()
    s.good()
    s.take_all()
    s.good()
    s.take_all()


# ---- The tables

@session
def table_v_with_station_number(s):
    """Frame 08: CSP-T, letter G, AQL 2.5, no seed but station number 4,660: i 49, n 15; the alarm comes at 376 and not before."""
    s.station_number(4_660)
    s.table(CSP_T, G, 2_500, seed=None)
    s.take()
    for _ in range(15):
        s.good(24)
        s.bad()
        s.take_all()
    s.bad()
    s.take_all()
    s.good(49)
    s.units(30)
    s.take_all()


@session
def table_v_with_seed(s):
    """Frame 08: CSP-T, letter K, AQL 10.0, seed 12345678: i 23, n 100, blocks of 100 and then of 200."""
    s.table(CSP_T, K, 10_000, seed=0x12345678)
    s.take()
    s.good(23)
    s.take_all()
    s.good(23)
    s.take_all()
    s.units(400)
    s.take_all()


@session
def table_iii_a_4(s):
    """Frame 08: CSP-F, letter H, N 70,001: i 2215, n 25; N is the limit of units."""
    s.table(CSP_F, H, 40, N=70_001, seed=TOP)
    s.take()
    s.unit(70_002)
    s.unit(70_001)
    s.result(0)
    s.unit(70_002)
    s.take_all()


@session
def table_iii_a_4_with_station_number(s):
    """Frame 08: CSP-F, letter A, N 500, no seed but station number 12: i 195, n 2; 195 conforming start sampling."""
    s.station_number(12)
    s.table(CSP_F, A, 40, N=500, seed=None)
    s.good(194)
    s.take_all()
    s.good()
    s.units(12)
    s.take_all()


@session
def table_absent(s):
    """Frame 08: entries that no table has get 3: types, letters, AQLs and periods; then one that is there."""
    for type in (0, 1, 2, 5, 6, TOP):
        s.table(type, A, 10_000)
        s.table(type, A, 40, N=500)
    for letter in (0, 12, TOP):
        s.table(CSP_T, letter, 400)
        s.table(CSP_F, letter, 40, N=500, seed=1)
    for letter in (I, 10, K):
        s.table(CSP_F, letter, 40, N=500)
    for aql in (0, 40, 399, 401, 1, 10_001, 100_000, TOP):
        s.table(CSP_T, A, aql)
    for aql in (0, 39, 41, 400, 10_000):
        s.table(CSP_F, A, aql, N=500)
    s.table(CSP_T, A, 400, N=1)
    for period in (0, 1_000_001, TOP):
        s.table(CSP_F, A, 40, N=period)
    s.take()
    s.table(CSP_F, A, 40, N=1_000_000)
    s.take()


@session
def plans_out_of_range(s):
    """Frame 01: each plan number one step out of its range gets 3; then the largest plan is taken."""
    plans = {
        CSP_1: (CSP_1, 2, 1, 1, 0, 0), CSP_2: (CSP_2, 200, 10_000, 100_000, 0, 0),
        CSP_F: (CSP_F, 2, 1, 0, 0, 1), CSP_T: (CSP_T, 2, 5, 12, 0, 0), CSP_V: (CSP_V, 2, 5, 12, 5, 0),
    }
    changes = [
        (CSP_1, 0, 0), (CSP_1, 0, 6), (CSP_1, 0, TOP), (CSP_1, 1, 0), (CSP_1, 1, 1), (CSP_1, 1, 201), (CSP_1, 2, 0),
        (CSP_2, 2, 10_001), (CSP_1, 3, 0), (CSP_T, 3, 4), (CSP_2, 3, 9_999), (CSP_2, 3, 100_001), (CSP_2, 3, 0),
        (CSP_F, 3, 1), (CSP_1, 4, 1), (CSP_F, 4, 1), (CSP_T, 4, 1), (CSP_V, 4, 0), (CSP_V, 4, 6),
        (CSP_1, 5, 1), (CSP_V, 5, 1), (CSP_F, 5, 0), (CSP_F, 5, 1_000_001), (CSP_F, 5, TOP),
    ]
    for type, at, number in changes:
        plan = list(plans[type])
        plan[at] = number
        s.line(words(1, *plan, 0))
    s.line(words(2, 1))
    s.open(CSP_V, 200, 10_000, 100_000, x=10_000, seed=TOP)
    s.take(2)


# ---- Refusals

@session
def before_open(s):
    """Each call before an accepted open gets 2, a result neither 0 nor 1 too; a refused open changes nothing."""
    s.line(words(2, 1))
    for code in (4, 5, 6, 7):
        s.line(words(code))
    s.line(words(3, 0))
    s.line(words(3, 2))
    s.open(CSP_1, 1, 1)
    s.line(words(2, 0))
    s.take()
    s.change(CSP_1, 2, 2)


@session
def open_again(s):
    """An open after an accepted open gets 9, by frame 01 and by 08, with a good plan and with a bad one."""
    s.open(CSP_1, 2, 2)
    s.open(CSP_1, 2, 2)
    s.open(CSP_1, 1, 0)
    s.table(CSP_T, A, 10_000)
    s.table(CSP_T, 0, 0)
    s.good()
    s.open(CSP_F, 2, 2, N=4)
    s.good()
    s.take_all()


@session
def result_owed(s):
    """While a result is owed a unit, an interrupt, a find and a change get 4, in both phases; ticks and takes are done."""
    s.open(CSP_1, 2, 2)
    for _ in range(2):
        s.inspected()
        for k in (0, s.station.last, s.station.last + 1, TOP):
            s.unit(k)
        s.interrupt()
        s.find()
        s.tick(2)
        s.take()
        s.result(2)
        s.change(CSP_1, 3, 3)
        s.result(0)
        s.good()
    s.take_all()


@session
def no_result_owed(s):
    """A result that is not owed gets 5: before the first unit, twice, and for a passed unit; 9 comes before 5."""
    s.open(CSP_1, 2, 1)
    s.result(0)
    s.result(1)
    s.result(2)
    s.good()
    s.result(0)
    s.good(2)
    s.unit()
    s.unit()
    s.result(0)
    s.result(1)
    s.result(TOP)
    s.result(0x80000000)
    s.take_all()


@session
def unit_numbers(s):
    """A unit number that is not above the last gets 6, one above 1,000,000 gets 7; 1,000,000 itself is handled."""
    s.open(CSP_1, 2, 2)
    for k in (0, 1_000_001, TOP, 0x80000000):
        s.unit(k)
    s.good(2)
    for k in (0, 1, 2, 1_000_001):
        s.unit(k)
    s.unit(999_999)
    s.result(0)
    s.unit(1_000_000)
    s.result(0)
    s.unit(1_000_000)
    s.unit(1_000_001)
    s.interrupt()
    s.tick(3)
    s.take_all()


@session
def finds_refused(s):
    """A check find gets 8 at the start, when all are recalled, in sampling and after a return; 4 comes before 8."""
    s.open(CSP_1, 3, 2, 9)
    s.find()
    s.bad()
    s.find()
    s.good()
    s.find()
    s.find()
    s.good(2)
    s.find()
    s.inspected()
    s.find()
    s.result(1)
    s.find()
    s.good()
    s.bad()
    s.find()
    s.find()
    s.take_all()


# ---- Long screening

@session
def long_at_every_defect(s):
    """S = 4: LONG comes at each defect from the 4th unit screened on, and starts nothing anew; a check find leaves screened as it is."""
    s.open(CSP_1, 2, 3, 4)
    s.bad(3)
    s.take_all()
    s.bad()
    s.take_all()
    s.good(2)
    s.bad(2)
    s.take_all()
    s.good()
    s.find()
    s.bad(3)
    s.take_all()
    s.bad()
    s.take_all()


@session
def long_after_a_new_sequence(s):
    """Screened starts at 0 after a reverting defect, which is not counted, after a jump and after an interrupt."""
    s.open(CSP_1, 2, 2, 3)
    s.bad(2)
    s.unit(5)
    s.result(1)
    s.bad()
    s.take_all()
    s.interrupt()
    s.bad(2)
    s.take_all()
    s.good(2)
    s.bad()
    s.bad(2)
    s.take_all()
    s.bad()
    s.take_all()


# ---- Missed units and interrupts

@session
def jump_in_screening(s):
    """A jump in screening starts the run anew: 2 good, one missed, 1 good is no run of 3; no PHASE is told."""
    s.open(CSP_1, 2, 3)
    s.good(2)
    s.unit(4)
    s.result(0)
    s.take_all()
    s.good()
    s.take_all()
    s.good()
    s.take_all()


@session
def jump_in_sampling(s):
    """A jump in sampling: MISSED, then PHASE with the unit that jumped, which is inspected; the level is gone."""
    s.open(CSP_T, 2, 1)
    s.good(3)
    s.unit(s.station.last + 4)
    s.take_all()
    s.result(0)
    s.good()
    s.unit(TOP)
    s.unit(1_000_000)
    s.result(1)
    s.take_all()


@session
def jump_at_first(s):
    """A first unit above 1: the units from 1 on were missed."""
    s.open(CSP_2, 2, 1)
    s.unit(41)
    s.result(0)
    s.take_all()


@session
def jumps_one_after_the_other(s):
    """Each unit jumps: each starts a new sequence, and one good unit never clears a run of 2."""
    s.open(CSP_1, 2, 2)
    for k in (2, 4, 7, 11):
        s.unit(k)
        s.result(0)
    s.take_all()
    s.unit(12)
    s.result(0)
    s.take_all()


@session
def interrupts(s):
    """An interrupt in screening starts the sequence anew and tells no PHASE; in sampling it tells both."""
    s.open(CSP_1, 5, 2)
    s.interrupt()
    s.good()
    s.interrupt()
    s.find()
    s.good(2)
    s.units(2)
    s.interrupt()
    s.take_all()
    s.interrupt()
    s.good(2)
    s.take_all()


# ---- Silence

@session
def silence(s):
    """Ticks with no unit since the last tick count up; an accepted unit starts the count anew, and nothing else does."""
    s.open(CSP_1, 2, 2)
    s.tick(2)
    s.good()
    s.tick(3)
    s.take_all()
    s.unit(1)
    s.interrupt()
    s.tick()
    s.take_all()
    s.inspected()
    s.tick(3)
    s.result(0)
    s.tick()
    s.take_all()
    s.units(2)
    s.unit()
    s.tick()
    s.tick()
    s.take_all()


@session
def silence_broken_by_units(s):
    """Each tick after a unit is no silence, however many units came between."""
    s.open(CSP_1, 2, 1)
    for between in (1, 2, 1):
        s.units(between)
        s.tick()
    s.take_all()
    s.tick()
    s.take_all()


# ---- The queue

@session
def overflow_widens(s):
    """A second and a third overflow before the first is told widen the one gap; it is told once."""
    s.open(CSP_1, 2, 1)
    s.tick(8)
    s.tick(1)
    s.tick(5)
    s.take(9)
    s.take()


@session
def overflow_twice_in_one_call(s):
    """One call drops two events: DEFECT and LONG come to a full queue."""
    s.open(CSP_1, 2, 3, 3)
    s.tick(7)
    s.bad(3)
    s.take()
    s.bad()
    s.take_all()


@session
def overflow_thrice_in_one_call(s):
    """One call drops three events: INTERRUPT, PHASE and PLAN come to a full queue; a gap that is there widens by three."""
    s.open(CSP_1, 2, 1, 50)
    s.good()
    s.change(CSP_1, 3, 2, 50)
    s.tick(8)
    s.interrupt()
    s.take_all()
    s.good(2)
    s.change(CSP_1, 5, 3, 50)
    s.tick(8)
    s.interrupt()
    s.take_all()
    # two places are free: one is dropped
    s.good(3)
    s.change(CSP_1, 7, 4, 50)
    s.tick(6)
    s.bad()
    s.take_all()


@session
def overflow_at_the_edge(s):
    """Two events that find one place free drop one; eight events fit with no marker."""
    s.open(CSP_1, 2, 1)
    s.tick(7)
    s.take()
    s.tick()
    s.take()
    s.bad()
    s.take_all()
    s.tick(9)
    s.take_all()


@session
def markers_between_takes(s):
    """Takes between overflows: several markers, each naming only what was not told before."""
    s.open(CSP_1, 3, 1)
    s.tick(9)
    s.take()
    s.tick(3)
    s.take(2)
    s.tick(20)
    s.take()
    s.tick()
    s.take(3)
    s.good()
    s.bad()
    s.tick(6)
    s.take_all()
    s.take()
    s.tick()
    s.take_all()


@session
def take_as_it_goes(s):
    """A take after each call: no marker, and "nothing" where nothing was raised."""
    s.open(CSP_2, 2, 1, 2, seed=4)
    for r in (1, 0, 0, 1, 0, 0, 1, 1, 1, 0):
        s.take()
        s.inspected()
        s.take()
        s.result(r)
        s.take()
        s.tick()
    s.take_all()


# ---- Frames

ILL_FORMED = [
    b'', b' ', b'0', b'00', b'09', b'0A', b'10', b'FF', b'7', b'007', b'0007', b'0x07', b'+7', b'-7', b'07\r',
    b'07\t', b'\t07', b' 07', b'07 ', b'07  ', b'07 00000000', b'07,', b'#', b'take', b'02', b'02 ', b'02 1',
    b'02 0000001', b'02 000000001', b'02 0000000G', b'02 +0000001', b'02 -0000001', b'02 0000 001', b'02  00000001',
    b'02\t00000001', b'02 00000001 ', b'02 00000001\r', b' 02 00000001', b'0200000001', b'02 00000001 00000002',
    b'02 0000000a', b'0a 00000001', b'03', b'03 0', b'03 00000000 00000000', b'04 00000000', b'05 00000000',
    b'06 00000000', b'01 00000001 00000002 00000002 00000003 00000000 00000000',
    b'01 00000001 00000002 00000002 00000003 00000000 00000000 00000000 00000000',
    b'01 00000001 00000002 00000002 00000003 00000000 00000000 0000000f', b'08 00000004 00000001 00002710',
    b'08 00000004 00000001 00002710 00000000 00000000 00000000', b'08 00000004 00000001  00002710 00000000',
    b'02 0000\x000001', b'\x00', b'07\x00', b'\xff\xfe', b'07\xc2\xa0', b'02\xa000000001', b'02 0000000\xc9\xb9',
    b'07 07', b'07;07', b'07\x0b', b'07\x0c', b'\x1a',
]


@session
def ill_formed_before_open(s):
    """Ill-formed lines of every kind get 9, not 2, before an open."""
    for line in ILL_FORMED:
        s.line(line)
    s.open(CSP_1, 2, 2)
    s.take(2)


@session
def ill_formed_after_open(s):
    """Ill-formed lines of every kind get 9 after an open, change nothing and break no silence."""
    s.open(CSP_1, 2, 2)
    s.tick()
    s.inspected()
    for line in ILL_FORMED:
        s.line(line)
    s.result(0)
    s.tick(3)
    s.good()
    s.take_all()


@session
def line_lengths(s):
    """Lines of 79, 80, 81 and more characters, to 10,000, get one 9 each, and nothing of them is kept."""
    s.open(CSP_1, 2, 2)
    for length in (79, 80, 81, 82, 160, 161, 4_096, 10_000):
        s.line(b'0' * length)
        s.line((b'07 ' * length)[:length])
        s.line(b'07' + b' ' * (length - 2))
        s.line(words(2, 1) + b'0' * (length - 11))
        s.line(b' ' * (length - 11) + words(2, 1))
    s.good(2)
    s.take_all()


@session
def last_line_without_line_feed(s):
    """A last line without line feed is ill-formed, though it would be a good frame."""
    s.open(CSP_1, 2, 2)
    s.take()
    return b'06'


@session
def last_long_line_without_line_feed(s):
    """A last line of 300 characters without line feed gets one 9."""
    s.open(CSP_1, 2, 2)
    return b'07 ' * 100


@session
def no_line_feed_at_all(s):
    """An open without line feed is the whole input: one 9."""
    return words(1, 1, 2, 2, 3, 0, 0, 0)


@session
def no_input(s):
    """Empty input prints nothing."""


@session
def empty_lines(s):
    """Input of line feeds alone: a 9 for each."""
    for _ in range(5):
        s.line(b'')


# ---- A change of plan: document 02, W1

@session
def change_waits_in_screening(s):
    """Change: a higher frequency waits in screening and tells nothing; the shift to sampling tells PHASE and then PLAN."""
    s.open(CSP_1, 3, 3, 5)
    s.change(CSP_1, 2, 2)
    s.take(2)
    s.good(3)
    s.take(2)


@session
def change_waits_in_sampling(s):
    """Change: a lower frequency waits in sampling; an interrupt takes it up: INTERRUPT, PHASE, PLAN."""
    s.open(CSP_1, 3, 3, 5)
    s.good(3)
    s.change(CSP_1, 5, 4)
    s.take(2)
    s.interrupt()
    s.take(3)


@session
def change_on_demand(s):
    """Change: on demand in screening, PLAN alone and the run begins again; then in sampling, PHASE and PLAN."""
    s.open(CSP_1, 3, 3, 5)
    s.good(2)
    s.change(CSP_1, 2, 2, demand=1)
    s.take(2)
    s.good(2)
    s.change(CSP_1, 3, 3, demand=1)
    s.take(3)


@session
def change_at_once_in_screening(s):
    """Change: a lower frequency at once in screening: the run of 2 stays, and 2 more make the new i of 4."""
    s.open(CSP_1, 3, 3, 5)
    s.good(2)
    s.change(CSP_1, 5, 4)
    s.take(2)
    s.good(2)
    s.take()


def each_way(s, higher, middle, lower, sampled, seed):
    """A change each way in each phase, and on demand; `sampled` is what goes before a change in sampling."""
    s.open(*middle, seed=seed)
    s.good()
    # higher, in screening: it waits for the old need
    s.change(*higher)
    s.take_all()
    s.good(middle[2] - 1)
    s.take_all()
    # lower, in sampling: it waits for the return
    sampled(s, higher)
    s.change(*middle)
    s.take_all()
    s.bad()
    s.take_all()
    # lower, in screening: at once, and the run of 1 stays
    s.good()
    s.change(*lower)
    s.take_all()
    s.good(lower[2] - 2)
    s.take_all()
    s.good()
    s.take_all()
    # higher, in sampling: at once, a new block
    sampled(s, lower)
    s.change(*middle)
    s.take_all()
    s.units(6)
    # on demand: higher in sampling, lower in screening, lower in sampling, higher in screening
    s.change(*higher, demand=1)
    s.take_all()
    s.good()
    s.change(*middle, demand=1)
    s.good(middle[2])
    s.take_all()
    sampled(s, middle)
    s.change(*lower, demand=1)
    s.good(lower[2] - 1)
    s.take_all()
    s.change(*higher, demand=1)
    s.good()
    s.take_all()
    s.good()
    s.units(6)
    s.take_all()


@session
def change_csp_1(s):
    """Change: CSP-1, each way in each phase, and on demand."""
    plans = (CSP_1, 2, 2, 20), (CSP_1, 4, 3, 30), (CSP_1, 7, 5, 40)
    each_way(s, *plans, lambda s, plan: s.units(plan[1] + 1), seed=0xC0DE)


@session
def change_csp_2(s):
    """Change: CSP-2, each way in each phase, and on demand, each time with a watch on that has counted 1."""
    plans = (CSP_2, 2, 2, 20), (CSP_2, 4, 3, 30), (CSP_2, 7, 5, 40)

    def watched(s, plan):
        s.bad()
        s.good()

    each_way(s, *plans, watched, seed=0xC0DE)


@session
def change_csp_t(s):
    """Change: CSP-T, each way in each phase, and on demand, each time from level 1."""
    plans = (CSP_T, 2, 2, 20), (CSP_T, 4, 3, 30), (CSP_T, 7, 5, 40)
    each_way(s, *plans, lambda s, plan: s.good(plan[2]), seed=0xC0DE)


@session
def change_csp_v(s):
    """Change: CSP-V, each way in each phase, and on demand, each time with i good samples; x is taken after a defect alone."""
    plans = (CSP_V, 2, 2, 20, 1), (CSP_V, 4, 3, 30, 2), (CSP_V, 7, 5, 40, 3)
    each_way(s, *plans, lambda s, plan: s.good(plan[2]), seed=0xC0DE)


@session
def change_taken_up(s):
    """Change: what waits is taken up at a shift to sampling, at a reverting defect, a missed stretch and an interrupt."""
    s.open(CSP_1, 5, 3, 50, seed=6)

    def into_sampling(units):
        s.change(CSP_1, 2, 1)
        s.good(units)
        s.take_all()
        s.units(3)
        s.change(CSP_1, 5, 3, 50)
        s.take_all()

    into_sampling(3)
    s.bad()
    s.take_all()
    into_sampling(3)
    s.unit(s.station.last + 4)
    s.take_all()
    s.result(0)
    into_sampling(2)
    s.interrupt()
    s.take_all()
    into_sampling(3)


@session
def change_csp_v_row(s):
    """Change: taken up as CSP-V reverts, the old i of 2 judges the samples; by an interrupt or a jump, need is the new i."""
    old, new = (CSP_V, 3, 2, 50, 1), (CSP_V, 5, 4, 50, 3)
    s.open(*old, seed=8)

    def into_sampling(samples):
        s.good(2)
        s.change(*new)
        s.good(samples)
        s.take_all()

    def needed(units):
        s.good(units - 1)
        s.take_all()
        s.good()
        s.take_all()
        s.change(*old, demand=1)
        s.take_all()

    into_sampling(2)
    s.bad()
    needed(3)
    into_sampling(1)
    s.bad()
    needed(4)
    into_sampling(3)
    s.interrupt()
    needed(4)
    into_sampling(2)
    s.unit(s.station.last + 2)
    s.result(0)
    needed(3)


@session
def change_not_taken_up(s):
    """Change: a jump, an interrupt, a find and a defect in screening leave a higher frequency waiting."""
    s.open(CSP_1, 4, 4, 50)
    s.good(2)
    s.change(CSP_1, 2, 2)
    s.unit(s.station.last + 3)
    s.result(0)
    s.good(2)
    s.take_all()
    s.interrupt()
    s.good(3)
    s.take_all()
    s.find()
    s.good(3)
    s.take_all()
    s.bad()
    s.good(3)
    s.take_all()
    s.good()
    s.take_all()


@session
def change_csp_t_levels(s):
    """Change: a new CSP-T level takes up nothing; at once at levels 2 and 1 it tells PHASE 1, then PLAN, at 0 PLAN alone."""
    s.open(CSP_T, 5, 4, 50, seed=12)
    s.good(4)
    s.change(CSP_T, 7, 5)
    s.good(4)
    s.take_all()
    s.good(4)
    s.take_all()
    # level 2: what waited is gone, and the blocks are of 4
    s.change(CSP_T, 4, 3)
    s.take_all()
    s.good(2)
    s.units(4)
    s.take_all()
    # level 1: the row has begun anew, and 2 good samples are the next level
    s.change(CSP_T, 3, 2)
    s.take_all()
    s.good()
    s.change(CSP_T, 2, 1)
    s.take_all()
    s.good()
    s.interrupt()
    s.take_all()


@session
def change_replaced(s):
    """Change: a second request replaces the one that waits; one that takes force at once, or on demand, clears it."""
    s.open(CSP_1, 5, 4, 50)
    s.change(CSP_1, 2, 1)
    s.change(CSP_1, 3, 2)
    s.good(4)
    s.take_all()
    s.change(CSP_1, 4, 3)
    s.change(CSP_1, 6, 5, 50)
    s.interrupt()
    s.take_all()
    # at once in screening, and in sampling
    s.change(CSP_1, 3, 2)
    s.change(CSP_1, 7, 6, 50)
    s.good(6)
    s.take_all()
    s.change(CSP_1, 9, 8)
    s.change(CSP_1, 5, 4, 50)
    s.interrupt()
    s.take_all()
    # on demand in screening, and in sampling
    s.change(CSP_1, 2, 1)
    s.change(CSP_1, 3, 2, demand=1)
    s.good(2)
    s.take_all()
    s.change(CSP_1, 4, 3)
    s.change(CSP_1, 6, 5, demand=1)
    s.good(5)
    s.interrupt()
    s.take_all()


@session
def change_equal_frequency(s):
    """Change: an equal frequency changes nothing, on demand too: not i, S, run or block, and not the plan that waits."""
    s.open(CSP_1, 4, 3, 6)
    s.good(2)
    for demand in (0, 1):
        s.change(CSP_1, 4, 1, demand=demand)
        s.change(CSP_1, 4, 9, demand=demand)
    s.take_all()
    s.bad()
    s.good(2)
    s.bad()
    s.take_all()
    s.change(CSP_1, 3, 2)
    s.good(2)
    s.change(CSP_1, 4, 2)
    s.change(CSP_1, 4, 9, demand=1)
    s.good()
    s.take_all()
    s.units(2)
    s.change(CSP_1, 3, 1)
    s.change(CSP_1, 3, 1, demand=1)
    s.units(7)
    s.change(CSP_1, 6, 5)
    s.change(CSP_1, 3, 1)
    s.change(CSP_1, 3, 9, demand=1)
    s.take_all()
    s.interrupt()
    s.good(5)
    s.take_all()


@session
def change_csp_2_watch(s):
    """Change: at once in sampling a CSP-2 watch stays on with count 0, and one that is off stays off."""
    s.open(CSP_2, 5, 4, 50, seed=10)
    s.good(4)
    s.bad()
    s.good(3)
    # 3 have been counted of 4; of the new i of 3 none
    s.change(CSP_2, 4, 3)
    s.take_all()
    s.good(2)
    s.bad()
    s.take_all()
    # the watch ends after the new i
    s.good(3)
    s.bad()
    s.change(CSP_2, 3, 2)
    s.take_all()
    s.good(2)
    s.bad()
    s.take_all()
    s.good(2)
    # off: the first defect reverts nothing
    s.change(CSP_2, 2, 1)
    s.bad()
    s.take_all()
    s.bad()
    s.take_all()


@session
def change_keeps_the_generator(s):
    """Change: seed 0: no change steps the generator or sets it back; a block is begun anew with the draw that comes next."""
    s.open(CSP_1, 100, 5, 50)
    s.change(CSP_1, 99, 4)
    s.change(CSP_1, 101, 6, 50)
    s.change(CSP_1, 90, 4, 50, demand=1)
    s.good(4)
    # the first draw gives place 21 of 90; the second 0 of 2, the third 1 of 2
    s.units(5)
    s.change(CSP_1, 95, 5)
    s.change(CSP_1, 2, 2)
    s.units(4)
    s.take_all()
    # the fourth and the fifth, after changes in both phases
    s.change(CSP_1, 50, 3)
    s.interrupt()
    s.change(CSP_1, 60, 4)
    s.change(CSP_1, 10, 1, demand=1)
    s.good()
    s.units(20)
    s.take_all()


@session
def change_long(s):
    """Change: the new S judges the next defect, with the units screened that stayed; on demand they begin again."""
    s.open(CSP_1, 3, 3, 50)
    s.bad(4)
    s.change(CSP_1, 5, 4, 5)
    s.take_all()
    s.bad()
    s.take_all()
    s.change(CSP_1, 6, 5, 50)
    s.bad()
    s.take_all()
    s.change(CSP_1, 7, 6, 6)
    s.take_all()
    s.bad()
    s.take_all()
    # a higher frequency that waits does not judge yet
    s.change(CSP_1, 2, 1, 1)
    s.change(CSP_1, 9, 8, 10)
    s.bad(2)
    s.take_all()
    s.change(CSP_1, 2, 2, demand=1)
    s.bad()
    s.take_all()
    s.bad()
    s.take_all()
    # all units screened and not recalled stay, to be found
    s.good()
    s.bad()
    s.good()
    s.change(CSP_1, 3, 3, 50)
    s.find()
    s.find()
    s.find()
    s.take_all()


@session
def change_breaks_no_silence(s):
    """Change: a change is no unit: ticks before and after it count on."""
    s.open(CSP_1, 3, 2, 50)
    s.tick()
    s.change(CSP_1, 2, 1)
    s.tick()
    s.change(CSP_1, 4, 3)
    s.tick()
    s.change(CSP_1, 5, 4, demand=1)
    s.tick()
    s.change(CSP_1, 5, 4)
    s.tick()
    s.take_all()
    s.good(4)
    s.tick()
    s.change(CSP_1, 6, 5)
    s.tick()
    s.change(CSP_1, 4, 3)
    s.tick()
    s.take_all()


@session
def change_refused(s):
    """Change: 4 before 11, each reason of 11, 11 before 3, and 3; a refused change leaves the plan that waits."""
    s.open(CSP_1, 4, 3, 50)
    s.change(CSP_1, 3, 2)
    s.inspected()
    s.change(CSP_1, 5, 4)
    s.change(CSP_2, 5, 4)
    s.change(CSP_1, 2, 1, 0, demand=1)
    s.result(0)
    # 11: another type; n rises and i does not; n falls and i does not; then the same with numbers out of range
    for type in (0, CSP_2, CSP_F, CSP_T, 6, TOP):
        s.change(type, 5, 4)
    s.change(CSP_V, 5, 4, x=1)
    for n, i in ((5, 3), (5, 2), (3, 3), (3, 4), (1_000, 3), (TOP, 0), (0, 3), (1, 10_001)):
        s.change(CSP_1, n, i)
        s.change(CSP_1, n, i, demand=1)
    s.change(CSP_2, 4, 0)
    # 3: the change would be allowed, and the plan is out of range; an equal frequency too
    for n, i in ((201, 4), (TOP, 4), (1, 2), (0, 2), (3, 0), (5, 10_001), (4, 0), (4, 10_001)):
        s.change(CSP_1, n, i)
        s.change(CSP_1, n, i, demand=1)
    for plan in ((5, 4, 3), (5, 4, 100_001), (3, 2, 1), (5, 4, 4, 1), (5, 4, 4, 0, 1), (4, 3, 2), (4, 3, 3, 1)):
        s.change(CSP_1, *plan)
    s.take_all()
    # the plan in force is compared, not the one that waits: 4 and 3, not 3 and 2
    s.change(CSP_1, 3, 3)
    s.good(2)
    s.take_all()
    # in sampling, with a plan that waits
    s.change(CSP_1, 5, 4)
    for plan in ((CSP_1, 6, 2), (CSP_2, 6, 5), (CSP_1, 2, 2), (CSP_1, 2, 0), (CSP_1, 201, 5)):
        s.change(*plan)
        s.change(*plan, demand=1)
    s.inspected()
    s.change(CSP_1, 6, 5)
    s.change(CSP_1, 2, 1)
    s.result(1)
    s.take_all()


@session
def change_compared(s):
    """Change: the new plan is held to the plan in force, not to the one that waits, each time."""
    s.open(CSP_1, 5, 4, 50)
    # n 2 waits; n 3 is a higher frequency all the same, and n 2 with another i replaces n 2
    s.change(CSP_1, 2, 1)
    s.change(CSP_1, 3, 3)
    s.change(CSP_1, 2, 2)
    s.change(CSP_1, 2, 3)
    s.good(4)
    s.take_all()
    # n 9 waits; n 7 rises from 2, and so does i; so do n 9 and i 5 anew
    s.change(CSP_1, 9, 4)
    s.change(CSP_1, 7, 5, 50)
    s.change(CSP_1, 9, 5, 50)
    s.interrupt()
    s.good(4)
    s.take_all()
    s.good()
    s.take_all()


@session
def change_csp_f(s):
    """Change: at a CSP-F station every change gets 11, an equal frequency and a plan out of range too; 4 comes before."""
    s.open(CSP_F, 3, 2, N=20)
    plans = (
        (CSP_F, 3, 2, 0, 0, 20), (CSP_F, 5, 4, 0, 0, 20), (CSP_F, 2, 1, 0, 0, 20), (CSP_F, 5, 4, 0, 0, 0), (CSP_1, 5, 4),
        (0, 0, 0, 0),
    )
    for _ in range(2):
        for plan in plans:
            s.change(*plan)
            s.change(*plan, demand=1)
        s.inspected()
        for plan in plans:
            s.change(*plan)
        s.result(0)
        s.good()
    s.take_all()


@session
def change_ill_formed(s):
    """Change: frame 09 with a demand neither 0 nor 1, a word more or less, or lower case gets 9, before 2 and before 4."""
    plan = (CSP_1, 2, 1, 10, 0, 0)
    lines = [
        words(9, *plan, 2), words(9, *plan, TOP), words(9, *plan, 0x100), words(9, *plan), words(9, *plan, 0, 0),
        words(9, *plan, 0) + b' ', words(9, *plan, 1) + b'\r', words(9, *plan, 0).lower(), words(9, CSP_2, 5, 4, 4, 0, 0, 2),
    ]
    lines.append(lines[0].replace(b' ', b''))

    def sent():
        for line in lines:
            s.line(line)

    sent()
    s.change(*plan)
    s.change(0, 0, 0, 0, demand=1)
    s.open(CSP_1, 3, 2, 10)
    sent()
    s.inspected()
    sent()
    s.change(*plan)
    s.result(0)
    s.good()
    s.take_all()


# ---- Screened units after a check find: document 02, W2

@session
def long_after_a_find(s):
    """S = 4: LONG comes at the first defect after a check find and counts the units before it; finds alone raise none."""
    s.open(CSP_1, 3, 3, 4)
    s.good(2)
    s.find()
    # one below S
    s.bad()
    s.take_all()
    # a find with 5 units screened, and the first defect after it
    s.good(2)
    s.find()
    s.take_all()
    s.bad()
    s.take_all()
    # finds in a row, until none is left to recall; the next defect is the 7th unit screened
    s.find()
    s.find()
    s.find()
    s.take_all()
    s.bad()
    s.take_all()


@session
def long_and_a_diligent_inspector(s):
    """Letter A, AQL 10.0: a check find after every four good units, one short of i: LONG at each defect from the 12th unit on."""
    s.table(CSP_T, A, 10_000)
    for _ in range(4):
        s.good(4)
        s.find()
        s.good(4)
        s.find()
        s.bad()
        s.take_all()
    s.good(4)
    s.take_all()
    s.good()
    s.take_all()


@session
def find_and_a_new_sequence(s):
    """S = 4: after a check find a jump, an interrupt and a return from sampling start screened at 0; LONG at the 4th from there."""
    s.open(CSP_1, 2, 3, 4)

    def checked():
        s.good(2)
        s.find()
        s.good(2)

    checked()
    s.unit(s.station.last + 2)
    s.result(1)
    s.find()
    s.take_all()
    checked()
    s.interrupt()
    s.find()
    s.bad()
    s.take_all()
    checked()
    s.good()
    s.bad()
    s.find()
    s.bad(3)
    s.take_all()
    # the fourth of the new sequence
    s.bad()
    s.take_all()


@session
def find_under_need_x(s):
    """CSP-V: a check find keeps need x of 2; a defect after two finds is the third unit screened: LONG, and need i of 3."""
    s.open(CSP_V, 2, 3, 3, x=2)
    s.good(6)
    s.bad()
    s.good()
    s.find()
    s.good(2)
    s.take_all()
    s.good(3)
    s.bad()
    s.take_all()
    s.good()
    s.find()
    s.good()
    s.find()
    s.take_all()
    s.bad()
    s.take_all()
    s.good(2)
    s.take_all()
    s.good()
    s.take_all()


@session
def find_and_a_change(s):
    """Change: after a find the new S judges all units screened, those before the find too; on demand they begin again."""
    s.open(CSP_1, 3, 3, 50)
    s.good(2)
    s.find()
    s.good(2)
    s.change(CSP_1, 5, 4, 5)
    s.bad()
    s.take_all()
    # a find on either side of a change to S 7: no LONG at the sixth unit screened, one at the seventh
    s.find()
    s.change(CSP_1, 6, 5, 7)
    s.find()
    s.bad()
    s.take_all()
    s.bad()
    s.find()
    s.find()
    s.take_all()
    # on demand: the 7 are gone, and there is nothing to find
    s.change(CSP_1, 2, 2, demand=1)
    s.find()
    s.bad()
    s.take_all()
    s.bad()
    s.take_all()


# ---- Lost alarms: document 02, W4

@session
def lost_none(s):
    """S = 1: a LONG told before the overflow and two still held do not count: of the one event dropped none was LONG."""
    s.open(CSP_1, 2, 1)
    s.bad(3)
    s.take(3)
    # 4 to 11 fill the queue, and 12 drops 4, a DEFECT
    s.tick(6)
    s.take_all()


@session
def lost_one(s):
    """S = 1: three silences drop START, DEFECT and LONG: the marker has 1 of 3, and the next LONG is held and told."""
    s.open(CSP_1, 2, 1)
    s.bad(2)
    # the queue is full
    s.tick(4)
    s.tick(3)
    s.take_all()


@session
def lost_alone(s):
    """S = 1: a gap of one number that was a LONG has 1 of 1, dropped by a silence; then by DEFECT and LONG that find one place free."""
    s.open(CSP_1, 2, 1)
    s.bad(2)
    s.take(2)
    s.tick(7)
    s.take_all()
    # 13 to 19 leave one place free: DEFECT takes it, and LONG drops 13, a LONG
    s.bad(2)
    s.take()
    s.tick(5)
    s.bad()
    s.take_all()


@session
def lost_several(s):
    """S = 1: eight defects and no take: the count goes on from call to call as the gap widens, to 4 of 9."""
    s.open(CSP_1, 2, 1)
    s.bad(8)
    s.take_all()


@session
def lost_whatever_comes(s):
    """What is dropped counts and not what comes: a LONG that drops a silence; then LONG dropped by a silence, a LONG, a DEFECT."""
    s.open(CSP_1, 2, 3)
    # the third defect is LONG, and drops 3, a silence: 0 of 3
    s.tick(6)
    s.bad(3)
    s.take(8)
    # that LONG, 11, is the oldest of eight, and a silence drops it: 1 of 1
    s.tick(9)
    s.take_all()
    # DEFECT 28 drops DEFECT 20 and LONG 29 drops LONG 21: 1 of 2
    s.bad()
    s.tick(7)
    s.bad()
    s.take_all()
    # DEFECT 39 drops LONG 31 and LONG 40 drops DEFECT 32: 1 of 2
    s.bad(2)
    s.take()
    s.tick(6)
    s.bad()
    s.take_all()


@session
def lost_two_of_three(s):
    """One call drops LONG, DEFECT and LONG, 2 of 3; later one drops DEFECT, LONG and PHASE, 1 of 3. No two neighbours are LONG."""
    s.open(CSP_1, 2, 1)
    s.bad(2)
    s.good()
    s.change(CSP_1, 3, 2)
    s.take(2)
    # 3 to 10 fill the queue: INTERRUPT, PHASE and PLAN drop 3 to 5
    s.tick(5)
    s.interrupt()
    s.take_all()
    s.bad(2)
    s.good(2)
    s.change(CSP_1, 5, 3)
    s.take()
    # 15 to 22 fill it: DEFECT, PHASE and PLAN drop 15 to 17
    s.tick(6)
    s.bad()
    s.take_all()


@session
def lost_anew_after_a_marker(s):
    """S = 1: each marker counts anew what it names: 1 of 3, 0 of 1, 2 of 4; a LONG told, and then 1 of 2."""
    s.open(CSP_1, 2, 1)
    s.bad(5)
    s.take()
    s.tick(2)
    s.take()
    s.bad(2)
    # the marker, and 9, a LONG
    s.take(2)
    s.tick(4)
    s.take_all()


@session
def lost_until_the_marker(s):
    """A count that waits for its marker is moved by no refused call and by none that drops nothing: 1 of 4."""
    s.open(CSP_1, 3, 2)
    s.bad(4)
    s.tick(5)
    s.unit()
    s.unit()
    s.result(2)
    s.result(0)
    s.result(0)
    s.unit(1)
    s.unit(1_000_001)
    s.tick()
    # one plan that waits, one of another type, one out of range
    s.change(CSP_1, 2, 1)
    s.change(CSP_2, 2, 1)
    s.change(CSP_1, 4, 3, 2)
    s.open(CSP_1, 2, 1)
    s.line(b'07 ')
    s.take_all()


@session
def lost_over_a_weekend(s):
    """Letter A, AQL 10.0: the alarm at the 12th unit screened is Friday's last, and twelve silences push it out: 1 of 10."""
    s.table(CSP_T, A, 10_000)
    s.bad()
    s.good(4)
    s.bad()
    s.good(4)
    s.bad(2)
    s.tick(13)
    s.take_all()


@session
def lost_none_under_csp_f(s):
    """CSP-F has no alarm: of the events that twelve defects push out none was LONG."""
    s.open(CSP_F, 2, 3, N=50)
    s.bad(12)
    s.take_all()


# ---- Station numbers: document 02, W6

# 65,537 is 1 in its low sixteen bits.
NO_STATION_NUMBERS = (0, 65_536, 65_537, 0x80000000, TOP)
NOT_0A = [
    b'0A', b'0A ', b'0A 1', b'0A 0001', b'0A 00000001 00000001', b'0A 00000001 ', b'0A  00000001', b'0A 0000000G', b'0A 0000ffff',
    b'0a 00000001', b'A 00000001', b'0A00000001', b'0A 000000001', b'0A 00000001\r',
]


def letter_a(s, seed=None):
    """Letter A, AQL 10.0: n 2, i 5, S 12."""
    return s.table(CSP_T, A, 10_000, seed=seed)


def show_seed(s, units=8):
    """Sampling, and as many blocks of two as tell the seeds of these sessions apart by their orders."""
    s.good(s.station.i)
    s.units(units)
    s.take_all()


@session
def station_number_least(s):
    """Station number 1 is taken, and is the seed of a table open without one."""
    s.station_number(1)
    letter_a(s)
    show_seed(s, 30)


@session
def station_number_most(s):
    """Station number 65,535 is taken, and is the seed of a table open without one."""
    s.station_number(65_535)
    letter_a(s)
    show_seed(s, 30)


@session
def station_number_refused(s):
    """Station numbers 0 and above 65,535 get 9 and none is kept: after each a table open without seed gets 9, and a call 2."""
    for number in NO_STATION_NUMBERS:
        s.station_number(number)
        letter_a(s)
        s.take()
    letter_a(s, seed=0)
    show_seed(s)


@session
def station_number_ill_formed(s):
    """Frame 0A with no word, with two, in lower case and otherwise ill-formed gets 9: it gives no number and takes none away."""
    for line in NOT_0A:
        s.line(line)
    letter_a(s)
    s.station_number(5)
    for line in NOT_0A:
        s.line(line)
    letter_a(s)
    show_seed(s)


@session
def station_number_after_open(s):
    """After an open by frame 01 a station number gets 9, in range or not; the station goes on, and its orders are its seed's."""
    s.open(CSP_1, 2, 2, 3, seed=9)
    s.tick()
    for number in (5, 65_535, *NO_STATION_NUMBERS):
        s.station_number(number)
    s.tick()
    s.unit()
    s.station_number(5)
    s.result(0)
    s.good()
    s.station_number(5)
    s.units(8)
    s.take_all()


@session
def station_number_after_table_open(s):
    """After an open by frame 08 a station number gets 9, in range or not; the orders stay those of the number before the open."""
    s.station_number(9)
    letter_a(s)
    for number in (5, 9, 65_535, *NO_STATION_NUMBERS):
        s.station_number(number)
    s.good(5)
    s.station_number(5)
    s.units(3)
    s.station_number(5)
    letter_a(s)
    s.units(5)
    s.take_all()


@session
def station_number_replaced(s):
    """A later station number replaces the first, be it larger or smaller: the orders are those of the last one."""
    for number in (40_000, 65_535, 9, 9, 256, 5):
        s.station_number(number)
    letter_a(s)
    show_seed(s)


@session
def station_number_stays_when_refused(s):
    """A station number that is refused leaves the one before it, which is then the seed."""
    s.station_number(40_000)
    for number in NO_STATION_NUMBERS:
        s.station_number(number)
    s.line(b'0A')
    s.line(words(10, 5, 5))
    letter_a(s)
    show_seed(s)


@session
def station_number_stays_after_refused_opens(s):
    """A refused open, by frame 01 or by 08, leaves the station number: an entry that is not there gets 3, the next is opened."""
    s.station_number(40_000)
    s.open(CSP_1, 2, 2, 1, seed=5)
    s.table(CSP_T, A, 40, seed=None)
    s.table(CSP_T, A, 40, seed=5)
    s.table(CSP_F, I, 40, N=500, seed=None)
    s.open(0, 0, 0, seed=0)
    s.take()
    letter_a(s)
    show_seed(s)


@session
def station_number_missing(s):
    """With neither seed nor station number a table open gets 9, before 3, whether a table has the entry or not; nothing is opened."""
    for entry in ((CSP_T, A, 10_000), (CSP_F, A, 40, 500)):
        s.table(*entry, seed=None)
        s.take()
    for entry in ((CSP_T, A, 40), (CSP_T, 0, 10_000), (CSP_F, I, 40, 500), (CSP_1, A, 10), (0, 0, 0)):
        s.table(*entry, seed=None)
        s.line(words(2, 1))
        s.table(*entry, seed=0)
    letter_a(s, seed=0)
    letter_a(s)
    show_seed(s)


@session
def station_number_and_a_seed(s):
    """A seed that is written is the seed, whatever the station number."""
    s.station_number(40_000)
    letter_a(s, seed=5)
    show_seed(s)


@session
def station_number_and_seed_0(s):
    """A seed of 0 that is written is a seed: the orders are those of 0, and not of the station number."""
    s.station_number(40_000)
    letter_a(s, seed=0)
    show_seed(s)


@session
def station_number_and_frame_01(s):
    """Frame 01 has its own seed, 0 too, and with a word less it is ill-formed: a station number is none of its words."""
    s.station_number(40_000)
    s.line(words(1, CSP_T, 2, 5, 12, 0, 0))
    s.open(CSP_T, 2, 5, 12, seed=0)
    show_seed(s)


@session
def station_number_between_refused_opens(s):
    """Station numbers between refused opens: 9 without one, 3 with one; the last one that was taken is the seed."""
    s.table(CSP_T, A, 40, seed=None)
    s.station_number(5)
    s.table(CSP_T, A, 40, seed=None)
    s.open(CSP_1, 1, 1)
    s.station_number(40_000)
    s.table(CSP_F, A, 40, N=0, seed=None)
    s.station_number(0)
    s.table(CSP_F, A, 40, N=0, seed=7)
    s.take()
    letter_a(s)
    show_seed(s)


# The number, the seed that 08 may write and that of 01, whose plan is letter A's too: the orders alone tell which opened.
THREE_FRAMES = {
    '0A': lambda s, seed: s.station_number(40_000),
    '08': letter_a,
    '01': lambda s, seed: s.open(CSP_T, 2, 5, 12, seed=9),
}


def who_opens(order, seed):
    """Which of the three frames opens: 01 where it comes before 08, or where 08 has neither seed nor number."""
    comes = order.index
    if comes('01') < comes('08'):
        return '01 opens, and what comes after it gets 9'
    if seed is not None:
        return '08 opens with its seed, and what comes after it gets 9'
    if comes('0A') < comes('08'):
        return '08 opens with the station number, and 01 gets 9'
    return '08 gets 9, and 01 opens with its own seed'


def in_order(order, seed):
    def write(s):
        for code in order:
            THREE_FRAMES[code](s, seed)
        show_seed(s)

    first, second, third = order
    way = 'without' if seed is None else 'with'
    write.__name__ = f'station_number_order_{first}_{second}_{third}_{way}_seed'.lower()
    write.__doc__ = f'Frame {first}, then {second}, then {third}, where 08 is {way} a seed: {who_opens(order, seed)}.'
    return session(write)


for each_order in permutations(THREE_FRAMES):
    in_order(each_order, seed=None)
    in_order(each_order, seed=5)


def neighbour(s, number):
    """A result follows each unit, and gets 5 where it passes: so the frames are the same, whatever the orders."""
    s.station_number(number)
    s.table(CSP_T, B, 10_000, seed=None)
    for _ in range(30):
        s.unit()
        s.result(0)
    s.take_all()


@session
def station_number_neighbour_11(s):
    """Station 11 on letter B, AQL 10.0: the frames of station 12 but for the number, and other places."""
    neighbour(s, 11)


@session
def station_number_neighbour_12(s):
    """Station 12 on letter B, AQL 10.0: the frames of station 11 but for the number, and other places."""
    neighbour(s, 12)


@session
def station_number_torn(s):
    """Frame 0A torn by a line feed gets 9 twice and gives no number; as a last line without line feed it gets 9."""
    s.line(b'0A 0000')
    s.line(b'9C40')
    letter_a(s)
    s.line(b'0A')
    s.line(b' 00009C40')
    letter_a(s)
    return b'0A 00009C40'


@session
def station_number_csp_t(s):
    """Letter A, AQL 10.0, station number 51,966: blocks of 2, 4 and 8, back to screening by a defect, and the draws go on."""
    s.station_number(51_966)
    letter_a(s)
    s.take()
    s.good(5)
    s.good(10)
    s.take_all()
    s.units(40)
    s.bad()
    s.take_all()
    s.good(5)
    s.units(9)
    s.unit(s.station.last + 3)
    s.result(0)
    s.good(4)
    s.take_all()
    s.units(30)
    s.take_all()


@session
def station_number_csp_f(s):
    """Letter B of Table III-A-4, N 400, station number 47,806: i 233, n 3; the blocks of 3 to the end of the period."""
    s.station_number(47_806)
    s.table(CSP_F, B, 40, N=400, seed=None)
    s.take()
    s.good(233)
    s.take_all()
    s.units(60)
    s.bad()
    s.take_all()
    s.units(400 - s.station.last)
    s.unit(401)
    s.take_all()


# ---- How long the line can go unseen: document 02, W13

@session
def left_after_266_units(s):
    """Letter G, AQL 0.40: units 1 to 266 conform, and with unit 266 the run is as long as i: screening is left there."""
    s.table(CSP_T, G, 400, seed=0)
    s.good(266)
    s.take_all()


@session
def unit_200_missed(s):
    """Letter G, AQL 0.40: unit 200 is never named, so the run starts anew with 201; every result is good, and 466 leaves screening."""
    s.table(CSP_T, G, 400, seed=0)
    s.good(199)
    s.unit(201)
    s.result(0)
    s.good(265)
    s.take_all()


@session
def two_pass_in_a_row(s):
    """n 2, seed 0, places 0, 0, 1: units 6 and 7 pass in a row, 2L - 2 of them, between 5 and 8, which are inspected."""
    s.open(CSP_1, 2, 2)
    s.good(2)
    s.units(6)
    s.take_all()


@session
def five_pass_over_a_change(s):
    """Change: n 3, then 2 at once in sampling: units 7 to 11 pass, 2L - 1 of them, since the change ends a stay; no PHASE tells it."""
    s.open(CSP_1, 3, 2)
    s.good(2)
    # seed 0: places 0, 0 and 2; the change comes before unit 11, which was to be inspected, and the next block of 2 has place 1
    s.units(8)
    s.change(CSP_1, 2, 1)
    s.units(2)
    s.take_all()


@session
def what_breaks_a_run(s):
    """A find breaks a run one short of i 4; a refused find and an equal frequency on demand break none; a change to i 6 makes it longer."""
    s.open(CSP_1, 3, 4)
    s.good(3)
    s.find()
    s.good(3)
    s.take_all()
    # a run of 3 again: with the next good unit it would be cleared, but for the change
    s.change(CSP_1, 3, 9, demand=1)
    s.change(CSP_1, 5, 6)
    s.unit()
    s.find()
    s.result(0)
    s.take_all()
    s.good(1)
    s.tick()
    s.take_all()
    # the sixth in a row
    s.good(1)
    s.take_all()
    s.find()


# ---- Pinned sessions: crates/rules/proofs computes their answers from the definitions, in Sessions.antt and Program.antt

@session
def pinned_csp_1(s):
    """Pinned. CSP-1: each kind of event, a new sequence by each cause in either phase, alarms after finds, two gaps."""
    s.open(CSP_1, 5, 3, 4, seed=0x1235C004)
    # ticks before any unit, and one that the first unit breaks; there is nothing to find, and no result is owed
    s.tick(2)
    s.find()
    s.result(0)
    s.good()
    s.tick(2)
    # units 3 to 5 are missed: MISSED alone, and the run begins again
    s.good()
    s.unit(6)
    s.unit(6)
    s.interrupt()
    s.find()
    s.result(2)
    s.result(0)
    s.good()
    s.take_all()
    # an interrupt: INTERRUPT alone, nothing is left to find, and the run begins again
    s.interrupt()
    s.find()
    # S is 4, and a find leaves screened as it is: no LONG at the third unit screened, one at the fourth
    s.good(2)
    s.find()
    s.bad(2)
    # two finds after the fifth raise CHECK alone, and then nothing is left to find
    s.good()
    s.find()
    s.find()
    s.find()
    s.take_all()
    # the first defect after them is the seventh unit screened, the next the tenth
    s.good()
    s.bad()
    s.good(2)
    s.bad()
    s.take_all()
    # three good ones in a row start sampling: three blocks of 5, and three units of the fourth
    s.good(3)
    s.find()
    s.units(18)
    s.take_all()
    # an interrupt in sampling: INTERRUPT, then PHASE
    s.interrupt()
    s.take_all()
    # sampling again; the generator carries on, and a defective sample reverts
    s.good(3)
    s.good()
    s.bad()
    s.take_all()
    # the reverting defect is not counted in screened, and nothing is left to find
    s.find()
    s.bad(3)
    s.take_all()
    # sampling again; while a sample's result is owed a unit, an interrupt and a find get 4
    s.good(3)
    s.inspected()
    s.unit(1)
    s.interrupt()
    s.find()
    s.tick(2)
    s.result(0)
    s.units(3)
    # two units are missed in sampling: MISSED, then PHASE with the unit that jumped
    s.unit(s.station.last + 3)
    s.result(0)
    s.take_all()
    # the queue overflows: a marker names the first dropped and how many; a take frees the room of one, a marker none
    s.tick(11)
    s.take(2)
    s.tick(2)
    s.bad()
    s.take(3)
    s.good(3)
    s.tick(2)
    s.take_all()


@session
def pinned_csp_1_find(s):
    """Pinned. CSP-1: a check find late in a run sets run to 0, breaks no silence, and leaves screened, need and what can be recalled."""
    s.open(CSP_1, 3, 6, 7, seed=0x2D5F1E35)
    # a find with five good ones of the six needed: five more start no sampling
    s.good(5)
    s.find()
    s.good(5)
    # a find after a unit that was heard: the tick is not silent, the next is, and one more find leaves the count of ticks
    s.find()
    s.tick(2)
    s.find()
    s.tick()
    s.take_all()
    # S is 7: the first defect is the eleventh unit screened
    s.bad()
    s.take_all()
    # of ten good ones three are recalled, and seven are left
    for _ in range(7):
        s.find()
    s.find()
    s.take_all()
    # the six needed start sampling
    s.good(5)
    s.take()
    s.good()
    s.take_all()
    s.units(6)
    s.find()


@session
def pinned_csp_2(s):
    """Pinned. CSP-2: a watch that ends, one that reverts, one cut off by an interrupt and one by a jump."""
    s.open(CSP_2, 5, 2, 3, seed=0xB5297A4D)
    # a first unit above 1
    s.unit(3)
    s.result(0)
    s.bad()
    s.good()
    s.find()
    s.find()
    s.find()
    # S is 3: the finds at the third unit screened raise no LONG and set nothing back: it comes at the fourth, fifth and seventh
    s.bad()
    s.take_all()
    s.bad()
    s.good()
    s.bad()
    s.take_all()
    # sampling; a defect starts a watch, its block goes on, and two conforming samples end the watch
    s.good(2)
    s.bad()
    s.units(9)
    s.take_all()
    # a further defect starts a watch anew, and after one conforming sample the next reverts
    s.good()
    s.bad()
    s.good()
    s.find()
    s.take_all()
    s.bad()
    s.take_all()
    # a watch does not outlive its stay: an interrupt in the watch, and in the next stay the first defect reverts nothing
    s.good(2)
    s.bad()
    s.interrupt()
    s.good(2)
    s.bad()
    s.take_all()
    # nor does it outlive a jump; ticks before and after the unit
    s.tick(2)
    s.unit(s.station.last + 5)
    s.tick()
    s.result(0)
    s.tick(3)
    s.good()
    s.bad()
    s.good()
    s.take()
    s.units(2)
    # in screening again by a second defect; an interrupt and a jump there
    s.bad()
    s.good()
    s.interrupt()
    s.good()
    s.unit(s.station.last + 2)
    s.result(0)
    # the gap, and what is held
    s.take_all()


@session
def pinned_csp_f(s):
    """Pinned. CSP-F: no alarm however long the screening; the period's end in sampling."""
    s.open(CSP_F, 3, 2, N=42, seed=0xFFFFFFFF)
    s.tick()
    # S is 0: no LONG, however many are screened; a defective unit is not there to be found
    s.bad()
    s.find()
    s.bad()
    s.good()
    s.bad()
    s.take_all()
    # a find, a jump and an interrupt in screening
    s.find()
    s.find()
    s.good()
    s.unit(8)
    s.result(0)
    s.interrupt()
    s.take_all()
    # sampling: blocks of 3; a find is refused; a defective sample reverts
    s.good(2)
    s.find()
    s.units(9)
    s.bad()
    s.take_all()
    # sampling, and an interrupt
    s.good(2)
    s.units(2)
    s.interrupt()
    s.take_all()
    # sampling, and a jump
    s.good(2)
    s.units(1)
    s.unit(s.station.last + 4)
    s.result(0)
    s.take_all()
    # 43 is above the limit, by a jump and as the next number; the period ends in sampling
    s.good()
    s.units(6)
    s.unit(43)
    s.units(3)
    s.unit(43)
    s.unit(TOP)
    s.unit(42)
    # ticks and takes go on; an interrupt finds the queue full and drops two
    s.tick(10)
    s.interrupt()
    s.find()
    s.take_all()
    s.interrupt()
    s.tick()
    s.take_all()


@session
def pinned_csp_t(s):
    """Pinned. CSP-T: levels 0, 1 and 2, and a return from each, by a defect, an interrupt and a jump."""
    s.open(CSP_T, 3, 2, 4, seed=0x9E3779B9)
    # sampling at level 0: one conforming sample, and a defective one reverts
    s.good(2)
    s.good()
    s.bad()
    s.take_all()
    # a find, an interrupt and a jump in screening
    s.good()
    s.find()
    s.good()
    s.interrupt()
    s.good()
    s.unit(s.station.last + 2)
    s.result(1)
    s.take_all()
    # S is 4: two alarms
    s.bad(4)
    s.take_all()
    # two conforming samples: level 1, blocks of 6 from the next unit on; one more is no level, and a defect reverts
    s.good(2)
    s.good(2)
    s.take_all()
    s.good()
    s.bad()
    s.take_all()
    # level 1 again, and an interrupt
    s.good(2)
    s.good(2)
    s.find()
    s.units(1)
    s.interrupt()
    s.take_all()
    # level 2: blocks of 12, and it stays; ticks before and after units
    s.good(2)
    s.good(2)
    s.good(2)
    s.take_all()
    s.tick(2)
    s.units(26)
    s.tick(2)
    s.good()
    # a jump at level 2; sampling starts at level 0
    s.unit(s.station.last + 7)
    s.result(0)
    s.good()
    s.take_all()
    # a defect at level 2, and an overflow
    s.good(4)
    s.bad()
    s.tick(6)
    s.take_all()


@session
def pinned_csp_v(s):
    """Pinned. CSP-V: need i and need x, by each cause; a find keeps need x."""
    s.open(CSP_V, 4, 3, 5, x=2, seed=0x00ABCDEF)
    # a defect after two good samples: need is 3
    s.good(3)
    s.good(2)
    s.bad()
    s.good(2)
    s.take_all()
    # sampling; after four good samples, one more than are counted, need is 2
    s.good()
    s.good(4)
    s.bad()
    s.good(1)
    s.take_all()
    # a find keeps need 2: the second good one after it starts sampling
    s.find()
    s.good(2)
    s.find()
    s.take_all()
    # three good samples and a defect: need 2; a defect in screening: need 3
    s.good(3)
    s.bad()
    s.good()
    s.bad()
    s.good(2)
    s.take_all()
    # S is 5: LONG at the fifth unit screened and at the sixth
    s.bad(2)
    s.take_all()
    # three good samples and a defect: need 2; a jump in screening: need 3
    s.good(3)
    s.good(3)
    s.bad()
    s.unit(s.station.last + 3)
    s.result(0)
    s.good()
    s.take_all()
    # three good samples and a defect: need 2; an interrupt in screening: need 3
    s.good()
    s.good(3)
    s.bad()
    s.good()
    s.interrupt()
    s.good(2)
    s.take_all()
    # three good samples and an interrupt: need 3
    s.good()
    s.good(3)
    s.interrupt()
    s.good(2)
    s.take_all()
    # three good samples and a jump: need 3; the row of the stay before does not count
    s.good()
    s.good(3)
    s.tick(2)
    s.unit(s.station.last + 2)
    s.tick()
    s.result(0)
    s.tick(2)
    s.good()
    s.take_all()
    s.good()
    s.bad()
    s.good(2)
    s.tick(7)
    s.good()
    s.take_all()


@session
def pinned_csp_1_change(s):
    """Pinned. CSP-1: a change each way in each phase and on demand; what waits, what is replaced and what is refused."""
    s.open(CSP_1, 3, 2, 9, seed=0x0AE50166)
    # a higher frequency waits, and breaks no silence; while a result is owed, 4; a jump and an interrupt leave it waiting
    s.tick()
    s.change(CSP_1, 2, 1)
    s.tick()
    s.unit(3)
    s.change(CSP_2, 4, 3, 2)
    s.result(0)
    s.interrupt()
    # 11 for the type, for an i that does not fall with n, and before 3; then 3; what waits stays
    s.change(CSP_2, 4, 3)
    s.change(CSP_1, 2, 2)
    s.change(CSP_1, 4, 2, 1)
    s.change(CSP_1, 4, 3, 2)
    # an equal frequency changes nothing, on demand too; then the old need of 2 is reached: PHASE, PLAN
    s.good()
    s.change(CSP_1, 3, 1, demand=1)
    s.good()
    s.take(7)
    # a lower one waits, a second replaces it, and a defect takes it up: DEFECT, PHASE, PLAN
    s.change(CSP_1, 5, 4)
    s.change(CSP_1, 4, 2, 9)
    s.bad()
    s.take(3)
    # on demand in screening: a fresh sequence of the new i of 3
    s.good()
    s.change(CSP_1, 5, 3, 9, demand=1)
    s.find()
    s.good(2)
    s.bad()
    # at once in screening: what was screened stays, the new S judges it, and there is something to find
    s.change(CSP_1, 6, 4, 4)
    s.bad()
    s.find()
    s.good(4)
    s.take(7)
    # at once in sampling: a new block; an interrupt finds nothing that waits
    s.units(1)
    s.change(CSP_1, 7, 5)
    s.change(CSP_1, 2, 1)
    s.units(3)
    s.interrupt()
    # on demand in sampling: PHASE, PLAN
    s.good()
    s.change(CSP_1, 3, 2, demand=1)
    s.take_all()


@session
def pinned_csp_2_change(s):
    """Pinned. CSP-2: a change each way in each phase and on demand; a watch stays on with count 0."""
    s.open(CSP_2, 3, 2, 9, seed=0xD60DD02C)
    # at once in screening: the run of 1 stays, and what waited is gone
    s.good()
    s.change(CSP_2, 2, 1)
    s.change(CSP_2, 4, 3, 9)
    s.good(2)
    # at once in sampling: a watch that has counted 1 stays on with count 0, and the second defect reverts
    s.bad()
    s.good()
    s.change(CSP_2, 5, 4)
    s.change(CSP_2, 3, 2, 9)
    s.good()
    s.bad()
    s.take(7)
    # a higher frequency waits; a find and a defect in screening, refusals and an equal frequency leave it
    s.change(CSP_2, 2, 1)
    s.good()
    s.find()
    s.bad()
    s.change(CSP_2, 2, 2)
    s.change(CSP_2, 201, 3)
    s.change(CSP_2, 3, 1)
    s.good(2)
    s.take(4)
    # a lower one waits, a second replaces it, and a jump in the watch takes it up: MISSED, PHASE, PLAN
    s.bad()
    s.change(CSP_2, 5, 4)
    s.change(CSP_2, 3, 2, 9)
    s.unit(s.station.last + 2)
    s.change(CSP_2, 4, 3)
    s.result(0)
    # on demand in screening
    s.change(CSP_2, 2, 1, demand=1)
    s.take(5)
    s.good()
    # on demand in sampling: PHASE, PLAN, and the watch is gone and what waited; at once in sampling: no watch is put on
    s.bad()
    s.change(CSP_2, 5, 4)
    s.change(CSP_2, 3, 2, 9, demand=1)
    s.good(2)
    s.change(CSP_2, 2, 1)
    s.bad()
    s.take_all()


@session
def pinned_csp_t_change(s):
    """Pinned. CSP-T: a change each way in each phase and on demand; at level 2, PHASE and then PLAN."""
    s.open(CSP_T, 4, 3, 9, seed=0xE65CA6B4)
    # at once in sampling at level 0: PLAN alone, and the row begins anew
    s.good(3)
    s.good()
    s.change(CSP_T, 3, 2, 9)
    # a lower one waits; levels 1 and 2 take up nothing
    s.change(CSP_T, 5, 4)
    s.good(2)
    s.good(2)
    s.take(5)
    # at once in sampling at level 2: PHASE, PLAN; one good sample is level 1
    s.change(CSP_T, 2, 1)
    s.good()
    # on demand in sampling: PHASE, PLAN
    s.change(CSP_T, 3, 2, 9, demand=1)
    s.take(5)
    # at once in screening: the run of 1 stays; on demand in screening: it begins again, and what waited is gone
    s.good()
    s.change(CSP_T, 4, 3, 9)
    s.good()
    s.change(CSP_T, 2, 1)
    s.change(CSP_T, 3, 2, 9, demand=1)
    s.good(2)
    s.take(3)
    # a lower one waits, a second replaces it, and an interrupt takes it up: INTERRUPT, PHASE, PLAN
    s.change(CSP_T, 5, 4)
    s.change(CSP_T, 4, 3, 9)
    s.interrupt()
    # a higher one waits for the shift, whatever is refused: PHASE, PLAN; the next interrupt finds nothing that waits
    s.change(CSP_T, 2, 1)
    s.change(CSP_T, 2, 3)
    s.change(CSP_T, 4, 3, 2)
    s.change(CSP_T, 4, 9)
    s.good(2)
    s.unit()
    s.change(CSP_T, 5, 4)
    s.result(0)
    s.interrupt()
    s.take_all()


@session
def pinned_csp_v_change(s):
    """Pinned. CSP-V: a change each way in each phase and on demand; the old i judges the samples, need is the new x or i."""
    s.open(CSP_V, 2, 1, 9, x=1, seed=0xD6CDFC18)
    # a lower frequency waits; one good sample reaches the old i of 1: need is the new x of 2
    s.good()
    s.change(CSP_V, 3, 3, 9, x=2)
    s.good()
    s.bad()
    s.good(2)
    # at once in sampling: the row begins anew, and a defect does not reach the old i of 1: need is the new i of 2;
    # its three events find one place free, and two are dropped
    s.good()
    s.change(CSP_V, 2, 1, 9, x=1)
    s.change(CSP_V, 3, 2, 9, x=1)
    s.bad()
    s.take(8)
    s.good()
    # a higher frequency waits for the shift: PHASE, PLAN
    s.change(CSP_V, 2, 1, 9, x=1)
    s.change(CSP_V, 4, 2)
    s.change(CSP_V, 4, 3, 9)
    s.change(CSP_V, 3, 9, x=9)
    s.good()
    # an interrupt after a good sample takes up a lower one: need is the new i of 2, not x
    s.inspected()
    s.change(CSP_V, 3, 2, 9, x=1)
    s.result(0)
    s.change(CSP_V, 3, 2, 9, x=1)
    s.interrupt()
    s.good()
    s.take(7)
    s.good()
    # two good samples and a defect: need is x of 1; at once in screening: need is the new i of 3
    s.good(2)
    s.bad()
    s.change(CSP_V, 4, 3, 9, x=1)
    s.good()
    # on demand in screening: need is the new i of 2, never x
    s.change(CSP_V, 3, 2, 9, x=1, demand=1)
    s.good()
    s.take(5)
    s.good()
    # on demand in sampling, after as many good samples as the i in force: need is the new i of 3, never x
    s.change(CSP_V, 2, 1, 9, x=1)
    s.good()
    s.change(CSP_V, 4, 3, 9, x=1, demand=1)
    s.good()
    s.take_all()


@session
def pinned_csp_f_change(s):
    """Pinned. CSP-F: every change gets 11, in either phase; while a result is owed, 4."""
    s.open(CSP_F, 3, 2, N=20, seed=0x7F4A7C15)
    s.change(CSP_F, 4, 3, N=20)
    s.change(CSP_F, 3, 2, N=20)
    s.change(CSP_F, 2, 1, N=0)
    s.unit()
    s.change(CSP_F, 4, 3, N=20)
    s.result(0)
    s.good()
    s.change(CSP_F, 2, 1, N=20, demand=1)
    s.change(CSP_F, 4, 3, N=20)
    s.take_all()


@session
def pinned_program(s):
    """Pinned. The program: calls before an open, opens refused and taken, ill-formed lines, a torn last line."""
    # before an open each call gets 2, and an ill-formed line 9
    s.tick()
    s.take()
    s.unit(1)
    s.result(2)
    s.interrupt()
    s.find()
    s.line(b'')
    s.line(b'07\r')
    # a plan out of range, and entries that no table has; after a refused open a call still gets 2
    s.open(CSP_1, 2, 2, 1)
    s.open(CSP_F, 2, 2, 2, N=9)
    for entry in ((CSP_1, A, 10_000), (CSP_T, 0, 10_000), (CSP_T, 12, 10_000), (CSP_T, A, 40), (CSP_T, A, 10_000, 1)):
        s.table(*entry)
    for entry in ((CSP_F, I, 40, 500), (CSP_F, A, 400, 500), (CSP_F, A, 40, 0), (CSP_F, A, 40, 1_000_001)):
        s.table(*entry, seed=5)
    s.take()
    # letter A, AQL 10.0, seed 0: n 2, i 5, S 12; then every open gets 9
    s.table(CSP_T, A, 10_000)
    s.table(CSP_T, A, 10_000)
    s.open(CSP_1, 2, 2, 3, seed=1)
    s.open(0, 0, 0)
    s.table(CSP_T, 0, 0, seed=0)
    s.take(2)
    # ill-formed lines break no silence
    s.tick()
    for line in (b'', b'7', b'00', b'09', b'0a', b'FF', b'07 ', b' 07', b'07\t', b'07\r', b'06 00000000', b'02', b'02 1',
                 b'02  00000001', b'02 0000000G', b'02 0000000a', b'02 00000001 ', b'02\t00000001', b'0200000001',
                 b'04 00000000', b'01 00000001 00000002 00000002 00000003 00000000 00000000',
                 b'08 00000004 00000001 00002710', b'08 00000004 00000001 00002710 00000000 00000000 00000000',
                 b'0' * 80, b'0' * 81):
        s.line(line)
    s.tick()
    s.take(3)
    # 05 is a find: refused, and then taken; 04 is an interrupt: taken at once
    s.find()
    s.good(2)
    s.find()
    s.interrupt()
    s.take(3)
    # five good ones start sampling; the orders are those of seed 0
    s.good(5)
    s.units(20)
    s.find()
    s.result(0)
    s.result(2)
    s.unit(1)
    s.unit(1_000_001)
    s.unit(TOP)
    # an interrupt in sampling, and a jump to the last unit number
    s.interrupt()
    s.unit(1_000_000)
    s.interrupt()
    s.find()
    s.result(0)
    s.take_all()
    # the queue overflows
    s.tick(11)
    s.take(3)
    # a torn last line
    return b'07'


@session
def pinned_table_open(s):
    """Pinned. Frame 08 with a seed: CSP-T, letter B, AQL 10.0."""
    s.table(CSP_T, B, 10_000, seed=0x2545F491)
    # i is 6, and n 3
    s.good(6)
    s.units(9)
    s.take_all()


@session
def pinned_station_number(s):
    """Pinned. Frame 0A: refused and taken, replaced, and left by what is refused; it is the seed of a table open without one."""
    # neither seed nor number: 9, before 3, and a call still gets 2
    letter_a(s)
    s.table(CSP_T, A, 40, seed=None)
    s.take()
    # out of range, 1 in the low bits of one; no word, two words; none of them is kept
    for number in (0, 65_536, 65_537, TOP):
        s.station_number(number)
    s.line(b'0A')
    s.line(words(10, 1, 1))
    # a digit that is none; three, four and seven words; other codes with one word, and with a table's four
    s.line(b'0A 0000000G')
    s.line(words(10, 1, 1, 1))
    s.line(words(10, CSP_T, A, 10_000, 0))
    s.line(words(10, CSP_1, 2, 2, 3, 0, 0, 0))
    s.line(words(11, 1))
    s.line(words(1, 1))
    s.line(words(9, CSP_T, A, 10_000, 0))
    letter_a(s)
    # each word of a table open broken
    for at in range(5):
        open_words = [b'00000004', b'00000001', b'00002710', b'00000000', b'00000000']
        open_words[at] = b'0000000G'
        s.line(b' '.join([b'08', *open_words]))
    # the first, and one that replaces it; what is refused leaves it
    s.station_number(1)
    s.station_number(65_535)
    s.station_number(0)
    s.station_number(131_073)
    s.open(CSP_1, 2, 2, 1)
    s.table(CSP_T, A, 40, seed=None)
    s.table(CSP_T, A, 40)
    # then every 0A gets 9, also once units have come
    letter_a(s)
    s.station_number(1)
    # i is 5, and the orders are those of seed 65,535
    s.good(5)
    s.station_number(2)
    s.units(8)


@session
def pinned_seed_over_number(s):
    """Pinned. Frame 08 with a seed after frame 0A: the seed is the one that is written, 0 too, and the number is none."""
    s.station_number(65_535)
    letter_a(s, seed=0)
    s.good(5)
    s.units(8)


@session
def pinned_open_v(s):
    """Pinned. Frame 01: CSP-V, n 4, i 3, S 5, x 2."""
    s.open(CSP_V, 4, 3, 5, x=2, seed=0x00C0FFEE)
    # S by the alarm
    s.bad(4)
    s.take_all()
    s.bad()
    s.take_all()
    # i, and n and the seed by the orders
    s.good(3)
    s.units(12)
    s.bad()
    s.take_all()
    # x
    s.good(2)
    s.take_all()


@session
def pinned_open_least(s):
    """Pinned. Frame 01: CSP-1 with the least numbers, n 2, i 1, S 1."""
    s.open(CSP_1, 2, 1, 1, seed=0x80000001)
    # the first defect is LONG, the first good unit starts sampling
    s.bad()
    s.good()
    s.units(6)
    s.take_all()


@session
def pinned_open_f(s):
    """Pinned. Frame 01: CSP-F, n 3, i 1, N 8."""
    s.open(CSP_F, 3, 1, N=8, seed=0x0BADCAFE)
    # i, then n and the seed by the orders, then N
    s.good()
    s.units(7)
    s.unit(9)
    s.take_all()


@session
def pinned_csp_1_change_silence(s):
    """Pinned. CSP-1: a change that waits, one at once and a take-up neither break a silence nor begin one."""
    s.open(CSP_1, 4, 3, 9, seed=0x51ED270B)
    s.tick(2)
    s.good()
    s.change(CSP_1, 2, 2, 9)
    s.tick()
    s.take_all()
    # at once, after a unit and between two silent ticks
    s.good()
    s.change(CSP_1, 7, 5, 9)
    s.tick(2)
    s.change(CSP_1, 9, 6, 9)
    s.tick()
    s.take_all()
    # taken up by a result: after a tick, and after a unit
    s.change(CSP_1, 4, 3, 9)
    s.good(3)
    s.unit()
    s.tick()
    s.result(0)
    s.tick()
    s.change(CSP_1, 9, 6, 9)
    s.bad()
    s.tick()
    s.take_all()


@session
def pinned_csp_1_change_long(s):
    """Pinned. CSP-1: at once in screening, the new S judges the next defect, with the screened units that were."""
    s.open(CSP_1, 4, 3, 50)
    s.bad(3)
    s.good()
    s.change(CSP_1, 6, 4, 4)
    s.bad()
    s.take_all()


@session
def pinned_csp_2_change_watch(s):
    """Pinned. CSP-2: a watch that has just begun stays on at a change at once, and the next defect reverts."""
    s.open(CSP_2, 4, 3, 9, seed=0x3C6EF372)
    s.good(3)
    s.bad()
    s.change(CSP_2, 2, 2, 9)
    s.bad()
    s.take_all()


@session
def pinned_csp_t_change_level(s):
    """Pinned. CSP-T: at once at level 1, PHASE tells level 0 and then PLAN; the row has begun anew."""
    s.open(CSP_T, 4, 3, 9, seed=0x1F83D9AB)
    s.good(3)
    s.good(3)
    s.good()
    s.change(CSP_T, 2, 2, 9)
    s.take_all()
    s.good(2)
    s.take_all()


@session
def pinned_csp_v_change_need(s):
    """Pinned. CSP-V: on demand the need is the new i, however long the row, and x is the new one from then on."""
    s.open(CSP_V, 4, 3, 9, x=1, seed=0x9B05688C)
    s.change(CSP_V, 6, 4, 9, x=2, demand=1)
    s.good(4)
    s.good(4)
    s.bad()
    s.good(2)
    s.take_all()
    s.good(3)
    s.change(CSP_V, 2, 3, 9, x=1, demand=1)
    s.good(3)
    s.take_all()


@session
def pinned_change(s):
    """Pinned. Frame 09: before an open, ill-formed, refused 11 and 3, waiting and on demand; take tells kind 0A."""
    # before an open it gets 2, and a demand that is neither 0 nor 1 gets 9, as does a seed in lower case
    s.change(CSP_1, 2, 2)
    s.line(words(9, CSP_1, 2, 2, 2, 0, 0, 2))
    s.line(words(1, CSP_1, 3, 3, 5, 0, 0, 10).lower())
    # a higher frequency waits, and tells nothing
    s.open(CSP_1, 3, 3, 5)
    s.change(CSP_1, 2, 2)
    s.take(2)
    # ill-formed: a demand of 2, a word less, a word more, lower case; then another type, and a plan out of range
    s.line(words(9, CSP_1, 5, 4, 4, 0, 0, 2))
    s.line(words(9, CSP_1, 5, 4, 4, 0, 0))
    s.line(words(9, CSP_1, 5, 4, 4, 0, 0, 0, 0))
    s.line(words(9, CSP_1, 5, 4, 10, 0, 0, 0).lower())
    s.change(CSP_2, 5, 4)
    s.change(CSP_1, 5, 4, 3)
    # the shift takes it up
    s.good(3)
    s.take(2)
    # on demand
    s.change(CSP_1, 5, 4, demand=1)
    s.take(3)


@session
def pinned_change_v(s):
    """Pinned. Frame 09 word by word: CSP-V has an x, N is none of its numbers, and each word is a number."""
    s.open(CSP_V, 3, 3, 5, x=2)
    s.change(CSP_V, 2, 2, x=1)
    s.change(CSP_V, 2, 2, x=1, N=1)
    # a lower-case digit in i, in x, in N
    for at in (2, 4, 5):
        numbers = [CSP_V, 2, 2, 2, 1, 0, 1]
        numbers[at] = 10
        s.line(words(9, *numbers).lower())
    # on demand: after i good units and i good samples, x is the need
    s.change(CSP_V, 2, 2, x=1, demand=1)
    s.good(2)
    s.good(2)
    s.bad()
    s.good()
    s.take_all()


@session
def pinned_csp_1_lost(s):
    """Pinned. CSP-1: a marker counts the LONG events that it names, whatever dropped them; each counts anew."""
    s.open(CSP_1, 2, 1, seed=0x6A09E667)
    # LONG at every defect: the fifth has dropped START, DEFECT and LONG, 1 of 3
    s.bad(5)
    s.take()
    # a silence drops a DEFECT: 0 of 1
    s.tick(2)
    s.take()
    # two calls drop LONG and DEFECT each: 2 of 4
    s.bad(2)
    s.take()
    # a LONG is told, one is held, and a DEFECT between them is dropped: 0 of 1; then the one held alone: 1 of 1
    s.take()
    s.tick(3)
    s.take()
    s.tick()
    s.take()
    # PHASE drops a silence, a silence a DEFECT, and one call LONG, DEFECT and LONG: 2 of 5
    s.good()
    s.change(CSP_1, 3, 2)
    s.tick(2)
    s.interrupt()
    s.take(2)


@session
def pinned_csp_1_lost_many(s):
    """Pinned. CSP-1: thirty defects and no take: a marker has lost 26 LONG of 53 events."""
    s.open(CSP_1, 2, 1, seed=0xBB67AE85)
    s.bad(30)
    s.take(2)
