"""bin/journal: good lines, damaged lines, gaps, no lines at all, and journals that no station could write."""

import random
import subprocess
import sys
from collections import Counter
from itertools import combinations

import model
from check_stored import FOLDER
from drive import Driver
from model import (
    CHECK, CSP_1, CSP_2, CSP_T, CSP_V, DEFECT, INTERRUPT, LONG, MARKER, MISSED, PHASE, PLAN, SCREENING, SILENCE, START, written,
)
from programs import ROOT
from script import Script

sys.path.insert(0, str(ROOT / 'bin'))

from lib.frequency import OPENED
from lib.journal import Journal
from lib.words import answer as read_answer
from lib.words import entry as in_words

EXAMPLE = '''\
     line  event         number       unit  what it says
        1  accepted
        2  accepted                         inspect
        3  accepted
        4  accepted                         inspect
        5  accepted
        6  accepted                         inspect
        7  accepted
        8  accepted
        9  accepted                         inspect
       10  START              1             clearance number 2
       11  PHASE              2          2  sampling level 0
       12  MISSED             3          5  1 unit not seen: 5
       13  PHASE              4          6  screening
       14  accepted
Events 1 to 4: all accounted for; this file cannot tell what came after 4.
Alarms up to event 4: 0 LONG told, 0 raised; no alarm was lost.
'''
EVERY_KIND = '''\
     line  event         number       unit  what it says
        1  START              1             clearance number 14
        2  GAP                2             1 event dropped: 2, no LONG
        3  GAP                3             7 events dropped: 3 to 9, of them 2 LONG
        4  PHASE             10      1,234  sampling level 2
        5  DEFECT            11      1,235  in sampling
        6  PHASE             12      1,235  screening
        7  DEFECT            13      1,236  in screening
        8  DEFECT            14      1,250  in screening
        9  LONG              15      1,250  15 units screened since the sequence began
       10  MISSED            16      1,251  3 units not seen: 1,251 to 1,253
       11  SILENCE           17      1,254  1 tick in a row with no unit
       12  CHECK             18      1,254  a defect found in a screened unit
       15  INTERRUPT         19      1,254  screening starts anew
       16  PLAN              20      1,254  a new plan takes force: one in 7
Frequency in force
  1 to 1,254  not told
  from unit 1,255 on: one in 7, unless an event after 20 says otherwise
Events 1 to 20: all accounted for; only named by a marker: 2 to 9; this file cannot tell what came after 20.
Alarms up to event 20: 1 LONG told, 2 dropped, 3 raised.
ALARM LOST: 2 LONG were dropped, and no entry tells them: 2 among 3 to 9.
'''
KINDS = [
    (0, 1, 1, 0, 14), (0, 9, 2, 0, 1), (0, 9, 3, 2, 7), (0, 2, 10, 1_234, 3), (0, 4, 11, 1_235, 1), (0, 2, 12, 1_235, 0),
    (0, 4, 13, 1_236, 0), (0, 4, 14, 1_250, 0), (0, 3, 15, 1_250, 15), (0, 5, 16, 1_251, 3), (0, 6, 17, 1_254, 1),
    (0, 7, 18, 1_254, 0), (10, 0, 0, 0, 0), (11, 0, 0, 0, 0), (0, 8, 19, 1_254, 0), (0, 10, 20, 1_254, 7),
]
REFUSED = '''\
     line  event         number       unit  what it says
        1  refused                          10: fewer than three event numbers are left
        2  refused                          11: no such change: another type, CSP-F, or i does not go with n
        3  refused                          9: an ill-formed frame, a result neither 0 nor 1, a second open, no seed, or a station number too late or out of range
No event is told; this file cannot tell what was raised.
'''
# Events and markers of three journals: document 01's case 9; one that lost alarms; the same with a line torn out of it.
CASE_9 = '''\
     line  event         number       unit  what it says
       12  GAP                1             3 events dropped: 1 to 3, no LONG among them
       13  SILENCE            4             3 ticks in a row with no unit
       14  SILENCE            5             4 ticks in a row with no unit
       15  SILENCE            6             5 ticks in a row with no unit
       16  SILENCE            7             6 ticks in a row with no unit
       17  SILENCE            8             7 ticks in a row with no unit
       18  SILENCE            9             8 ticks in a row with no unit
       19  SILENCE           10             9 ticks in a row with no unit
       20  SILENCE           11             10 ticks in a row with no unit
Events 1 to 11: all accounted for; only named by a marker: 1 to 3; this file cannot tell what came after 11.
Alarms up to event 11: 0 LONG told, 0 dropped, 0 raised; no alarm was lost.
'''
LOST = '''\
     line  event         number       unit  what it says
       18  GAP                1             7 events dropped: 1 to 7, of them 2 LONG
       19  DEFECT             8          5  in screening
       20  LONG               9          5  5 units screened since the sequence began
       21  DEFECT            10          6  in screening
       22  LONG              11          6  6 units screened since the sequence began
       23  DEFECT            12          7  in screening
       24  LONG              13          7  7 units screened since the sequence began
       25  DEFECT            14          8  in screening
       26  LONG              15          8  8 units screened since the sequence began
       38  GAP               16             1 event dropped: 16, no LONG
       39  SILENCE           17          8  2 ticks in a row with no unit
       40  SILENCE           18          8  3 ticks in a row with no unit
       41  SILENCE           19          8  4 ticks in a row with no unit
       42  SILENCE           20          8  5 ticks in a row with no unit
       43  SILENCE           21          8  6 ticks in a row with no unit
       44  SILENCE           22          8  7 ticks in a row with no unit
       45  SILENCE           23          8  8 ticks in a row with no unit
       46  SILENCE           24          8  9 ticks in a row with no unit
       50  DEFECT            25          9  in screening
       60  GAP               26             1 event dropped: 26, a LONG
       61  SILENCE           27          9  1 tick in a row with no unit
       62  SILENCE           28          9  2 ticks in a row with no unit
       63  SILENCE           29          9  3 ticks in a row with no unit
       64  SILENCE           30          9  4 ticks in a row with no unit
       65  SILENCE           31          9  5 ticks in a row with no unit
       66  SILENCE           32          9  6 ticks in a row with no unit
       67  SILENCE           33          9  7 ticks in a row with no unit
       68  SILENCE           34          9  8 ticks in a row with no unit
Events 1 to 34: all accounted for; only named by a marker: 1 to 7, 16, 26; this file cannot tell what came after 34.
Alarms up to event 34: 4 LONG told, 3 dropped, 7 raised.
ALARM LOST: 3 LONG were dropped, and no entry tells them: 2 among 1 to 7, event 26.
'''
TORN = '''\
Events 1 to 34: missing: 15; only named by a marker: 1 to 7, 16, 26; this file cannot tell what came after 34.
Alarms up to event 34: 3 LONG told, 3 dropped; whether another was lost is not told: event 15 is missing.
ALARM LOST: 3 LONG were dropped, and no entry tells them: 2 among 1 to 7, event 26.
'''
# The words of markers by their number, unit and value, also of such as no station writes.
MARKERS = {
    (1, 0, 3): '3 events dropped: 1 to 3, no LONG among them', (1, 2, 5): '5 events dropped: 1 to 5, of them 2 LONG',
    (5, 0, 1): '1 event dropped: 5, no LONG', (5, 1, 1): '1 event dropped: 5, a LONG', (5, 2, 1): '1 event dropped: 5, of them 2 LONG',
    (1_000, 1, 2): '2 events dropped: 1,000 to 1,001, of them 1 LONG', (7, 0, 0): 'value 0', (7, 4, 0): 'value 0, unit 4',
    (1, 2 ** 32 - 1, 9_000): '9,000 events dropped: 1 to 9,000, of them 4,294,967,295 LONG',
}
# Plans that change: at once and on demand in screening, at once in sampling, at a jump, behind a marker.
FREQUENCIES = '''\
     line  event         number       unit  what it says
        1  START              1             clearance number 3
        2  PLAN               2          2  a new plan takes force: one in 5
        3  PHASE              3          8  sampling level 0
        4  PLAN               4         40  a new plan takes force: one in 4
        5  MISSED             5         91  400 units not seen: 91 to 490
        6  PHASE              6        491  screening
        7  PLAN               7        491  a new plan takes force: one in 9
        8  SILENCE            8        500  1 tick in a row with no unit
        9  GAP                9             2 events dropped: 9 to 10, no LONG among them
       10  SILENCE           11        560  1 tick in a row with no unit
       11  PLAN              12        600  a new plan takes force: one in 4
       12  SILENCE           13        700  1 tick in a row with no unit
Frequency in force
  1 to 2      one in 3
  3 to 40     one in 5
  41 to 491   one in 4
  492 to 500  one in 9
  501 to 600  not told
  601 to 700  one in 4
  from unit 701 on: one in 4, unless an event after 13 says otherwise
  [abbbbbbbbbcccccccccccccdd?????????????????????????cccccccccccccccccccccccccc]
  one sign for 4 units: a one in 3, b one in 5, c one in 4, d one in 9, ? not told
Events 1 to 13: all accounted for; only named by a marker: 9 to 10; this file cannot tell what came after 13.
Alarms up to event 13: 0 LONG told, 0 dropped, 0 raised; no alarm was lost.
'''
CHANGING = (
    (START, 0, 3), (PLAN, 2, 5), (PHASE, 8, 1), (PLAN, 40, 4), (MISSED, 91, 400), (PHASE, 491, 0), (PLAN, 491, 9),
    (SILENCE, 500, 1), (MARKER, 0, 2), (SILENCE, 560, 1), (PLAN, 600, 4), (SILENCE, 700, 1),
)
TAKE = b'07'
DAMAGED = [
    b'\n', b'00 00 00000000 00000000 0000000\n', b'00 00 00000000 00000000 000000000\n', b'00 00 00000000  00000000 00000000\n',
    b'00 00 0000000a 00000000 00000000\n', b'00 00 00000000 00000000 00000000\r\n', b' 00 00 00000000 00000000 00000000\n',
    b'\xff\xfe\n', b'0' * 10_000 + b'\n', b'02 00000001\n', b'00 00 00000000 00000000 00000000',
]
# Answer lines that no program writes, whatever came before.
OUT_OF_PLACE = [
    (0, 11, 2, 0, 0), (0, 2, 2, 1, 4), (0, 4, 2, 1, 2), (0, 1, 0, 0, 1), (0, 6, 8_000_001, 0, 1), (0, 9, 2, 2, 1),
    (0, 9, 2, 0, 0), (0, 9, 2, 0, 2 ** 32 - 1), (0, 9, 2, 0, 7_999_992), (0, 5, 2, 1, 0), (0, 5, 2, 1_000_000, 1),
    (0, 5, 2, 0, 1), (0, 6, 2, 0, 0), (0, 7, 2, 0, 0), (0, 7, 2, 1, 1), (0, 8, 2, 0, 1), (0, 2, 2, 0, 1), (0, 4, 2, 0, 0),
    (0, 6, 2, 1_000_001, 1), (0, 1, 2, 0, 2), (12, 0, 0, 0, 0), (4, 0, 0, 0, 1), (4, 1, 1, 0, 1), (0, 0, 1, 0, 0),
    (0, 0, 0, 0, 2), (0, 10, 2, 1, 0), (0, 10, 2, 1, 1), (0, 10, 2, 1, 201),
]
# The entries (kind, unit, value) from event 1 on; the last two are one that a station can write there, and one that
# none can, with a part of what is said of it.
OPEN = (START, 0, 5)
SAMPLING = (OPEN, (PHASE, 5, 1))
LEFT = (*SAMPLING, (PHASE, 14, 2))
HIDDEN = ((MARKER, 0, 8),)
AT_ONCE = ((START, 0, 1), (SILENCE, 1, 1))  # the result of unit 1 is owed, and S may be 1
TOLD_BY_LONG = (*HIDDEN, (DEFECT, 20, 0), (LONG, 20, 3))  # the sequence began after unit 17
SPENT = ((MARKER, 0, 7_999_992), *((SILENCE, 1, count) for count in range(1, 6)), (INTERRUPT, 1, 0))  # the next is 7,999,999
HISTORIES = {
    'a first event that is not START': ((), OPEN, (SILENCE, 0, 1), 'event 1 is START'),
    'START with a unit': ((), OPEN, (START, 1, 5), 'unit 0'),
    'START with no clearance number': ((), OPEN, (START, 0, 0), '1 to 10,000'),
    'START beyond the range': ((), (START, 0, 10_000), (START, 0, 10_001), '1 to 10,000'),
    'a second START': ((OPEN,), (SILENCE, 0, 1), OPEN, 'a second START'),
    'units that run backwards': ((OPEN, (SILENCE, 4, 1)), (INTERRUPT, 4, 0), (INTERRUPT, 3, 0), 'backwards'),
    'missed units that have come': ((OPEN, (SILENCE, 4, 1)), (MISSED, 5, 2), (MISSED, 4, 2), 'backwards'),
    'too few units since START': ((OPEN,), (PHASE, 5, 1), (PHASE, 4, 1), '4 units since START'),
    'too few units since a defect': ((OPEN, (DEFECT, 3, 0)), (PHASE, 8, 1), (PHASE, 7, 1), '4 units since unit 3'),
    'too few units since a check find': ((OPEN, (CHECK, 3, 0)), (PHASE, 8, 1), (PHASE, 5, 1), '2 units since unit 3'),
    'too few units since an interrupt': ((OPEN, (INTERRUPT, 3, 0)), (PHASE, 8, 1), (PHASE, 5, 1), '2 units since unit 3'),
    'too few units since a jump': ((OPEN, (MISSED, 2, 3)), (PHASE, 9, 1), (PHASE, 8, 1), '4 units since unit 4'),
    'too many units with no PHASE': ((OPEN,), (DEFECT, 5, 0), (DEFECT, 6, 0), 'unit 5 at the latest'),
    'a late SILENCE in screening': ((OPEN,), (SILENCE, 5, 1), (SILENCE, 6, 1), 'unit 5 at the latest'),
    'a late INTERRUPT in screening': ((OPEN,), (INTERRUPT, 4, 0), (INTERRUPT, 5, 0), 'unit 5 at the latest'),
    'a late jump in screening': ((OPEN,), (MISSED, 5, 1), (MISSED, 6, 1), 'unit 5 at the latest'),
    'two results of one unit': ((OPEN, (DEFECT, 3, 0)), (DEFECT, 4, 0), (DEFECT, 3, 0), 'given before'),
    'a step of two levels': (SAMPLING, (PHASE, 14, 2), (PHASE, 90, 3), 'no step leads'),
    'sampling out of sampling': (SAMPLING, (PHASE, 14, 2), (PHASE, 90, 1), 'already'),
    'a level too soon': (SAMPLING, (PHASE, 14, 2), (PHASE, 13, 2), '5 good samples'),
    'a second level too soon': ((*SAMPLING, (PHASE, 14, 2)), (PHASE, 31, 3), (PHASE, 30, 3), '5 good samples'),
    'screening with no cause and no PLAN':
        ((*SAMPLING, (PHASE, 9, 0)), (PLAN, 9, 4), (SILENCE, 9, 1), 'no cause just before it calls for PLAN'),
    'screening after another unit':
        ((*SAMPLING, (PHASE, 14, 2), (DEFECT, 20, 1)), (PHASE, 20, 0), (PHASE, 21, 0), 'calls for unit 20'),
    'screening after another unit and no PLAN':
        ((*SAMPLING, (DEFECT, 9, 1), (PHASE, 10, 0)), (PLAN, 10, 4), (SILENCE, 10, 1), 'calls for PLAN'),
    'screening after a jump': ((*SAMPLING, (MISSED, 7, 2)), (PHASE, 9, 0), (PHASE, 8, 0), 'calls for unit 9'),
    'screening out of screening':
        ((OPEN, (INTERRUPT, 3, 0)), (SILENCE, 3, 1), (PHASE, 3, 0), 'the phase is screening already'),
    'a jump in sampling with no PHASE': ((*SAMPLING, (MISSED, 7, 2)), (PHASE, 9, 0), (SILENCE, 9, 1), 'calls for PHASE'),
    'an interrupt in sampling with no PHASE':
        ((*SAMPLING, (INTERRUPT, 7, 0)), (PHASE, 7, 0), (SILENCE, 7, 1), 'calls for PHASE'),
    'a defect at a level with no PHASE':
        ((*SAMPLING, (PHASE, 14, 2), (DEFECT, 20, 1)), (PHASE, 20, 0), (SILENCE, 20, 1), 'calls for PHASE'),
    'a level after a watch': ((*SAMPLING, (DEFECT, 9, 1)), (SILENCE, 40, 1), (PHASE, 40, 2), 'CSP-2'),
    'a sample in screening': ((OPEN,), (DEFECT, 3, 0), (DEFECT, 3, 1), 'the phase is screening'),
    'a screened unit in sampling': (SAMPLING, (DEFECT, 9, 1), (DEFECT, 9, 0), 'the phase is sampling level 0'),
    'LONG with no DEFECT': ((OPEN,), (SILENCE, 5, 1), (LONG, 5, 5), 'no cause'),
    'LONG after a sample': ((*SAMPLING, (DEFECT, 9, 1)), (PHASE, 9, 0), (LONG, 9, 5), 'no cause'),
    'LONG of another unit': ((OPEN, (DEFECT, 5, 0)), (LONG, 5, 5), (LONG, 4, 4), 'calls for unit 5'),
    'LONG with a wrong count': ((OPEN, (DEFECT, 3, 0), (DEFECT, 8, 0)), (LONG, 8, 8), (LONG, 8, 7), '8 units came'),
    'LONG below the clearance number': ((OPEN, (DEFECT, 3, 0)), (DEFECT, 4, 0), (LONG, 3, 3), 'clearance number'),
    'LONG once and then none':
        ((OPEN, (DEFECT, 5, 0), (LONG, 5, 5), (DEFECT, 6, 0)), (LONG, 6, 6), (SILENCE, 6, 1), 'calls for LONG'),
    'LONG where a later defect had none':
        ((OPEN, (DEFECT, 5, 0), (DEFECT, 7, 0), (INTERRUPT, 7, 0), (DEFECT, 12, 0)), (DEFECT, 13, 0), (LONG, 12, 5),
         'raised none'),
    'LONG counted from a check find':
        ((OPEN, (CHECK, 3, 0), (DEFECT, 8, 0)), (LONG, 8, 8), (LONG, 8, 5), '8 units came since the sequence began'),
    'LONG counted from the last of many check finds':
        ((OPEN, (CHECK, 1, 0), (CHECK, 4, 0), (DEFECT, 6, 0), (CHECK, 10, 0), (CHECK, 10, 0), (DEFECT, 15, 0)),
         (LONG, 15, 15), (LONG, 15, 5), '15 units came'),
    'LONG once, a check find, and then none':
        ((OPEN, (DEFECT, 5, 0), (LONG, 5, 5), (CHECK, 6, 0), (DEFECT, 7, 0)), (LONG, 7, 7), (SILENCE, 7, 1), 'calls for LONG'),
    'LONG where a defect after a check find had none':
        ((OPEN, (DEFECT, 4, 0), (CHECK, 6, 0), (DEFECT, 9, 0), (INTERRUPT, 9, 0), (DEFECT, 14, 0), (DEFECT, 18, 0)),
         (DEFECT, 19, 0), (LONG, 18, 9), 'a defect at 9 units screened raised none'),
    'LONG at a check find': ((OPEN, (DEFECT, 5, 0), (LONG, 5, 5), (CHECK, 6, 0)), (CHECK, 6, 0), (LONG, 6, 6), 'no cause'),
    'LONG counted from a check find behind a marker':
        ((*HIDDEN, (CHECK, 20, 0), (DEFECT, 25, 0)), (LONG, 25, 6), (LONG, 25, 5), '6 units or more came'),
    'LONG with fewer units than were recalled, behind a marker':
        ((*HIDDEN, (CHECK, 20, 0), (CHECK, 20, 0), (DEFECT, 21, 0)), (LONG, 21, 3), (LONG, 21, 2), '3 units or more came'),
    'LONG that forgets where LONG began, behind a marker':
        ((*TOLD_BY_LONG, (CHECK, 22, 0), (DEFECT, 25, 0)), (LONG, 25, 8), (LONG, 25, 3), '8 units came'),
    'LONG, a check find, and then none, behind a marker':
        ((*TOLD_BY_LONG, (CHECK, 22, 0), (DEFECT, 25, 0)), (LONG, 25, 8), (SILENCE, 25, 1), 'calls for LONG'),
    'LONG counted from a check find before PLAN':
        ((OPEN, (CHECK, 2, 0), (PLAN, 3, 4), (DEFECT, 7, 0)), (LONG, 7, 7), (LONG, 7, 5), '7 units or 4 units came'),
    'LONG counted from PLAN where a check find shows that units stayed':
        ((OPEN, (PLAN, 2, 4), (CHECK, 2, 0), (DEFECT, 9, 0)), (LONG, 9, 9), (LONG, 9, 7), '9 units came'),
    'LONG counted from PLAN where a result came behind it':
        ((*SAMPLING, (MISSED, 7, 2), (PHASE, 9, 0), (PLAN, 9, 4), (DEFECT, 9, 0), (DEFECT, 14, 0)), (LONG, 14, 6),
         (LONG, 14, 5), '6 units came'),
    'CHECK in sampling': (SAMPLING, (INTERRUPT, 9, 0), (CHECK, 9, 0), 'the phase is sampling'),
    'CHECK with nothing to recall': ((OPEN, (CHECK, 1, 0)), (CHECK, 2, 0), (CHECK, 1, 0), 'left to recall'),
    'CHECK of a defective unit': ((OPEN, (DEFECT, 1, 0)), (CHECK, 2, 0), (CHECK, 1, 0), 'left to recall'),
    'CHECK with nothing to recall before PLAN or after':
        ((OPEN, (DEFECT, 1, 0), (PLAN, 1, 4)), (CHECK, 2, 0), (CHECK, 1, 0), 'left to recall'),
    'CHECK with nothing to recall since LONG began':
        ((*TOLD_BY_LONG, (CHECK, 20, 0), (CHECK, 20, 0)), (CHECK, 21, 0), (CHECK, 20, 0), 'left to recall'),
    'CHECK with nothing to recall since START, behind a marker':
        ((*HIDDEN, (CHECK, 2, 0), (CHECK, 2, 0)), (CHECK, 3, 0), (CHECK, 2, 0), 'left to recall'),
    'a silence that starts at two': ((OPEN,), (SILENCE, 3, 1), (SILENCE, 3, 2), 'is 1 here'),
    'a silence that stands still': ((OPEN, (SILENCE, 3, 1)), (SILENCE, 3, 2), (SILENCE, 3, 1), 'is 2 here'),
    'a unit that was passed over by a jump': ((OPEN, (MISSED, 2, 3)), (SILENCE, 5, 1), (SILENCE, 4, 1), 'backwards'),
    'a unit above the limit': (HIDDEN, (SILENCE, 1_000_000, 1), (SILENCE, 1_000_001, 1), 'end at 1,000,000'),
    'a jump above the limit': (HIDDEN, (MISSED, 999_999, 1), (MISSED, 1_000_000, 1), 'above 1,000,000'),
    'a phase with no unit': (HIDDEN, (PHASE, 1, 0), (PHASE, 0, 0), 'before a unit has come'),
    'a check find with no unit': (HIDDEN, (CHECK, 1, 0), (CHECK, 0, 0), 'no unit was screened'),
    'a defect that is neither screened nor sampled': (HIDDEN, (DEFECT, 5, 1), (DEFECT, 5, 2), '0 or 1'),
    'a sample after PHASE to screening':
        ((*HIDDEN, (PHASE, 9, 0)), (DEFECT, 10, 0), (DEFECT, 10, 1), 'the phase is screening'),
    'LONG with more units than have come': (HIDDEN, (LONG, 5, 5), (LONG, 5, 6), 'more than have come'),
    'more ticks than events': (HIDDEN, (SILENCE, 3, 8), (SILENCE, 3, 9), 'fits its number'),
    'a silence over a unit': ((OPEN, (SILENCE, 3, 1)), (SILENCE, 4, 1), (SILENCE, 4, 2), 'is 1 here'),
    'two PLANs alike': ((OPEN, (PLAN, 2, 4)), (PLAN, 2, 5), (PLAN, 2, 4), 'one in 4 is in force already'),
    'two PLANs alike in sampling': ((*SAMPLING, (PLAN, 9, 4)), (PLAN, 9, 3), (PLAN, 9, 4), 'one in 4 is in force already'),
    'a frequency above all': ((OPEN,), (PLAN, 2, 2), (PLAN, 2, 1), '2 to 200'),
    'a frequency below all': ((OPEN,), (PLAN, 2, 200), (PLAN, 2, 201), '2 to 200'),
    'the lowest frequency in sampling': (SAMPLING, (PLAN, 9, 199), (PLAN, 9, 200), 'none is below one in 200'),
    'a lower frequency in sampling than the last':
        ((*SAMPLING, (PLAN, 9, 4)), (PLAN, 12, 3), (PLAN, 12, 5), 'only a higher frequency'),
    'PLAN at a level with no PHASE': ((*SAMPLING, (PHASE, 14, 2)), (PHASE, 20, 1), (PLAN, 20, 2), 'PHASE tells first'),
    'level 0 again and no PLAN':
        ((*LEFT, (PHASE, 20, 1)), (PLAN, 20, 2), (SILENCE, 20, 1), 'PHASE to level 0 just before it calls for PLAN'),
    'level 0 again and PLAN of another unit': ((*LEFT, (PHASE, 20, 1)), (PLAN, 20, 2), (PLAN, 21, 2), 'calls for unit 20'),
    'screening on demand and PLAN of another unit':
        ((*SAMPLING, (PHASE, 9, 0)), (PLAN, 9, 2), (PLAN, 10, 2), 'calls for unit 9'),
    'PLAN before the PHASE of an interrupt':
        ((*SAMPLING, (INTERRUPT, 9, 0)), (PHASE, 9, 0), (PLAN, 9, 4), 'calls for PHASE'),
    'PLAN before the PHASE of a jump': ((*SAMPLING, (MISSED, 7, 2)), (PHASE, 9, 0), (PLAN, 9, 4), 'calls for PHASE'),
    'PLAN before the PHASE of a revert': ((*LEFT, (DEFECT, 20, 1)), (PHASE, 20, 0), (PLAN, 20, 4), 'calls for PHASE'),
    'PLAN before the PHASE of a shift': ((OPEN,), (PHASE, 5, 1), (PLAN, 5, 4), 'unit 5 at the latest'),
    'PLAN before the LONG of a defect':
        ((OPEN, (DEFECT, 5, 0), (LONG, 5, 5), (DEFECT, 6, 0)), (LONG, 6, 6), (PLAN, 6, 4), 'calls for LONG'),
    'LONG behind PLAN': ((OPEN, (DEFECT, 5, 0), (PLAN, 5, 4)), (SILENCE, 5, 1), (LONG, 5, 5), 'no cause'),
    'a result that came before PLAN': ((OPEN, (PLAN, 3, 4)), (DEFECT, 4, 0), (DEFECT, 3, 0), 'given before'),
    'PLAN of a unit that is past': ((OPEN, (SILENCE, 4, 1)), (PLAN, 4, 4), (PLAN, 3, 4), 'backwards'),
    'LONG with a count of neither sequence':
        ((OPEN, (PLAN, 2, 4), (DEFECT, 12, 0)), (LONG, 12, 10), (LONG, 12, 11), '12 units or 10 units came'),
    'LONG with a count that LONG has ruled out':
        ((OPEN, (PLAN, 2, 4), (DEFECT, 12, 0), (LONG, 12, 12), (DEFECT, 14, 0)), (LONG, 14, 14), (LONG, 14, 12), '14 units came'),
    'a higher level too soon under the plan told':
        ((*SAMPLING, (PLAN, 9, 4), (PHASE, 13, 2)), (PHASE, 14, 3), (PHASE, 13, 3), 'given before'),
    'PLAN in sampling with a clearance number of 1': (((START, 0, 1), (PHASE, 1, 1)), (SILENCE, 1, 1), (PLAN, 1, 4), 'and it is 1'),
    'level 0 again behind a marker and no PLAN':
        ((*LEFT, (MARKER, 0, 1), (PHASE, 14, 1)), (PLAN, 14, 2), (SILENCE, 14, 2), 'calls for PLAN'),
    'PLAN with the number after the last':
        (SPENT, (PLAN, 1, 4), (SILENCE, 1, 6), 'no SILENCE has a number above 7,999,998'),
    'PHASE with the last number':
        ((*SPENT, (PHASE, 1, 0)), (PLAN, 1, 4), (PHASE, 1, 0), 'no PHASE has a number above 7,999,999'),
    'more LONG than events': ((OPEN,), (MARKER, 1, 2), (MARKER, 3, 2), 'it counts 3 LONG among 2 events'),
    'more LONG than the one event': ((OPEN, (DEFECT, 5, 0)), (MARKER, 1, 1), (MARKER, 2, 1), 'it counts 2 LONG among 1 event'),
    'a count that is no count': ((OPEN,), (MARKER, 0, 8), (MARKER, 2 ** 32 - 1, 8), '4,294,967,295 LONG among 8 events'),
    'LONG in the place of START': ((), (MARKER, 0, 1), (MARKER, 1, 1), 'event 1 is START, and a LONG stands right behind its DEFECT'),
    'LONG in the place of a first DEFECT': ((), (MARKER, 1, 3), (MARKER, 1, 2), 'event 1 is START, and'),
    'two LONG where START and four events were dropped': ((), (MARKER, 2, 5), (MARKER, 2, 4), 'at most 1 of these'),
    'LONG right behind START': ((OPEN,), (MARKER, 0, 1), (MARKER, 1, 1), 'none of these can be LONG'),
    'neighbours that are LONG': ((OPEN, (SILENCE, 4, 1)), (MARKER, 1, 3), (MARKER, 2, 3), 'at most 1 of these can be LONG'),
    'neighbours that are LONG behind a DEFECT': ((OPEN, (DEFECT, 5, 0)), (MARKER, 2, 3), (MARKER, 2, 2), 'at most 1 of these'),
    'neighbours that are LONG behind a marker': (HIDDEN, (MARKER, 2, 3), (MARKER, 2, 2), 'at most 1 of these'),
    'LONG behind a marker that names START alone': (((MARKER, 0, 1),), (MARKER, 1, 2), (MARKER, 1, 1), 'none of these'),
    'LONG of a marker behind one that ends in LONG':
        ((OPEN, (DEFECT, 5, 0), (MARKER, 1, 1)), (MARKER, 1, 2), (MARKER, 1, 1), 'none of these'),
    'LONG behind a marker that ends in LONG':
        ((OPEN, (MARKER, 1, 2)), (DEFECT, 6, 0), (LONG, 6, 6), 'the last event that the marker names cannot be its cause'),
    'LONG behind a marker that names a PHASE alone':
        ((*SAMPLING, (INTERRUPT, 9, 0), (MARKER, 0, 1)), (SILENCE, 9, 1), (LONG, 9, 9), 'cannot be its cause'),
    'LONG behind a defective sample': ((*SAMPLING, (DEFECT, 9, 1)), (MARKER, 0, 1), (MARKER, 1, 1), 'none of these'),
    'LONG behind a DEFECT that came too soon': ((OPEN, (DEFECT, 4, 0)), (MARKER, 1, 2), (MARKER, 1, 1), 'none of these'),
    'LONG behind a DEFECT where a later one had none':
        ((OPEN, (DEFECT, 5, 0), (DEFECT, 7, 0), (INTERRUPT, 7, 0), (DEFECT, 12, 0)), (MARKER, 1, 2), (MARKER, 1, 1), 'none of these'),
    'LONG behind a DEFECT with as many units as one that had none':
        ((OPEN, (DEFECT, 5, 0), (DEFECT, 7, 0), (INTERRUPT, 7, 0), (DEFECT, 10, 0), (DEFECT, 14, 0)), (MARKER, 1, 2),
         (MARKER, 1, 1), 'none of these'),
    'LONG behind a DEFECT that came too soon, and no unit for it':
        ((OPEN, (DEFECT, 4, 0), (MARKER, 1, 2)), (SILENCE, 5, 1), (SILENCE, 4, 1), 'unit 5 came before, since each LONG'),
    'LONG where PHASE is due': ((*SAMPLING, (MISSED, 7, 2)), (MARKER, 1, 3), (MARKER, 1, 2), 'none of these'),
    'LONG where PLAN is due': ((*SAMPLING, (PHASE, 9, 0)), (MARKER, 1, 3), (MARKER, 1, 2), 'none of these'),
    'LONG that is due and not among the dropped':
        ((OPEN, (DEFECT, 5, 0), (LONG, 5, 5), (DEFECT, 6, 0)), (MARKER, 1, 8), (MARKER, 0, 8), 'calls for LONG next, and it counts'),
    'LONG that is due and not the one event dropped':
        ((OPEN, (DEFECT, 5, 0), (LONG, 5, 5), (DEFECT, 6, 0)), (MARKER, 1, 1), (MARKER, 0, 1), 'calls for LONG next, and it counts'),
    'LONG dropped before any unit':
        (((MARKER, 1, 3),), (SILENCE, 1, 1), (SILENCE, 0, 1), 'unit 1 came before, since each LONG that the marker counts has a unit'),
    'two LONG dropped with one unit':
        ((*AT_ONCE, (MARKER, 2, 4)), (INTERRUPT, 2, 0), (INTERRUPT, 1, 0), 'unit 2 came before, since each LONG'),
    'LONG dropped in two markers with one unit':
        ((*AT_ONCE, (MARKER, 1, 2), (MARKER, 1, 2)), (INTERRUPT, 2, 0), (INTERRUPT, 1, 0), 'unit 2 came before'),
    'LONG dropped behind its DEFECT, and another with no unit':
        ((OPEN, (DEFECT, 5, 0), (MARKER, 2, 3)), (SILENCE, 6, 1), (SILENCE, 5, 1), 'unit 6 came before, since each LONG'),
    'a result of the unit whose LONG was dropped':
        ((*AT_ONCE, (MARKER, 1, 2)), (DEFECT, 2, 0), (DEFECT, 1, 0), 'unit 1 was given before, since each LONG'),
    'missed units before one whose LONG was dropped':
        ((*AT_ONCE, (MARKER, 2, 4)), (MISSED, 3, 1), (MISSED, 2, 1), 'unit 2 came before'),
    'more LONG than units': ((), (MARKER, 1_000_000, 3_000_000), (MARKER, 1_000_001, 3_000_000), 'unit numbers end at 1,000,000'),
}
# The same where the n that was opened is known, which is 3.
OPENED_WITH = 3
KNOWN = {
    'a plan as it was opened': ((OPEN,), (PLAN, 2, 4), (PLAN, 2, 3), 'one in 3 is in force already'),
    'a lower frequency in sampling':
        (SAMPLING, (PLAN, 9, 2), (PLAN, 9, 4), 'only a higher frequency takes force, and one in 3 is in force'),
    'a lower frequency at the shift to sampling': (SAMPLING, (PLAN, 5, 2), (PLAN, 5, 4), 'only a higher frequency'),
    'a lower frequency out of a level':
        ((*SAMPLING, (PHASE, 18, 2), (PHASE, 30, 1)), (PLAN, 30, 2), (PLAN, 30, 4), 'only a higher frequency'),
    'a higher frequency at a jump with no result':
        (((START, 0, 1), (PHASE, 1, 1), (MISSED, 5, 2), (PHASE, 7, 0)), (PLAN, 7, 4), (PLAN, 7, 2), 'unit 7 at the latest'),
    'sampling before the new clearance number':
        ((OPEN, (PLAN, 2, 4)), (PHASE, 6, 1), (PHASE, 5, 1), 'the clearance number is 6 or more'),
    'sampling after the new clearance number': ((OPEN, (PLAN, 2, 2)), (PHASE, 6, 1), (PHASE, 7, 1), 'unit 6 at the latest'),
    'sampling by a run from before a demand':
        ((OPEN, (PLAN, 3, 2), (SILENCE, 3, 1)), (PHASE, 4, 1), (PHASE, 8, 1), 'unit 7 at the latest'),
    'LONG by units from before a demand': ((OPEN, (PLAN, 3, 2), (DEFECT, 5, 0)), (LONG, 5, 2), (LONG, 5, 5), '2 units came'),
    'a reduced clearance number after a change at once':
        ((*SAMPLING, (DEFECT, 9, 1), (PHASE, 9, 0), (PLAN, 10, 4)), (PHASE, 15, 1), (PHASE, 14, 1), 'is 6 or more'),
    'a lower frequency with the highest clearance number':
        (((START, 0, 10_000),), (PLAN, 0, 2), (PLAN, 0, 4), 'and it is 10,000'),
    'a level too soon': (SAMPLING, (PHASE, 18, 2), (PHASE, 17, 2), '5 good samples after unit 5 take at least 13 units'),
    'a level too late': (SAMPLING, (PHASE, 20, 2), (PHASE, 21, 2), '5 good samples after unit 5 take at most 15 units'),
}
# The same where no change of plan was taken, as a session's calls tell: what S is known to be is not forgotten.
UNCHANGED = {
    'LONG sooner than where a marker tells that a defect had none':
        ((OPEN, (DEFECT, 4, 0), (DEFECT, 9, 0), (MARKER, 0, 1), (INTERRUPT, 9, 0), (DEFECT, 13, 0), (DEFECT, 17, 0)),
         (DEFECT, 19, 0), (LONG, 17, 8), 'a defect at 9 units screened raised none'),
}
# What a marker may hide is possible again: the entry that no station could write, behind a marker of eight events. Where
# LONG is due the marker counts it.
WITH_LONG_DUE = (
    'LONG once and then none', 'LONG once, a check find, and then none', 'LONG, a check find, and then none, behind a marker',
)
MADE_POSSIBLE = (
    'a step of two levels', 'screening out of screening', 'LONG with no DEFECT', 'a silence that starts at two',
    'CHECK in sampling', 'two PLANs alike', 'a lower frequency in sampling than the last', 'PLAN at a level with no PHASE',
    'PLAN before the PHASE of a jump', *WITH_LONG_DUE, 'CHECK with nothing to recall since LONG began',
    'level 0 again and no PLAN',
)
# What another plan makes possible: its own S and its own clearance number, told or hidden by a marker.
UNDER_ANOTHER = {
    'LONG sooner': (OPEN, (DEFECT, 5, 0), (DEFECT, 7, 0), (PLAN, 7, 4), (INTERRUPT, 7, 0), (DEFECT, 13, 0), (LONG, 13, 6)),
    'LONG sooner, behind a marker':
        (OPEN, (DEFECT, 5, 0), (DEFECT, 7, 0), (MARKER, 0, 1), (INTERRUPT, 7, 0), (DEFECT, 13, 0), (LONG, 13, 6)),
    'LONG sooner, behind a marker that hides where the sequence began':
        (*HIDDEN, (DEFECT, 20, 0), (INTERRUPT, 20, 0), (DEFECT, 25, 0), (LONG, 25, 5)),
    'LONG sooner than with the units from before a demand':
        (OPEN, (PLAN, 2, 4), (DEFECT, 5, 0), (DEFECT, 8, 0), (INTERRUPT, 8, 0), (DEFECT, 12, 0), (DEFECT, 15, 0), (LONG, 15, 7)),
    'LONG no more': (OPEN, (DEFECT, 5, 0), (LONG, 5, 5), (PLAN, 5, 4), (DEFECT, 6, 0), (SILENCE, 6, 1)),
    'LONG no more, after a check find':
        (OPEN, (DEFECT, 5, 0), (LONG, 5, 5), (PLAN, 5, 4), (CHECK, 6, 0), (DEFECT, 7, 0), (SILENCE, 7, 1)),
    'LONG no more, behind a marker':
        (OPEN, (DEFECT, 5, 0), (LONG, 5, 5), (MARKER, 0, 1), (INTERRUPT, 5, 0), (DEFECT, 11, 0), (SILENCE, 11, 1)),
    'a shorter run': (OPEN, (PLAN, 0, 2), (PHASE, 1, 1)),
    'a shorter run, behind a marker': (OPEN, (MARKER, 0, 1), (INTERRUPT, 3, 0), (PHASE, 4, 1)),
    'a longer run': (OPEN, (PLAN, 0, 4), (PHASE, 10_000, 1)),
    'a longer run, behind a marker': (OPEN, (MARKER, 0, 1), (INTERRUPT, 3, 0), (PHASE, 10_003, 1)),
}
# Every way in which a plan takes force, from one in 3 with a clearance number of 3, and the frequencies that are told.
TAKEN_UP = {
    'higher, at the shift to sampling': ((PHASE, 3, 1), (PLAN, 3, 2), (SILENCE, 9, 1), [(1, 3, 3), (4, 9, 2)]),
    'higher, at once in sampling': ((PHASE, 3, 1), (PLAN, 7, 2), (SILENCE, 9, 1), [(1, 7, 3), (8, 9, 2)]),
    'higher, at once at a level':
        ((PHASE, 3, 1), (PHASE, 10, 2), (PHASE, 20, 1), (PLAN, 20, 2), (PHASE, 22, 2), [(1, 20, 3), (21, 22, 2)]),
    'higher, with a watch on':
        ((PHASE, 3, 1), (DEFECT, 7, 1), (PLAN, 7, 2), (DEFECT, 8, 1), (PHASE, 8, 0), [(1, 7, 3), (8, 8, 2)]),
    'lower, at once in screening': ((PLAN, 2, 5), (PHASE, 4, 1), [(1, 2, 3), (3, 4, 5)]),
    'lower, at once before the first unit': ((PLAN, 0, 5), (PHASE, 4, 1), [(1, 4, 5)]),
    'lower, at once, and LONG by the units before':
        ((DEFECT, 1, 0), (PLAN, 2, 5), (DEFECT, 4, 0), (LONG, 4, 4), [(1, 2, 3), (3, 4, 5)]),
    'lower, at once, and LONG over a check find':
        ((CHECK, 1, 0), (PLAN, 2, 5), (DEFECT, 4, 0), (LONG, 4, 4), [(1, 2, 3), (3, 4, 5)]),
    'lower, at a revert':
        ((PHASE, 3, 1), (DEFECT, 7, 1), (PHASE, 7, 0), (PLAN, 7, 5), (PHASE, 8, 1), [(1, 7, 3), (8, 8, 5)]),
    'lower, at an interrupt':
        ((PHASE, 3, 1), (INTERRUPT, 3, 0), (PHASE, 3, 0), (PLAN, 3, 5), (PHASE, 7, 1), [(1, 3, 3), (4, 7, 5)]),
    'lower, at a jump':
        ((PHASE, 3, 1), (MISSED, 6, 2), (PHASE, 8, 0), (PLAN, 8, 5), (PHASE, 11, 1), [(1, 8, 3), (9, 11, 5)]),
    'on demand, higher, in screening': ((PLAN, 2, 2), (PHASE, 4, 1), [(1, 2, 3), (3, 4, 2)]),
    'on demand, lower, in screening': ((PLAN, 2, 5), (PHASE, 6, 1), [(1, 2, 3), (3, 6, 5)]),
    'on demand, lower, in screening, and LONG over a later check find':
        ((CHECK, 1, 0), (PLAN, 2, 5), (CHECK, 3, 0), (DEFECT, 7, 0), (LONG, 7, 5), [(1, 2, 3), (3, 7, 5)]),
    'on demand, higher, in sampling':
        ((PHASE, 3, 1), (PHASE, 9, 0), (PLAN, 9, 2), (PHASE, 11, 1), [(1, 9, 3), (10, 11, 2)]),
    'on demand, lower, in sampling': ((PHASE, 3, 1), (PHASE, 9, 0), (PLAN, 9, 5), (PHASE, 13, 1), [(1, 9, 3), (10, 13, 5)]),
    'on demand, at a level':
        ((PHASE, 3, 1), (PHASE, 10, 2), (PHASE, 20, 0), (PLAN, 20, 2), (PHASE, 22, 1), [(1, 20, 3), (21, 22, 2)]),
    'on demand, higher, with a watch on':
        ((PHASE, 3, 1), (DEFECT, 7, 1), (PHASE, 7, 0), (PLAN, 7, 2), (PHASE, 9, 1), [(1, 7, 3), (8, 9, 2)]),
    'on demand, higher, after a jump':
        ((PHASE, 3, 1), (MISSED, 6, 2), (PHASE, 8, 0), (PLAN, 8, 2), (PHASE, 10, 1), [(1, 8, 3), (9, 10, 2)]),
    'a jump in screening, which takes up nothing': ((MISSED, 2, 2), (PLAN, 4, 5), (PHASE, 7, 1), [(1, 4, 3), (5, 7, 5)]),
    'a silence that goes on over a change':
        ((SILENCE, 0, 1), (PLAN, 0, 5), (SILENCE, 0, 2), (PLAN, 0, 2), (SILENCE, 0, 3), []),
    'three in a row':
        ((PHASE, 3, 1), (PHASE, 3, 0), (PLAN, 3, 9), (PLAN, 3, 5), (PLAN, 3, 2), (SILENCE, 4, 1), [(1, 3, 3), (4, 4, 2)]),
}


def check(report, pair, options):
    says(report, 'the example', (FOLDER / 'example.out').read_bytes(), EXAMPLE)
    says(report, 'every kind', lines(*KINDS), EVERY_KIND, '--events')
    says(report, 'refusals that a request has touched', lines((10, 0, 0, 0, 0), (11, 0, 0, 0, 0), (9, 0, 0, 0, 0)), REFUSED)
    for name, text, status, *closing in closings():
        closes(report, name, text, status, ''.join(f'{line}\n' for line in closing))
    lost_alarms(report)
    damaged(report)
    many_damaged(report)
    out_of_place(report)
    histories(report)
    markers_heard(report)
    changes(report)
    whole_sessions(report)
    files(report)
    heard, caught, tried, over = random_journals(report, options)
    return (f'every kind, {len(DAMAGED)} damaged lines, {len(closings())} closing lines, every stored session, '
            f'{len(HISTORIES) + len(KNOWN) + len(UNCHANGED)} histories that no station could write, {len(TAKEN_UP)} changes of plan, '
            f'{heard:,} events of random sessions, {over:,} LONG counted over a find; '
            f'of {tried:,} changed journals {caught:,} caught; {random_alarms(report, options)}')


def closings():
    """Files, each with the exit status and the lines behind the rows."""
    return [*of_sound_files(), *of_unsound_files(), *of_unsound_alarms()]


def of_sound_files():
    return [
        ('no lines', b'', 0, 'The file is empty: no answer and no event.'),
        ('no events', lines((0, 0, 0, 0, 1)), 0, 'No event is told; this file cannot tell what was raised.'),
        ('one event', told(1), 0, 'Event 1: all accounted for; this file cannot tell what came after 1.',
         'Alarms up to event 1: 0 LONG told, 0 raised; no alarm was lost.'),
        ('an alarm', lines(*numbered((OPEN, (DEFECT, 5, 0), (LONG, 5, 5)))), 0,
         'Events 1 to 3: all accounted for; this file cannot tell what came after 3.',
         'Alarms up to event 3: 1 LONG told, 1 raised; no alarm was lost.'),
        ('a marker', lines((0, 9, 1, 0, 3)), 0,
         'Events 1 to 3: all accounted for; only named by a marker: 1 to 3; this file cannot tell what came after 3.',
         'Alarms up to event 3: 0 LONG told, 0 dropped, 0 raised; no alarm was lost.'),
        ('a marker with an alarm', lines((0, 9, 1, 1, 3)), 0,
         'Events 1 to 3: all accounted for; only named by a marker: 1 to 3; this file cannot tell what came after 3.',
         'Alarms up to event 3: 0 LONG told, 1 dropped, 1 raised.',
         'ALARM LOST: 1 LONG was dropped, and no entry tells it: 1 among 1 to 3.'),
        ('markers with many alarms', lines(*((0, 9, at, at > 1, 3) for at in range(1, 25, 3))), 0,
         'Events 1 to 24: all accounted for; only named by a marker: 1 to 24; this file cannot tell what came after 24.',
         'Alarms up to event 24: 0 LONG told, 7 dropped, 7 raised.',
         'ALARM LOST: 7 LONG were dropped, and no entry tells them: '
         '1 among 4 to 6, 1 among 7 to 9, 1 among 10 to 12, 1 among 13 to 15, 1 among 16 to 18 and 2 more markers.'),
    ]


def of_unsound_files():
    return [
        ('a hole', told(1, 2, 5), 1, 'Events 1 to 5: missing: 3 to 4; this file cannot tell what came after 5.',
         'Alarms up to event 5: 0 LONG told; whether one was lost is not told: events 3 to 4 are missing.'),
        ('a lost start', told(2, 3), 1, 'Events 1 to 3: missing: 1; this file cannot tell what came after 3.',
         'Alarms up to event 3: 0 LONG told; whether one was lost is not told: event 1 is missing.'),
        ('a repeated line', told(1, 2, 2, 3), 1,
         'Events 1 to 3: all accounted for; out of order: 2; this file cannot tell what came after 3.',
         'Alarms up to event 3: 0 LONG told; whether one was lost is not told: entries are out of order.'),
        ('a swapped pair', told(1, 3, 2, 4), 1,
         'Events 1 to 4: missing: 2; out of order: 2; this file cannot tell what came after 4.',
         'Alarms up to event 4: 0 LONG told; whether one was lost is not told: event 2 is missing and entries are out of order.'),
        ('a late marker', lines((0, 9, 2, 0, 3)), 1,
         'Events 1 to 4: missing: 1; only named by a marker: 2 to 4; this file cannot tell what came after 4.',
         'Alarms up to event 4: 0 LONG told, 0 dropped; whether one was lost is not told: event 1 is missing.'),
        ('two sessions', told(1, 2, 1, 2), 1,
         'Events 1 to 2: all accounted for; out of order: 1 to 2; this file cannot tell what came after 2.',
         'Alarms up to event 2: 0 LONG told; whether one was lost is not told: '
         'entries are out of order and no station could write this journal.',
         'No station could write this journal: 1 line cannot be (line 3).'),
        ('many holes', told(1, *range(3, 40, 2)), 1,
         'Events 1 to 39: missing: 2, 4, 6, 8, 10 and 14 more; this file cannot tell what came after 39.',
         'Alarms up to event 39: 0 LONG told; whether one was lost is not told: '
         'events 2, 4, 6, 8, 10 and 14 more are missing.'),
    ]


def of_unsound_alarms():
    """Alarms and markers that are shown and not counted."""
    return [
        ('a repeated alarm', lines((0, 9, 1, 0, 8), (0, 4, 9, 5, 0), *2 * [(0, 3, 10, 5, 5)]), 1,
         'Events 1 to 10: all accounted for; out of order: 10; only named by a marker: 1 to 8; '
         'this file cannot tell what came after 10.',
         'Alarms up to event 10: 1 LONG told in order, 0 dropped; whether one was lost is not told: entries are out of order.'),
        ('a repeated marker', lines(*2 * [(0, 9, 1, 1, 3)]), 1,
         'Events 1 to 3: all accounted for; out of order: 1 to 3; only named by a marker: 1 to 3; '
         'this file cannot tell what came after 3.',
         'Alarms up to event 3: 0 LONG told, 1 dropped; whether another was lost is not told: entries are out of order.',
         'ALARM LOST: 1 LONG was dropped, and no entry tells it: 1 among 1 to 3.'),
        ('a marker that counts too many', lines((0, 9, 1, 0, 3), (0, 9, 4, 4, 3)), 1,
         'Events 1 to 6: all accounted for; only named by a marker: 1 to 6; this file cannot tell what came after 6.',
         'Alarms up to event 6: 0 LONG told, 0 dropped; whether one was lost is not told: no station could write this journal.',
         'No station could write this journal: 1 line cannot be (line 2).'),
        ('an alarm that cannot be', lines(*numbered((OPEN, (LONG, 1, 1)))), 1,
         'Events 1 to 2: all accounted for; this file cannot tell what came after 2.',
         'Alarms up to event 2: 0 LONG told that a station could write; whether one was lost is not told: '
         'no station could write this journal.',
         'No station could write this journal: 1 line cannot be (line 2).'),
        ('an alarm whose number cannot be', lines(*numbered((OPEN, (DEFECT, 5, 0), (LONG, 5, 5))), (0, 3, 8_000_001, 6, 6)), 1,
         'Events 1 to 3: all accounted for; this file cannot tell what came after 3.',
         'Alarms up to event 3: 1 LONG told that a station could write; whether one was lost is not told: '
         'no station could write this journal.',
         'No station could write this journal: 1 line cannot be (line 4).'),
        ('an alarm that comes late, and one that cannot be', lines(*((0, kind, *words) for kind, *words in (
            (START, 1, 0, 5), (SILENCE, 2, 0, 1), (DEFECT, 3, 5, 0), (SILENCE, 5, 5, 1), (LONG, 4, 5, 5), (LONG, 6, 5, 5)))), 1,
         'Events 1 to 6: missing: 4; out of order: 4; this file cannot tell what came after 6.',
         'Alarms up to event 6: 0 LONG told in order that a station could write; whether one was lost is not told: '
         'event 4 is missing and entries are out of order and no station could write this journal.',
         'No station could write this journal: 1 line cannot be (line 6).'),
    ]


def journal(text, *options):
    return subprocess.run([sys.executable, str(ROOT / 'bin' / 'journal'), *options], input=text, capture_output=True)


def lines(*answers):
    return b''.join(map(written, answers))


def told(*numbers):
    """START, and ticks with no unit, under these numbers."""
    return lines(*((0, START, 1, 0, 2) if number == 1 else (0, SILENCE, number, 0, number - 1) for number in numbers))


def says(report, name, text, expected, *options):
    done = journal(text, *options)
    good = done.stdout.decode() == expected and done.returncode == 0 and not done.stderr
    report.check(good, f'bin/journal on {name} says:\n{done.stdout.decode()}{done.stderr.decode()}')


def closes(report, name, text, status, closing):
    done = journal(text)
    said = done.stdout.decode()
    rows = 1 + text.count(b'\n') + said.count('           ! ')
    good = said.endswith(closing) and said.count('\n') == rows + closing.count('\n') and done.returncode == status and not done.stderr
    report.check(good, f'bin/journal on {name} ends with {done.returncode} and:\n{said}')


# ---- Alarms that were lost

def losing():
    """A session that loses alarms: two with other events, and later one alone, behind its DEFECT."""
    script = Script()
    script.open(CSP_1, 2, 2, 3)
    script.bad(8)
    script.take_all()
    script.tick(10)
    script.take_all()
    script.bad()
    script.take()
    script.tick(9)
    script.take_all()
    return script


def lost_alarms(report):
    for (number, long, count), due in MARKERS.items():
        said = in_words(MARKER, number, long, count)
        report.check(said == f'GAP        {number:>9,}  {"":>9}  {due}', f'bin/journal puts a marker into the words: {said}')
    says(report, 'case 9', (FOLDER / 'case-9-ten-ticks.out').read_bytes(), CASE_9, '--events')
    answers = losing().answers
    says(report, 'lost alarms', lines(*answers), LOST, '--events')
    done = journal(lines(*(answer for answer in answers if answer[:3] != (0, LONG, 15))), '--events')
    torn = done.returncode == 1 and done.stdout.decode().endswith(f'8 ticks in a row with no unit\n{TORN}')
    report.check(torn, f'bin/journal on lost alarms with a line torn out says:\n{done.stdout.decode()}')
    nothing_but_alarms(report)


def nothing_but_alarms(report):
    """Where DEFECT and LONG come in turn, as many LONG were dropped as can be: a marker that counts one more is impossible."""
    entries = numbered(((START, 0, 1), *(entry for unit in range(1, 7) for entry in ((DEFECT, unit, 0), (LONG, unit, unit)))))
    for first, end in combinations(range(len(entries) + 1), 2):
        long, which = alarms(entries[first:end]), f'{end - first} events from {first + 1} on'
        said = faults(dropped(entries, first, end, long))
        report.check(not said, f'bin/journal does not take a marker of {which}: {said}')
        said = faults(dropped(entries, first, end, long + 1)).get(first + 1, '')
        report.check('LONG' in said, f'bin/journal takes a LONG too many among {which}: {said}')


def dropped(entries, first, end, long):
    """The journal with one marker for the entries in these places, and so many LONG counted in it."""
    return [*entries[:first], (0, MARKER, entries[first][2], long, end - first), *entries[end:]]


def alarms(entries):
    return sum(kind == LONG for _, kind, *_ in entries)


# ---- Lines that cannot be read

def damaged(report):
    """Each damaged line alone between two good ones is named, and the good ones are still read."""
    for line in DAMAGED:
        whole = line.endswith(b'\n')
        done = journal(told(1) + line + (told(2) if whole else b''))
        named = done.stderr.decode().startswith('bin/journal: line 2 is no answer line: ') and done.stderr.count(b'\n') == 1
        read = (done.stdout.count(b'START'), done.stdout.count(b'SILENCE')) == (1, whole) and b'all accounted for' in done.stdout
        report.check(named and read and done.returncode == 1, f'bin/journal on the damaged line {line[:60]!r}: {done.stderr!r}')


def many_damaged(report):
    """A file of bad lines is a count and the first few, and a hint where it is another kind of file."""
    done = journal(told(1) + b'no answer\n' * 1_000)
    said = done.stderr.decode().splitlines()
    counted = len(said) == 6 and said[-1] == 'bin/journal: 1,000 of 1,001 lines are no answer lines; the first 5 are shown'
    report.check(counted and done.returncode == 1, f'bin/journal on a thousand bad lines: {said[:8]}')
    for name, text, hint in (('frames', (FOLDER / 'example.in').read_bytes(), b'bin/session runs a file of frames'),
                             ('CR LF', told(1, 2, 3).replace(b'\n', b'\r\n'), b'CR LF')):
        done = journal(text)
        report.check(hint in done.stderr and done.returncode == 1, f'bin/journal gives no hint on {name}: {done.stderr!r}')
        report.check(hint not in journal(told(1) + text).stderr, f'bin/journal gives a hint on a file that is not all {name}')


# ---- Journals that no station could write

def out_of_place(report):
    """A line that no program writes is named beneath itself; here each has the next number where it has one in range."""
    answers = [(*answer[:2], at if answer[2] == 2 else answer[2], *answer[3:]) for at, answer in enumerate(OUT_OF_PLACE, 2)]
    done = journal(told(1) + lines(*answers))
    rows = done.stdout.decode().splitlines()
    for at, answer in enumerate(answers, 2):
        under = [note for row, note in zip(rows, rows[1:]) if row.startswith(f'{at:>9,}  ')]
        noted = under and under[0].startswith('           ! no station could write this: ')
        report.check(noted, f'bin/journal takes {answer}: {under}')
    closed = rows[-1].startswith(f'No station could write this journal: {len(answers)} lines cannot be (line 2, 3, ')
    report.check(closed and done.returncode == 1, f'bin/journal on lines out of place: {done.returncode}: {rows[-1]}')


def numbered(entries):
    """The entries as answers, numbered from 1 on; a marker takes as many numbers as it names."""
    answers, number = [], 1
    for kind, unit, value in entries:
        answers.append((0, kind, number, unit, value))
        number += value if kind == MARKER else 1
    return answers


def heard_of(answers, n=None, asked=None):
    """The journal that answers tell, where n was opened and those n were asked for; what is said of each bad line, by its place."""
    heard, said = Journal(asked), {}
    if n is not None:
        heard.opened_with(n)
    for at, (_, *entry) in enumerate(answers, 1):
        fault = heard.hear(at, *entry)
        if fault:
            said[at] = fault
    return heard, said


def faults(answers, *known):
    return heard_of(answers, *known)[1]


def one_is_possible(report, name, before, good, bad, why, *known):
    """Of two entries after the same ones, a station can write the one and not the other."""
    report.check(not faults(numbered((*before, good)), *known), f'bin/journal does not take what a station can write beside: {name}')
    said = faults(numbered((*before, bad)), *known)
    report.check(list(said) == [len(before) + 1] and why in said[len(before) + 1], f'bin/journal says of {name}: {said}')


def histories(report):
    for name, history in HISTORIES.items():
        one_is_possible(report, name, *history)
    for name, history in KNOWN.items():
        one_is_possible(report, name, *history, OPENED_WITH)
    for name in MADE_POSSIBLE:
        before, _, bad, _ = HISTORIES[name]
        said = faults(numbered((*before, (MARKER, int(name in WITH_LONG_DUE), 8), bad)))
        report.check(not said, f'bin/journal forgets that a marker may hide what makes it possible: {name}: {said}')
    for name, entries in UNDER_ANOTHER.items():
        said = faults(numbered(entries))
        report.check(not said, f'bin/journal holds another plan to the one opened: {name}: {said}')
    said = faults(numbered((OPEN, (SILENCE, 4, 1), (INTERRUPT, 2, 0), (SILENCE, 3, 1))))
    report.check(list(said) == [3], f'bin/journal says one fault more than once: {said}')
    done = journal(lines(*numbered((*SAMPLING, (DEFECT, 9, 0), (SILENCE, 9, 1)))))
    note = b'           ! no station could write this: the phase is sampling level 0\n'
    closed = done.stdout.endswith(b'No station could write this journal: 1 line cannot be (line 3).\n')
    said = note in done.stdout and closed and done.returncode == 1
    report.check(said, f'bin/journal on a wrong DEFECT:\n{done.stdout.decode()}')


def markers_heard(report):
    """What a marker's count tells of the events around it, and what it does not."""
    for name, history in UNCHANGED.items():
        one_is_possible(report, name, *history, None, set())
        before, _, bad, _ = history
        said = faults(numbered((*before, bad)))
        report.check(not said, f'bin/journal holds to a plan that a marker may change: {name}: {said}')
        said = faults(numbered((*(entry if entry[0] != MARKER else (MARKER, 1, 1) for entry in before), bad)), None, set())
        report.check(not said, f'bin/journal takes a LONG that a marker counts for none: {name}: {said}')
    for entries in (((SILENCE, 5, 1), (INTERRUPT, 4, 0)), ((DEFECT, 1, 0), (INTERRUPT, 0, 0))):
        said = faults(numbered((*AT_ONCE, (MARKER, 1, 2), *entries)))
        report.check(said.get(5, '').endswith(' came before'), f'bin/journal blames a marker for what an entry tells: {said}')
    said = faults(numbered((OPEN, (SILENCE, 2 ** 32 - 1, 1), (MARKER, 0, 3))))
    report.check(list(said) == [2], f'bin/journal blames a marker that counts no LONG: {said}')
    wrong_markers(report)


def wrong_markers(report):
    """Behind a marker that cannot be, what it hides is not known, as behind any other; and event 1 is START, missing or not."""
    for before, wrong, behind in (
            (SAMPLING, (MARKER, 2, 1), (DEFECT, 9, 0)), (SAMPLING, (MARKER, 2, 1), (PLAN, 9, 2)),
            ((OPEN,), (MARKER, 1, 1), (PHASE, 9, 2)), ((OPEN,), (MARKER, 4, 3), (LONG, 9, 9)),
            ((OPEN, (DEFECT, 5, 0), (LONG, 5, 5), (DEFECT, 6, 0)), (MARKER, 0, 8), (SILENCE, 6, 1))):
        said = faults(numbered((*before, wrong, behind)))
        report.check(list(said) == [len(before) + 1], f'bin/journal on {behind} behind a marker that cannot be: {said}')
    for long, count, cannot_be in ((1, 1, True), (1, 2, False), (2, 3, True)):
        heard, said = heard_of([(0, MARKER, 2, long, count)])
        good = bool(heard.impossible) == cannot_be and heard.missing == [(1, 1)]
        report.check(good, f'bin/journal on a marker with {long} LONG of {count}, where event 1 is missing: {said}')


# ---- Plans that change

def changes(report):
    """Each way in which a plan takes force is possible, and the frequencies are those of its stretches."""
    for name, (*entries, parts) in TAKEN_UP.items():
        for n in (None, OPENED_WITH):
            heard, said = heard_of(numbered(((START, 0, 3), *entries)), n)
            opened = {OPENED: OPENED_WITH} if n is None else {}
            told_so = [(first, last, opened.get(held, held)) for first, last, held in heard.frequencies.stretches]
            report.check(not said and told_so == parts, f'bin/journal, opened with {n}, on {name}: {said or told_so}')
    says(report, 'frequencies', lines(*numbered(CHANGING)), FREQUENCIES, '--frequency', '3')
    as_opened = FREQUENCIES.replace('1 to 2      one in 3', '1 to 2      as opened').replace('a one in 3', 'a as opened')
    says(report, 'frequencies with no option', lines(*numbered(CHANGING)), as_opened)
    frequency_options(report)


def frequency_options(report):
    """The n that was opened is a plan's, and is said where there is an entry, with no PLAN too."""
    for text in ('1', '201', '-3', '3.5', 'x', ''):
        done = journal(told(1), f'--frequency={text}')
        refused = done.returncode == 2 and b'an n from 2 to 200' in done.stderr and not done.stdout
        report.check(refused, f'bin/journal takes the frequency {text!r}: {done.stderr!r}')
    for text, said in {
        told(1): 'Frequency in force\n  from unit 1 on: one in 7, unless an event after 1 says otherwise\n',
        told(2): 'Frequency in force\n  from unit 1 on: not told\n',
        b'': '',
    }.items():
        out = journal(text, '--frequency', '7').stdout.decode()
        report.check(said in out and out.count('Frequency') == said.count('Frequency'), f'bin/journal with one in 7 says: {out}')
        out = journal(text).stdout.decode()
        report.check(out and 'Frequency' not in out, f'bin/journal tells a frequency that nothing tells: {out}')
    done = journal(lines(*numbered((OPEN, (PLAN, 2, 7)))), '--frequency', '7')
    held = done.returncode == 1 and b'one in 7 is in force already' in done.stdout
    report.check(held, f'bin/journal does not hold a PLAN to the plan opened: {done.stdout.decode()}')


# ---- What stations do write

def whole_sessions(report):
    """What a session takes is in order and without a hole, so every stored session reads well."""
    paths = sorted(FOLDER.glob('*.out'))
    for path in paths:
        answers = [read_answer(line + b'\n') for line in path.read_bytes().split(b'\n')[:-1]]
        told_so = None not in answers and faults([numbers for numbers in answers if numbers[1]])
        report.check(told_so == {}, f'bin/journal does not read sessions/{path.name}: {told_so}')
    longest = max(paths, key=lambda path: path.stat().st_size)
    done = journal(b'', str(longest))
    read = done.returncode == 0 and done.stdout.count(b'\n') == longest.read_bytes().count(b'\n') + 3
    report.check(read, f'bin/journal does not read sessions/{longest.name}: {done.stderr!r}')


def random_journals(report, options):
    """Every event of random sessions is possible, with markers in any place too; most changes of one entry are not."""
    heard = caught = tried = known = plans = over = 0
    for at in range(max(20, options.count // 10)):
        name = f'{options.seed}-journal-{at}'
        witness, chosen = (Diligent, Alarming, Witness, Witness)[at % 4](name), random.Random(name)
        entries = witness.whole_journal()
        heard += len(entries)
        plans += sum(kind == PLAN for _, kind, *_ in entries)
        for told_so in (entries, with_markers(entries, chosen), with_markers(entries, chosen)):
            for n in (None, witness.ns[0][1]):
                journal_heard, said = heard_of(told_so, n)
                report.check(not said, f'bin/journal, opened with {n}, calls the random session {name} impossible: {said}')
                wrong, right = witness.judge(journal_heard.frequencies.stretches)
                report.check(not wrong, f'bin/journal, opened with {n}, has the wrong frequency in {name}: {wrong[:2]}')
                known += right
        for _ in range(5):
            changed = with_a_change(entries, chosen)
            tried += 1
            caught += bool(faults(changed))
        over += over_finds(report, name, entries)
    report.check(plans > 0 and known > 0, f'{plans:,} changes of plan and {known:,} known frequencies in random sessions')
    report.check(over > 0, 'no LONG counts over a check find in random sessions')
    report.check(caught > tried * 2 // 3, f'bin/journal finds {caught:,} of {tried:,} changed journals to be impossible')
    return heard, caught, tried, over


def over_finds(report, name, entries):
    """Each LONG after a check find of its sequence counts over the find: counted from it, it is impossible. How many there are."""
    changed = list(counted_from_finds(entries))
    for journal_changed in changed:
        report.check(faults(journal_changed), f'bin/journal takes a LONG that counts from a check find in {name}')
    return len(changed)


class Witness(Driver):
    """A random session that writes down from which unit on each n was in force as a unit came."""

    def __init__(self, seed):
        super().__init__(seed)
        self.ns = []

    def line(self, text):
        last, n = (self.station.last, self.station.n) if self.station else (0, None)
        answer = super().line(text)
        if self.station and n is None:
            self.ns.append((1, self.station.n))
        elif self.station and self.station.last > last:
            self.ns.append((last + 1, n))
        return answer

    def whole_journal(self):
        """Every event of the session: the model's queue has room for all of them."""
        self.program.queue = [0] * (3 * model.MOST_ROOM)
        self.drive()
        while self.take()[1]:
            pass
        return [answer for answer in self.answers if answer[1]]

    def raised(self):
        """The kind of each event: the same calls on a queue that has room for all of them."""
        program = model.Program()
        program.queue = [0] * (3 * model.MOST_ROOM)
        for line in self.lines:
            if line != TAKE:
                program.answer(line)
        return [program.queue[3 * at] >> 24 for at in range(program.station.next - 1)]

    def judge(self, stretches):
        """The stretches that have another frequency than was in force, and how many have the right one."""
        known = [(first, min(last, self.station.last), held) for first, last, held in stretches if held is not None]
        wrong = [stretch for stretch in known if not self.within(*stretch)]
        return wrong, len(known) - len(wrong)

    def within(self, first, last, held):
        """Whether every n in force at these units is the one that is told."""
        ends = [unit - 1 for unit, _ in self.ns[1:]] + [self.station.last]
        in_force = {n for (unit, n), end in zip(self.ns, ends) if unit <= last and end >= first}
        return in_force == {self.ns[0][1] if held == OPENED else held}


class Diligent(Witness):
    """One with many defects and many check finds, so that LONG counts over a find."""

    def turn(self):
        if self.station.phase != SCREENING or self.chance(0.1):
            super().turn()
        elif self.station.owed:
            self.result(1 if self.chance(0.4) else 0)
        elif self.chance(0.3):
            self.find()
        else:
            self.unit()


class Alarming(Diligent):
    """One whose S is near its clearance number, and that takes seldom: LONG comes at most defects, and many are dropped."""

    def open_somehow(self):
        type, i = self.random.choice((CSP_1, CSP_2, CSP_T, CSP_V)), self.random.randrange(1, 5)
        x = self.random.randrange(1, i + 1) if type == CSP_V else 0
        self.open(type, self.random.randrange(2, 5), i, i + self.random.choice((0, 0, 1, 3)), x, 0, self.seed())

    def own_journal(self):
        """What is taken up to the end of the session, from a queue with the program's own room."""
        self.drive()
        self.take_all()
        return [answer for answer in self.answers if answer[1]]


def with_markers(entries, chosen):
    marked, at = [], 0
    while at < len(entries):
        if chosen.random() < 0.1:
            count = min(chosen.randrange(1, 9), len(entries) - at)
            marked.append((0, MARKER, entries[at][2], alarms(entries[at:at + count]), count))
            at += count
        else:
            marked.append(entries[at])
            at += 1
    return marked


def with_a_change(entries, chosen):
    at = chosen.randrange(len(entries))
    _, kind, number, unit, value = entries[at]
    change = chosen.choice((
        (0, kind % 8 + 1, number, unit, value), (0, kind, number, max(0, unit - 1), value), (0, kind, number, unit + 3, value),
        (0, kind, number, unit, value + 1),
    ))
    return [*entries[:at], change, *entries[at + 1:]]


def counted_from_finds(entries):
    """The journal with one LONG counted from the last check find of its sequence, for each LONG that has one."""
    find = None
    for at, (_, kind, number, unit, _) in enumerate(entries):
        if kind == CHECK:
            find = unit
        elif kind in (PHASE, MISSED, INTERRUPT, PLAN):
            find = None
        elif kind == LONG and find is not None:
            yield [*entries[:at], (0, LONG, number, unit, unit - find), *entries[at + 1:]]


# ---- Random alarms

def random_alarms(report, options):
    """The journal of a station that drops alarms is possible, and owns up to each. In words: how many wrong counts are caught."""
    lost, tried, caught = 0, Counter(), Counter()
    for at in range(max(20, options.count // 15)):
        witness = Alarming(f'{options.seed}-alarms-{at}')
        entries, raised = witness.own_journal(), witness.raised()
        lost += owned_up(report, f'random session {at} with alarms', entries, raised)
        for side, found in wrong_counts(entries, witness.random):
            tried[side] += 1
            caught[side] += found
        place = witness.random.randrange(len(entries) - 1)
        doubted = heard_of([*entries[:place], *entries[place + 1:]])[0].alarms_told()
        in_doubt = 'was lost is not told' in doubted and 'raised' not in doubted
        report.check(in_doubt, f'bin/journal on random session {at} with alarms and an entry torn out says: {doubted}')
    report.check(lost > 0, 'no LONG was dropped in random sessions')
    said = (f'{lost:,} LONG dropped in random sessions; of {tried["above"]:,} counts above the right one {caught["above"]:,} caught, '
            f'of {tried["below"]:,} below it {caught["below"]:,}')
    report.check(caught['above'] * 3 > tried['above'], said)
    return said


def owned_up(report, name, entries, raised):
    """How many alarms were dropped. Each marker counts those among its events, and the sum is what was raised."""
    heard, said = heard_of(entries)
    report.check(not said, f'bin/journal calls {name} impossible: {said}')
    markers = [(number, unit, value) for _, kind, number, unit, value in entries if kind == MARKER]
    wrong = [marker for marker in markers if raised[marker[0] - 1:marker[0] - 1 + marker[2]].count(LONG) != marker[1]]
    report.check(not wrong, f'{name} has markers that count another number of LONG than were dropped: {wrong[:2]}')
    lost, said = sum(long for _, long, _ in markers), (heard.alarms_told(), heard.alarms.loud())
    due = alarms_due(len(raised), raised.count(LONG) - lost, lost, markers)
    loud = said[1].startswith(f'ALARM LOST: {lost:,} LONG ') if lost else said[1] is None
    report.check(said[0] == due and loud, f'bin/journal on {name} says {said}, and {due} is due')
    return lost


def alarms_due(last, told, lost, markers):
    """What is said of alarms where every event up to the last is told or named."""
    parts = [f'{told:,} LONG told', *([f'{lost:,} dropped'] if markers else []), f'{told + lost:,} raised']
    return f'up to event {last:,}: {", ".join(parts)}' + ('' if lost else '; no alarm was lost')


def wrong_counts(entries, chosen):
    """Each marker with another count: on which side of the right one it is, and whether it is caught."""
    for at, (_, kind, number, long, count) in enumerate(entries):
        if kind == MARKER:
            other = chosen.choice([other for other in range(count + 1) if other != long])
            changed = [*entries[:at], (0, MARKER, number, other, count), *entries[at + 1:]]
            yield 'above' if other > long else 'below', bool(faults(changed))


# ---- Files

def files(report):
    """A folder and a file that is not there are said in one line."""
    for path in (FOLDER, FOLDER / 'no-such-session.out'):
        done = journal(b'', str(path))
        good = done.returncode == 2 and done.stderr.count(b'\n') == 1 and str(path).encode() in done.stderr and not done.stdout
        report.check(good, f'bin/journal on {path} ends with {done.returncode}: {done.stderr!r}')
