"""The commands in bin/: what bin/session says of sessions, and how all three fail.

What it says is held to the model, which knows the phase of each unit and what is left in the queue. How it fails is
tried in a scratch repository with a kit of shell scripts, so that nothing is proved and nothing real is broken.
"""

import fcntl
import os
import random
import re
import shutil
import signal
import subprocess
import sys
import tempfile
import time
from collections import Counter
from pathlib import Path

import check_journal
import model
import programs
from check_stored import FOLDER
from drive import Driver
from programs import ROOT
from script import Script, words

sys.path.insert(0, str(ROOT / 'bin'))

from lib import calls, phases, summary
from lib import words as in_words
from lib.session import HEAD, Session

COMMANDS = ('session', 'journal', 'run')
NOT_PASSED_ON = ('RECORDER_ROOT', 'SECOND_ROOT', 'PYTHONUNBUFFERED')  # each would change what is tried
PROVING = r'''bin/session: crates/recorder/out/recorder is not built yet: .* the prover's log is build/log/bin-session\.log
bin/session: proving base, 1 of 2 \.\. proved in \d+ s
bin/session: proving recorder, 2 of 2, about 35 s \.\. proved in \d+ s
'''
PROVED = '''\
logic=proved crate=base
logic=proved crate=recorder
rt: running out/recorder; to give it other input, run that file yourself
'''
PATIENCE = 30
EXAMPLE = '''\
    frame  call and answer         event         number       unit  what it says
        1  open CSP-1 n 2 i 2 S 3 seed 0x0
        2  unit 1: inspect
        3  result: conforming
        4  unit 2: inspect
        5  result: conforming
        6  unit 3: inspect
        7  result: conforming
        8  unit 4: pass
        9  unit 6: inspect, 1 unit not seen: 5
       10  take                    START              1             clearance number 2
       11  take                    PHASE              2          2  sampling level 0
       12  take                    MISSED             3          5  1 unit not seen: 5
       13  take                    PHASE              4          6  screening
       14  take: nothing to tell

Summary
  plan       CSP-1 n 2 i 2 S 3 seed 0x0
  frames     14: open 1, unit 5, result 3, take 5; none refused
  units      6: 3 conforming, 0 defective, 1 passed, 1 missed, 1 owed a result
  unseen     at most 2 units in a row: 4 to 5 (4 passed, 5 missed); the result of unit 6 is owed
  events     4 told: START 1, PHASE 2, MISSED 1
  alarms     up to event 4: 0 LONG told, 0 raised; no alarm was lost
  left       screening at unit 2, after 2 conforming units in a row: 1 to 2
  phases     1 to 2  screening
             3 to 4  sampling level 0
             5       missed
             6       screening
             [##00.#]
             one sign a unit: # screening, 0 1 2 sampling level, . a missed stretch, ? not told
Every event from 1 to 4 was taken and none is missing.
'''
CASE_9 = '''\
Summary
  plan       CSP-1 n 2 i 1 S 1 seed 0x0
  frames     21: open 1, tick 10, take 10; none refused
  units      none has come
  events     8 told: SILENCE 8; 3 dropped, no LONG among them
  dropped    1 to 3, no LONG among them: the first events, before SILENCE 4 (no unit yet)
  alarms     up to event 11: 0 LONG told, 0 dropped, 0 raised; no alarm was lost
Events 1 to 3 were dropped, no LONG among them, and the marker says so; 4 to 11 were taken.
'''
# Alarms that were lost: two with other events, and later one alone, behind its DEFECT.
LOST = '''\
    frame  call and answer         event         number       unit  what it says
       18  take                    GAP                1             7 events dropped: 1 to 7, of them 2 LONG
       19  take                    DEFECT             8          5  in screening
       20  take                    LONG               9          5  5 units screened since the sequence began
       21  take                    DEFECT            10          6  in screening
       22  take                    LONG              11          6  6 units screened since the sequence began
       23  take                    DEFECT            12          7  in screening
       24  take                    LONG              13          7  7 units screened since the sequence began
       25  take                    DEFECT            14          8  in screening
       26  take                    LONG              15          8  8 units screened since the sequence began
       38  take                    GAP               16             1 event dropped: 16, no LONG
       39  take                    SILENCE           17          8  2 ticks in a row with no unit
       40  take                    SILENCE           18          8  3 ticks in a row with no unit
       41  take                    SILENCE           19          8  4 ticks in a row with no unit
       42  take                    SILENCE           20          8  5 ticks in a row with no unit
       43  take                    SILENCE           21          8  6 ticks in a row with no unit
       44  take                    SILENCE           22          8  7 ticks in a row with no unit
       45  take                    SILENCE           23          8  8 ticks in a row with no unit
       46  take                    SILENCE           24          8  9 ticks in a row with no unit
       50  take                    DEFECT            25          9  in screening
       60  take                    GAP               26             1 event dropped: 26, a LONG
       61  take                    SILENCE           27          9  1 tick in a row with no unit
       62  take                    SILENCE           28          9  2 ticks in a row with no unit
       63  take                    SILENCE           29          9  3 ticks in a row with no unit
       64  take                    SILENCE           30          9  4 ticks in a row with no unit
       65  take                    SILENCE           31          9  5 ticks in a row with no unit
       66  take                    SILENCE           32          9  6 ticks in a row with no unit
       67  take                    SILENCE           33          9  7 ticks in a row with no unit
       68  take                    SILENCE           34          9  8 ticks in a row with no unit

Summary
  plan       CSP-1 n 2 i 2 S 3 seed 0x0
  frames     69: open 1, unit 9, result 9, tick 19, take 31; none refused
  units      9: 0 conforming, 9 defective, 0 passed, 0 missed, 0 owed a result
  unseen     none: every unit was inspected
  events     25 told: LONG 4, DEFECT 5, SILENCE 16; 9 dropped, of them 3 LONG
  dropped    1 to 7, of them 2 LONG: the first events, before DEFECT 8 (unit 5)
             16, no LONG: after LONG 15 (unit 8), before SILENCE 17 (unit 8)
             26, a LONG: after DEFECT 25 (unit 9), before SILENCE 27 (unit 9)
  alarms     up to event 34: 4 LONG told, 3 dropped, 7 raised
  left       screening perhaps: events were dropped
  phases     1 to 4  not told
             5 to 9  screening
             [????#####]
             one sign a unit: # screening, 0 1 2 sampling level, . a missed stretch, ? not told
ALARM LOST: 3 LONG were dropped, and no entry tells them: 2 among 1 to 7, event 26.
Of events 1 to 34, 9 were dropped, of them 3 LONG, in 3 stretches, and markers say so; 25 were taken.
'''
# Plans that change, in each way that frames can ask for it.
CHANGED = '''\
    frame  call and answer         event         number       unit  what it says
        1  change to CSP-1 n 5 i 4 S 4: refused 2, no station is open
        2  open CSP-1 n 3 i 3 S 5 seed 0x0
        3  change to CSP-1 n 2 i 2 S 2: higher, at once in sampling, else at the shift to it
        4  unit 1: inspect
        5  result: conforming
        6  unit 2: inspect
        7  result: conforming
        8  unit 3: inspect
        9  result: conforming
       10  take                    START              1             clearance number 3
       11  take                    PHASE              2          3  sampling level 0
       12  take                    PLAN               3          3  a new plan takes force: one in 2
       13  take: nothing to tell
       14  change on demand to CSP-1 n 2 i 9 S 9: the same frequency, nothing changes
       15  change to CSP-1 n 5 i 4 S 4: lower, waits for the return to screening
       16  unit 4: inspect
       17  result: conforming
       18  unit 5: pass
       19  unit 6: inspect
       20  result: conforming
       21  unit 7: pass
       22  unit 38: inspect, 30 units not seen: 8 to 37
       23  change to CSP-1 n 5 i 4 S 4: refused 4, an inspection result is owed
       24  result: conforming
       25  take                    MISSED             4          8  30 units not seen: 8 to 37
       26  take                    PHASE              5         38  screening
       27  take                    PLAN               6         38  a new plan takes force: one in 5
       28  take: nothing to tell
       29  change to CSP-2 n 5 i 4 S 4: refused 11, another type, CSP-F, or i does not go with n
       30  change to CSP-1 n 7 i 4 S 4: refused 11, another type, CSP-F, or i does not go with n
       31  change on demand to CSP-1 n 7 i 5 S 4: refused 3, a plan number is out of range
       32  ill-formed frame: refused 9  '09 00000001 00000007 00000005 00000005 00000000 00' ..
       33  change to CSP-1 n 7 i 5 S 5: lower, at once
       34  change on demand to CSP-1 n 3 i 1 S 1: at once, by a fresh screening sequence
       35  unit 39: inspect
       36  result: conforming
       37  unit 40: pass
       38  unit 41: pass
       39  unit 42: inspect
       40  result: conforming
       41  unit 43: pass
       42  unit 44: pass
       43  change to CSP-1 n 2 i 1 S 1: refused 11, another type, CSP-F, or i does not go with n
       44  take                    PLAN               7         38  a new plan takes force: one in 7
       45  take                    PLAN               8         38  a new plan takes force: one in 3
       46  take                    PHASE              9         39  sampling level 0
       47  take: nothing to tell

Summary
  plan       CSP-1 n 3 i 3 S 5 seed 0x0
  frames     47: open 1, unit 14, result 8, change 11, take 12, ill-formed 1
             7 refused: 1 with 2, 1 with 3, 1 with 4, 1 with 9, 3 with 11
  units      44: 8 conforming, 0 defective, 6 passed, 30 missed, 0 owed a result
  unseen     at most 31 units in a row: 7 to 37 (7 passed, 8 to 37 missed)
  events     9 told: START 1, PHASE 3, MISSED 1, PLAN 4
  alarms     up to event 9: 0 LONG told, 0 raised; no alarm was lost
  left       screening at unit 3, after 3 conforming units in a row: 1 to 3
             screening at unit 39, after 1 conforming unit in a row: 39
  phases     1 to 3    screening
             4 to 7    sampling level 0
             8 to 37   missed
             38 to 39  screening
             40 to 44  sampling level 0
             [###0000.##00000]
             one sign a unit: # screening, 0 1 2 sampling level, . a missed stretch, ? not told
  frequency  1 to 3    one in 3
             4 to 38   one in 2
             39 to 44  one in 3
             [aaabbbb.baaaaaa]
             one sign a unit: a one in 3, b one in 2, . a missed stretch
Every event from 1 to 9 was taken and none is missing.
'''
# The same session with another answer to one frame, and what is said of it.
WRONG = {
    'a change that is due a refusal for its type': (29, model.DONE, 'refusal 11 is due here'),
    'a change that is due a refusal for its i': (30, model.DONE, 'refusal 11 is due here'),
    'a change that is due a refusal for its range': (31, model.DONE, 'refusal 3 is due here'),
    'a change while a result is owed': (23, model.DONE, 'refusal 4 is due here'),
    'a change before an open': (1, model.DONE, 'refusal 2 is due here'),
    'a demand that is neither 0 nor 1': (32, model.DONE, 'an ill-formed frame is refused with 9'),
    'a good change refused': (15, model.refused(11), 'no refusal is due here'),
    'a change refused as no change is': (15, model.refused(8), 'no change is refused with 8'),
    'a change with an order': (15, (0, 0, 0, 0, 1), 'only a unit is given an order'),
    'a change that tells its event': (33, (0, 10, 7, 38, 7), 'only a take tells an event'),
    'a plan that waits in sampling': (12, (0, 10, 3, 3, 4), 'only a higher frequency'),
    'a plan that nobody asked for': (27, (0, 10, 6, 38, 9), 'no change that was taken asks for one in 9 here'),
    'a plan that is asked for later': (27, (0, 10, 6, 38, 7), 'no change that was taken asks for one in 7 here'),
    'a plan that has been told': (45, (0, 10, 8, 38, 5), 'no change that was taken asks for one in 5 here'),
    'a plan of another unit': (44, (0, 10, 7, 39, 7), 'the calls raise PLAN with unit 38 here'),
    'a change at once that is kept back': (44, model.DONE, '2 events or more are untold'),
    'another event for a change at once': (44, (0, 8, 7, 38, 0), 'the calls raise PLAN with unit 38 here'),
    'a call that tells half its events': (26, model.DONE, 'the MISSED that was told calls for PHASE next'),
}
# An open of a plan with an i of 1, a unit found defective, and then so many takes, so many ticks and takes up to "nothing",
# once or twice: what is said last.
DROPPED = {
    ((1, 9),): ['ALARM LOST: 1 LONG was dropped, and no entry tells it: 1 among 2 to 3.',
                'Events 2 to 3 were dropped, of them 1 LONG, and the marker says so; 1, 4 to 11 were taken.'],
    ((2, 9),): ['ALARM LOST: 1 LONG was dropped, and no entry tells it: event 3.',
                'Event 3 was dropped, a LONG, and the marker says so; 1 to 2, 4 to 11 were taken.'],
    ((3, 10),): ['Event 4 was dropped, no LONG, and the marker says so; 1 to 3, 5 to 12 were taken.'],
    ((3, 11),): ['Events 4 to 5 were dropped, no LONG among them, and the marker says so; 1 to 3, 6 to 13 were taken.'],
    ((3, 10), (0, 9)): ['Events 4, 13 were dropped, no LONG among them, and markers say so; 1 to 3, 5 to 12, 14 to 21 were taken.'],
    ((1, 9), (0, 9)): ['ALARM LOST: 1 LONG was dropped, and no entry tells it: 1 among 2 to 3.',
                       'Events 2 to 3, 12 were dropped, of them 1 LONG, and markers say so; 1, 4 to 11, 13 to 20 were taken.'],
    ((3, 10), (0, 9), (0, 10)): ['Of events 1 to 31, 4 were dropped, no LONG among them, in 3 stretches, and markers say so; 27 were taken.'],
}
# Sessions of a plan with an i of 1: ticks, units found defective, takes, more such units, takes. The first take tells a marker.
MARKED = {'bad': (0, 10, 0), 'tick': (10, 0, 0), 'tick and bad': (12, 2, 3)}
# The same with another answer to that take or to one behind it, how many frames in a row cannot be then, and what is said of
# the first. What is behind a wrong marker is right and is not blamed; what is behind a wrong event is held to that one's unit.
FORGED = {
    'more LONG than events': (model.CSP_1, 'bad', 0, (0, 9, 1, 14, 13), 1, 'it counts 14 LONG among 13 events'),
    'more LONG than stand behind a DEFECT': (model.CSP_1, 'bad', 0, (0, 9, 1, 7, 13), 1, 'so at most 6 of these can be LONG'),
    'LONG dropped with no defect': (model.CSP_1, 'tick', 0, (0, 9, 1, 1, 3), 1, 'that makes 1 LONG with 0 defective results'),
    'LONG dropped before the first defect':
        (model.CSP_1, 'tick and bad', 0, (0, 9, 1, 4, 9), 1, 'that makes 4 LONG with 2 defective results'),
    'LONG dropped where there is no alarm': (model.CSP_F, 'bad', 0, (0, 9, 1, 1, 3), 1, 'CSP-F has no alarm'),
    'LONG dropped before the first defect, where there is no alarm':
        (model.CSP_F, 'tick and bad', 0, (0, 9, 1, 1, 7), 1, 'CSP-F has no alarm'),
    'LONG told where there is no alarm': (model.CSP_F, 'bad', 2, (0, 3, 5, 3, 3), 1, 'CSP-F has no alarm'),
    'LONG told with no defect': (model.CSP_1, 'tick', 1, (0, 3, 4, 0, 1), 1, 'that makes 1 LONG with 0 defective results'),
    'LONG told of a unit that has not come': (model.CSP_1, 'tick and bad', 1, (0, 3, 10, 6, 6), 2, 'no such unit has come'),
}
# Changes of plan written out by hand: each frame and its answer, with leading zeros of words cut.
GOOD = '02 {0}>00 00 0 0 1, 03 0>00 00 0 0 0'
BYTES = {
    'a higher frequency waits in screening':
        '01 1 3 3 5 0 0 0>00 00 0 0 0, 09 1 2 2 2 0 0 0>00 00 0 0 0, 07>00 01 1 0 3, 07>00 00 0 0 0, 1, 2, 3, '
        '07>00 02 2 3 1, 07>00 0A 3 3 2, 07>00 00 0 0 0',
    'a lower one waits in sampling':
        '01 1 3 3 5 0 0 0>00 00 0 0 0, 1, 2, 3, 09 1 5 4 4 0 0 0>00 00 0 0 0, 07>00 01 1 0 3, 07>00 02 2 3 1, '
        '04>00 00 0 0 0, 07>00 08 3 3 0, 07>00 02 4 3 0, 07>00 0A 5 3 5, 07>00 00 0 0 0',
    'on demand in screening, then in sampling':
        '01 1 3 3 5 0 0 0>00 00 0 0 0, 1, 2, 09 1 2 2 2 0 0 1>00 00 0 0 0, 07>00 01 1 0 3, 07>00 0A 2 2 2, 3, 4, '
        '09 1 3 3 3 0 0 1>00 00 0 0 0, 07>00 02 3 4 1, 07>00 02 4 4 0, 07>00 0A 5 4 3, 07>00 00 0 0 0',
    'a lower one waits on':
        '01 1 3 3 5 0 0 0>00 00 0 0 0, 1, 2, 3, 07>00 01 1 0 3, 07>00 02 2 3 1, 07>00 00 0 0 0, 09 1 5 4 4 0 0 0>00 00 0 0 0',
    'at once in screening':
        '01 1 3 3 5 0 0 0>00 00 0 0 0, 1, 2, 09 1 5 4 4 0 0 0>00 00 0 0 0, 07>00 01 1 0 3, 07>00 0A 2 2 5, 3, 4, '
        '07>00 02 3 4 1, 07>00 00 0 0 0',
}
SHOWN = {
    'a higher frequency waits in screening': ['a new plan takes force: one in 2', 'frequency  1 to 3  one in 3'],
    'a lower one waits in sampling': ['a new plan takes force: one in 5', 'frequency  1 to 3  one in 3'],
    'on demand in screening, then in sampling':
        ['one in 2', 'change on demand to CSP-1 n 3 i 3 S 3: at once', 'frequency  1 to 2  one in 3', '3 to 4  one in 2'],
    'a lower one waits on': ['lower, waits for the return to screening', '  waiting    CSP-1 n 5 i 4 S 4\n'],
    'at once in screening': ['one in 5', 'frequency  1 to 2  one in 3', '3 to 4  one in 5'],
}
# Station numbers and opens with and without a seed, written out by hand as above. 9,900 and 10,000 are 26AC and 2710: Table V has
# the second alone. With a seed of 1,000 the generator steps to 2,678,429,223, which is above 2^31: the first place is 1.
NUMBERS = (
    '0A 0>09 00 0 0 0, 08 4 1 26AC 0>09 00 0 0 0, 08 4 1 2710 0>09 00 0 0 0, 07>02 00 0 0 0, 0A 7>00 00 0 0 0, '
    '0A 10000>09 00 0 0 0, 0A 3E8>00 00 0 0 0, 0A 10007>09 00 0 0 0, 08 4 1 26AC 0>03 00 0 0 0, 01 1 1 2 3 0 0 0>03 00 0 0 0, '
    '08 4 1 2710 0>00 00 0 0 0, 0A D>09 00 0 0 0, 0A 0>09 00 0 0 0, 08 4 1 2710 0>09 00 0 0 0, 08 4 1 2710 0 0>09 00 0 0 0, '
    '01 1 2 2 3 0 0 0>09 00 0 0 0, 1, 2, 3, 4, 5, 02 6>00 00 0 0 0, 02 7>00 00 0 0 1, 03 0>00 00 0 0 0, '
    '07>00 01 1 0 5, 07>00 02 2 5 1, 07>00 00 0 0 0'
)
NUMBERED = '''\
    frame  call and answer         event         number       unit  what it says
        1  station number 0: refused 9, not from 1 to 65,535
        2  open CSP-T letter A AQL 9.9: refused 9, neither seed nor station number
        3  open CSP-T letter A AQL 10.0: refused 9, neither seed nor station number
        4  take: refused 2, no station is open
        5  station number 7
        6  station number 65,536: refused 9, not from 1 to 65,535
        7  station number 1,000
        8  station number 65,543: refused 9, not from 1 to 65,535
        9  open CSP-T letter A AQL 9.9: refused 3, the table has no such entry
       10  open CSP-1 n 1 i 2 S 3 seed 0x0: refused 3, a plan number is out of range
       11  open CSP-T letter A AQL 10.0 seed 0x3E8, the station number
       12  station number 13: refused 9, after an accepted open
       13  station number 0: refused 9, after an accepted open and not from 1 to 65,535
       14  open CSP-T letter A AQL 10.0: refused 9, a second open
       15  open CSP-T letter A AQL 10.0 seed 0x0: refused 9, a second open
       16  open CSP-1 n 2 i 2 S 3 seed 0x0: refused 9, a second open
       17  unit 1: inspect
       18  result: conforming
       19  unit 2: inspect
       20  result: conforming
       21  unit 3: inspect
       22  result: conforming
       23  unit 4: inspect
       24  result: conforming
       25  unit 5: inspect
       26  result: conforming
       27  unit 6: pass
       28  unit 7: inspect
       29  result: conforming
       30  take                    START              1             clearance number 5
       31  take                    PHASE              2          5  sampling level 0
       32  take: nothing to tell

Summary
  plan       CSP-T letter A AQL 10.0 seed 0x3E8, the station number; START tells i 5
  station    number 1,000, the last of 2 given
  frames     32: numbering 7, open 2, open from table 6, unit 7, result 6, take 4
             13 refused: 1 with 2, 2 with 3, 10 with 9
  units      7: 6 conforming, 0 defective, 1 passed, 0 missed, 0 owed a result
  unseen     at most 1 unit in a row: 6 (passed)
  events     2 told: START 1, PHASE 1
  alarms     up to event 2: 0 LONG told, 0 raised; no alarm was lost
  left       screening at unit 5, after 5 conforming units in a row: 1 to 5
  phases     1 to 5  screening
             6 to 7  sampling level 0
             [#####00]
             one sign a unit: # screening, 0 1 2 sampling level, . a missed stretch, ? not told
Every event from 1 to 2 was taken and none is missing.
'''
# What the summary says of the plan and of the station number; None where it says nothing.
SEEDS = {
    '0A C>00 00 0 0 0, 08 4 1 2710 0>00 00 0 0 0': ('CSP-T letter A AQL 10.0 seed 0xC, the station number', 'number 12'),
    '0A D>00 00 0 0 0, 08 4 1 2710 0>00 00 0 0 0': ('CSP-T letter A AQL 10.0 seed 0xD, the station number', 'number 13'),
    '0A FFFF>00 00 0 0 0, 08 3 1 28 1F4>00 00 0 0 0':
        ('CSP-F letter A AQL 0.04 N 500 seed 0xFFFF, the station number', 'number 65,535'),
    '0A FFFF>00 00 0 0 0, 0A 10001>09 00 0 0 0, 0A 1>00 00 0 0 0, 0A 1>00 00 0 0 0, 08 4 1 2710 0>00 00 0 0 0, 0A 2>09 00 0 0 0':
        ('CSP-T letter A AQL 10.0 seed 0x1, the station number', 'number 1, the last of 3 given'),
    '0A C>00 00 0 0 0, 08 4 1 2710 0 0>00 00 0 0 0':
        ('CSP-T letter A AQL 10.0 seed 0x0', 'number 12; the open has a seed of its own'),
    '0A 7>00 00 0 0 0, 0A C>00 00 0 0 0, 08 4 1 2710 0 C>00 00 0 0 0':
        ('CSP-T letter A AQL 10.0 seed 0xC', 'number 12, the last of 2 given; the open has a seed of its own'),
    '0A C>00 00 0 0 0, 01 1 2 2 3 0 0 0>00 00 0 0 0': ('CSP-1 n 2 i 2 S 3 seed 0x0', 'number 12; the open has a seed of its own'),
    '0A C>00 00 0 0 0, 08 1 1 2710 0>03 00 0 0 0, 02 1>02 00 0 0 0': ('no station was opened', 'number 12'),
    '0A 0>09 00 0 0 0, 08 4 1 2710 0>09 00 0 0 0': ('no station was opened', None),
    '08 4 1 2710 0 0>00 00 0 0 0, 0A C>09 00 0 0 0': ('CSP-T letter A AQL 10.0 seed 0x0', None),
    '01 1 2 2 3 0 0 0>00 00 0 0 0': ('CSP-1 n 2 i 2 S 3 seed 0x0', None),
}
# Sessions in which one answer is not the program's: which, what is said of it, and in the end of the plan and of the station
# number, which nobody knows behind such an answer. No other frame is blamed.
OUT_OF_RANGE, NEITHER = (f'refusal 9 is due here: {why}' for why in ('not from 1 to 65,535', 'neither seed nor station number'))
NO_REFUSAL, NO_OPEN = 'no refusal is due here', 'no open was accepted before it, and '
ENTRY, NEVER_OPENED = 'CSP-T letter A AQL 10.0', 'no station was opened'
SEED_NOT_TOLD, NUMBER_NOT_TOLD = f'{ENTRY}, its seed is not told', 'the number is not told'
UNNUMBERED = {
    'a number of 0': ('0A 0>00 00 0 0 0, 08 4 1 2710 0>09 00 0 0 0', 1, OUT_OF_RANGE, NEVER_OPENED, NUMBER_NOT_TOLD),
    'a number of 0 that is taken for a seed':
        ('0A 0>00 00 0 0 0, 08 4 1 2710 0>00 00 0 0 0, 07>00 01 1 0 5', 1, OUT_OF_RANGE,
         f'{SEED_NOT_TOLD}; START tells i 5', NUMBER_NOT_TOLD),
    'a number of more than 16 bits':
        ('0A C>00 00 0 0 0, 0A 10007>00 00 0 0 0, 08 4 1 2710 0>00 00 0 0 0', 2, OUT_OF_RANGE, SEED_NOT_TOLD, NUMBER_NOT_TOLD),
    'a number after an accepted open':
        ('0A C>00 00 0 0 0, 08 4 1 2710 0>00 00 0 0 0, 0A D>00 00 0 0 0, 07>00 01 1 0 5', 3,
         'refusal 9 is due here: after an accepted open', f'{ENTRY} seed 0xC, the station number; START tells i 5', 'number 12'),
    'a number of 0 after an accepted open':
        ('01 1 2 2 3 0 0 0>00 00 0 0 0, 0A 0>00 00 0 0 0', 2,
         'refusal 9 is due here: after an accepted open and not from 1 to 65,535', 'CSP-1 n 2 i 2 S 3 seed 0x0', None),
    'the first number refused': ('0A 1>09 00 0 0 0, 08 4 1 2710 0>00 00 0 0 0', 1, NO_REFUSAL, SEED_NOT_TOLD, NUMBER_NOT_TOLD),
    'the last number refused': ('0A FFFF>09 00 0 0 0, 08 4 1 2710 0>09 00 0 0 0', 1, NO_REFUSAL, NEVER_OPENED, NUMBER_NOT_TOLD),
    'a second number refused':
        ('0A C>00 00 0 0 0, 0A D>09 00 0 0 0, 08 4 1 2710 0>00 00 0 0 0', 2, NO_REFUSAL, SEED_NOT_TOLD, NUMBER_NOT_TOLD),
    'a number refused and a seed':
        ('0A C>09 00 0 0 0, 08 4 1 2710 0 5>00 00 0 0 0', 1, NO_REFUSAL, f'{ENTRY} seed 0x5', NUMBER_NOT_TOLD),
    'a number refused, and then one accepted':
        ('0A C>09 00 0 0 0, 0A D>00 00 0 0 0, 08 4 1 2710 0>00 00 0 0 0', 1, NO_REFUSAL,
         f'{ENTRY} seed 0xD, the station number', 'number 13'),
    'a number refused as a call before an open': ('0A C>02 00 0 0 0', 1, 'no numbering is refused with 2', NEVER_OPENED, NUMBER_NOT_TOLD),
    'a number refused as no plan': ('0A 10000>03 00 0 0 0', 1, 'no numbering is refused with 3', NEVER_OPENED, NUMBER_NOT_TOLD),
    'a number with an order': ('0A C>00 00 0 0 1', 1, 'only a unit is given an order', NEVER_OPENED, NUMBER_NOT_TOLD),
    'a number that is told back': ('0A C>00 0A C 0 0', 1, 'only a take tells an event', NEVER_OPENED, NUMBER_NOT_TOLD),
    'an open with neither, as before W6':
        ('08 4 1 2710 0>00 00 0 0 0, 07>00 01 1 0 5, 02 1>00 00 0 0 1', 1, NEITHER, f'{SEED_NOT_TOLD}; START tells i 5', None),
    'an open with neither, and 3 before 9': ('08 4 1 26AC 0>03 00 0 0 0', 1, NEITHER, NEVER_OPENED, None),
    'a number that a refused one made forgotten':
        ('0A C>00 00 0 0 0, 0A 0>09 00 0 0 0, 08 4 1 2710 0>09 00 0 0 0, 07>02 00 0 0 0', 3,
         f'{NO_OPEN}the station number is 12', NEVER_OPENED, 'number 12'),
    'a number that a refused open made forgotten':
        ('0A C>00 00 0 0 0, 08 4 1 26AC 0>03 00 0 0 0, 08 4 1 26AC 0>09 00 0 0 0', 3,
         f'{NO_OPEN}the station number is 12', NEVER_OPENED, 'number 12'),
    'a seed of 0 that is taken for none': ('08 4 1 2710 0 0>09 00 0 0 0', 1, f'{NO_OPEN}it has a seed', NEVER_OPENED, None),
    'frame 01 that asks for a number': ('01 1 2 2 3 0 0 0>09 00 0 0 0', 1, f'{NO_OPEN}it has a seed', NEVER_OPENED, None),
    'frame 01 with an order':
        ('01 1 2 2 3 0 0 0>00 00 0 0 1, 07>00 01 1 0 2', 1, 'only a unit is given an order', 'CSP-1 n 2 i 2 S 3 seed 0x0', None),
    'a second open with no seed, and 3 before 9':
        ('08 4 1 2710 0 0>00 00 0 0 0, 08 4 1 26AC 0>03 00 0 0 0', 2, 'refusal 9 is due here: a second open', f'{ENTRY} seed 0x0', None),
    'a second open that is accepted':
        ('0A C>00 00 0 0 0, 08 4 1 2710 0>00 00 0 0 0, 08 4 2 2710 0 0>00 00 0 0 0', 3, 'refusal 9 is due here: a second open',
         f'{ENTRY} seed 0xC, the station number', 'number 12'),
}
# Short random sessions about the open: how many, the station numbers and the seeds in them, and what they must reach.
OPENS = 300
OPEN_NUMBERS = (0, 1, 12, 13, 1_000, 65_535, 65_536, 65_548, 2 ** 31, 2 ** 32 - 1)
OPEN_SEEDS = (0, 12, 2 ** 32 - 1)
OPEN_GOALS = (
    'seed: the station number', 'seed: the last of several', 'seed: its own, with a number', 'seed: its own, and no number', 'no open',
    'refused: 9 for neither', 'refused: 9 after an open', 'refused: 3 with a number', 'wrong and caught', 'wrong, and nothing tells',
)
# What is said of accepted changes in random sessions, each once or more: whether n is the new one before and after the call.
SAID_OF_CHANGES = {
    'nothing changes': (True, True), 'at once': (False, True), 'fresh screening sequence': (False, True),
    'waits for the shift to sampling': (False, False), 'waits for the return to screening': (False, False),
}
# Weights of the calls as in `drive`: so many takes that the phase is known, and changes to say something of.
TAKEN_AT_ONCE = (40, 1, 1, 1, 1, 2, 60, 12, 1, 1)
# A row that a stored session must have.
ROWS = {
    'ill-formed-after-open': "        8  ill-formed frame: refused 9  '09'",
    'last-line-without-line-feed': "        3  ill-formed frame: refused 9  '06' with no line feed",
    'before-open': '        6  result conforming: refused 2, no station is open',
    'result-owed': '       12  result 2: refused 9, a result neither 0 nor 1',
    'open-again': 'refused 9, a second open',
    'plans-out-of-range': 'refused 3, a plan number is out of range',
    'table-absent': 'refused 3, the table has no such entry',
    'table-v-with-seed': '  plan       CSP-T letter K AQL 10.0 seed 0x12345678; START tells i 23',
    'table-iii-a-4': '  plan       CSP-F letter H AQL 0.04 N 70,001',
    'table-v-with-station-number': '  plan       CSP-T letter G AQL 2.5 seed 0x1234, the station number; START tells i 49',
    'table-iii-a-4-with-station-number': '        2  open CSP-F letter A AQL 0.04 N 500 seed 0xC, the station number',
    'station-number-neighbour-11': '  station    number 11',
    'station-number-neighbour-12': '  station    number 12',
    'station-number-replaced': '  station    number 5, the last of 6 given',
    'station-number-and-seed-0': '  station    number 40,000; the open has a seed of its own',
    'station-number-missing': 'refused 9, neither seed nor station number',
    'station-number-after-open': 'refused 9, after an accepted open',
    'station-number-refused': '        7  station number 65,537: refused 9, not from 1 to 65,535',
    'station-number-torn': "        7  ill-formed frame: refused 9  '0A 00009C40' with no line feed",
    'unit-numbers': 'refused 7, the unit number is above the limit',
    'finds-refused': 'refused 8, not in screening, or nothing is left to recall',
    'case-4-levels': 'sampling level 2',
    'markers-between-takes':
        '             7 to 26, no LONG among them: after SILENCE 6 (no unit yet), before SILENCE 27 (no unit yet)',
    'csp-t-drops-the-block': f'             [{"0" * 7}{"1" * 14}{"2" * 75}]',
    'jump-in-sampling': '             [#011.#00.#]',
    'overflow-at-the-edge': 'Event 3 was dropped, no LONG, and the marker says so; 1 to 2, 4 to 19 were taken.',
}
# What the last line says of a session of an open, two ticks and a unit, and then these calls.
VERDICTS = {
    (): 'Nothing was taken: 3 events or more are untold. Take (07) until nothing is told.',
    ('take',):
        'Event 1: taken, and none is missing. Entries are left in the queue, 2 or more: take on until nothing is told.',
    ('take',) * 3:
        'Events 1 to 3: taken, and none is missing. No take came back empty, so more may be left: take on until nothing is told.',
    ('take',) * 4: 'Every event from 1 to 3 was taken and none is missing.',
    (*('take',) * 4, 'good'):
        'Events 1 to 3: taken, and none is missing. Calls came after the last take that came back empty, so more may be left: '
        'take on until nothing is told.',
    (*('take',) * 4, 'bad'):
        'Events 1 to 3: taken, and none is missing. Entries are left in the queue, 1 or more: take on until nothing is told.',
}


def check(report, pair, options):
    stored_sessions(report)
    verdicts(report)
    changes(report)
    numbers(report)
    random_opens(report, options)
    alarms(report)
    heard = random_sessions(report, options)
    if programs.RECORDER in pair:
        by_recorder(report)
    with tempfile.TemporaryDirectory() as folder:
        os.chmod(folder, 0o755)
        ways = in_scratch(report, Path(folder))
    return (f'every stored session, {len(VERDICTS) + len(DROPPED)} verdicts, {len(WRONG)} wrong answers to changes of plan, '
            f'{len(UNNUMBERED)} to station numbers and opens, {len(FORGED)} wrong markers, {OPENS} random sessions about the open and '
            f'{heard:,} others against the model, '
            f'{ways} checks of how the commands are called and how they fail')


# ---- What it says, held to the model

def heard_of(text, answers):
    """The session that bin/session makes of frames and answers, and all that it prints."""
    session = Session()
    lines = [in_words.answer(line + b'\n') for line in answers.split(b'\n')[:-1]]
    frames = calls.read_frames(text)
    assert len(frames) == len(lines)
    rows = [session.hear(at, code, said, answer) for at, ((code, said), answer) in enumerate(zip(frames, lines), 1)]
    return session, ''.join(rows) + '\n'.join(summary.lines(session))


def stored_sessions(report):
    """Every stored session is one that a station answers, and some have a row that shows their point."""
    gone = set(ROWS) - {path.stem for path in FOLDER.glob('*.in')}
    report.check(not gone, f'no such session is stored, and it has a row to show: {gone}')
    for path in sorted(FOLDER.glob('*.in')):
        session, said = heard_of(path.read_bytes(), path.with_suffix('.out').read_bytes())
        report.check(session.journal.sound(), f'bin/session calls sessions/{path.name} impossible:\n{said[-400:]}')
        row = ROWS.get(path.stem, '')
        report.check(row in said, f'bin/session has no such row for sessions/{path.name}: {row}')
        *rows, verdict = map(len, said.splitlines())  # the verdict is one line, however much it has to say
        widest = max(rows)
        report.check(widest <= 120 and verdict <= 180, f'bin/session writes {widest} columns and a verdict of {verdict} for sessions/{path.name}')


def verdicts(report):
    for then, verdict in VERDICTS.items():
        driver = Driver(0)
        driver.open(model.CSP_1, 2, 5)
        driver.tick(2)
        driver.unit()
        for call in then:
            {'take': driver.take, 'good': lambda: driver.result(0), 'bad': lambda: driver.result(1)}[call]()
        said = heard_of(driver.text(), driver.expected())[1].splitlines()[-1]
        report.check(said == verdict, f'bin/session after {then} ends: {said}')


# ---- Plans that change

def changing():
    """A session that changes its plan in each way, and asks for what is refused."""
    script = Script()
    script.change(model.CSP_1, 5, 4, 4)
    script.open(model.CSP_1, 3, 3, 5)
    script.change(model.CSP_1, 2, 2, 2)
    script.good(3)
    script.take_all()
    script.change(model.CSP_1, 2, 9, 9, demand=1)
    script.change(model.CSP_1, 5, 4, 4)
    script.units(4)
    script.unit(script.station.last + 31)
    script.change(model.CSP_1, 5, 4, 4)
    script.result(0)
    script.take_all()
    script.change(model.CSP_2, 5, 4, 4)
    script.change(model.CSP_1, 7, 4, 4)
    script.change(model.CSP_1, 7, 5, 4, demand=1)
    script.change(model.CSP_1, 7, 5, 5, demand=2)
    script.change(model.CSP_1, 7, 5, 5)
    script.change(model.CSP_1, 3, 1, 1, demand=1)
    script.good()
    script.units(5)
    script.change(model.CSP_1, 2, 1, 1)
    script.take_all()
    return script


def changes(report):
    script = changing()
    said = heard_of(script.text(), script.expected())[1]
    report.check(in_full(said) == CHANGED, f'bin/session on changes of plan says:\n{said}')
    after_a_jump(report)
    for name, (frame, answer, why) in WRONG.items():
        answers = [*script.answers[:frame - 1], answer, *script.answers[frame:]]
        session, said = heard_of(script.text(), b''.join(map(model.written, answers)))
        row = said.splitlines()[frame - 1:frame + 1]
        noted = len(row) == 2 and row[1].lstrip().startswith('!') and why in row[1] and frame in session.journal.impossible
        report.check(noted, f'bin/session on {name} says: {row}')
    for name, turns in BYTES.items():
        frames, answers = by_hand(turns)
        session, said = heard_of(frames, answers)
        shown = session.journal.sound() and all(text in said for text in SHOWN[name])
        report.check(shown, f'bin/session on {name} says:\n{said}')
        report.check(model.run(frames) == answers, f'the model does not give these answers: {name}')


def after_a_jump(report):
    """A jump's unit came under the plan before, whether the jump or a change on that unit's result took up the next."""
    for on_result in (False, True):
        script = Script()
        script.open(model.CSP_1, 3, 3)
        script.good(3)
        if not on_result:
            script.change(model.CSP_1, 5, 4, 4)
        script.unit(9)
        script.result(0)
        if on_result:
            script.change(model.CSP_1, 5, 4, 4)
        script.units(2)
        script.take_all()
        told = heard_of(script.text(), script.expected())[0].journal.frequencies.labelled(11, [])
        parts = [(1, 9, 'one in 3'), (10, 11, 'one in 5')]
        report.check(told == parts, f'bin/session after a jump and a change says: {told}')


def by_hand(turns):
    """Frames and answers as they are written here; a number alone is a unit that is inspected and conforms."""
    whole = ', '.join(GOOD.format(turn) if turn.isdigit() else turn for turn in turns.split(', '))
    frames, answers = zip(*(turn.split('>') for turn in whole.split(', ')))
    return b''.join(written(frame, 1) for frame in frames), b''.join(written(answer, 2) for answer in answers)


def written(text, short):
    """A line with its words in full; the first few are of two digits."""
    parts = text.split()
    return ' '.join(parts[:short] + [part.zfill(8) for part in parts[short:]]).encode() + b'\n'


# ---- Station numbers

def numbers(report):
    frames, answers = by_hand(NUMBERS)
    said = heard_of(frames, answers)[1]
    report.check(in_full(said) == NUMBERED, f'bin/session on station numbers says:\n{said}')
    report.check(model.run(frames) == answers, f'the model does not give these answers: {NUMBERS}')
    seeds(report)
    wrong_numbers(report)


def seeds(report):
    for turns, due in SEEDS.items():
        frames, answers = by_hand(turns)
        session, said = heard_of(frames, answers)
        shown = part(said, 'plan'), part(said, 'station')
        report.check(session.journal.sound() and shown == due, f'bin/session after {turns} says: {shown}\n{said}')
        report.check(model.run(frames) == answers, f'the model does not give these answers: {turns}')


def wrong_numbers(report):
    for name, (turns, frame, why, *due) in UNNUMBERED.items():
        frames, answers = by_hand(turns)
        session, said = heard_of(frames, answers)
        note, bad = said.splitlines()[frame], session.journal.impossible
        noted = note.lstrip().startswith('!') and note.endswith(f': {why}') and bad == [frame]
        report.check(noted, f'bin/session on {name} says: {note}, and frames {bad} cannot be')
        shown = [part(said, 'plan'), part(said, 'station')]
        report.check(shown == due, f'bin/session after {name} says: {shown}')
        right = model.run(frames).split(b'\n')[frame - 1]
        report.check(right != answers.split(b'\n')[frame - 1], f'the model gives this answer too: {name}')


class Opens(Script):
    """Station numbers and opens in any order, some of them refused, and takes between."""

    def __init__(self, seed):
        super().__init__()
        self.random = random.Random(seed)
        for _ in range(self.random.randrange(1, 12)):
            self.line(self.frame())

    def frame(self):
        choice = self.random.choice
        entry = 8, model.CSP_T, 1, choice((9_900, 10_000)), 0
        return words(*choice((
            (model.STATION_NUMBER, choice(OPEN_NUMBERS)), (model.STATION_NUMBER, choice(OPEN_NUMBERS)), entry, entry,
            (*entry, choice(OPEN_SEEDS)), (1, model.CSP_1, choice((1, 2)), 2, 3, 0, 0, choice(OPEN_SEEDS)), (7,),
        )))


def random_opens(report, options):
    reached = Counter()
    for at in range(OPENS):
        script = Opens(f'{options.seed}-opens-{at}')
        session, said = heard_of(script.text(), script.expected())
        report.check(session.journal.sound(), f'bin/session calls session {at} about the open impossible:\n{said}')
        reached.update(seeds_said(report, f'session {at} about the open', script, said))
        reached.update(open_refused(script))
        reached.update([another_refusal(report, at, script)])
    report.reached(reached, OPEN_GOALS)


def seeds_said(report, name, script, said):
    """The seed of the open and the station number are the model's; what they show."""
    taken, numbers_given = seed_taken(script), numbers_taken(script)
    shown = re.search(r'seed 0x([0-9A-F]+)(, the station number)?(?:; START tells i [\d,]+)?$', part(said, 'plan'))
    told = (int(shown[1], 16), bool(shown[2])) if shown else None
    report.check(told == taken, f'{name} says of the seed {part(said, "plan")}, and {taken} is due')
    own = taken is not None and not taken[1]
    of = f', the last of {len(numbers_given)} given' if len(numbers_given) > 1 else ''
    due = f'number {numbers_given[-1]:,}{of}{"; the open has a seed of its own" if own else ""}' if numbers_given else None
    report.check(part(said, 'station') == due, f'{name} says of the station {part(said, "station")}, and {due} is due')
    if taken is None:
        return ['no open']
    if own:
        return ['seed: its own, with a number' if numbers_given else 'seed: its own, and no number']
    return ['seed: the last of several' if len(set(numbers_given)) > 1 else 'seed: the station number']


def seed_taken(script):
    """The seed that the model has right after the open, and whether the frame left it off; None where none was accepted."""
    program = model.Program()
    for line in script.lines:
        program.answer(line)
        if program.station:
            return program.station.s, line.count(b' ') == 4
    return None


def numbers_taken(script):
    """The station numbers that were accepted."""
    return [int(line[3:], 16) for line, answer in zip(script.lines, script.answers) if line.startswith(b'0A') and answer == model.DONE]


def open_refused(script):
    """Which refusals an open without seed has got, and why."""
    opened = False
    for line, (refusal, *_) in zip(script.lines, script.answers):
        if line.startswith(b'08') and line.count(b' ') == 4 and refusal:
            yield 'refused: 3 with a number' if refusal == 3 else f'refused: 9 {"after an open" if opened else "for neither"}'
        opened = opened or (line[:2] in (b'01', b'08') and not refusal)


def another_refusal(report, at, script):
    """One answer with another refusal is called wrong, and none before it; but whether a plan is in range no frame tells."""
    place = script.random.randrange(len(script.answers))
    was = script.answers[place][0]
    other = script.random.choice([refusal for refusal in (0, 2, 3, 9) if refusal != was])
    answers = [*script.answers[:place], model.refused(other), *script.answers[place + 1:]]
    bad = heard_of(script.text(), b''.join(map(model.written, answers)))[0].journal.impossible
    untold = {was, other} == {0, 3} and script.lines[place][:2] in (b'01', b'08')
    good = min(bad, default=0) != place + 1 if untold else min(bad, default=0) == place + 1
    report.check(good, f'session {at} about the open, with {other} for {was} in frame {place + 1}: frames {bad} cannot be')
    return 'wrong, and nothing tells' if untold else 'wrong and caught'


def in_full(said):
    """What the command prints of a session, from the rows and the summary."""
    return HEAD + said.replace('\nSummary', '\n\nSummary') + '\n'


def part(said, label):
    """A line of the summary, or None where it has none of this label."""
    return next((line[13:] for line in said.splitlines() if line.startswith(f'  {label} ')), None)


# ---- Alarms that were lost

def alarms(report):
    script = check_journal.losing()
    said = heard_of(script.text(), script.expected())[1]
    rows = ''.join(row for row, answer in zip(said.splitlines(keepends=True), script.answers) if answer[1])
    report.check(f'{HEAD}{rows}\n{said[said.index("Summary"):]}\n' == LOST, f'bin/session on lost alarms says:\n{said}')
    for calls_made, due in DROPPED.items():
        script = Script()
        script.open(model.CSP_1, 2, 1)
        script.bad()
        for takes, ticks in calls_made:
            if takes:
                script.take(takes)
            script.tick(ticks)
            script.take_all()
        said = heard_of(script.text(), script.expected())[1].splitlines()
        closing = [line for line in said if line.startswith('ALARM LOST')] + said[-1:]
        report.check(closing == due, f'bin/session after takes and ticks {calls_made} closes with: {closing}')
    forged_markers(report)


def forged_markers(report):
    for type, calls_made in dict.fromkeys((type, calls_made) for type, calls_made, *_ in FORGED.values()):
        script = with_a_marker(type, calls_made)
        session, said = heard_of(script.text(), script.expected())
        report.check(session.journal.sound(), f'bin/session does not take a marker that is right:\n{said}')
    for name, (type, calls_made, take, answer, count, why) in FORGED.items():
        script = with_a_marker(type, calls_made)
        kinds = [kind for _, kind, *_ in script.answers]
        frame = kinds.index(model.MARKER) + take
        answers = [*script.answers[:frame], answer, *script.answers[frame + 1:]]
        session, said = heard_of(script.text(), b''.join(map(model.written, answers)))
        note, bad = said.splitlines()[frame + 1], session.journal.impossible
        noted = note.lstrip().startswith('!') and why in note and bad == [*range(frame + 1, frame + 1 + count)]
        report.check(noted, f'bin/session on {name} says: {note}, and frames {bad} cannot be')
        counted = session.journal.alarms.told == kinds.count(model.LONG) and 'ALARM LOST' not in said
        report.check(counted, f'bin/session counts what cannot be, on {name}:\n{said}')
    one_too_many(report)


def one_too_many(report):
    """A marker that counts one LONG more than it names, where units enough have come: the last LONG behind it is one too many."""
    script = Script()
    script.open(model.CSP_1, 2, 1)
    script.unit(50)
    script.result(1)
    script.tick(10)
    script.bad(2)
    script.take_all()
    at = len(script.answers) - 1
    script.bad()
    script.take_all()
    answers = [(*answer[:3], answer[3] + (answer[1] == model.MARKER), answer[4]) for answer in script.answers]
    session, said = heard_of(script.text(), b''.join(map(model.written, answers)))
    good = session.journal.impossible == [at] and 'that makes 4 LONG with 3 defective results' in said
    report.check(good, f'bin/session on a marker that counts one LONG too many says:\n{said}')


def with_a_marker(type, calls_made):
    script = Script()
    script.open(type, 2, 1, N=100 if type == model.CSP_F else 0)
    ticks, first, more = MARKED[calls_made]
    if ticks:
        script.tick(ticks)
    script.bad(first)
    script.take_all()
    script.bad(more)
    script.take_all()
    return script


# ---- Random sessions

class Witness(check_journal.Witness):
    """A random session that writes down the phase that each unit was handled in, and n before and after each call."""

    def __init__(self, seed):
        super().__init__(seed)
        self.handled = {}
        self.around = []

    def line(self, text):
        last, n = (self.station.last, self.station.n) if self.station else (0, 0)
        answer = super().line(text)
        self.around.append((n, self.station.n if self.station else 0))
        if self.station and self.station.last > last:
            level = 1 + self.station.level if self.station.phase else 0
            self.handled.update({unit: phases.NOT_SEEN for unit in range(last + 1, self.station.last)})
            self.handled[self.station.last] = in_words.PHASES[level]
        return answer


class Alarming(Witness, check_journal.Alarming):
    """One that drops alarms."""


def random_sessions(report, options):
    """The tallies are the model's, a phase that is told is right, and a session that was taken to its end tells all."""
    count = max(20, options.count // 15)
    told = caught = lost = 0
    said_of_changes = Counter()
    for at in range(count):
        witness = (Alarming if at % 4 == 2 else Witness)(f'{options.seed}-session-{at}')
        witness.near_the_limit = lambda: None  # a million missed units make a slow witness
        if at % 2:
            witness.weights = TAKEN_AT_ONCE
        text = witness.drive()
        session, said = heard_of(text, witness.expected_for(text))
        report.check(session.journal.sound(), f'bin/session calls random session {at} impossible: {said.splitlines()[-1]}')
        told += against_model(report, at, witness, session, said.splitlines()[-1])
        lost += alarms_said(report, at, witness, session, said)
        seeds_said(report, f'random session {at}', witness, said)
        caught += one_wrong_answer(report, at, witness, text)
        said_of_changes.update(changes_said(report, at, witness, text, said))
        waiting = session.waiting()
        waits = waiting is None or waiting == calls.plan(*model.waiting_plan(witness.station))
        report.check(waits, f'random session {at} has the wrong plan waiting: {waiting}')
        wrong, _ = witness.judge(session.journal.frequencies.stretches)
        report.check(not wrong, f'random session {at} has the wrong frequency: {wrong[:2]}')
    report.reached(said_of_changes, SAID_OF_CHANGES)
    report.check(told > 0, 'no random session told every phase')
    report.check(lost > 0, 'no random session lost an alarm')
    report.check(caught > count * 2 // 3, f'of {count} sessions with one wrong answer {caught} are caught')
    return count


def changes_said(report, at, witness, text, said):
    """What the rows of the accepted changes end with, each held to n before and after the call."""
    rows = said.splitlines()
    for frame, (code, words) in enumerate(calls.read_frames(text)):
        if code == calls.CHANGE and witness.answers[frame] == model.DONE:
            ending = next((ending for ending in SAID_OF_CHANGES if rows[frame].endswith(ending)), None)
            is_new = tuple(n == words[1] for n in witness.around[frame])
            good = ending is None or SAID_OF_CHANGES[ending] == is_new
            report.check(good, f'random session {at} says of a change: {rows[frame]}, and n is {witness.around[frame]}')
            yield ending


def alarms_said(report, at, witness, session, said):
    """How many alarms were dropped. They and those told are the ones raised up to the last event that was taken."""
    last, kinds = session.journal.last, [kind for _, kind, *_ in witness.answers]
    told = kinds.count(model.LONG)
    lost = witness.raised()[:last].count(model.LONG) - told
    due = [f'  alarms     {check_journal.alarms_due(last, told, lost, model.MARKER in kinds)}'] if last else []
    shown = [line for line in said.splitlines() if line.startswith('  alarms ')]
    loud = said.splitlines()[-2].startswith(f'ALARM LOST: {lost:,} LONG w')
    report.check(shown == due and loud == (lost > 0), f'random session {at} says of alarms {shown}, and {due} is due')
    by_stretch = sum(gap['long'] for gap in session.gaps)
    report.check(by_stretch == lost, f'random session {at} has {by_stretch} LONG in the stretches dropped, and {lost} were')
    return lost


def one_wrong_answer(report, at, witness, text):
    """A session with one answer changed is still told to its end; whether the change was found."""
    answers = list(witness.answers)
    chosen = witness.random
    place, word = chosen.randrange(len(answers)), chosen.randrange(5)
    change = chosen.choice((0, 1, 2, 3, 4, 5, 6, 7, 8, 9, 10, 11, 2 ** 8 - 1 if word < 2 else 2 ** 32 - 1))
    answers[place] = (*answers[place][:word], change, *answers[place][word + 1:])
    session, said = heard_of(b''.join(line + b'\n' for line in witness.lines), b''.join(map(model.written, answers)))
    report.check(said.splitlines()[-1].endswith('.'), f'random session {at} with a wrong answer has no verdict')
    return answers[place] != witness.answers[place] and not session.journal.sound()


def against_model(report, at, witness, session, verdict):
    """Whether a session has all phases told; what it says is held to the witness."""
    station, tally = witness.station, session.tally
    counts = (tally.conforming, tally.defective, tally.passed, tally.unseen(), tally.owed, tally.last)
    known = (station.conforming, station.defective, station.passed, station.missed, station.owed, station.last)
    report.check(counts == known, f'random session {at} has the tallies {counts}, and the model {known}')
    labels = {unit: label for first, last, label in session.stretches() for unit in range(first, last + 1)}
    wrong = [unit for unit in witness.handled if labels.get(unit) not in (phases.NOT_TOLD, witness.handled[unit])]
    report.check(len(labels) == tally.last and not wrong, f'random session {at} has the wrong phase for unit {wrong[:1]}')
    whole = station.told == station.next
    promised = verdict.startswith('Every event from 1') or verdict.endswith('were taken.')
    report.check(whole or not promised, f'random session {at} is not taken to its end, and it says: {verdict}')
    said = f'random session {at} is taken to its end, and it says: {verdict}'
    report.check(not whole or 'Entries are left' not in verdict, said)
    every = promised and not session.gaps
    untold = every and phases.NOT_TOLD in labels.values()
    report.check(not untold, f'random session {at} took every event and leaves a phase untold')
    return every


# ---- With the recorder

def command(name, *options, **more):
    return subprocess.run([sys.executable, str(ROOT / 'bin' / name), *options], capture_output=True, **more)


def by_recorder(report):
    """The recorder itself, from the example and from standard input; the first run may have to ask rt about it."""
    first = command('session', '--summary')
    report.check(first.returncode == 0, f'bin/session does not run the recorder: {first.stderr.decode()}')
    expect(report, 'the example', command('session'), 0, EXAMPLE)
    expect(report, 'case 9', command('session', '--summary', str(FOLDER / 'case-9-ten-ticks.in')), 0, CASE_9)
    rows = EXAMPLE.splitlines(keepends=True)
    events = ''.join([rows[0], *rows[10:14], *rows[15:]])
    text = (FOLDER / 'example.in').read_bytes()
    expect(report, 'standard input', command('session', '--events', '-', input=text), 0, events)
    expect(report, 'changes of plan', command('session', '-', input=changing().text()), 0, CHANGED)
    expect(report, 'station numbers', command('session', '-', input=by_hand(NUMBERS)[0]), 0, NUMBERED)
    expect(report, 'lost alarms', command('session', '--events', '-', input=check_journal.losing().text()), 0, LOST)


def expect(report, name, done, status, said):
    """The status and all of standard output, and not a word on standard error."""
    good = done.returncode == status and done.stdout.decode() == said and not done.stderr
    report.check(good, f'{name} ends with {done.returncode}:\n{done.stdout.decode()}{done.stderr.decode()}')


# ---- A scratch repository and a kit of shell scripts

RT = '''\
#!/bin/sh
kit='{kit}'
[ -f "$kit/broken" ] && {{ echo 'rt: no toolchain' >&2; exit 2; }}
name=$(basename "$PWD")
made=out/$name
sums() {{ cat src/* ../base/src/* "$made" 2>/dev/null | cksum; }}
case $1 in
doc) echo "$kit/START-HERE.md" ;;
lib | run)
    echo "$name" >>"$kit/asked"
    [ -f "$kit/slow" ] && sleep 0.5
    [ -f "$kit/hang" ] && {{ sleep 300 & echo $! >"$kit/child"; wait; }}
    [ -f "$kit/fail" ] && {{ printf '%s\n' "fn $name::f: proved" "fn $name::g: not proved" 'logic=not-proved'; exit 1; }}
    [ -f "$kit/full" ] && {{ echo 'rattle: cannot write: No space left on device'; exit 2; }}
    mkdir -p out
    if [ "$(sums)" != "$(cat "$made.stamp" 2>/dev/null)" ]; then
        rm -f "$made.stamp"
        [ "$1" = lib ] || cp "$kit/recorder" "$made"
        echo "logic=proved crate=$name"
        [ -f "$kit/edited" ] || sums >"$made.stamp"
    fi
    [ "$1" = lib ] || {{ echo "rt: running $made; to give it other input, run that file yourself"; "$made"; }} ;;
esac
'''
NOTHING = '00 00 00000000 00000000 00000000'
STORED = 'cat >/dev/null; cat "$(dirname "$0")/../../../sessions/example.out"'  # a recorder for one session
# Runs a command as if something were otherwise.
AS_IF = '''\
import os, platform, runpy, sys
access = os.access
{}
sys.argv = sys.argv[1:]
runpy.run_path(sys.argv[0], run_name='__main__')
'''
# A superuser may write whatever the modes say.
READ_ONLY = 'os.access = lambda path, mode, **more: mode != os.W_OK and access(path, mode, **more)'
ANOTHER_PROCESSOR = 'platform.machine = lambda: "aarch64"'


class Scratch:
    """A repository with two crates and a recorder that gives stored answers, in a folder whose name has a space."""

    def __init__(self, folder):
        self.root, self.kit = folder / 'a repository', folder / 'a kit'
        self.made, self.seal = self.root / 'crates' / 'recorder' / 'out' / 'recorder', self.root / 'build' / 'seal' / 'recorder'
        self.log = self.root / 'build' / 'log' / 'bin-session.log'
        for part in ('bin', 'sessions'):
            shutil.copytree(ROOT / part, self.root / part, ignore=shutil.ignore_patterns('__pycache__'))
        self.write(self.root / 'tests' / 'programs.py', (ROOT / 'tests' / 'programs.py').read_text())
        self.write(self.root / 'crates.txt', '# two crates\nbase:\nrecorder: base io\n')
        self.write(self.root / 'crates' / 'base' / 'src' / 'lib.rt', 'one')
        self.write(self.root / 'crates' / 'recorder' / 'src' / 'main.rt', 'one')
        self.write(self.kit / 'START-HERE.md', 'a page')
        self.write(self.kit / 'KIT-ID', 'a kit')
        self.write(self.kit / 'path' / 'rt', RT.format(kit=self.kit), 0o755)
        self.recorder(STORED)
        self.patience('1000')

    def patience(self, seconds):
        """How long rt may take with no line shown: a busy machine must not make a difference here."""
        path = self.root / 'bin' / 'lib' / 'proving.py'
        text, count = re.subn(r'(?m)^AT_ONCE = \S+', f'AT_ONCE = {seconds}', path.read_text())
        assert count == 1
        path.write_text(text)

    def write(self, path, text, mode=0o644):
        path.parent.mkdir(parents=True, exist_ok=True)
        path.write_text(text)
        path.chmod(mode)

    def recorder(self, script):
        """What rt makes from now on."""
        self.write(self.kit / 'recorder', f'#!/bin/sh\n{script}\n', 0o755)

    def remake(self, script):
        """Has the recorder made of this script."""
        self.recorder(script)
        self.forget()

    def forget(self):
        """Nothing is proved and nothing is built."""
        for folder in (self.root / 'build', *self.root.glob('crates/*/out')):
            shutil.rmtree(folder, ignore_errors=True)

    def environment(self, **more):
        known = {name: value for name, value in os.environ.items() if name not in NOT_PASSED_ON}
        return {**known, 'PATH': f'{self.kit / "path"}:{os.environ["PATH"]}', **more}

    def run(self, name, *options, **more):
        words = [sys.executable, str(self.root / 'bin' / name), *map(str, options)]
        return subprocess.run(words, **{'capture_output': True, 'env': self.environment(), 'timeout': PATIENCE, **more})

    def run_as_if(self, otherwise, name, *options):
        words = [sys.executable, '-c', AS_IF.format(otherwise), str(self.root / 'bin' / name), *options]
        return subprocess.run(words, env=self.environment(), capture_output=True, timeout=PATIENCE)

    def asked(self):
        """The crates that rt was asked to prove since the last time."""
        path = self.kit / 'asked'
        lines = path.read_text().split() if path.exists() else []
        path.unlink(missing_ok=True)
        return lines

    def flag(self, name, on=True):
        path = self.kit / name
        path.touch() if on else path.unlink()


def in_scratch(report, folder):
    """Each way in its turn, after the one that works; how many there are."""
    scratch = Scratch(folder)
    done = scratch.run('session')
    works = done.returncode == 0 and done.stdout.decode() == EXAMPLE and not done.stderr
    report.check(works, f'the scratch repository does not work: {done.stdout.decode()}{done.stderr.decode()}')
    before = report.passed + report.failed
    for way in (files, ages, recorders, kits, calls_from_anywhere, outputs, read_only, proofs, interrupted):
        way(report, scratch)
    return report.passed + report.failed - before


def fails(report, name, done, status, *said):
    """A status, nothing on standard output, and one line on standard error with these words in it."""
    error = done.stderr.decode()
    good = done.returncode == status and not done.stdout and error.count('\n') == 1 and all(text in error for text in said)
    report.check(good, f'{name}: it ends with {done.returncode}:\n{done.stdout.decode()[:400]}{error}')


def same(report, name, done, out):
    """The bytes on standard output, and not a word on standard error."""
    report.check((done.returncode, done.stdout, done.stderr) == (0, out, b''), f'{name}: {done.returncode}: {done.stderr!r}')


def files(report, scratch):
    """What is no file of frames is refused, and nothing is run."""
    folder, crlf, answers = scratch.root / 'sessions', scratch.root / 'crlf.in', scratch.root / 'sessions' / 'example.out'
    example = (folder / 'example.in').read_bytes()
    crlf.write_bytes(example.replace(b'\n', b'\r\n'))
    scratch.asked()
    scratch.seal.unlink()
    fails(report, 'a folder', scratch.run('session', folder), 2, 'is a folder')
    fails(report, 'no file', scratch.run('session', folder / 'none.in'), 2, 'cannot read', 'No such file')
    fails(report, 'an empty file', scratch.run('session', folder / 'no-input.in'), 2, 'is empty')
    fails(report, 'CR LF', scratch.run('session', crlf), 2, 'CR LF', 'tr -d')
    fails(report, 'answers', scratch.run('session', answers), 2, 'bin/journal reads answers')
    fails(report, 'torn answers', scratch.run('session', '-', input=answers.read_bytes()[:-9]), 2, 'bin/journal reads answers')
    fails(report, 'a closed input', scratch.run('session', '-', preexec_fn=lambda: os.close(0)), 2, 'standard input is closed')
    report.check(scratch.asked() == [], 'bin/session asks rt before it has looked at its file')
    one_return = {b'07\r\n06\n': b"  ill-formed frame: refused 9  '07\\r'\n", b'07\r': b"  '07\\r' with no line feed\n"}
    for text, row in one_return.items():
        scratch.remake(f'cat >/dev/null; printf "%s" "{model.run(text).decode()}"')
        done = scratch.run('session', '-', input=text)
        report.check(done.returncode == 0 and row in done.stdout, f'a single CR: {done.stdout!r}{done.stderr!r}')
    scratch.remake(STORED)


def ages(report, scratch):
    """A recorder is run at once while it is what its sources make, and is made anew as soon as it may not be."""
    scratch.asked()
    source, made = scratch.root / 'crates' / 'base' / 'src' / 'lib.rt', scratch.made

    def runs(name, asked):
        done = scratch.run('session')
        asks = scratch.asked()
        ran = done.returncode == 0 and done.stdout.decode() == EXAMPLE
        report.check(ran and asks == asked, f'{name}: rt was asked {asks}: {done.stderr!r}')

    runs('no recorder', ['base', 'recorder'])
    runs('a recorder that is sealed', [])
    source.touch()
    os.utime(source, (time.time() + 100, time.time() + 100))
    runs('a source with a new time and the same text', [])
    source.write_text('two')
    os.utime(source, (1, 1))
    runs('a source with an old time and another text', ['base', 'recorder'])
    made.write_text('#!/bin/sh\nexit 3\n')
    runs('a recorder that was written over', ['base', 'recorder'])
    old = made.stat().st_mtime - 1_000
    made.write_text('#!/bin/sh\nexit 3\n')
    os.utime(made, (old, old))
    runs('an old recorder put back', ['base', 'recorder'])
    made.unlink()
    runs('a recorder that is gone, where rt finds its sources unchanged', ['base', 'recorder'])
    scratch.flag('edited')
    source.write_text('edited')
    runs('a source that changes while rt builds', ['base', 'recorder'])
    scratch.flag('edited', on=False)
    runs('a recorder that rt cannot vouch for', ['base', 'recorder'])
    runs('a recorder that rt vouches for', [])
    run_refuses(report, scratch, source)


def run_refuses(report, scratch, source):
    """bin/run runs no program that is older than its sources, unless it is told to."""
    frames = (scratch.root / 'sessions' / 'example.in').read_bytes()
    answers = (scratch.root / 'sessions' / 'example.out').read_bytes()
    for name in ('a sealed recorder', 'no seal, and no newer source'):
        same(report, f'bin/run with {name}', scratch.run('run', 'recorder', input=frames), answers)
        scratch.seal.unlink(missing_ok=True)
    os.utime(source, (time.time() + 100, time.time() + 100))
    done = scratch.run('run', 'recorder', input=frames)
    fails(report, 'bin/run and a newer source', done, 2, 'is older than crates/base/src/lib.rt', '--prove')
    for option in ('--as-it-is', '--prove'):
        same(report, f'bin/run {option}', scratch.run('run', option, 'recorder', input=frames), answers)
    source.write_text('three')
    os.utime(source, (1, 1))
    fails(report, 'bin/run and another source', scratch.run('run', 'recorder', input=frames), 2, 'made of other sources')
    fails(report, 'bin/run and no program', scratch.run('run', 'none'), 2, 'is not built')


def recorders(report, scratch):
    """A recorder that fails, dies, or gives too few or too many answers."""
    answers, line = STORED, NOTHING
    for name, script, status, *said in (
        ('a status', f'{answers}; echo oh dear >&2; exit 7', 7, 'ended with status 7', '14 of 14', 'oh dear'),
        ('a signal', f'{answers} | head -n 3; kill -KILL $$', 128 + signal.SIGKILL, 'signal 9', '3 of 14 answers'),
        ('too few answers', f'{answers} | head -n 13', 1, '13 answers to 14 frames'),
        ('too many answers', f'{answers}; echo "{line}"', 1, '15 answers to 14 frames'),
        ('no answers', 'cat >/dev/null', 1, '0 answers to 14 frames'),
        ('a torn answer', f'{answers} | head -n 13; printf "{line}"', 1, '13 answers to 14 frames'),
        ('a line that is no answer', f'{answers} | sed "3s/.*/hello/"', 1, 'answer to frame 3', 'hello'),
    ):
        scratch.remake(script)
        fails(report, f'a recorder with {name}', scratch.run('session'), status, *said)
    wrong_answers(report, scratch)
    scratch.remake(STORED)


def wrong_answers(report, scratch):
    """A recorder whose answers are not those of a station; each is the stored session with one line changed."""
    for name, change, said in (
        ('an order to a result', '3s/0$/1/', 'only a unit is given an order'),
        ('an event to a unit', '2s/^00 00/00 06/', 'only a take tells an event'),
        ('a refusal that a take never gets', '14s/^00/04/', 'no take is refused with 4'),
        ('a second START', '11s/.*/00 01 00000002 00000000 00000002/', 'a second START'),
        ('an event that cannot be', '11s/1$/2/', 'no step leads'),
        ('a lost event', '11s/00000002/00000003/', 'missing before this: 2'),
        ('alarms past a lost event', '11s/00000002/00000003/', 'whether one was lost is not told: event 2 is missing'),
        ('a refusal that is none', '2s/^00/0B/', 'no unit is refused with 11'),
        ('a journal that is kept back', f'10s/.*/{NOTHING}/', '2 events or more are untold'),
        ('another plan than was opened', '10s/2$/3/', 'the calls raise START with unit 0 here'),
        ('an event that no call raised', '11s/.*/00 06 00000002 00000001 00000001/', 'the calls raise MISSED with unit 5 here'),
        ('an event of a kind that is none', '10s/^00 01/00 0B/', 'there is no kind 11'),
        ('a plan that takes force with no change', '12s/.*/00 0A 00000003 00000004 00000003/', 'only a higher frequency'),
        ('a plan that nobody asked for', '11s/.*/00 0A 00000002 00000001 00000003/', 'no change that was taken asks for one in 3'),
        ('a marker that names nothing', '10s/.*/00 09 00000001 00000000 00000000/', 'names one number or more'),
        ('a marker that counts LONG for START', '10s/.*/00 09 00000001 00000001 00000001/', 'event 1 is START'),
        ('a marker that counts LONG with no defect', '10s/.*/00 09 00000001 00000001 00000003/', 'with 0 defective results'),
        ('a unit that has not come', '13s/00000006/00000007/', 'calls for unit 6'),
        ('an order that is due no more', '14s/.*/09 00 00000000 00000000 00000000/', 'no take is refused with 9'),
        ('a refusal that is not due', '4s/.*/04 00 00000000 00000000 00000000/', 'no refusal is due here'),
        ('an event more at the end', '14s/.*/00 06 00000005 00000006 00000001/', 'no call has raised it'),
    ):
        scratch.remake(f'{STORED} | sed "{change}"')
        done = scratch.run('session')
        noted = done.returncode == 1 and said in done.stdout.decode() and not done.stderr
        report.check(noted, f'{name}: {done.returncode}:\n{done.stdout.decode()}')


def kits(report, scratch):
    """No rt, an rt that does not work, and a machine that the kit makes no programs for, though a recorder is there."""
    report.check(scratch.run('session').returncode == 0, 'the scratch recorder is not there')
    none = scratch.environment(PATH=str(scratch.root))
    for name in ('session', 'run'):
        options = ('recorder',) if name == 'run' else ()
        fails(report, f'bin/{name} with no rt', scratch.run(name, *options, env=none), 2, 'rt is not on the path', 'Rattle kit')
        scratch.flag('broken')
        fails(report, f'bin/{name} with a broken kit', scratch.run(name, *options), 2, 'Rattle kit', 'no toolchain')
        scratch.flag('broken', on=False)
        elsewhere = scratch.run_as_if(ANOTHER_PROCESSOR, name, *options)
        fails(report, f'bin/{name} on another processor', elsewhere, 2, 'Rattle kit', 'this machine is aarch64')


def calls_from_anywhere(report, scratch):
    """Help; a symbolic link; another folder; CDPATH."""
    elsewhere = scratch.kit / 'else where'
    elsewhere.mkdir()
    frames = (scratch.root / 'sessions' / 'example.in').read_bytes()
    for name in COMMANDS:
        for option in ('-h', '--help'):
            done = scratch.run(name, option)
            usage = done.stdout.startswith(f'usage: bin/{name} '.encode()) and b'Exit status' in done.stdout
            helps = done.returncode == 0 and usage and not done.stderr
            report.check(helps, f'bin/{name} {option}: {done.stdout!r}{done.stderr!r}')
        done = scratch.run(name, '--no-such-option')
        report.check(done.returncode == 2 and b'usage: ' in done.stderr and not done.stdout, f'bin/{name} takes any option')
        path, link = os.path.relpath(scratch.root / 'bin' / name, elsewhere), elsewhere / name
        link.symlink_to(path)
        options = {'session': ['-'], 'journal': [], 'run': ['recorder']}[name]
        straight = scratch.run(name, *options, input=frames)
        where = {'cwd': elsewhere, 'env': scratch.environment(CDPATH=f'{elsewhere}:{scratch.root}:/')}
        for way in (f'./{name}', path):
            done = subprocess.run([way, *options], input=frames, capture_output=True, timeout=PATIENCE, **where)
            alike = (done.returncode, done.stdout, done.stderr) == (straight.returncode, straight.stdout, straight.stderr)
            report.check(alike and done.stdout, f'{way} in another folder: {done.returncode}: {done.stderr!r}')


def outputs(report, scratch):
    """A full disk and a closed output are said in one line; a reader that went away ends it without a word."""
    long = scratch.root / 'long.out'
    long.write_bytes(model.written((0, 0, 0, 0, 1)) * 20_000)
    for name, options in {'session': (), 'journal': (long,), 'run': ('--help',)}.items():
        # a write fails at once, or when what was kept is written in the end
        for option, unbuffered in ((options, ''), (options, '1'), (('--help',), '')):
            environment = scratch.environment(PYTHONUNBUFFERED=unbuffered)
            with open('/dev/full', 'wb') as full:
                done = scratch.run(name, *option, capture_output=False, stdout=full, stderr=subprocess.PIPE, env=environment)
            said = f'bin/{name}: cannot write the output: No space left on device\n'.encode()
            report.check((done.returncode, done.stderr) == (2, said), f'bin/{name} {option} on a full disk: {done.stderr!r}')
        closed_outputs(report, scratch, name, options)


def closed_outputs(report, scratch, name, options):
    done = scratch.run(name, *options, capture_output=False, stderr=subprocess.PIPE, preexec_fn=lambda: os.close(1))
    said = done.returncode == 2 and b'output is closed' in done.stderr
    report.check(said, f'bin/{name} with a closed output: {done.returncode}: {done.stderr!r}')
    reading, writing = os.pipe()
    os.close(reading)
    done = scratch.run(name, *options, capture_output=False, stdout=writing, stderr=subprocess.PIPE)
    os.close(writing)
    quiet = done.returncode == -signal.SIGPIPE and not done.stderr
    report.check(quiet, f'bin/{name} with no reader: {done.returncode}: {done.stderr!r}')


def read_only(report, scratch):
    """A checkout that cannot be written runs a recorder that is there, and says why it cannot make one."""
    scratch.run('session')
    scratch.seal.unlink()

    def run():
        return scratch.run_as_if(READ_ONLY, 'session')

    done = run()
    ran = done.returncode == 0 and done.stdout.decode() == EXAMPLE
    ran = ran and done.stderr.count(b'\n') == 1 and b'cannot be written' in done.stderr
    report.check(ran, f'bin/session on a read-only checkout: {done.returncode}: {done.stderr!r}')
    os.utime(scratch.made, (1, 1))
    fails(report, 'a read-only checkout with an old recorder', run(), 2, 'is older than', 'cannot be written')
    scratch.forget()
    fails(report, 'a read-only checkout with no recorder', run(), 2, 'is not built yet', 'cannot be written')
    (scratch.root / 'build').write_text('in the way')
    fails(report, 'a build that is no folder', scratch.run('session'), 2, 'build')
    (scratch.root / 'build').unlink()


def proofs(report, scratch):
    """A line for each crate that takes its time; a failed proof shows what rt said of it."""
    scratch.flag('slow')
    scratch.patience('0')
    done = scratch.run('session')
    shown = re.fullmatch(PROVING, done.stderr.decode()) and done.stdout.decode() == EXAMPLE
    report.check(shown, f'bin/session shows of its proofs:\n{done.stderr.decode()}')
    logged, answers = scratch.log.read_text(), (scratch.root / 'sessions' / 'example.out').read_text()
    report.check(logged == PROVED + answers, f'the log of the proofs has: {logged!r}')
    scratch.seal.unlink()
    found = scratch.run('session').stderr.decode().count(' .. found unchanged in ')
    report.check(found == 2, f'bin/session finds {found} crates unchanged where 2 are')
    scratch.flag('slow', on=False)
    scratch.patience('1000')
    scratch.flag('fail')
    (scratch.root / 'crates' / 'base' / 'src' / 'lib.rt').write_text('wrong')
    done = scratch.run('session')
    said = done.stderr.decode()
    failed = said.startswith('    fn base::g: not proved\nbin/session: base was not proved: rt ended with 1')
    report.check(failed and done.returncode == 1 and not done.stdout, f'bin/session on a failed proof: {done.returncode}: {said}')
    scratch.flag('fail', on=False)
    scratch.flag('full')
    fails(report, 'a disk that fills up', scratch.run('session'), 2, 'base was not proved', 'is full')
    scratch.flag('full', on=False)
    with open(scratch.log, 'ab') as log:
        fcntl.flock(log, fcntl.LOCK_EX)
        fails(report, 'two provers', scratch.run('session'), 2, 'another command is proving here')
    report.check(scratch.run('session').returncode == 0, 'bin/session does not mend itself after a failed proof')


def interrupted(report, scratch):
    """Ctrl-C, or a plea to end, ends all that was started too."""
    for number in (signal.SIGINT, signal.SIGTERM):
        scratch.flag('hang')
        scratch.forget()
        (scratch.kit / 'child').unlink(missing_ok=True)
        words = [sys.executable, str(scratch.root / 'bin' / 'session')]
        process = subprocess.Popen(words, env=scratch.environment(), stdout=subprocess.PIPE, stderr=subprocess.PIPE,
                                   preexec_fn=lambda: signal.signal(signal.SIGINT, signal.SIG_DFL))
        child = child_of(scratch)
        report.check(child is not None and lives(child), 'the stand-in prover starts no process')
        process.send_signal(number)
        out, said = process.communicate(timeout=PATIENCE)
        ended = process.returncode == 128 + number and not out and b'Traceback' not in said
        report.check(ended, f'bin/session after signal {number}: {process.returncode}: {said!r}')
        report.check(gone(child), f'bin/session leaves a process behind after signal {number}')
        scratch.flag('hang', on=False)


def child_of(scratch):
    """The process that the stand-in prover has started, once it has."""
    path, deadline = scratch.kit / 'child', time.monotonic() + PATIENCE
    while time.monotonic() < deadline:
        if path.exists() and path.read_text().endswith('\n'):
            return int(path.read_text())
        time.sleep(0.02)
    return None


def lives(process):
    try:
        os.kill(process, 0)
    except ProcessLookupError:
        return False
    return not zombie(process)


def zombie(process):
    """A process that has ended and that nobody has waited for."""
    try:
        return Path(f'/proc/{process}/stat').read_text().rpartition(')')[2].split()[0] == 'Z'
    except OSError:
        return False


def gone(process):
    deadline = time.monotonic() + PATIENCE
    while lives(process) and time.monotonic() < deadline:
        time.sleep(0.02)
    return not lives(process)
