"""bin/session on request W13: how long the line went unseen, after which units screening was left, and rows that are folded.

The reading of the request (unseen.py) hears the same frames and answers, and the numbers that bin/session prints are held
to it. A folded row is written out again here, and must give the rows that it stands for, letter by letter.
"""

import re
from collections import Counter, namedtuple

import model
import programs
from check_session import command, expect, heard_of
from check_stored import FOLDER
from check_unseen import Stretches, answers_of, fault_in, frames_of
from drive import Driver
from model import CSP_1, CSP_T, MARKER
from script import Script
from unseen import UNIT, Reading

# bin/ is on the path, since check_session has put it there
from lib import calls
from lib import words as in_words
from lib.folding import Row, folded
from lib.session import Session

RESULT, TAKE = 3, 7
SPAN = r'([\d,]+)(?: to ([\d,]+))?'
AT_MOST = re.compile(rf'at most ([\d,]+) units? in a row: {SPAN} \(([^()]+)\)'
                     r'(?:, the first of ([\d,]+) such stretches|(, and the session ends there))?(?:; the result of unit ([\d,]+) is owed)?')
NONE = re.compile(r'none: every unit was (ordered )?inspected(?:; the result of unit ([\d,]+) is owed)?')
LEFT = re.compile(rf'screening at unit ([\d,]+), after ([\d,]+) conforming units? in a row: {SPAN}(?:, or from ([\d, or]+) on)?')
NEVER, PERHAPS = 'screening at no unit', ('screening perhaps: ', 'and perhaps again: ')
FOLDED = re.compile(r' *([\d,]+) to ([\d,]+)  units ([\d,]+) to ([\d,]+): (passed|inspected, conforming)\n')
FRAMES = re.compile(rf' *{SPAN}  \S')
ROWS_OF = {'passed': ('unit {:,}: pass',), 'inspected, conforming': ('unit {:,}: inspect', 'result: conforming')}
# A frame's sign is what it may be folded as: a unit that passed, one that is inspected, a conforming result; any other.
REPEATED = re.compile('(?:ic){2,}|p{2,}|.')

# The page that shows what bin/session says of the request's two sessions.
PAGE = FOLDER.parent / 'docs' / 'REGULATOR.md'
EXCERPTS = 2

# What the request's own sessions show: how many units unseen in a row, which, and what befell them; the unit that left
# screening, after how many, and the first of them.
ASKED = {
    'left-after-266-units': (None, [(266, 266, 1)]),
    'unit-200-missed': ((1, 200, 200, 'missed'), [(466, 266, 201)]),
    'two-pass-in-a-row': ((2, 6, 7, 'passed'), [(2, 2, 1)]),
    'five-pass-over-a-change': ((5, 7, 11, 'passed'), [(2, 2, 1)]),
    'what-breaks-a-run': (None, [(9, 6, 4)]),
}
# The stored sessions in which calls and entries leave it open where a run began: no more than these.
IN_DOUBT = {'change-csp-1', 'change-csp-2', 'change-csp-t', 'change-csp-v'}
GOALS = (
    'folded: passed', 'folded: inspected, conforming', 'not folded: a lone unit that passed', 'not folded: a lone unit that conforms',
    'not folded: a unit behind a jump', 'not folded: a defect',
    'unseen: none', 'unseen: passed', 'unseen: missed', 'unseen: passed and missed', 'unseen: several', 'unseen: to the end',
    'unseen: a result owed', 'left: once', 'left: several times', 'left: never', 'left: perhaps again', 'left: perhaps',
)
TWO_PASS = '''\
    frame  call and answer         event         number       unit  what it says
        1  open CSP-1 n 2 i 2 S 2 seed 0x0
   2 to 7  units 1 to 3: inspected, conforming
        8  unit 4: pass
        9  unit 5: inspect
       10  result: conforming
 11 to 12  units 6 to 7: passed
       13  unit 8: inspect
       14  result: conforming
       15  take                    START              1             clearance number 2
       16  take                    PHASE              2          2  sampling level 0
       17  take: nothing to tell

Summary
  plan       CSP-1 n 2 i 2 S 2 seed 0x0
  frames     17: open 1, unit 8, result 5, take 3; none refused
  units      8: 5 conforming, 0 defective, 3 passed, 0 missed, 0 owed a result
  unseen     at most 2 units in a row: 6 to 7 (passed)
  events     2 told: START 1, PHASE 1
  alarms     up to event 2: 0 LONG told, 0 raised; no alarm was lost
  left       screening at unit 2, after 2 conforming units in a row: 1 to 2
  phases     1 to 2  screening
             3 to 8  sampling level 0
             [##000000]
             one sign a unit: # screening, 0 1 2 sampling level, . a missed stretch, ? not told
Every event from 1 to 2 was taken and none is missing.
'''
MISSED_ROWS = '''\
     frame  call and answer         event         number       unit  what it says
         1  open CSP-T letter G AQL 0.4 seed 0x0
  2 to 399  units 1 to 199: inspected, conforming
       400  unit 201: inspect, 1 unit not seen: 200
       401  result: conforming
402 to 931  units 202 to 466: inspected, conforming
       932  take                    START              1             clearance number 266
'''


def check(report, pair, options):
    stored, count = sorted(FOLDER.glob('*.in')), sessions(options)
    reached = Counter()
    in_doubt = set()
    for path in stored:
        heard = Heard(path.read_bytes(), path.with_suffix('.out').read_bytes())
        held(report, f'sessions/{path.name}', heard, reached)
        in_doubt |= {path.stem} if any(later for *_, later in heard.left()) else set()
    report.reached(reached, GOALS)
    report.check(in_doubt == IN_DOUBT, f'stored sessions in doubt of where a run began: {in_doubt}')
    as_asked(report)
    worded(report)
    for at in range(count):
        random_session(report, f'runs-{options.seed}-{at}', Stretches if at % 2 else Driver)
    forged(report)
    if programs.RECORDER in pair:
        by_recorder(report)
    return f'{len(stored)} stored sessions and {count:,} random ones; {len(WORDED)} summaries word for word'


def sessions(options):
    return max(20, options.count // 15)


# ---- What bin/session prints, in numbers

def number(text):
    return int(text.replace(',', ''))


def span(first, last):
    return number(first), number(last or first)


class Heard:
    """A session as bin/session shows it, unfolded and folded, with the frames and the answers that it was shown."""

    def __init__(self, text, output):
        self.frames, self.answers = frames_of(text), answers_of(output)
        self.said = heard_of(text, output)[1]
        self.unfolded, self.folded = rows_of(text, output)

    def part(self, label):
        """The lines of a part of the summary."""
        lines = self.said[self.said.index('Summary\n'):].splitlines()
        at = next((at for at, line in enumerate(lines) if line.startswith(f'  {label} ')), None)
        if at is None:
            return []
        end = next(end for end, line in enumerate(lines) if end > at and not line.startswith(' ' * 13))
        return [line[13:] for line in lines[at:end]]

    def unseen(self):
        """How many, the first, the last, what befell which, how many such stretches, whether one ends the session, the unit owed."""
        line, = self.part('unseen')
        none = NONE.fullmatch(line)
        if none:
            owed = none[2] and number(none[2])
            return Longest(0, None, None, [], 0, False, owed) if bool(none[1]) == bool(owed) else None
        told = AT_MOST.fullmatch(line)
        if told is None:
            return None
        size, first, last, befell, times, ends, owed = told.groups()
        first, last = span(first, last)
        return Longest(number(size), first, last, befallen(befell, first, last), number(times or '1'), bool(ends), owed and number(owed))

    def left(self):
        """Of each time: the unit, how many came before it in a row, the first of these, and what else the first may be."""
        for line in self.part('left'):
            told = LEFT.fullmatch(line)
            if told:
                unit, count, first, last, later = told.groups()
                first, last = span(first, last)
                assert last == number(unit)
                yield last, number(count), first, [number(start) for start in later.split(' or ')] if later else []

    def hedged(self):
        return any(line.startswith(PERHAPS) for line in self.part('left'))


Longest = namedtuple('Longest', 'size first last befell times ends owed')


def befallen(text, first, last):
    """What befell which units, as it stands in brackets: one word of all of them, or several with their units."""
    if ' ' not in text:
        return [(first, last, text)]
    parts = [re.fullmatch(rf'{SPAN} (passed|missed)', part) for part in re.split(r', (?=\S+ )', text)]
    return [(*span(part[1], part[2]), part[3]) for part in parts]


def rows_of(text, output):
    """The rows of a session, and the same rows folded."""
    session = Session()
    lines = [in_words.answer(line + b'\n') for line in output.split(b'\n')[:-1]]
    heard = enumerate(zip(calls.read_frames(text), lines), 1)
    rows = [Row(at, code, said, session.hear(at, code, said, answer)) for at, ((code, said), answer) in heard]
    return ''.join(row.text for row in rows), ''.join(folded(rows))


# ---- The same, by the reading of the request

class Watch(Reading):
    """The reading, which also writes down what befell each unit, and each time that screening was left."""

    def __init__(self):
        super().__init__()
        self.befell = ''     # a sign for each unit: inspected, passed, missed
        self.leavings = {}   # by the number of its PHASE: the unit, how many came before it in a row, the first of these
        self.heard_of = []

    def unit(self, words, answer):
        super().unit(words, answer)
        self.befell += 'pi'[answer[4]]

    def missed(self, k):
        self.befell += 'm' * (k - self.last - 1)
        super().missed(k)

    def leave_screening(self):
        self.leavings[len(self.raised) + 1] = self.last, len(self.run), self.run[0]
        super().leave_screening()

    def entry(self, number, told):
        super().entry(number, told)
        if number in self.leavings:
            self.heard_of.append(self.leavings[number])

    def unseen(self):
        stretches = [(stretch.start() + 1, stretch.end()) for stretch in re.finditer('[pm]+', self.befell)]
        size = max((last - first + 1 for first, last in stretches), default=0)
        longest = [(first, last) for first, last in stretches if last - first + 1 == size]
        first, last = longest[0] if longest else (None, None)
        ends = len(longest) == 1 and last == self.last
        owed = self.last if self.owed else None
        return Longest(size, first, last, self.parts(first, last) if longest else [], len(longest), ends, owed)

    def parts(self, first, last):
        found = re.finditer('p+|m+', self.befell[first - 1:last])
        return [(first + part.start(), first + part.end() - 1, {'p': 'passed', 'm': 'missed'}[part[0][0]]) for part in found]


# ---- The one held to the other

def held(report, name, heard, reached):
    """Five checks of any session that a station has answered."""
    watch = Watch()
    fault = fault_in(watch, heard.frames, heard.answers)
    report.check(fault is None, f'{name}: {fault}')
    told = heard.unseen() if watch.befell else heard.part('unseen')
    due = watch.unseen() if watch.befell else []
    report.check(told == due, f'{name}: bin/session says of units unseen {heard.part("unseen")}, and {due} is due')
    held_leavings(report, name, heard, watch)
    wrong = unfold(heard.folded) != heard.unfolded
    report.check(not wrong, f'{name}: folded rows do not unfold into those that they stand for')
    spans = [span(*FRAMES.match(line).groups()) for line in heard.folded.splitlines()]
    signs = signs_of(heard.frames, heard.answers)
    due = [(found.start() + 1, found.end()) for found in REPEATED.finditer(signs)]
    report.check(spans == due, f'{name}: the rows of bin/session --runs are not of the frames {due[:20]}')
    reached.update(goals_of(heard, watch, signs))


def held_leavings(report, name, heard, watch):
    """What was told is shown, with the run that the reading has. Silence about more is a promise that there is none."""
    shown = list(heard.left())
    may_hide = any(answer[1] == MARKER for answer in heard.answers)
    whole = not may_hide and heard.frames and heard.frames[-1] == (TAKE, ()) and heard.answers[-1] == model.DONE
    agrees = len(shown) == len(watch.heard_of) or may_hide  # a PHASE to level 0 behind a marker may be of a change
    for unit, count, first, later in shown:
        known = next((leaving for leaving in watch.heard_of if leaving[0] == unit), (unit, 0, 0))
        agrees = agrees and count == unit - first + 1 and known[2] in (first, *later)
        agrees = agrees and (later or count == known[1]) and known[1] == unit - known[2] + 1
    if heard.hedged():
        agrees = agrees and not whole
    elif watch.befell:
        agrees = agrees and len(shown) == len(watch.leavings) and (shown or heard.part('left') == [NEVER])
    report.check(agrees, f'{name}: bin/session says of leaving screening {heard.part("left")}, and it was {watch.leavings}')


def signs_of(frames, answers):
    last, signs = 0, ''
    for frame, answer in zip(frames, answers):
        code, words = frame or (None, ())
        if answer[0] or code not in (UNIT, RESULT):
            signs += 'x'
        elif code == RESULT:
            signs += 'cd'[words[0]]
        else:
            signs += 'pi'[answer[4]] if words[0] == last + 1 else 'j'
            last = words[0]
    return signs


def unfold(text):
    """Each folded row written out as the rows that it stands for; what does not add up stays as it is."""
    def rows(found):
        first, last, unit, end = map(number, found.groups()[:4])
        each = ROWS_OF[found[5]]
        words = [row.format(unit) for unit in range(unit, end + 1) for row in each]
        numbered = zip(range(first, last + 1), words)
        return ''.join(f'{at:>9,}  {row}\n' for at, row in numbered) if last - first + 1 == len(words) > len(each) else found[0]

    return ''.join(FOLDED.sub(rows, line) if FOLDED.fullmatch(line) else line for line in text.splitlines(keepends=True))


def goals_of(heard, watch, signs):
    """What a session has tried."""
    told, left = watch.unseen() if watch.befell else None, len(list(heard.left()))
    folds = {found[0][0] for found in REPEATED.finditer(signs) if len(found[0]) > 1}
    befell = {what for *_, what in told.befell} if told else set()
    tried = {
        'folded: passed': 'p' in folds, 'folded: inspected, conforming': 'i' in folds,
        'not folded: a lone unit that passed': re.search('(?<!p)p(?!p)', signs),
        'not folded: a lone unit that conforms': re.search('(?<!ic)ic(?!ic)', signs),
        'not folded: a unit behind a jump': 'jc' in signs, 'not folded: a defect': 'id' in signs,
        'unseen: none': told and not befell, 'unseen: passed': befell == {'passed'}, 'unseen: missed': befell == {'missed'},
        'unseen: passed and missed': len(befell) == 2, 'unseen: several': told and told.times > 1,
        'unseen: to the end': told and told.ends, 'unseen: a result owed': told and told.owed,
        'left: once': left == 1, 'left: several times': left > 1, 'left: never': heard.part('left') == [NEVER],
        'left: perhaps again': left and heard.hedged(), 'left: perhaps': not left and heard.hedged(),
    }
    return [goal for goal, reached in tried.items() if reached]


# ---- Sessions of its own

def as_asked(report):
    for name, (unseen, left) in ASKED.items():
        heard = Heard((FOLDER / f'{name}.in').read_bytes(), (FOLDER / f'{name}.out').read_bytes())
        told = heard.unseen()
        due = Longest(0, None, None, [], 0, False, None)
        if unseen:
            size, first, last, what = unseen
            due = Longest(size, first, last, [(first, last, what)], 1, False, None)
        report.check(told == due, f'bin/session says of units unseen in sessions/{name}.in: {told}')
        shown = [told[:3] for told in heard.left()]
        report.check(shown == left, f'bin/session says of leaving screening in sessions/{name}.in: {shown}')


def opened(type=CSP_1, n=2, i=2):
    """Seed 0. With type, n and i as they are here, units 3, 5 and 8 are the samples, and 4, 6 and 7 pass."""
    script = Script()
    script.open(type, n, i)
    return script


def inspected(script):
    script.good()


def ordered(script):
    script.good()
    script.unit()


def passes_last(script):
    script.units(7)


def passed(script):
    script.units(8)


def missed_at_first(script):
    script.unit(4)


def missed_twice(script):
    for k in (2, 4, 7, 10):
        script.unit(k)
        script.result(0)
        script.interrupt()


def passed_and_missed(script):
    script.units(7)
    script.unit(1_010)
    script.result(1)
    script.take_all()


def defective(script):
    script.bad()
    script.take_all()


def found_and_interrupted(script):
    script.good()
    script.find()
    script.good()
    script.interrupt()
    script.good(2)
    script.take_all()


def dropped(script):
    script.good(2)
    script.tick(12)
    script.take_all()
    script.interrupt()
    script.good(2)
    script.take_all()
    script.tick(2)


def dropped_before_units(script):
    script.tick(12)
    script.take_all()
    script.bad()
    script.take_all()


def behind_a_marker(script):
    """Changes of which no take tells what they do, in the run before and behind the last unit; PHASE is the first entry told."""
    script.good()
    script.change(CSP_1, 3, 3)
    script.change(CSP_1, 3, 3, demand=1)
    script.bad()
    script.good(3)
    script.change(CSP_1, 4, 4)
    script.change(CSP_1, 4, 4, demand=1)
    script.tick(6)
    script.take_all()


def drops_a_level(script):
    """A marker, and then PHASE to level 0: of a change at level 1, which nothing tells from one that leaves screening."""
    script.good(4)
    script.change(CSP_T, 2, 1)
    script.tick(7)
    script.take_all()


def either_way(script):
    """A change to the same n twice, the second on demand, of which no take has told what it does."""
    script.good()
    script.change(CSP_1, 3, 3)
    script.change(CSP_1, 3, 3, demand=1)
    script.good(2)
    script.take_all()


def on_demand(script):
    script.good()
    script.change(CSP_1, 3, 3, demand=1)
    script.good(3)
    script.take_all()


def told_on_demand(script):
    """A higher frequency waits, and then takes force on demand: only PLAN tells that it was not in force."""
    script.good()
    script.change(CSP_1, 2, 1)
    script.change(CSP_1, 2, 1, demand=1)
    script.good()
    script.take_all()


def many(script):
    for _ in range(26):
        script.good(2)
        script.interrupt()
        script.take_all()


WORDED = {
    inspected: ('none: every unit was inspected', 'screening perhaps: more may be left to take'),
    ordered: ('none: every unit was ordered inspected; the result of unit 2 is owed', 'screening perhaps: more may be left to take'),
    passes_last: ('at most 2 units in a row: 6 to 7 (passed), and the session ends there', 'screening perhaps: more may be left to take'),
    passed: ('at most 2 units in a row: 6 to 7 (passed)', 'screening perhaps: more may be left to take'),
    missed_at_first:
        ('at most 3 units in a row: 1 to 3 (missed); the result of unit 4 is owed', 'screening perhaps: more may be left to take'),
    missed_twice:
        ('at most 2 units in a row: 5 to 6 (missed), the first of 2 such stretches', 'screening perhaps: more may be left to take'),
    passed_and_missed:
        ('at most 1,004 units in a row: 6 to 1,009 (6 to 7 passed, 8 to 1,009 missed)',
         'screening at unit 2, after 2 conforming units in a row: 1 to 2'),
    defective: ('none: every unit was inspected', 'screening at no unit'),
    found_and_interrupted: ('none: every unit was inspected', 'screening at unit 4, after 2 conforming units in a row: 3 to 4'),
    dropped: ('none: every unit was inspected', 'screening at unit 4, after 2 conforming units in a row: 3 to 4',
              'and perhaps again: events were dropped and more may be left to take'),
    dropped_before_units: ('none: every unit was inspected', 'screening at no unit'),
    behind_a_marker: ('none: every unit was inspected', 'screening at unit 5, after 3 conforming units in a row: 3 to 5',
                      'and perhaps again: events were dropped'),
    drops_a_level: ('at most 4 units in a row: 4 to 7 (passed)', 'screening perhaps: events were dropped'),
    either_way: ('none: every unit was inspected', 'screening at unit 3, after 3 conforming units in a row: 1 to 3, or from 2 on'),
    on_demand: ('none: every unit was inspected', 'screening at unit 4, after 3 conforming units in a row: 2 to 4'),
    told_on_demand: ('none: every unit was inspected', 'screening at unit 2, after 1 conforming unit in a row: 2'),
    many: ('none: every unit was inspected',
           *(f'screening at unit {unit}, after 2 conforming units in a row: {unit - 1} to {unit}' for unit in range(2, 49, 2)),
           'and 2 more times'),
}


OPENED = {told_on_demand: {'n': 3}, drops_a_level: {'type': CSP_T, 'n': 4}}


def worded(report):
    for what, due in WORDED.items():
        script = opened(**OPENED.get(what, {}))
        what(script)
        heard = Heard(script.text(), script.expected())
        said = (*heard.part('unseen'), *heard.part('left'))
        report.check(said == due, f'bin/session says after {what.__name__}: {said}')


def random_session(report, name, driver):
    session = driver(name)
    text = session.drive()
    output = session.expected_for(text)
    held(report, f'random session {name}', Heard(text, output), Counter())
    answers, place = list(session.answers), session.random.randrange(len(session.answers))
    answers[place] = (*answers[place][:4], session.random.choice((2, 9, 2 ** 32 - 1)))
    unfolded, short = rows_of(session.text(), b''.join(map(model.written, answers)))
    report.check(unfold(short) == unfolded, f'random session {name} with a wrong answer: folded rows hide it')


# ---- Answers that no station gives

def forged(report):
    """What is wrong is said, folded or not; and a PHASE that leaves screening with a unit that did not conform is wrong."""
    script = opened(i=9)
    script.good(6)
    answers = [*script.answers[:5], (0, 0, 0, 0, 2), *script.answers[6:]]
    unfolded, short = rows_of(script.text(), b''.join(map(model.written, answers)))
    report.check(unfolded.count('!') == short.count('!') > 0, f'bin/session --runs hides what is wrong:\n{short}')
    report.check('2 to 5  units 1 to 2: inspected, conforming' in short, f'bin/session --runs folds nothing before it:\n{short}')
    script = opened()
    script.good()
    script.unit()
    script.take(2)
    answers = [*script.answers[:-1], (0, 2, 2, 2, 1)]
    session, said = heard_of(script.text(), b''.join(map(model.written, answers)))
    noted = 'unit 2 was not found conforming' in said and not session.journal.sound()
    report.check(noted, f'bin/session takes a PHASE to sampling with a unit whose result is owed:\n{said}')


# ---- With the recorder

def by_recorder(report):
    expect(report, 'two pass in a row', command('session', '--runs', str(FOLDER / 'two-pass-in-a-row.in')), 0, TWO_PASS)
    done = command('session', '--runs', str(FOLDER / 'unit-200-missed.in'))
    good = done.returncode == 0 and done.stdout.decode().startswith(MISSED_ROWS)
    report.check(good, f'bin/session --runs has a missed unit like this:\n{done.stdout.decode()[:600]}{done.stderr.decode()}')
    for other in ('--events', '--summary'):
        done = command('session', '--runs', other)
        refused = done.returncode == 2 and b'not allowed with' in done.stderr and not done.stdout
        report.check(refused, f'bin/session --runs {other} ends with {done.returncode}')
    helped = b'--runs' in command('session', '--help').stdout
    report.check(helped, 'bin/session --help does not name --runs')
    on_the_page(report)


def on_the_page(report):
    """Each excerpt of docs/REGULATOR.md: the command in its first line prints the lines below it, in this order; `..` stands for others."""
    excerpts = re.findall(r'```\n\$ bin/(.*)\n([^`]*)```', PAGE.read_text())
    report.check(len(excerpts) == EXCERPTS, f'{PAGE.name} has {len(excerpts)} excerpts, and {EXCERPTS} are due')
    for line, shown in excerpts:
        printed = iter(command(*line.split(), cwd=FOLDER.parent).stdout.decode().splitlines())
        absent = next((row for row in shown.splitlines() if row != '..' and row not in printed), None)
        report.check(absent is None, f'bin/{line} does not print what {PAGE.name} shows: {absent}')
