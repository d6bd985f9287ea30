"""Sessions that are too long to store: they come to the end of the eight million event numbers, and to the end of the million
units with an alarm at each."""

import subprocess
import tempfile

import programs
from model import DEFECT, DONE, EVENT_LIMIT, LONG, MARKER, PHASE, PLAN, PROGRAM_ROOM, SILENCE, UNIT_LIMIT, refused, written
from script import words

OPEN = words(1, 1, 2, 1, 1, 0, 0, 0)
# START and these leave four numbers.
TICKS = EVENT_LIMIT - 5
INSPECT = (0, 0, 0, 0, 1)
LOWER, EQUAL, OTHER_TYPE = (1, 3, 2, 2, 0, 0), (1, 2, 1, 1, 0, 0), (2, 2, 1, 1, 0, 0)


def check(report, pair, options):
    jobs = {program: programs.recorder_job(program) for program in pair}
    return f'{hold(report, jobs)}; {hold_alarms(report, jobs)}'


def hold(report, jobs):
    """Holds programs to the documents' answers at the end of the numbers."""
    ends = {'no event number left': none_left(), 'two event numbers left': two_left()}
    with tempfile.TemporaryFile() as frames:
        frames.write(OPEN + b'\n' + (words(6) + b'\n') * TICKS)
        begun = frames.tell()
        for end, turns in ends.items():
            frames.truncate(begun)
            frames.seek(begun)
            frames.write(b''.join(frame + b'\n' for frame, _ in turns))
            for program, job in jobs.items():
                frames.seek(0)
                said = compare(job, frames, written(DONE), TICKS + 1, [answer for _, answer in turns])
                report.check(not said, f'{end}, {program}: {said}')
    ended = ' and '.join(f'{len(turns)} to {end}' for end, turns in ends.items())
    return f'{TICKS + 1:,} frames that leave four of {EVENT_LIMIT:,} event numbers, then {ended}'


def hold_alarms(report, jobs):
    """Every unit there can be is defective, and with S 1 an alarm: the marker has lost all of them but those held."""
    units = (words(2, unit) + b'\n' + words(3, 1) + b'\n' for unit in range(1, UNIT_LIMIT + 1))
    turns = [(words(2, UNIT_LIMIT + 1), refused(7)), *the_alarms(), (words(7), DONE)]
    with tempfile.TemporaryFile() as frames:
        frames.write(OPEN + b'\n')
        frames.writelines(units)
        frames.write(b''.join(frame + b'\n' for frame, _ in turns))
        for program, job in jobs.items():
            frames.seek(0)
            # The open is answered like a result: what repeats is that answer, and then the one to a unit.
            said = compare(job, frames, written(DONE) + written(INSPECT), UNIT_LIMIT, [DONE, *(answer for _, answer in turns)])
            report.check(not said, f'a million alarms, {program}: {said}')
    return f'{UNIT_LIMIT:,} units with an alarm each'


def the_alarms():
    """START and two events a unit were raised, DEFECT and LONG; the newest that fit are held."""
    lost, held = UNIT_LIMIT - PROGRAM_ROOM // 2, PROGRAM_ROOM // 2
    yield words(7), (0, MARKER, 1, lost, 1 + 2 * lost)
    for unit in range(UNIT_LIMIT - held + 1, UNIT_LIMIT + 1):
        yield words(7), (0, DEFECT, 2 * unit, unit, 0)
        yield words(7), (0, LONG, 2 * unit + 1, unit, unit)


# ---- The last frames, and the documents' answer to each

def none_left():
    """One call takes the last three numbers: a waiting plan is taken up at a defect."""
    events = [
        (0, SILENCE, EVENT_LIMIT - 4, 0, EVENT_LIMIT - 5), (0, PHASE, EVENT_LIMIT - 3, 1, 1),
        (0, DEFECT, EVENT_LIMIT - 2, 2, 1), (0, PHASE, EVENT_LIMIT - 1, 2, 0), (0, PLAN, EVENT_LIMIT, 2, 3),
    ]
    return [
        (words(2, 1), INSPECT), (words(3, 0), DONE), (words(9, *LOWER, 0), DONE), (words(2, 2), INSPECT), (words(3, 1), DONE),
        *no_more(), *the_journal(events), (words(6), refused(10)),
    ]


def two_left():
    """Three numbers are enough for every call and two for none, though the call would raise none: they stay unused."""
    events = [(0, SILENCE, EVENT_LIMIT - 3, 0, EVENT_LIMIT - 4), (0, SILENCE, EVENT_LIMIT - 2, 1, 1)]
    return [
        (words(6), DONE), (words(9, *EQUAL, 1), DONE), (words(2, 1), INSPECT), (words(6), DONE), (words(6), DONE),
        *no_more(), *the_journal(events), (words(6), refused(10)),
    ]


def no_more():
    """Every call but open and take, whether it could be done or not; faults of form and a second open come before it."""
    calls = [words(2, 2), words(2, 3), words(2, 0), words(3, 0), words(3, 2), words(4), words(5), words(6)]
    calls += [words(9, *plan, demand) for plan in (LOWER, EQUAL, OTHER_TYPE) for demand in (0, 1)]
    yield from ((frame, refused(10)) for frame in calls)
    yield from ((frame, refused(9)) for frame in (OPEN, b'6', words(9, *LOWER, 2)))


def the_journal(events):
    """One marker for all that did not stay, no LONG among them, silences, the last events, and nothing more."""
    first_held = events[-1][2] - PROGRAM_ROOM + 1
    yield words(7), (0, MARKER, 1, 0, first_held - 1)
    for number in range(first_held, events[0][2]):
        yield words(7), (0, SILENCE, number, 0, number - 1)
    yield from ((words(7), event) for event in events)
    yield words(7), DONE


def compare(command, frames, pattern, times, answers):
    """Holds the output to a pattern, so many times, and then to the given answers, as it comes: it is too much to keep."""
    process = subprocess.Popen(command, stdin=frames, stdout=subprocess.PIPE, env=programs.environment())
    with process.stdout as out:
        said = repeated(out, pattern, times)
        if not said and out.read() != b''.join(map(written, answers)):
            said = 'the answers at the end are not the documents\''
    if process.wait() != 0:
        return f'the program ended with {process.returncode}'
    return said


def repeated(out, pattern, times):
    left, many = times * len(pattern), pattern * 20_000
    while left:
        part = out.read(min(left, len(many)))
        if part != many[:len(part)] or not part:
            return f'the answer to frame {(times * len(pattern) - left) // 33 + 1:,} or one soon after is not the one due'
        left -= len(part)
    return ''
