"""Seeded random sessions: the model, the recorder and the second program, byte for byte.

Every record that the model reaches in them must be sound, as document 01 says, and count the LONG events of the gap that
is not told yet: those which the history has under its numbers, as document 02 says.
"""

from collections import Counter

import programs
from drive import Driver
from model import CSP_1
from parallel import in_parallel
from reached import GOALS

PORTION = 20
# A field of a record one too high, and what the driver must say of it: with a gap of five silences lost may be 1 and is 0.
TOO_HIGH = {'lost': 'lost is not the number of LONG events in the gap', 'defective': 'the record is not sound'}


def check(report, pair, options):
    jobs = {name: programs.recorder_job(name) for name in pair}
    reached, frames = Counter(), 0
    given = [(jobs, options.seed, start, min(PORTION, options.count - start)) for start in portions(options)]
    for sent, counts, agreed, differing, faults in in_parallel(run_portion, given):
        frames += sent
        reached.update(counts)
        report.passed += agreed
        for name, text, outputs in differing:
            report.agreed(name, text, outputs)
        report.check(not faults, f'the model: {", ".join(faults)}')
    report.reached(reached, GOALS)
    looked_at(report)
    return f'{options.count:,} sessions, {frames:,} frames, every record reached is sound and counts the LONG of its gap' + listing(reached, GOALS)


def looked_at(report):
    """A driver that no longer looked at the records would find no fault in them either."""
    for field, due in TOO_HIGH.items():
        driver = Driver(field)
        driver.open(CSP_1, 2, 1)
        driver.tick(12)
        good = driver.faults == []
        setattr(driver.station, field, getattr(driver.station, field) + 1)
        driver.tick()
        said = [fault.endswith(due) for fault in driver.faults]
        report.check(good and said == [True], f'a driver says of a record with {field} one too high: {driver.faults}')


def portions(options):
    """Where each begins."""
    return range(0, options.count, PORTION)


def listing(reached, goals):
    """What was reached, a few to a line."""
    entries = [f'{goal} {reached[goal]:,}' for goal in goals]
    lines, line = [], ''
    for entry in entries:
        if len(line) + len(entry) > 110:
            lines.append(line)
            line = ''
        line += (', ' if line else '') + entry
    return ''.join(f'\n    {line}' for line in [*lines, line])


def run_portion(portion):
    """Some sessions, in a process of their own: frames sent, goals reached, how many agreed, those that did not, and what
    is wrong in a record of the model."""
    jobs, seed, start, count = portion
    frames, reached, agreed, differing, faults = 0, Counter(), 0, [], []
    for at in range(start, start + count):
        driver, text, outputs = run_session(jobs, f'{seed}-{at}')
        frames += len(driver.lines)
        reached.update(driver.watcher.count)
        faults += [f'session {seed}-{at}: {fault}' for fault in driver.faults]
        if len(set(outputs.values())) == 1:
            agreed += 1
        else:
            differing.append((f'random-{seed}-{at}', text, outputs))
    return frames, reached, agreed, differing, faults


def run_session(jobs, name):
    driver = Driver(name)
    text = driver.drive()
    return driver, text, {'model': driver.expected_for(text), **programs.outputs(jobs, text)}
