"""The peers of the benchmark answer as they should: a faster program that does something else is no measure.

The tuned program and the second one without its record test are held to the stored sessions, to random ones, and to short
ones of the benchmark's own kinds. The floor, which only looks like a recorder, must be told apart.
"""

import sys
from collections import Counter

import check_limit
import check_pipe
import model
import programs
import stored
from check_idle import Unheard
from check_stored import FOLDER
from drive import Driver
from parallel import in_parallel

sys.path.append(str(programs.ROOT / 'bench'))
import peers
import sessions

LIKE_SECOND = ('untested', 'tuned')
RANDOM = 60
FRAMES = 600
# What the benchmark says of its refused lines: each of these comes, and in ill-formed lines nothing but 9.
REFUSALS = {'before-open': {0, 2, 3}, 'refused': {0, 3, 4, 5, 6, 7, 8, 9, 11}, 'ill-formed': {0, 9}}


def check(report, pair, options):
    jobs = {name: peers.job(name) for name in LIKE_SECOND}
    recorded = compare(report, jobs, stored_sessions())
    second = {programs.SECOND: programs.recorder_job(programs.SECOND), **jobs}
    driven = compare(report, second, in_parallel(random_session, [f'{options.seed}-peers-{at}' for at in range(RANDOM)]))
    timed = compare(report, second, map(benchmark_session, sessions.SESSIONS))
    check_refusals(report)
    check_parts(report, jobs)
    check_limit.hold(report, {'tuned': jobs['tuned']})
    check_limit.hold_alarms(report, {'tuned': jobs['tuned']})
    told_apart(report)
    return f'{", ".join(jobs)}: {recorded} stored sessions, {driven} random ones, {timed} of the benchmark; the floor is told apart'


def compare(report, jobs, given):
    """Holds each program to the answers that are due; how many sessions there were."""
    count = 0
    for name, text, due in given:
        count += 1
        report.agreed(f'peers-{name}', text, {'due': due, **programs.outputs(jobs, text)})
    return count


# ---- The sessions, each with the answers that are due

def stored_sessions():
    for path in sorted(FOLDER.glob('*.in')):
        yield path.stem, path.read_bytes(), path.with_suffix('.out').read_bytes()


def random_session(seed):
    driver = Driver(seed)
    text = driver.drive()
    return seed, text, driver.expected_for(text)


def benchmark_session(name):
    text = sessions.SESSIONS[name](FRAMES)
    return name, text, model.run(text)


# ---- What else is held

def check_refusals(report):
    """The benchmark's refused lines are refused as it says, else it would time something else."""
    for name, due in REFUSALS.items():
        _, text, answers = benchmark_session(name)
        given = Counter(int(line[:2], 16) for line in answers.splitlines())
        report.check(set(given) == due, f'session {name} of the benchmark brings the refusals {sorted(given)}')


def check_parts(report, jobs):
    """The tuned program has a reader of its own, which looks past what has come: frames may come in any parts."""
    for name in check_pipe.SESSIONS:
        text = stored.text_of(stored.SESSIONS[name])
        for cut in (check_pipe.by_frames, check_pipe.by_bytes, check_pipe.in_odd_parts):
            said = check_pipe.talk(jobs['tuned'], text, cut(text))
            report.check(not said, f'tuned, {name}, {cut.__name__.replace("_", " ")}: {said}')


def told_apart(report):
    """The floor gives a line of zeros to each frame: it must fail exactly where something else is due."""
    floor, zeros = {peers.FLOOR: peers.job(peers.FLOOR)}, model.written(model.DONE)
    for name, text, due in stored_sessions():
        unheard = Unheard()
        compare(unheard, floor, [(name, text, due)])
        alike = due == zeros * text.count(b'\n')
        report.check(unheard.passed == alike and unheard.failed != alike, f'the floor is not told apart on session {name}')
