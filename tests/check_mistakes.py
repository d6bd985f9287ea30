"""The test of the tests: the second program with one of the mistakes that look right switched on must be caught.

A program that does nothing differs from every session, and shows nothing. So each mistaken program must answer the
sessions and the calls in which its mistake cannot show as they are due, and must end well on all.
"""

import model
import probes
import programs
from check_stored import FOLDER
from drive import Driver
from parallel import in_parallel
from probes import Probes

TRIES = 500
CALLS = {'willing': 10_000, 'changes': 4_000, 'damaged': 2_000}
# What each mistake shows in is little: the program must agree with at least this share of all sessions, and of all calls.
AGREED = 0.75
# Refusal 10 comes after eight million events, and no history makes the records that 24 and 25 judge otherwise: these show
# in calls alone.
IN_CALLS_ALONE = (9, 24, 25)
# W6's: a station number is the session's and no part of a record, and the library's open always has a seed. No call may
# be answered otherwise.
IN_SESSIONS_ALONE = range(26, 34)


def check(report, pair, options):
    stored = [(path.stem, path.read_bytes(), path.with_suffix('.out').read_bytes()) for path in sorted(FOLDER.glob('*.in'))]
    random = list(in_parallel(random_session, [f'{options.seed}-{at}' for at in range(TRIES)]))
    calls = list(probe_calls(options.seed))
    said = []
    for number in programs.mistakes():
        words = programs.recorder_job(programs.mistaken(number))
        by_stored, by_random = (caught(report, number, words, sessions) for sessions in (stored, random))
        by_calls = caught_calls(report, number, calls)
        for name, differing, tried in (('stored sessions', by_stored, stored), ('calls', by_calls, calls)):
            does_its_job = len(tried) - len(differing) >= AGREED * len(tried) > 0
            report.check(does_its_job, f'mistake {number} shows in {len(differing)} of {len(tried)} {name}: it is no station')
        if number in IN_SESSIONS_ALONE:
            report.check(not by_calls, f'mistake {number} shows in {len(by_calls)} calls of the probe, and is one of frames alone')
        else:
            report.check(by_calls, f'no call of the probe catches mistake {number}')
        if number not in IN_CALLS_ALONE:
            report.check(by_stored, f'no stored session catches mistake {number}')
            report.check(by_random, f'no random session catches mistake {number}')
        said.append(f'\n    {number}: caught by {len(by_random)} of {TRIES} random sessions, {len(by_calls)} of {len(calls):,} calls')
        said[-1] += f', and by {", ".join(by_stored)}' if by_stored else ''
    return f'{len(said)} mistakes that look right{"".join(said)}'


def random_session(name):
    driver = Driver(name)
    text = driver.drive()
    return name, text, driver.expected_for(text)


def caught(report, number, words, sessions):
    """The sessions that the program answers otherwise than they expect; it must answer each frame of all, and end well."""
    differing = []
    for name, text, expected in sessions:
        given = programs.output(words, text)
        report.check(len(given) == len(expected), f'mistake {number} does not give an answer to each frame of {name}')
        if given != expected:
            differing.append(name)
    return differing


def probe_calls(seed):
    """Single calls that can mostly be done, and some on a record with one number off, each with the answer that is due."""
    for kind, count in CALLS.items():
        for made in getattr(Probes(f'{seed}-mistakes-{kind}'), kind)(count):
            yield probes.written(made.words()), probes.written(model.probe(made.words()))


def caught_calls(report, number, calls):
    """The calls that the program answers otherwise than is due; it must answer each, and end well."""
    sent = b''.join(request + b'\n' for request, _ in calls)
    given = programs.output(programs.probe_job(programs.mistaken(number)), sent).split(b'\n')[:-1]
    report.check(len(given) == len(calls), f'mistake {number} does not answer each of {len(calls):,} calls')
    return [request for (request, due), answer in zip(calls, given) if answer != due]
