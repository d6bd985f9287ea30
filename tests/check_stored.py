"""Stored sessions: the model, the recorder and the second program against each sessions/NAME.out."""

import re

import model
import programs
import stored
from programs import ROOT

FOLDER = ROOT / 'sessions'
# W6: a script that opens from a table writes its seed out, 0 too, unless it is there to show what a station number does.
NO_SEED = re.compile(rb'(?m)^08(?: [0-9A-F]{8}){4}$')
SHOWS_NUMBERS = 'station-number'


def check(report, pair, options):
    names = sorted(path.stem for path in FOLDER.glob('*.in'))
    jobs = {name: programs.recorder_job(name) for name in pair}
    frames = 0
    for name in names:
        text = (FOLDER / f'{name}.in').read_bytes()
        frames += text.count(b'\n')
        stored_answers = (FOLDER / f'{name}.out').read_bytes()
        report.agreed(name, text, {'stored': stored_answers, 'model': model.run(text), **programs.outputs(jobs, text)})
        report.check(SHOWS_NUMBERS in name or not NO_SEED.search(text), f'sessions/{name}.in has a table open without a seed')
    report.check(any(NO_SEED.search((FOLDER / f'{name}.in').read_bytes()) for name in names), 'no session has a table open without a seed')
    as_described(report, names)
    if programs.RECORDER in pair:
        by_hand(report)
    return f'{len(names)} sessions, {frames:,} frames'


def as_described(report, names):
    """The words in tests/stored.py, the files and the list of them tell the same sessions."""
    listed = (FOLDER / 'README.md').read_text()
    for name, write in stored.SESSIONS.items():
        same = name in names and (FOLDER / f'{name}.in').read_bytes() == stored.text_of(write)
        report.check(same, f'sessions/{name}.in is not what tests/stored.py describes: run tests/record')
    for name in names:
        report.check(f'| {name} |' in listed, f'sessions/README.md has no line on {name}')


def by_hand(report):
    """bin/run, which is what a reader starts, gives the example; a program that is not there is said to be missing."""
    command = str(ROOT / 'bin' / 'run')
    text, answers = ((FOLDER / f'example.{part}').read_bytes() for part in ('in', 'out'))
    report.check(programs.output([command, programs.RECORDER], text) == answers, 'bin/run recorder does not give the example')
    said = programs.output([command, 'no-such-program'], b'')
    report.check(b'is not built' in said, 'bin/run does not say that a program is missing')
