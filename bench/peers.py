"""The programs that the recorder is measured beside, all built alike: by the kit's compiler, for x86-64, and linked by it.

Each takes something away from the one before it, so that the steps between them say what the time goes into.
"""

from pathlib import Path

import programs

FLAGS = ('-O3',)
SECOND = programs.SECOND_ROOT / 'second'
HERE = Path(__file__).resolve().parent / 'peers'

RECORDER, FLOOR = programs.RECORDER, 'floor'
WHAT = {
    'second': 'second/, plain C that does all that the recorder does',
    'untested': 'second/ without its test of the record',
    'tuned': 'bench/peers/tuned.c, as a C programmer would tune it; it trusts its record',
    FLOOR: 'bench/peers/floor.c: it reads, puts 33 bytes for each line, and writes',
}


def sources(name):
    if name in ('second', 'untested'):
        return tuple(sorted(SECOND.glob('*.c')))
    return (HERE / 'tuned.c', SECOND / 'tables.c') if name == 'tuned' else (HERE / f'{name}.c',)


def flags(name):
    return *FLAGS, f'-I{SECOND}', *(('-DRECORD_TEST=0',) if name == 'untested' else ())


def job(name):
    """The words that run a peer."""
    return programs.c_under_kit(name, sources(name), flags(name))


def jobs():
    """The words that run each program, the recorder first."""
    return {RECORDER: programs.recorder_job(RECORDER), **{name: job(name) for name in WHAT}}
