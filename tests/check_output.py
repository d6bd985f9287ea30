"""Output that fails: a program whose answers cannot be written must end, and not hang or spin.

A program that does nothing ends too. So each first answers the same frames to an output that works, and the reader that
goes away has read the first answers by then.
"""

import os
import subprocess
import tempfile

import model
import programs
from script import words

PATIENCE = 60
TICKS = 200_000
FRAMES = words(1, 1, 2, 2, 3, 0, 0, 0) + b'\n' + (words(6) + b'\n') * TICKS
ANSWERS = model.written(model.DONE) * (1 + TICKS)
READ = 33 * 100


def check(report, pair, options):
    ways = {'a full device': full_device, 'a closed output': closed_output, 'a reader that goes away': reader_goes}
    with tempfile.TemporaryFile() as frames:
        frames.write(FRAMES)
        for program in pair:
            command = programs.recorder_job(program)
            report.check(programs.output(command, FRAMES) == ANSWERS, f'{program} does not answer where its output works')
            for way, fails in ways.items():
                frames.seek(0)
                said = fails(command, frames)
                report.check(not said, f'{program}, {way}: {said}')
    return f'{1 + TICKS:,} frames, answered where the output works; then {", ".join(ways)}'


def full_device(command, frames):
    with open('/dev/full', 'wb') as full:
        return unended(start(command, frames, full))


def closed_output(command, frames):
    return unended(start(['sh', '-c', 'exec "$@" >&-', 'sh', *command], frames, subprocess.DEVNULL))


def reader_goes(command, frames):
    """Far more answers than a pipe holds, of which the reader takes the first hundred."""
    reading, writing = os.pipe()
    process = start(command, frames, writing)
    os.close(writing)
    with os.fdopen(reading, 'rb') as answers:
        read = answers.read(READ)
    late = unended(process)
    return late or ('' if read == ANSWERS[:READ] else 'it had not begun to answer')


def start(command, frames, out):
    return subprocess.Popen(command, stdin=frames, stdout=out, stderr=subprocess.DEVNULL, env=programs.environment())


def unended(process):
    try:
        process.wait(PATIENCE)
    except subprocess.TimeoutExpired:
        process.kill()
        process.wait()
        return 'it does not end'
    return ''
