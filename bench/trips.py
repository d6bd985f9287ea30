"""Frame by frame over a pipe, as a line with a clock works: one frame, its answer, and only then the next."""

import re
import shutil
import subprocess
from pathlib import Path

import programs
from timing import Failed

SOURCE = Path(__file__).resolve().parent / 'peers' / 'trips.c'


def driver():
    """The program that drives another over two pipes, built for this machine."""
    if shutil.which('cc') is None:
        raise programs.Missing('cc is not on the path: it builds the driver of the round trips')
    path = programs.BUILD / 'trips'
    programs.BUILD.mkdir(exist_ok=True)
    programs.build_step(['cc', '-std=c11', '-O2', '-Wall', '-Wextra', SOURCE, '-o', path])
    return str(path)


def a_second(drive, frames, answers, words):
    """Round trips a second; the driver holds each answer to the one that is due."""
    words = [drive, str(frames), str(answers), *words]
    done = subprocess.run(words, capture_output=True, text=True, env=programs.environment())
    told = re.fullmatch(r'(\d+) trips, (\d+) ns\n', done.stdout)
    if done.returncode != 0 or told is None:
        raise Failed(f'round trips with {words[-1]}: {done.stderr.strip() or "the driver said nothing"}')
    return 1e9 * int(told[1]) / int(told[2])
