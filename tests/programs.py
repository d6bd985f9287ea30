"""Finds, builds and runs the programs; nothing else in tests/ or bench/ knows how.

The recorder and the probe are built by `rt run`, for x86-64, and stand as crates/NAME/out/NAME. They run as the kit
itself runs a program: as they are, with the C library of this machine.
The second program is plain C, built for this machine by second/build.

RECORDER_ROOT and SECOND_ROOT name other repositories to take the programs from.
"""

import os
import platform
import re
import shutil
import subprocess
from functools import lru_cache
from pathlib import Path

ROOT = Path(__file__).resolve().parent.parent
RECORDER_ROOT = Path(os.environ.get('RECORDER_ROOT') or ROOT)
SECOND_ROOT = Path(os.environ.get('SECOND_ROOT', ROOT))
BUILD = ROOT / 'build'

RECORDER, SECOND, SANITIZED = 'recorder', 'second', 'second-sanitize'
NAMES = (RECORDER, SECOND, SANITIZED)
PROCESSOR = 'x86_64'  # the one that the kit makes programs for


class Missing(Exception):
    """A program that is not there, or that could not be built."""


# ---- The kit's programs

@lru_cache(maxsize=None)
def kit():
    """The kit's folder: `rt doc` names a page in it."""
    if shutil.which('rt') is None:
        raise Missing('rt is not on the path: the Rattle kit proves and builds the programs')
    asked = subprocess.run(['rt', 'doc'], capture_output=True, text=True)
    if asked.returncode != 0:
        raise Missing(f'the Rattle kit does not work: rt doc ended with {asked.returncode}: {asked.stderr.strip()}')
    return Path(asked.stdout.strip()).parent


def toolchain():
    return kit() / 'toolchain'


def made_by_kit(path):
    """The words that run a program that the kit has linked."""
    if platform.machine() != PROCESSOR:
        raise Missing(f'the Rattle kit makes programs for {PROCESSOR}, and this machine is {platform.machine()}')
    return [str(path)]


def kit_program(name):
    path = RECORDER_ROOT / 'crates' / name / 'out' / name
    if not path.is_file():
        raise Missing(f'{name} is not built: `rt run` in crates/{name} writes crates/{name}/out/{name}')
    return made_by_kit(path)


@lru_cache(maxsize=None)
def static_library(name):
    """crates/NAME/out/libNAME.a, proved and built anew once for each run."""
    folder = RECORDER_ROOT / 'crates' / name
    if not folder.is_dir():
        raise Missing(f'crates/{name} is not there')
    built = subprocess.run(['rt', 'lib'], cwd=folder, capture_output=True, text=True)
    path = folder / 'out' / f'lib{name}.a'
    if built.returncode != 0 or not path.is_file():
        raise Missing(f'rt lib in crates/{name} ended with {built.returncode}: {(built.stdout + built.stderr).strip()[-1000:]}')
    return path


def environment():
    """Where the system runs programs under an emulator, that takes orders from QEMU_ variables; a run must not hang on them."""
    return {name: value for name, value in os.environ.items() if not name.startswith('QEMU_')}


# ---- The second program

@lru_cache(maxsize=None)
def second_program(name):
    """build/second, build/second-sanitize or build/second-mistake-N, built anew once for each run."""
    script = SECOND_ROOT / 'second' / 'build'
    if not script.is_file():
        raise Missing('second/build is not there')
    words = name.split('-')[1:]
    built = subprocess.run([str(script), *words], capture_output=True, text=True)
    path = SECOND_ROOT / 'build' / name
    if built.returncode != 0 or not path.is_file():
        raise Missing(f'second/build {" ".join(words)} failed: {built.stderr.strip()}')
    return str(path)


def mistaken(number):
    return f'second-mistake-{number}'


def mistakes():
    """The numbers of the mistakes that second/build can make: it alone says how many there are."""
    told = re.search(r'(?m)^# second/build mistake N .*, N from 1 to (\d+)$', (SECOND_ROOT / 'second' / 'build').read_text())
    if told is None:
        raise Missing('second/build does not say how many mistakes it can make')
    return range(1, int(told[1]) + 1)


# ---- C programs made by the kit's compiler

@lru_cache(maxsize=None)
def c_under_kit(name, sources, flags=(), libraries=()):
    """The words that run build/kit-NAME as the recorder is run: built by the kit's compiler, for x86-64, and linked as it is.

    The kit has no headers, so they are those of this machine's compiler; what they declare is the same.
    """
    absent = [str(source) for source in sources if not source.is_file()]
    if absent or not sources:
        raise Missing(f'{name} cannot be built: {", ".join(absent) or "its source"} is not there')
    path = BUILD / f'kit-{name}'
    BUILD.mkdir(exist_ok=True)
    target = 'x86_64-unknown-linux-gnu'
    headers = [word for folder in header_folders() for word in ('-isystem', folder)]
    clang = [toolchain() / 'bin' / 'clang', f'--target={target}', '-std=c11', '-nostdinc', *headers, *flags]
    objects = [path.with_name(f'{path.name}-{source.stem}.o') for source in sources]
    for source, made in zip(sources, objects):
        build_step([*clang, '-c', source, '-o', made])
    build_step([kit() / 'bin' / 'rattle-link', '--target', target, '--toolchain', toolchain(), '-o', path, *objects, *libraries])
    return made_by_kit(path)


def header_folders():
    """Where this machine's C compiler looks for headers."""
    words = ['cc', '-E', '-v', '-x', 'c', '/dev/null']
    said = subprocess.run(words, capture_output=True, text=True, env={**os.environ, 'LC_ALL': 'C'}).stderr
    listed = said.partition('search starts here:\n#include <...> search starts here:\n')[2].partition('End of search list.')[0]
    return [line.strip() for line in listed.splitlines()]


def build_step(words):
    done = subprocess.run([str(word) for word in words], capture_output=True, text=True)
    if done.returncode != 0:
        raise Missing(f'{words[0]} failed: {done.stderr.strip()[:2000]}')


# ---- The two jobs

def recorder_job(name):
    """The words that start the job over frames of one of NAMES, or of a mistaken second program."""
    return kit_program(name) if name == RECORDER else [second_program(name)]


def probe_job(name):
    return kit_program('probe') if name == RECORDER else [second_program(name), 'probe']


def output(words, text, seconds=300):
    """All that a program writes for all that it reads. A crash or a hang stands in it as a line, so that it differs."""
    try:
        done = subprocess.run(words, input=text, capture_output=True, timeout=seconds, env=environment())
    except subprocess.TimeoutExpired as late:
        return (late.stdout or b'') + b'(it did not end in %d s)\n' % seconds
    if done.returncode != 0:
        return done.stdout + b'(it ended with %d: %s)\n' % (done.returncode, done.stderr.strip()[:1000])
    return done.stdout


def outputs(jobs, text):
    return {name: output(words, text) for name, words in jobs.items()}
