"""Instructions a frame: a figure that no other work on the machine disturbs.

The count over a long session less that over its beginning: what it takes to start falls out.
"""

import re
import shutil
import subprocess
import tempfile

import programs
from timing import Failed

CALLGRIND = ('valgrind', '--tool=callgrind')


def way():
    """How instructions are counted here: the function, and in words; or None, and why not."""
    if shutil.which(CALLGRIND[0]):
        return by_callgrind, 'counted by callgrind, for this x86-64 processor'
    return None, 'not counted: there is no valgrind'


def a_frame(count, words, begin, whole):
    """Instructions for each frame of `whole` that is not of its beginning."""
    between = whole.count(b'\n') - begin.count(b'\n')
    return (count(words, whole) - count(words, begin)) / between


def by_callgrind(words, text):
    """All instructions of one run, as callgrind says in its last lines."""
    with tempfile.TemporaryDirectory() as folder:
        made = f'--callgrind-out-file={folder}/callgrind.out'
        done = subprocess.run([*CALLGRIND, made, *words], input=text, capture_output=True, env=programs.environment())
    told = re.search(rb'Collected : (\d+)', done.stderr)
    if done.returncode != 0 or told is None:
        raise Failed(f'callgrind did not count {words[-1]}: {done.stderr.decode(errors="replace").strip()[-500:]}')
    return int(told[1])
