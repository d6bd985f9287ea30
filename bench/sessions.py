"""The sessions of the benchmark: written once, to build/, since the model that writes many of them is slow."""

import os
import random
from pathlib import Path

from model import CSP_1, CSP_2, CSP_F, CSP_T, CSP_V, UNIT_LIMIT
from programs import BUILD
from script import Script, words

FOLDER = BUILD / 'bench'
PERIOD = 1_000_000
# A session has fewer units than frames, so that up to here no station runs out of unit numbers.
MOST_FRAMES = UNIT_LIMIT


def lines(*frames):
    return b''.join(frame + b'\n' for frame in frames)


def turns(first, turn, frames):
    """A first frame, and the same frames again and again."""
    return lines(first) + lines(*turn) * (frames // len(turn))


# ---- Lines of work

def work(frames, *plan, **numbers):
    """A line of work: a defect in fifty, a jump or an interrupt now and then, ticks and takes."""
    chosen, script = random.Random(1), Script()
    script.open(*plan, **numbers, seed=1)
    while len(script.lines) < frames:
        chance = chosen.random()
        if chance < 0.001:
            script.interrupt()
        elif chance < 0.002:
            script.unit(script.station.last + 3)
        elif script.station.last % 10 == 0:
            script.tick()
            script.take(2)
        if script.station.owed or script.unit()[4]:
            script.result(int(chosen.random() < 0.02))
    return script.text()


def mixed(frames):
    """Mixed work under CSP-2, whose defects in sampling often only start a watch."""
    return work(frames, CSP_2, 5, 20, 200)


def mixed_1(frames):
    """The same under CSP-1."""
    return work(frames, CSP_1, 5, 20, 200)


def mixed_F(frames):
    """The same under CSP-F, with the longest period."""
    return work(frames, CSP_F, 5, 20, N=PERIOD)


def mixed_T(frames):
    """The same under CSP-T, whose blocks grow."""
    return work(frames, CSP_T, 5, 20, 200)


def mixed_V(frames):
    """The same under CSP-V, with a reduced need."""
    return work(frames, CSP_V, 5, 20, 200, x=7)


def screening(frames):
    """Every unit inspected, none enough in a row to start sampling: a defect in each hundred."""
    units = (lines(words(2, k), words(3, k % 100 == 0)) for k in range(1, frames // 2 + 1))
    return lines(words(1, CSP_1, 2, 10_000, 100_000, 0, 0, 0)) + b''.join(units)


def sampling(frames):
    """Sampling under CSP-T with all good: nearly every unit passes."""
    script = Script()
    script.open(CSP_T, 10, 50, 100, seed=1)
    while len(script.lines) < frames:
        script.units(1)
    return script.text()


def changes(frames):
    """Work under CSP-T with a change of plan at each fifth unit: most in time, some on demand, to no other n, or again."""
    chosen, script = random.Random(1), Script()
    script.open(CSP_T, 5, 10, 100, seed=1)
    while len(script.lines) < frames:
        lower = script.station.n == 5
        plan = (CSP_T, 10, 20, 200) if lower else (CSP_T, 5, 10, 100)
        chance = chosen.random()
        if chance < 0.1:
            script.change(*plan, demand=1)
        elif chance < 0.2:
            script.change(CSP_T, script.station.n, 15, 150)
        else:
            script.change(*plan)
        script.units(5)
        script.take(1)
    return script.text()


# ---- The journal

def tick_storm(frames):
    """A tick storm: each raises an event, and from the ninth on each drops one."""
    return turns(words(1, CSP_1, 2, 1, 1, 0, 0, 0), [words(6)], frames)


def takes(frames):
    """Ticks and takes: six events come and are taken, and a take finds nothing."""
    return turns(words(1, CSP_1, 2, 1, 1, 0, 0, 0), [words(6)] * 6 + [words(7)] * 7, frames)


# ---- Lines that are refused

def before_open(frames):
    """A station number, every call before an open (2), and opens out of range or of no table entry (3), one without a seed."""
    bad = (0, 2, 1, 1, 0, 0), (1, 1, 1, 1, 0, 0), (1, 2, 0, 1, 0, 0), (1, 2, 2, 1, 0, 0), (1, 2, 1, 1, 1, 0), (3, 2, 1, 0, 0, 0)
    calls = words(2, 1), words(3, 0), words(4), words(5), words(6), words(7), words(9, CSP_1, 2, 1, 1, 0, 0, 0)
    opens = [words(1, *plan, 0) for plan in bad] + [words(8, CSP_T, 12, 400, 0), words(8, CSP_F, 9, 40, 1, 0)]
    return turns(words(10, 1), [*calls, *opens], frames)


def refused(frames):
    """An open station refuses all it can, but for 10, which eight million events bring: 13 of each 16 frames."""
    return lines(words(1, CSP_1, 3, 10_000, 10_000, 0, 0, 0)) + b''.join(map(refused_turn, range(1, frames // 16 + 1)))


def refused_turn(k):
    """4 four times while a result is owed, and 9; then 5, 6, 7, 8 after one find, 11, 3, and 9 for two opens."""
    change = words(9, CSP_1, 2, 9_000, 9_000, 0, 0, 0)
    owed = words(2, k), words(2, k + 1), words(4), words(5), change, words(3, 2), words(3, 0)
    settled = words(3, 0), words(2, k), words(2, UNIT_LIMIT + 1), words(5), words(5)
    plans = words(9, CSP_2, 2, 9_000, 9_000, 0, 0, 0), words(9, CSP_1, 0, 9_000, 9_000, 0, 0, 0)
    opens = words(1, CSP_1, 2, 1, 1, 0, 0, 0), words(8, CSP_T, 1, 400, 0)
    return lines(*owed, *settled, *plans, *opens)


def ill_formed(frames):
    """Lines that are no frames: wrong digits, wrong lengths, unknown codes, and lines longer than 80 characters."""
    unit, plan = words(2, 0xA1), words(1, CSP_1, 2, 1, 1, 0, 0, 0)
    digits = unit.lower(), b'02 0000000G', b'02 0000000:', b'02\t00000001', b'02 0000\x00\xff01', b'0G', plan[:-1] + b'/'
    lengths = b'', b'0', b'02', b'02 0000001', b'02 000000001', b'07 ', b'07\r', b'06 00000001', plan[:-9], plan + b' 00000000'
    codes = b'00', b'0B', b'FF', b'17', words(9, CSP_1, 2, 1, 1, 0, 0, 2)
    long = b'7' * 81, plan + b' ' * 20, unit * 20
    return turns(plan, [*digits, *lengths, *codes, *long], frames)


WRITERS = (
    mixed, mixed_1, mixed_F, mixed_T, mixed_V, screening, sampling, changes, tick_storm, takes, before_open, refused, ill_formed,
)
SESSIONS = {write.__name__.replace('_', '-'): write for write in WRITERS}


# ---- Their files

def written(name, frames):
    """The file of a session, written unless it is there and newer than this page; a broken-off writing leaves none."""
    path = FOLDER / f'{name}-{frames}.in'
    if not path.exists() or path.stat().st_mtime < Path(__file__).stat().st_mtime:
        unfinished = path.with_suffix('.unfinished')
        unfinished.write_bytes(SESSIONS[name](frames))
        os.replace(unfinished, path)
    return path


def no_frames():
    """A file without frames: what it costs to start."""
    path = FOLDER / 'no-frames.in'
    path.write_bytes(b'')
    return path


def head(path, frames):
    """The first frames of a session."""
    return lines(*path.read_bytes().split(b'\n')[:-1][:frames])
