"""The sections of the benchmark: each prints its tables."""

from functools import partial
from typing import NamedTuple

import counting
import peers
import programs
import sessions
import tables
import timing
import trips
from parallel import in_parallel
from progress import Progress

FILED = ('mixed', 'tick-storm', 'ill-formed')
TRIPPED = (peers.RECORDER, 'second', 'tuned', peers.FLOOR)
DRAWN = 'mixed'
# Counting is slow: a look has to do with these.
QUICKLY = (DRAWN, 'changes', 'takes', 'refused', 'ill-formed')
ROOMS = (8, 64, 512, 4096)


class Bench(NamedTuple):
    """What every section works with: the words that run each program, the file of each session, what was asked for."""

    jobs: dict
    frames: dict
    given: object
    progress: Progress


def prepared(jobs, names, given, progress):
    """The file of each session, written where it is not there; all programs that should agree on it do."""
    frames = {}
    for name in names:
        progress.say(f'session {name}: writing it, and asking whether the programs agree')
        frames[name] = sessions.written(name, given.frames)
        timing.answers(jobs, frames[name].read_bytes(), name)
    return frames


# ---- Processor time

def start(bench):
    tables.head('A run without frames: milliseconds of processor time', bench.jobs, tables.WIDE)
    frames = sessions.no_frames()
    figures = measured(bench, 'a run without frames', bench.jobs, partial(timing.seconds, frames=frames))
    show_times('no frames', 0, figures, 1e3)


def times(bench):
    over_sessions(bench, 'Answers to nothing', bench.frames, lambda frames: partial(timing.seconds, frames=frames))


def files(bench):
    path = sessions.FOLDER / 'answers.out'
    filed = [name for name in bench.frames if name in FILED]
    over_sessions(bench, 'Answers to a file', filed, lambda frames: partial(timing.to_file, frames=frames, path=path))
    path.unlink(missing_ok=True)


def over_sessions(bench, title, names, measure):
    """A table of times and one of ratios."""
    medians = {}
    if names:
        tables.head(f'{title}: nanoseconds a frame, the start among them', bench.jobs, tables.WIDE)
    for name in names:
        count = bench.frames[name].read_bytes().count(b'\n')
        figures = measured(bench, f'{title.lower()}, {name}', bench.jobs, measure(bench.frames[name]))
        show_times(name, count, figures, 1e9 / count)
        medians[name] = {who: median for who, (_, median, _) in figures.items()}
    if names:
        show_ratios(f'{title}: the recorder\'s time to that of', medians)


def measured(bench, title, tasks, measure):
    """The least, the median and the greatest of each task."""
    rounds = timing.turn_about(tasks, bench.given.times, measure, lambda what: bench.progress.say(f'{title}: {what}'))
    bench.progress.clear()
    return {who: timing.spread(figures) for who, figures in rounds.items()}


def show_times(name, count, figures, scale):
    tables.row(name, f'{count:,}', [tables.with_spread(figure, scale) for figure in figures.values()], tables.WIDE)


def show_ratios(title, rows):
    tables.head(title, peers.WHAT, tables.NARROW, counts=False)
    for name, figures in rows.items():
        tables.row(name, None, tables.ratios(figures), tables.NARROW)


# ---- Instructions

def instructions(bench):
    """A frame's instructions, and a picture of one session."""
    count, how = counting.way()
    title, given, rows = 'Instructions a frame', bench.given, {}
    if count is None:
        print(f'\n{title}: {how}', flush=True)
        return
    loader = 'the loader\'s among them; an instruction that repeats itself, as to clear memory, counts each time'
    tables.head(f'Instructions of a run without frames, {loader}', bench.jobs, tables.NARROW, counts=False)
    tables.row('no frames', None, [f'{count(words, b""):,}' for words in bench.jobs.values()], tables.NARROW)
    names = [name for name in bench.frames if name in QUICKLY or name in given.only or not given.quick]
    span = f'frames {given.begin + 1:,} to {given.whole:,}'
    if names:
        tables.head(f'{title}, {span} of each session, {how}', bench.jobs, tables.NARROW, counts=False)
    for name, figures in counted(bench, names, count):
        rows[name] = figures
        tables.row(name, None, map(tables.short, figures.values()), tables.NARROW)
    if names:
        show_ratios(f'{title}: the recorder\'s to those of', rows)
    if DRAWN in rows:
        tables.bars(f'{title} of session {DRAWN}', rows[DRAWN])


def counted(bench, names, count):
    """Each session with its figures, in order. Counts may be taken side by side, since no load changes them."""
    tasks, figures = [], []
    for name in names:
        begin, whole = (sessions.head(bench.frames[name], many) for many in (bench.given.begin, bench.given.whole))
        tasks += [(count, words, begin, whole) for words in bench.jobs.values()]
    bench.progress.say('instructions: counting')
    for at, figure in enumerate(in_parallel(count_task, tasks)):
        bench.progress.say(f'instructions: {at + 1} of {len(tasks)} counted')
        figures.append(figure)
        if len(figures) == len(bench.jobs):
            bench.progress.clear()
            yield names[at // len(bench.jobs)], dict(zip(bench.jobs, figures))
            figures = []


def count_task(task):
    return counting.a_frame(*task)


# ---- Frame by frame

def round_trips(bench):
    """Round trips a second over two pipes, on the clock: the programs wait for each other."""
    name = DRAWN if DRAWN in bench.frames else next(iter(bench.frames))
    bench.progress.say('round trips: building the driver')
    drive, frames = trips.driver(), sessions.FOLDER / 'trips.in'
    text = sessions.head(bench.frames[name], bench.given.trips)
    frames.write_bytes(text)
    jobs, tasks = {who: bench.jobs[who] for who in TRIPPED}, {}
    for who, output in timing.answers(jobs, text, name).items():
        due = frames.with_name(f'trips-{who}.out')
        due.write_bytes(output)
        tasks[who] = drive, frames, due, jobs[who]
    figures = measured(bench, 'round trips', tasks, lambda task: trips.a_second(*task))
    tables.head('Frame by frame over a pipe: round trips a second, on the clock', jobs, tables.WIDEST)
    tables.row(name, f'{bench.given.trips:,}', map(tables.with_spread, figures.values()), tables.WIDEST)


# ---- The room of the queue

def rooms(bench):
    """The cost of a call as the queue's room grows, by a program of its own: each turn is a tick and a take."""
    words, turns = programs.kit_program('rooms'), bench.given.turns
    print(f'\nThe cost of a call by the room C of the queue, over {turns:,} ticks and as many takes: nanoseconds of processor time')
    for room in ROOMS:
        order = sessions.FOLDER / f'rooms-{room}.in'
        order.write_text(f'{room} {turns}\n')
        # START and an event for each tick: the number after theirs shows that the turns were made.
        if programs.output(words, order.read_bytes()).strip() != b'%d' % (turns + 2):
            raise timing.Failed(f'rooms did not make its turns at C = {room}')
        figures = measured(bench, f'rooms, C = {room}', {'rooms': words}, partial(timing.seconds, frames=order))
        print(f'  C = {room:>5,}: {tables.with_spread(figures["rooms"], 1e9 / turns / 2)}', flush=True)


SECTIONS = {'start': start, 'times': times, 'files': files, 'instructions': instructions, 'trips': round_trips, 'rooms': rooms}
WITHOUT_SESSIONS = ('start', 'rooms')
