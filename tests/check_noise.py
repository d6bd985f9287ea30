"""Ten megabytes of random bytes, and of random lines that look like frames: one answer a line, all the same, no crash."""

import random

import model
import programs
from model import CSP_F, CSP_T, CSP_V
from parallel import in_parallel
from script import words

SIZE = 10_000_000
PLANS = range(1, 6)
ODD = (0, 1, 2, 3, 1_000_000, 1_000_001, 2 ** 31, 2 ** 32 - 1)
NUMBERS = (1, 2, 65_534, 65_535)
NEAR_NUMBERS = (0, *NUMBERS, 65_536, 65_537, 2 ** 32 - 1)
EARLY = 100


def check(report, pair, options):
    jobs = {name: programs.recorder_job(name) for name in pair}
    tasks = [(jobs, options.seed, type) for type in (0, *PLANS)]
    lines = 0
    for name, text, outputs in in_parallel(run_task, tasks):
        sent = text.count(b'\n') + (not text.endswith(b'\n'))
        lines += sent
        for program, output in outputs.items():
            each = output.count(b'\n') == sent and len(output) == 33 * sent
            report.check(each, f'{name}: {program} does not give one answer to each of {sent:,} lines')
        report.agreed(name, text, outputs)
    return f'{SIZE:,} random bytes and as many of random frames, {lines:,} lines'


def run_task(task):
    """Random bytes, or frames for one type of plan."""
    jobs, seed, type = task
    chosen = random.Random(f'{seed}-noise-{type}')
    name = f'noise-frames-{type}' if type else 'noise-bytes'
    text = frames(chosen, type, SIZE // len(PLANS)) if type else chosen.randbytes(SIZE)
    return name, text, {'model': model.run(text), **programs.outputs(jobs, text)}


def frames(chosen, type, size):
    """Lines that look like frames: a line of work, with calls out of turn and broken lines among it."""
    parts = [*opening(chosen, type)]
    length, k = 0, 0
    while length < size:
        k += 1 if chosen.random() < 0.999 else chosen.randrange(1, 50)
        turn = [words(2, k), words(3, chosen.random() < 0.1)]
        if chosen.random() < 0.3:
            turn.append(chosen.choice((aside, words_of_chance, broken, change, number))(chosen, type))
        parts += turn
        length += sum(map(len, turn)) + len(turn)
    return b'\n'.join(parts) + chosen.choice((b'', b'\n'))


def opening(chosen, type):
    """Station numbers and table opens of no entry, a number that is taken, and an open: CSP-T's from a table, without a seed."""
    for _ in range(EARLY):
        yield chosen.choice((number(chosen, type), words(8, type, 12, 400, 0)))
    yield words(10, chosen.choice(NUMBERS))
    S, x, N = 0 if type == CSP_F else 5, 2 if type == CSP_V else 0, 1_000_000 if type == CSP_F else 0
    yield words(8, type, 1, 10_000, 0) if type == CSP_T else words(1, type, 2, 3, S, x, N, chosen.getrandbits(32))


def number(chosen, type):
    """Near the ends of the range."""
    return words(10, chosen.choice(NEAR_NUMBERS))


def change(chosen, type):
    """Small plans of the type, so that most are on the side of the one in force that is allowed."""
    n = chosen.choice((2, 3, 4, 5))
    i = n + chosen.choice((0, 0, 0, 1))
    x = chosen.choice((1, n)) if type == CSP_V else 0
    return words(9, chosen.choice((type, type, type, chosen.choice(PLANS))), n, i, i + chosen.randrange(4), x, 0, chosen.choice((0, 0, 1)))


def aside(chosen, type):
    return b'%02X' % chosen.choice((4, 5, 6, 6, 7, 7, 7, 7))


def words_of_chance(chosen, type):
    numbers = [chosen.choice((*ODD, chosen.getrandbits(32))) for _ in range(chosen.choice((0, 1, 1, 1, 2, 4, 5, 7)))]
    return words(chosen.choice((1, 3, 8, 9, 10, chosen.randrange(256))), *numbers)


def broken(chosen, type):
    line = bytearray(words(chosen.randrange(1, 11), *[chosen.getrandbits(32)] * chosen.choice((0, 1, 7))))
    line[chosen.randrange(len(line))] = chosen.choice(b' \t\r0aFG-\x00\x80')
    return bytes(line)
