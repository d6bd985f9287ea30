"""What the figures were taken on, and of which programs."""

import os
import platform
from pathlib import Path

import peers


def describe(given):
    print(f'Machine: {processor()}, {os.cpu_count()} cores, native')
    print('recorder: crates/recorder/out/recorder, as rt built it')
    for name, what in peers.WHAT.items():
        print(f'{name}: {what}')
    print(f'The peers are built alike, by the kit\'s clang {" ".join(peers.FLAGS)} for x86-64, and run with the same C library.')
    print(f'Processor time is the median of {given.times} runs, turn about, with the least and the greatest; ratios are of medians.', flush=True)


def processor():
    lines = Path('/proc/cpuinfo').read_text().splitlines()
    names = [line.split(':', 1)[1].strip() for line in lines if line.startswith('model name')]
    return names[0] if names else platform.machine()
