"""Processor time of programs over the same frames, run turn about: what disturbs the machine for a while disturbs them all."""

import os
import statistics
import subprocess

import peers
import programs


class Failed(Exception):
    """A program that does not do its work: its figures would say nothing."""


def seconds(words, frames, out=subprocess.DEVNULL):
    """The processor seconds of one run."""
    with open(frames, 'rb') as source:
        process = subprocess.Popen(words, stdin=source, stdout=out, env=programs.environment())
    _, status, usage = os.wait4(process.pid, 0)
    process.returncode = os.waitstatus_to_exitcode(status)
    if process.returncode != 0:
        raise Failed(f'{" ".join(words)} ended with {process.returncode}')
    return usage.ru_utime + usage.ru_stime


def to_file(words, frames, path):
    """One run whose answers go to a file, which is empty when it begins."""
    with open(path, 'wb') as out:
        return seconds(words, frames, out)


def turn_about(jobs, times, measure, progress):
    """What each program measured in each round."""
    figures = {name: [] for name in jobs}
    for at in range(times):
        for name, words in jobs.items():
            progress(f'{name}, run {at + 1} of {times}')
            figures[name].append(measure(words))
    return figures


def spread(figures):
    """The least, the median and the greatest."""
    return min(figures), statistics.median(figures), max(figures)


def answers(jobs, text, name):
    """The answers of each program. All but the floor must agree, and each must answer every frame: a time of two programs
    that do not do the same, or that do nothing, says nothing."""
    given = {who: programs.output(words, text) for who, words in jobs.items()}
    due = 33 * text.count(b'\n')
    for who, output in given.items():
        if len(output) != due:
            raise Failed(f'{who} does not answer each frame of session {name}: {len(output):,} bytes came, and {due:,} are due')
    if len({output for who, output in given.items() if who != peers.FLOOR}) > 1:
        raise Failed(f'the programs disagree on session {name}')
    return given
