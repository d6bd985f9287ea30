"""Runs tasks side by side: most of a run's time goes into the model."""

import os
from concurrent.futures import ProcessPoolExecutor


def in_parallel(function, tasks):
    """The answers, in the order of the tasks."""
    with ProcessPoolExecutor(os.cpu_count()) as pool:
        yield from pool.map(function, tasks)
