"""The test of the tests once more: a program that does nothing, or repeats its input, must fail each part that runs it."""

from argparse import Namespace
from unittest.mock import patch

import check_mistakes
import check_output
import check_pipe
import check_random
import check_stored
import check_unseen
import programs
from report import Report

IDLE = {'ends at once': ['false'], 'repeats its input': ['cat']}
# A peer need not wait long for these: an answer that comes too late is a failure, which is what is looked for.
PATIENCE = 0.2
# Nor does it take many sessions or calls to see that nothing is done.
FEW = dict(TRIES=5, CALLS={'willing': 20})
PARTS = {
    'stored': check_stored.check, 'random': check_random.check, 'pipe': check_pipe.check, 'output': check_output.check,
    'mistakes': check_mistakes.check, 'unseen': check_unseen.check,
}


class Unheard(Report):
    """Counts where programs differ, and says and saves nothing: here failures are wanted."""

    def check(self, good, what):
        self.passed, self.failed = self.passed + bool(good), self.failed + (not good)

    def agreed(self, name, text, outputs):
        self.check(len(set(outputs.values())) == 1, name)

    def faultless(self, name, text, fault):
        self.check(fault is None, name)

    def reached(self, counts, goals):
        """So few sessions do not reach all, whatever the program does."""


def check(report, pair, options):
    few = Namespace(seed=options.seed, count=5)
    for way, words in IDLE.items():
        for part, check_part in PARTS.items():
            idle = dict.fromkeys(('recorder_job', 'probe_job'), lambda name: words)
            with patch.multiple(programs, **idle), patch.object(check_pipe, 'PATIENCE', PATIENCE), patch.multiple(check_mistakes, **FEW):
                unheard = Unheard()
                check_part(unheard, (programs.SECOND,), few)
            report.check(unheard.failed, f'{part} passes with a program that {way}')
    return f'{len(PARTS)} parts with a program that {", and one that ".join(IDLE)}'
