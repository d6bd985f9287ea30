"""What is being done, on standard error: on a terminal in one line that is written over, else a line now and then."""

import sys
import time

SELDOM = 20


class Progress:
    def __init__(self, command):
        self.command = command
        self.on_terminal = sys.stderr.isatty()
        self.said_at = time.monotonic()

    def say(self, what):
        if self.on_terminal:
            sys.stderr.write(f'\r\033[K{self.command}: {what}')
            sys.stderr.flush()
        elif time.monotonic() - self.said_at >= SELDOM:
            self.said_at = time.monotonic()
            print(f'{self.command}: {what}', file=sys.stderr, flush=True)

    def clear(self):
        """Before a line of the table, so that the two do not run together."""
        if self.on_terminal:
            sys.stderr.write('\r\033[K')
            sys.stderr.flush()
