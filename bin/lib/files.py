"""The file that a command is given: a folder, a missing file or one that may not be read is said in one line."""

import os
import sys

from lib import command


def opened(name, path, holds):
    """A file of some kind of lines, open for reading; `-` is standard input."""
    if path == '-':
        if sys.stdin is None:
            raise command.Fault('standard input is closed')
        if sys.stdin.isatty():
            command.say(name, f'reading {holds} from the terminal; Ctrl-D ends them')
        return sys.stdin.buffer
    if os.path.isdir(path):
        raise command.Fault(f'{path} is a folder, and not a file of {holds}')
    try:
        return open(path, 'rb')
    except (OSError, ValueError) as why:
        raise command.Fault(f'cannot read {path}: {getattr(why, "strerror", None) or why}')
