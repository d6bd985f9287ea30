"""How each command here starts and ends: what cannot be read or written is said in one line, with status 1."""

import argparse
import os
import sys


def parser(what):
    """A command's options; --help prints its page."""
    return argparse.ArgumentParser(description=what, formatter_class=argparse.RawDescriptionHelpFormatter)


def positive(text):
    """The number of an option that must ask for something."""
    number = int(text)
    if number < 1:
        raise argparse.ArgumentTypeError('it must be 1 or more')
    return number


def start(name, main):
    """Ends with the status that main gives."""
    try:
        status = status_of(main)
        sys.stdout.flush()
    except OSError as why:
        # What is still unwritten cannot be written either, and is not tried again at the end.
        os.dup2(os.open(os.devnull, os.O_WRONLY), sys.stdout.fileno())
        print(f'{name}: {why}', file=sys.stderr)
        status = 1
    except KeyboardInterrupt:
        print(f'{name}: stopped', file=sys.stderr)
        status = 130
    sys.exit(status)


def status_of(main):
    """Some ends, as that of --help, come as an exception, and their words have still to be written."""
    try:
        return main()
    except SystemExit as end:
        return end.code
