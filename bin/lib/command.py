"""What every command in bin/ does alike: it says in one line why it cannot go on, and ends with a status that tells."""

import argparse
import errno
import os
import signal
import sys

FAILED = 1       # the work was done, and what was looked at is not well
CANNOT = 2       # the work could not be done: usage, a file, the kit, the disk
BY_SIGNAL = 128  # and the signal's number
NO_ROOM = (errno.ENOSPC, errno.EDQUOT, errno.EFBIG, errno.EIO)


class Fault(Exception):
    """Why a command cannot go on, in words for its user."""

    def __init__(self, why, status=CANNOT):
        super().__init__(why)
        self.status = status


class Stopped(BaseException):
    """A signal that asks the command to end; what it started ends with it."""

    def __init__(self, number, frame=None):
        super().__init__(number)
        self.number = number


class Unbroken:
    """A signal that comes in such a block takes effect at its end: what is started or ended there is so as a whole."""

    inside = False
    kept = None

    def __enter__(self):
        Unbroken.inside = True

    def __exit__(self, *why):
        Unbroken.inside = False
        kept, Unbroken.kept = Unbroken.kept, None
        if kept is not None:
            raise Stopped(kept)


def stop(number, frame):
    if Unbroken.inside:
        Unbroken.kept = number
    else:
        raise Stopped(number)


def say(name, text):
    """A line on standard error, where there is one."""
    if sys.stderr is not None:
        try:
            print(f'{name}: {text}', file=sys.stderr, flush=True)
        except OSError:
            pass  # nobody is left who could be told


def plainly(why):
    """An error of the system in words: what it befell, and what is wrong."""
    text = why.strerror or str(why)
    if why.filename:
        return f'{why.filename}: {text}'
    return f'cannot write the output: {text}' if why.errno in NO_ROOM else text


def end_by_pipe():
    """A reader that closes early, as `head` does, ends a command without a word, as it ends any other."""
    signal.signal(signal.SIGPIPE, signal.SIG_DFL)
    os.kill(os.getpid(), signal.SIGPIPE)


class Help(argparse.Action):
    """Prints the usage. The library's own action takes a full disk for success."""

    def __call__(self, parser, given, values, option=None):
        sys.stdout.write(parser.format_help())
        parser.exit()


def parser(name, text):
    """A reader of options; the command's own text is its description."""
    as_written = argparse.RawDescriptionHelpFormatter
    made = argparse.ArgumentParser(prog=name, description=text, add_help=False, formatter_class=as_written)
    made.add_argument('-h', '--help', action=Help, nargs=0, help='print this and end')
    return made


def run(name, main):
    """Runs a command to its end. Nothing is left for the interpreter to flush, which would complain in its own words."""
    for number in (signal.SIGINT, signal.SIGTERM, signal.SIGHUP):
        if signal.getsignal(number) != signal.SIG_IGN:  # nohup and a shell's `&` have some ignored, and mean it
            signal.signal(number, stop)
    os._exit(status_of(name, main))


def status_of(name, main):
    try:
        if sys.stdout is None:
            raise Fault('standard output is closed')
        status = finished(main)
        sys.stdout.flush()
        return status
    except Fault as fault:
        say(name, fault)
        return fault.status
    except Stopped as stopped:
        return BY_SIGNAL + stopped.number
    except BrokenPipeError:
        end_by_pipe()
    except OSError as why:
        say(name, plainly(why))
    return CANNOT


def finished(main):
    """The status that a command comes to; the reader of its options ends by leaving."""
    try:
        return main()
    except SystemExit as left:
        return left.code or 0
