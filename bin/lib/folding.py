"""Rows of a session that repeat, folded into one: units in a row that passed, or that were inspected and found conforming.

A row is folded only where it says that and not a letter more. So nothing is lost: a folded row stands for the rows of
its frames, one for each unit that passed and two for each that was inspected, and can be written out again.
"""

from collections import namedtuple
from textwrap import indent

from lib.calls import RESULT, UNIT, result_asked
from lib.session import FRAME, row
from lib.words import ORDERS, span

PASSED, INSPECTED = 'passed', 'inspected, conforming'
PASS, INSPECT = ORDERS
CONFORMING = result_asked(0)

Row = namedtuple('Row', 'at code said text')
Part = namedtuple('Part', 'what unit first last text')  # what befell a unit; None of rows that are never folded


def folded(rows, margin=0):
    """The texts of rows, those of units in a row that fared alike as one. `margin`: how much wider the frames' column is."""
    alike = []
    for part in parts(rows):
        if alike and not follows(alike[-1], part):
            yield shown(alike, margin)
            alike = []
        alike.append(part)
    if alike:
        yield shown(alike, margin)


def parts(rows):
    """A unit that passed, or one that was inspected with its conforming result behind it; any other row by itself."""
    ordered = None
    for at, code, said, text in rows:
        words = plainly(at, code, said, text)
        if ordered and words == CONFORMING:
            yield Part(INSPECTED, ordered.unit, ordered.first, at, ordered.text + text)
            ordered = None
            continue
        if ordered:
            yield ordered
        part = Part(PASSED if words == PASS else None, said[0] if code == UNIT else None, at, at, text)
        ordered = part if words == INSPECT else None
        if not ordered:
            yield part
    if ordered:
        yield ordered


def plainly(at, code, said, text):
    """An order, or a conforming result, where the row says it and nothing more; None of any other row."""
    if code == UNIT:
        return next((order for order in ORDERS if text == row(at, f'unit {said[0]:,}: {order}')), None)
    return CONFORMING if code == RESULT and text == row(at, CONFORMING) else None


def follows(before, part):
    return part.what is not None and part.what == before.what and part.unit == before.unit + 1


def shown(alike, margin):
    """One row for several units; a lone one has its own."""
    first, last = alike[0], alike[-1]
    if first is last:
        return indent(first.text, ' ' * margin)
    return f'{span(first.first, last.last):>{FRAME + margin}}  units {span(first.unit, last.unit)}: {first.what}\n'


def margin_for(frames):
    """How much wider the frames' column must be to hold two numbers, in a session of so many frames."""
    return max(0, len(span(frames - 1, frames)) - FRAME)
