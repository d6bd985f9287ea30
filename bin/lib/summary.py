"""A session in a few lines: plan, units, events, what was dropped, alarms, what was left, phases, frequencies, a verdict."""

import textwrap

from lib import phases
from lib.calls import CHANGE, FIND, INTERRUPTED, NAMES, NO_FRAME, OPEN, RESULT, STATION, TABLE, TAKE, TICK, UNIT
from lib.words import KINDS, among, counted, single, span, spans

LABEL = 11
WIDTH = 100
FEW_GAPS = 2
ORDER = (STATION, OPEN, TABLE, UNIT, RESULT, INTERRUPTED, FIND, TICK, CHANGE, TAKE, NO_FRAME)


def lines(session):
    """The summary, line for line; the verdict is the last, and an alarm that was lost stands before it."""
    parts = [('plan', [plan(session)])]
    parts += [('station', [session.seeds.line()])] if session.seeds.line() else []
    parts += [('frames', frames(session))]
    if session.plan:
        last, owed = session.tally.last, session.tally.owed
        parts += [('units', [units(session.tally)])]
        parts += [('unseen', [session.unseen.line(last, owed)])] if last else []
        parts += [('events', events(session))]
        parts += [('dropped', dropped(session))] if session.gaps else []
        parts += [('alarms', [session.journal.alarms_told()])] if session.journal.last else []
        parts += [('left', left(session)), ('phases', phase_lines(session))] if last else []
        parts += [('frequency', session.frequencies())] if last and session.journal.asked else []
        parts += [('waiting', [session.waiting()])] if session.waiting() else []
    told = ['Summary']
    for label, texts in parts:
        told += [f'  {label if at == 0 else "":<{LABEL}}{text}' for at, text in enumerate(texts)]
    loud = session.journal.alarms.loud()
    return told + ([loud] if loud else []) + [verdict(session)]


# ---- The parts

def plan(session):
    """The plan that was opened; a table's numbers are not in the frames, and START tells one of them."""
    if not session.plan:
        return 'no station was opened'
    code, text = session.plan
    told = session.journal.history.clearance
    return f'{text}; START tells i {told:,}' if code == TABLE and told else text


def frames(session):
    by_call = ', '.join(f'{NAMES[code]} {session.calls[code]:,}' for code in ORDER if session.calls[code])
    count = sum(session.refusals.values())
    by_number = ', '.join(f'{times:,} with {number}' for number, times in sorted(session.refusals.items()))
    told = textwrap.wrap(f'{sum(session.calls.values()):,}: {by_call}', WIDTH)
    return [*told, f'{count:,} refused: {by_number}'] if count else [*told[:-1], f'{told[-1]}; none refused']


def units(tally):
    if not tally.last:
        return 'none has come'
    kinds = [
        (tally.conforming, 'conforming'), (tally.defective, 'defective'), (tally.passed, 'passed'), (tally.unseen(), 'missed'),
        (tally.owed, 'owed a result'),
    ]
    return f'{tally.last:,}: ' + ', '.join(f'{count:,} {name}' for count, name in kinds)


def events(session):
    by_kind = ', '.join(f'{KINDS[kind]} {count:,}' for kind, count in sorted(session.events.items()))
    count = sum(session.events.values())
    told = f'{count:,} told: {by_kind}' if count else 'none told'
    if not session.gaps:
        return [told]
    rest = f'{dropped_in(session.gaps):,} dropped, {of_them(session.gaps)}'
    return [f'{told}; {rest}'] if len(told) + len(rest) < WIDTH else [f'{told};', rest]


def dropped_in(gaps):
    return sum(gap['last'] - gap['first'] + 1 for gap in gaps)


def of_them(gaps):
    """How many LONG the markers count there."""
    return among(dropped_in(gaps), sum(gap['long'] for gap in gaps))


def dropped(session):
    """What each marker names and counts, and the events told on either side of it."""
    rows = [f'{span(gap["first"], gap["last"])}, {of_them([gap])}: {between(gap)}' for gap in session.gaps]
    more = len(rows) - phases.MOST_ROWS
    return rows[:phases.MOST_ROWS] + ([f'and {more:,} more stretches'] if more > 0 else [])


def between(gap):
    before = f'after {event(gap["before"])}' if gap['before'] else 'the first events'
    after = f'before {event(gap["after"])}' if gap['after'] else 'and nothing was taken behind the marker'
    return f'{before}, {after}'


def event(told):
    kind, number, unit = told
    return f'{KINDS[kind]} {number:,} ({f"unit {unit:,}" if unit else "no unit yet"})'


def left(session):
    """Each time that PHASE tells of screening being left, and after which units; then whether it may have been again."""
    rows = session.runs.lines()
    more = len(rows) - phases.MOST_ROWS
    told = rows[:phases.MOST_ROWS] + ([f'and {more:,} more times'] if more > 0 else [])
    if not untold(session):
        return told or ['screening at no unit']
    return [*told, f'{"and perhaps again" if told else "screening perhaps"}: {" and ".join(untold(session))}']


def untold(session):
    """Why a unit may have had an event that no entry tells; nothing where none can have had one."""
    with_units = [gap for gap in session.gaps if gap['after'] is None or gap['after'][2]]
    whys = {
        'events were dropped': with_units, 'the journal is not sound': not session.journal.sound(),
        'more may be left to take': open_end(session),
    }
    return [why for why, holds in whys.items() if holds]


def open_end(session):
    """Whether events may be left in the queue."""
    return bool(session.raised.left(session.journal.last) or session.raised.more or not session.empty)


def phase_lines(session):
    """The stretches in words, and the same as a strip to look at."""
    parts = session.stretches()
    signs, each = phases.strip(parts)
    return [*phases.rows(parts), f'[{signs}]', f'{phases.scale(each)}: {phases.KEY}']


# ---- The verdict

def verdict(session):
    journal, raised = session.journal, session.raised
    if journal.impossible:
        return journal.verdict('frame')
    if journal.missing or journal.repeated:
        return journal.closing()
    if not session.plan:
        return 'No station was opened, so no event was raised.'
    left = raised.left(journal.last)
    if not journal.last:
        return f'Nothing was taken: {counted(left, "event")} or more are untold. Take (07) until nothing is told.'
    return f'{taken(session)}{behind(session, left)}'


def taken(session):
    last, gaps = session.journal.last, [(gap['first'], gap['last']) for gap in session.gaps]
    if not gaps and not open_end(session):
        return f'{"The one event" if last == 1 else f"Every event from 1 to {last:,}"} was taken and none is missing.'
    if not gaps:
        return f'{"Event" if last == 1 else "Events"} {span(1, last)}: taken, and none is missing.'
    if len(gaps) > FEW_GAPS:
        return many_dropped(last, session.gaps)
    by = 'the marker says' if len(gaps) == 1 else 'markers say'
    were = f'Event {gaps[0][0]:,} was' if single(gaps) else f'Events {spans(gaps)} were'
    said = f'{were} dropped, {of_them(session.gaps)}, and {by} so'
    rest = others(gaps, last)
    return f'{said}; {spans(rest)} {"was" if single(rest) else "were"} taken.' if rest else f'{said}.'


def many_dropped(last, gaps):
    count = dropped_in(gaps)
    said = f'{count:,} were dropped, {of_them(gaps)}, in {len(gaps):,} stretches'
    return f'Of events 1 to {last:,}, {said}, and markers say so; {last - count:,} were taken.'


def others(gaps, last):
    """The stretches between the gaps."""
    edges = [0, *(edge for gap in gaps for edge in gap), last + 1]
    pairs = zip(edges[::2], edges[1::2])
    return [(before + 1, after - 1) for before, after in pairs if before + 1 < after]


def behind(session, left):
    if left:
        return f' Entries are left in the queue, {left:,} or more: take on until nothing is told.'
    if not session.empty:
        return ' No take came back empty, so more may be left: take on until nothing is told.'
    if session.raised.more:
        return ' Calls came after the last take that came back empty, so more may be left: take on until nothing is told.'
    return ''
