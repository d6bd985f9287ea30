"""The tables of the benchmark as text: a row is printed as soon as it is known."""

import peers

FIRST, COUNT, NARROW, WIDE, WIDEST = 12, 11, 10, 21, 27
BAR = 60


def head(title, names, width, counts=True):
    """The title of a table, and the heads of its columns: the session, its frames, and one for each program."""
    print(f'\n{title}')
    row('session', 'frames' if counts else None, names, width)


def row(name, count, cells, width):
    """The first column stands to the left, the others to the right; a table may be without counts."""
    counts = '' if count is None else str(count).rjust(COUNT)
    print(name.ljust(FIRST) + counts + ''.join(cell.rjust(width) for cell in cells), flush=True)


def short(number):
    """Three digits that count, and no more after the point than one."""
    return f'{number:,.1f}' if number < 100 else f'{number:,.0f}'


def with_spread(figures, scale=1):
    least, median, greatest = (short(scale * figure) for figure in figures)
    return f'{median} ({least}-{greatest})'


def ratios(figures):
    """The recorder's figure divided by that of each peer."""
    ours = figures[peers.RECORDER]
    return [f'{ours / theirs:.2f}' for name, theirs in figures.items() if name != peers.RECORDER]


def bars(title, figures):
    """The figures of one session for the eye."""
    print(f'\n{title}')
    most = max(figures.values())
    for name, figure in figures.items():
        print(f'{name.ljust(FIRST)}{"#" * max(1, round(BAR * figure / most))} {short(figure)}', flush=True)
