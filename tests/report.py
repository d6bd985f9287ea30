"""Counts what passed and what failed, and says where programs disagree."""

from programs import BUILD

SHOWN = 10


class Report:
    def __init__(self):
        self.passed = 0
        self.failed = 0
        self.shown = 0

    def next_part(self):
        """Each part may show its own first failures."""
        self.shown = 0

    def check(self, good, what):
        """Counts one comparison; a failed one is said at once."""
        if good:
            self.passed += 1
            return
        self.failed += 1
        self.shown += 1
        if self.shown <= SHOWN:
            print(f'FAILED: {what}')
        elif self.shown == SHOWN + 1:
            print('(further failures of this part are counted and not shown)')

    def agreed(self, name, text, outputs):
        """Counts one session; where its outputs differ the session is saved and the first difference said."""
        if len(set(outputs.values())) == 1:
            self.passed += 1
        else:
            self.check(False, difference(name, text, outputs) if self.shown < SHOWN else name)

    def faultless(self, name, text, fault):
        """Counts one session with what is wrong in its answers, or None; a fault is said with its frame, and the session saved."""
        if fault is None:
            self.passed += 1
        else:
            self.check(False, f'{name}: {fault} of {save(name, text)}' if self.shown < SHOWN else name)

    def reached(self, counts, goals):
        """A goal that was never reached is a failure: what was not tried is not tested."""
        for goal in goals:
            self.check(counts[goal] > 0, f'never reached: {goal}')

    def last_line(self):
        return f'{self.passed} passed, {self.failed} failed'


def difference(name, text, outputs):
    """The session, the frame and the answers at the first difference."""
    saved = save(name, text)
    frames = text.split(b'\n')
    answers = {who: output.split(b'\n') for who, output in outputs.items()}
    longest = max(map(len, answers.values()))
    at = next(at for at in range(longest) if len({line_at(lines, at) for lines in answers.values()}) > 1)
    said = [f'{name}: frame {at + 1:,} of {saved}', f'  frame: {cut(line_at(frames, at))}']
    said += [f'  {who}: {cut(line_at(lines, at))}' for who, lines in answers.items()]
    return '\n'.join(said)


def save(name, text):
    """Where the session is kept; where it cannot be, that is said, and the disagreement all the same."""
    path = BUILD / f'disagreement-{name.replace("/", "-").replace(" ", "-")}.in'
    try:
        BUILD.mkdir(exist_ok=True)
        path.write_bytes(text)
    except OSError as why:
        return f'a session that could not be kept ({why.strerror})'
    return f'{path.parent.name}/{path.name}'


def line_at(lines, at):
    return lines[at] if at < len(lines) else b'(nothing)'


def cut(line):
    text = line.decode('ascii', 'backslashreplace')
    return text if len(text) <= 400 else f'{text[:400]} .. ({len(text):,} characters)'
