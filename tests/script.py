"""A session written in words: it sends frames to the model as it goes, so that it knows what is owed and what is next."""

import model


def words(code, *numbers):
    return b' '.join([b'%02X' % code, *(b'%08X' % number for number in numbers)])


def least_S(type, i):
    return 0 if type == model.CSP_F else i


class Script:
    """The lines of a session, and the model's answer to each."""

    def __init__(self):
        self.program = model.Program()
        self.lines = []
        self.answers = []

    @property
    def station(self):
        return self.program.station

    def line(self, text):
        """Any line at all."""
        answer = self.program.answer(text)
        self.lines.append(text)
        self.answers.append(answer)
        return answer

    def text(self):
        return b''.join(line + b'\n' for line in self.lines)

    def expected(self):
        return b''.join(map(model.written, self.answers))

    # ---- The frames

    def open(self, type, n, i, S=None, x=0, N=0, seed=0):
        """S is i where nothing is said, or 0 for CSP-F."""
        return self.line(words(1, type, n, i, least_S(type, i) if S is None else S, x, N, seed))

    def table(self, type, letter, aql, N=0, seed=0):
        """The seed is written out, 0 too; None leaves it off."""
        return self.line(words(8, type, letter, aql, N, *([] if seed is None else [seed])))

    def station_number(self, number):
        return self.line(words(10, number))

    def unit(self, k=None):
        return self.line(words(2, self.station.last + 1 if k is None else k))

    def result(self, r):
        return self.line(words(3, r))

    def interrupt(self):
        return self.line(words(4))

    def find(self):
        return self.line(words(5))

    def tick(self, times=1):
        for _ in range(times):
            answer = self.line(words(6))
        return answer

    def take(self, times=1):
        for _ in range(times):
            answer = self.line(words(7))
        return answer

    def change(self, type, n, i, S=None, x=0, N=0, demand=0):
        """S is i where nothing is said, or 0 for CSP-F."""
        return self.line(words(9, type, n, i, least_S(type, i) if S is None else S, x, N, demand))

    # ---- What a line of work does

    def inspected(self):
        """Units go by until one is ordered inspected."""
        while not self.unit()[4]:
            assert self.answers[-1] == model.DONE, 'a unit was refused'

    def good(self, times=1):
        for _ in range(times):
            self.inspected()
            self.result(0)

    def bad(self, times=1):
        for _ in range(times):
            self.inspected()
            self.result(1)

    def units(self, times):
        """Units one after the other, each inspected one conforming."""
        for _ in range(times):
            if self.unit()[4]:
                self.result(0)

    def take_all(self):
        """Takes up to the first "nothing"."""
        while self.take() != model.DONE:
            pass
