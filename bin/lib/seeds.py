"""The seed that an open takes: its own, or the station number that frame 0A gave before it (W6)."""

from lib.calls import gives_seed

NOT_TOLD = ', its seed is not told'


class Seeds:
    """The station number, as the frames and answers before the open tell it, and whether the open took it."""

    def __init__(self):
        self.numbers = []    # those that were accepted; the last is the station's
        self.certain = True  # not so behind an answer to a frame 0A that the program could not give
        self.own = False     # the accepted open gave its seed itself

    def accepted(self, number):
        self.numbers.append(number)
        self.certain = True

    def doubt(self):
        self.certain = False

    # ---- What an open has

    def there(self, code, said):
        """Why an open has a seed, in words; None where it has none, or that is not known."""
        if gives_seed(code, said):
            return 'it has a seed'
        return f'the station number is {self.numbers[-1]:,}' if self.certain and self.numbers else None

    def absent(self, code, said):
        """Whether an open has neither seed nor station number."""
        return self.certain and not self.there(code, said)

    def opened(self, code, said):
        """An open was accepted: the seed that it takes, in words to stand behind its own."""
        self.own = gives_seed(code, said)
        if self.own:
            return ''
        return f' seed 0x{self.numbers[-1]:X}, the station number' if self.there(code, said) else NOT_TOLD

    # ---- To be looked at

    def line(self):
        """The number that the open found, for the summary; None where no frame gave one."""
        if not self.certain:
            return 'the number is not told'
        if not self.numbers:
            return None
        of = f', the last of {len(self.numbers):,} given' if len(self.numbers) > 1 else ''
        return f'number {self.numbers[-1]:,}{of}' + ('; the open has a seed of its own' if self.own else '')
