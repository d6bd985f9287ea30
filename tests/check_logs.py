"""The reading of edits and of the prover's logs that tests/must-fail rests on, on what the prover says in each case."""

import edits
from prover_log import refusal_of_definition, refusal_of_edit, refusal_of_function

FACTS = (
    '`returns`: `search`: no proof of `Post a`',
    '`mul-result`: `omega`: the goal does not follow from what it read. All of that holds, and the goal fails, at `a` = 1',
    '`fits`: `omega`: the part `a ≤ b` of the goal does not follow from what it read. All of that holds, and the part fails',
    '`returns`: list the missing equation with its arguments, or rewrite by `rw` or `simp`\n  `cc` met a bound of its own',
    '`returns`: give a proof of that as the last argument, `simp L t` (`simp L ?` shows it), or add what is missing to the list',
    '`returns`: `simp`: no equation of the list has an instance in the goal `Post a`.',
    '`returns`: `rw`: no occurrence of the path\'s left endpoint in the goal: write the family yourself and transport',
    '`cases-hold`: expected type `allSeen cases ≡ allDue cases`, but this has type `allSeen cases ≡ allSeen cases`',
    '`V-S`: as printed, the two types differ only where one has `true` (expected)',
    '`numbers-left`: computed as far as they go, the two types are `e + 2 ≤ 8` (expected) and `e + 1 ≤ 8` (found)',
    '`good_T`: computed as a goal is, one side reads `SamplingFacts p t m`\n  (right)',
    '`returns`: `take n line`\n  ≟ `take m line`\n  does not hold (this comparison had to wait; it turned out false)',
)
GONE = (
    '`mul-result`: `goal.mul-result`: module `proofs.product.Goals` has no `mul-result` that can be named from here',
    '`product-spec`: record `proofs.product.Lts.Start` has no field `if1`',
    '`mul-result`: `fit` is not a field of record `mir.Val.Fits`',
    '`mul-result`: `lt-of-le-of-lte` is not in scope; did you mean `lt-of-le-of-lt`?',
    'module `native.Mathlib` has no `Nats` that can be named from here',
    '`draw` has no function `product` for this file to be the proof of: help: delete the folder',
)
MISFITS = (
    *GONE,
    'expected an expression, found `=`',
    '`mul-result`: `c` is bound twice in one left-hand side',
    '`product-spec`: this λ is checked against `URA {1} ?1`, which is not a function or extension (path) type',
    '`product-spec`: expected type `Lts.Closed Pre Post ?0`\n  but this has type `tie.Need-returns → Lts.Closed Pre Post ?1`',
)
FOLLOWING = '2 declarations that depend on `returns`, which was rejected, were not checked: spec, joined (via spec)'
LEFT_OPEN = ('`jumped_facts` is not admitted: unsolved', 'unsolved ?18 in `jumped_facts`: `_` was not determined')
OWN, OTHERS = 'proofs/product/Answers.antt:9:14', 'proofs/place/Answers.antt:9:14'
# What a log says of the declaration `find-shows` of proofs/Runs.antt, and of others.
RUNS, FACT = 'proofs/Runs.antt:301:40', '`find-shows`: expected type `Shows a`, but this has type `Shows b`'
NOT_ITS_OWN = {
    'another declaration of the file': (RUNS, FACT.replace('find-shows', 'change-shows')),
    'a declaration of that name in another file': ('proofs/Turns.antt:301:40', FACT),
    'an error of no declaration': (RUNS, FACT.removeprefix('`find-shows`: ')),
    'one that follows from another': (RUNS, FOLLOWING.replace('spec', 'find-shows')),
}
# A file of definitions, and edits of it: which bends can be told apart.
MADE = {'specs/Made.antt': '''use lib.ListN.{length}

-- a comment
pub record Row : Type 0 where
  pub first : ℕ

abbrev pub left : ℕ → ℕ
left zero = 0
left (suc k) = k + 1

unfoldable pub right : ℕ → ℕ
right k = k + 2
'''}
ROW = ('Row (Rows.row-kept)', 'first : ℕ', 'first : Bool')
LEFT = ('left (Sides.left-holds)', 'left zero = 0', 'left zero = 1')
RIGHT = ('right (Sides.right-holds)', 'k + 2', 'k + 3')
APART = {
    'one of each': (ROW, LEFT, RIGHT),
    'a hunk in the line that begins its definition': (('right (Sides.right-holds)', 'right : ℕ → ℕ', 'right : ℕ → Bool'),),
    'one name in two files of proofs': (LEFT, ('right (Others.left-holds)', *RIGHT[1:])),
    'a text that is there twice until the hunk before it is made': (
        ('left (Sides.left-holds)', '(suc k) = k', '(suc k) = 3'), ('right (Sides.right-holds)', '= k', '= 4'),
    ),
}
NOT_APART = {
    'a hunk in another definition': (('right (Sides.right-holds)', *LEFT[1:]),),
    'hunks in turned order': ((LEFT[0], *RIGHT[1:]), (RIGHT[0], *LEFT[1:])),
    'a hunk above all definitions': (('Row (Rows.row-kept)', 'ListN', 'Lists'),),
    'a hunk that is nowhere': (('right (Sides.right-holds)', 'k + 7', 'k + 8'),),
    'one definition twice': (LEFT, ('left (Sides.other-holds)', 'k + 1', 'k')),
    'one declaration twice': (LEFT, ('right (Sides.left-holds)', *RIGHT[1:])),
    'a bend with no declaration': (LEFT, ('right', *RIGHT[1:])),
}


def check(report, pair, options):
    for text in FACTS:
        expect(report, log((OWN, text)), True, f'a fact fails: {text}')
        expect(report, log((OWN, FOLLOWING), (OWN, text)), True, f'a fact fails after what follows from another: {text}')
        expect(report, log(*((OTHERS, left) for left in LEFT_OPEN), (OWN, text)), True, f'a fact fails after what is left open: {text}')
        for place in ('src/lib.rt:29:26', 'specs/Draw.antt:6:10'):
            expect(report, log((place, text), (OWN, text)), False, f'{place} cannot be read: {text}')
    for text in MISFITS:
        expect(report, log((OWN, text)), False, f'files do not fit: {text}')
        expect(report, log((OWN, text), (OWN, FACTS[0])), False, f'files do not fit, and a fact fails after that: {text}')
    for text in GONE:
        expect(report, log((OWN, FACTS[0]), (OWN, text)), False, f'a fact fails, and something is gone after that: {text}')
    expect(report, log((OWN, FOLLOWING)), False, 'it only follows from another')
    expect(report, log(*((OWN, left) for left in LEFT_OPEN)), False, 'a term is left open')
    expect(report, log(), False, 'nothing is said')
    expect(report, log(verdict='no proof: expected answers in p; `search` did not prove `returns`'), True, 'a search fails')
    report.check(refusal_of_function(log((OTHERS, FACTS[0])), 'draw', 'product'), 'must-fail: an error of another function counts')
    report.check(refusal_of_function(log((OWN, FACTS[0]), verdict='proved'), 'draw', 'product'), 'must-fail: a proved function counts')
    report.check(refusal_of_function(log((OWN, FACTS[0])), 'draw', 'step'), 'must-fail: a function that is not named counts')
    check_bent_twice(report)
    check_definitions(report)
    check_edits(report)
    return f'{len(FACTS)} ways to say that a fact fails, {len(MISFITS)} to say that files do not fit'


def check_bent_twice(report):
    """A function that an edit bends twice: two of its facts have to fail."""
    twice = log(verdict='no proof: expected answers in p; `search` did not prove `returns`, `returns-2`; it calls `draw::step`')
    for what, said, good in (
        ('one search fails', log(verdict='no proof: expected answers in p; `search` did not prove `returns`; it calls `draw::step`'), False),
        ('two searches fail', twice, True),
        ('one answer fails', log((OWN, FACTS[0])), False),
        ('one answer and one search fail', log((OWN, FACTS[7]), verdict='no proof: `search` did not prove `returns`'), True),
    ):
        report.check((refusal_of_function(said, 'draw', 'product', 2) == '') == good, f'must-fail reads it wrongly for two bends: {what}')


def check_definitions(report):
    """A log that several bends share, read for the one that `find-shows` is to refuse."""
    expect_definition(report, log((RUNS, FACT)), True, 'an error of its own')
    for what, error in NOT_ITS_OWN.items():
        expect_definition(report, log(error), False, what)
        expect_definition(report, log(error, (RUNS, FACT)), True, f'{what}, and one of its own')
    for text in MISFITS:
        own = f'`find-shows`: {text.partition("`: ")[2] or text}'
        expect_definition(report, log((RUNS, own), (RUNS, FACT)), False, f'its first error is no fact: {text}')
    for text in GONE:
        expect_definition(report, log((RUNS, FACT), (OTHERS, text)), False, f'something is gone elsewhere: {text}')
    for place in ('src/lib.rt:29:26', 'specs/Unseen.antt:6:10'):
        expect_definition(report, log((place, FACT), (RUNS, FACT)), False, f'{place} cannot be read')
    expect_definition(report, log(), False, 'nothing is said')
    expect_definition(report, log(verdict='no proof: `search` did not prove `returns`'), False, 'a search of no declaration fails')


def check_edits(report):
    for cases, apart in ((APART, True), (NOT_APART, False)):
        for what, bends in cases.items():
            report.check((edits.fault(edit(bends), MADE.get) == '') == apart, f'must-fail reads the edit wrongly: {what}')
    short, over = edit((LEFT, RIGHT)).rpartition('old:')[0], edit((LEFT,)) + 'old: k + 2\nnew: k + 3\n'
    report.check(edits.fault(short, MADE.get), 'must-fail: a bend with no hunk counts')
    report.check(edits.fault(over, MADE.get), 'must-fail: a hunk with no bend counts')
    report.check(edits.functions(edit((LEFT,))) == [], 'must-fail: a definition is read as a function')
    report.check(edits.definitions('# bends step: it stands still') == [], 'must-fail: a function is read as a definition')


def edit(bends):
    """An edit of the made-up file; a bend is its line as far as the colon, the text and what stands in its place."""
    said = (f'# bends {line}: it is bent\nold: {old}\nnew: {new}\n' for line, old, new in bends)
    return f'file: specs/Made.antt\n{"".join(said)}'


def log(*errors, verdict='not proved'):
    """A log with these errors."""
    said = ''.join(f'{"" if place.startswith("src/") else "./"}{place}: error: {text}\n' for place, text in errors)
    return f'{said}fn draw::product: {verdict}\nlogic=not-proved\n'


def expect(report, log, refused, what):
    """A log read for the whole edit and for its function."""
    for why in (refusal_of_edit(log), refusal_of_function(log, 'draw', 'product')):
        report.check((why == '') == refused, f'must-fail reads it wrongly: {what}')


def expect_definition(report, log, refused, what):
    why = refusal_of_definition(log, 'Runs', 'find-shows')
    report.check((why == '') == refused, f'must-fail reads it wrongly for a definition: {what}')
