"""Reads what the prover said of an edit: whether a fact fails, or whether the files no longer fit each other."""

import re
from collections import namedtuple

Error = namedtuple('Error', 'place declaration text')

# The ways in which the prover says that a fact fails: a tactic does not prove its goal, or two types differ. Whatever else
# it says is about files that do not fit: a name that is not in scope or not there, a field that a record has not, a text
# that does not parse, a part too many.
FACTS = re.compile('|'.join((
    r'`search`: no proof of ',
    r'`omega`: the (goal|part `.*` of the goal) does not follow ',
    r'`cc` ',
    r'list the missing equation with its arguments, .*\n  `cc` ',
    r'give a proof of that as the last argument, `(simp|rw) L t`',
    r'`simp`: no equation of the list has an instance in the goal ',
    r"`rw`: no occurrence of the path's left endpoint in the goal",
    r'expected type `',
    r'as printed, the two ',
    r'computed as far as they go, the two ',
    r'computed as a goal is, one side reads ',
    r'`.*`\n  ≟ `.*`\n  does not hold ',
)))
# Types that differ are no fact where what differs is the list of parts that a proof is closed with.
PARTS = re.compile(r'(expected|as printed|computed).*(\bLts\.Closed|\bNeed-)', re.DOTALL)
# Something that the proof names is gone. A part that is gone moves the numbers of those after it, so the ones before it
# may fail for that alone: wherever such an error stands, none of the others shows anything.
GONE = re.compile(r'has no (field |function )?`|is not in scope|is not a field of ')
FOLLOWS = re.compile(r'\d+ declarations? that depends? on ')
# A term that a proof leaves to be found is not found, since what told it is bent: that says nothing, for or against.
OPEN = re.compile(r'`[^`]*` is not admitted: unsolved|unsolved \?')
SEARCHED = '`search` did not prove '
ERROR = re.compile(r'(?m)^(?:\./)?(\S+): error(?:\[\S+\])?: (?:`([^`\n]*)`: )?(.*(?:\n  .*)*)')


def errors(log):
    """The errors that say something of their own, in the order of the log: not what merely follows, nor what is left open."""
    found = (Error(*match.groups()) for match in ERROR.finditer(log))
    return [error for error in found if not FOLLOWS.match(error.text) and not OPEN.match(error.text)]


def of_a_fact(error):
    return bool(FACTS.match(error.text)) and not PARTS.match(error.text)


def refusal_of_edit(log):
    """Why an edit that names no function is not refused by a fact, or nothing where it is."""
    found = errors(log)
    return unread(found) or first_fact(found, SEARCHED in log)


def refusal_of_function(log, crate, function, bends=1):
    """Why a function is not refused by a fact of its own, or nothing where it is; where it is bent several times, by as many."""
    verdict = re.search(rf'(?m)^fn {crate}::{re.escape(function)}: (.*)$', log)
    if verdict is None:
        return 'the prover does not name it'
    if verdict.group(1).startswith('proved'):
        return 'it is proved'
    found = errors(log)
    own = [error for error in found if error.place.split(':')[0] in proofs_of(function)]
    failed = {error.declaration for error in own} | searched_for(verdict.group(1))
    few = f'{len(failed)} of its facts fail, and it is bent {bends} times' if len(failed) < bends else ''
    return unread(found) or first_fact(own, SEARCHED in verdict.group(1)) or few


def searched_for(verdict):
    """The facts that a search did not prove, as the line of a function names them."""
    return set(re.findall('`([^`]*)`', verdict.partition(SEARCHED)[2].partition(';')[0]))


def proofs_of(function):
    """What a function's proof is written in; where functions call one another, in a folder with a plus before its name."""
    *modules, name = function.split('::')
    folders = ('/'.join(('proofs', *modules, folder)) for folder in (name, f'+{name}'))
    return [f'{folder}/{file}.antt' for folder in folders for file in ('Answers', 'Invariants', 'Proof')]


def refusal_of_definition(log, file, declaration):
    """Why a definition is not refused by a fact of the declaration named for it, or nothing where it is."""
    found = errors(log)
    own = [error for error in found if (error.place.split(':')[0], error.declaration) == (f'proofs/{file}.antt', declaration)]
    return unread(found) or gone(found) or first_fact(own, False)


def unread(found):
    """Code or a definition that does not stand by itself leaves nothing to prove."""
    return next((f'it cannot be read: {said(error)}' for error in found if error.place.startswith(('src/', 'specs/'))), '')


def gone(found):
    """Several bends share the log: where something is gone, whoever named it, none of the errors is one bend's own."""
    lost = (error for error in found if GONE.search(error.text) and not of_a_fact(error))
    return next((f'the files do not fit: {said(error)}' for error in lost), '')


def first_fact(found, searched):
    """The first error decides: what comes after it may be its echo. Where there is none, a search may have failed."""
    if not found:
        return '' if searched else 'no fact of its own fails'
    unfit = [error for error in found if not of_a_fact(error) and (error is found[0] or GONE.search(error.text))]
    return f'its proof does not fit: {said(unfit[0])}' if unfit else ''


def said(error):
    return error.text.split('\n')[0][:160]
