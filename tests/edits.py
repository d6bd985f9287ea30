"""Reads must-fail edits: what each bends, and whether the bends of definitions can be told apart."""

import re
from collections import namedtuple

Bend = namedtuple('Bend', 'definition file declaration what')
Hunk = namedtuple('Hunk', 'file old new')
BEGINS = re.compile(r'(?m)^(?:(?:abbrev|unfoldable) pub|pub (?:record|data)) (\S+)')


def functions(text):
    """The functions that an edit bends, each with what is wrong with it."""
    return re.findall(r'(?m)^# bends (\S+): (.*)$', text)


def definitions(text):
    """The definitions that an edit bends, each with the declaration that is to refuse it and what is wrong with it."""
    return [Bend(*found) for found in re.findall(r'(?m)^# bends (\S+) \((\w+)\.(\S+)\): (.*)$', text)]


def hunks(text):
    """What an edit replaces, read as rt reads it: a line `file:` holds for the pairs after it."""
    file = old = ''
    for word, rest in re.findall(r'(?m)^(file|old|new): ?(.*)$', text):
        if word == 'file':
            file = rest
        elif word == 'old':
            old = rest
        else:
            yield Hunk(file, old, rest)


def bent_by(text, read):
    """The definition in which each hunk lies. A hunk is sought where those before it have been made, as rt does."""
    files = {}
    for hunk in hunks(text):
        whole = files.get(hunk.file) or read(hunk.file)
        yield definition_at(whole, whole.find(hunk.old))
        files[hunk.file] = whole.replace(hunk.old, hunk.new, 1)


def definition_at(whole, place):
    """The last definition that begins in the line of this place or above it, or nothing."""
    begun = BEGINS.findall(whole[:whole.find('\n', place)]) if place >= 0 else []
    return begun[-1] if begun else ''


def fault(text, read):
    """Why the bends of definitions in an edit cannot be told apart, or nothing. A file of the crate comes from read."""
    named, bent = definitions(text), list(bent_by(text, read))
    if len(named) != len(bent):
        return f'{len(named)} bends of definitions, and {len(bent)} hunks'
    if len({bend.definition for bend in named}) < len(named):
        return 'two of its bends name one definition'
    if len({(bend.file, bend.declaration) for bend in named}) < len(named):
        return 'two of its bends name one declaration'
    elsewhere = ((bend.definition, place) for bend, place in zip(named, bent) if bend.definition != place)
    return next((f'the hunk of {name} lies in {place or "no definition"}' for name, place in elsewhere), '')
