"""Reads the MIR that stands in the libraries that rt builds of proved crates: the sources as the compiler has typed them, which is
what is proved and built.
"""

import json
from typing import NamedTuple

# What is looked for: operations that a processor may have no instruction for.
COSTLY = ('mul', 'div', 'rem')


class Operation(NamedTuple):
    """A product, a quotient or a remainder: where it stands, of how many bits it is, and whether it is the compiler's own, which
    brings an index to its element."""

    function: str
    what: str
    bits: int
    of_index: bool

    def __str__(self):
        return f'{self.what} of {self.bits} bits in {self.function}'


def nodes(tree, name):
    """All that stands under this name, in the order of the text: it may stand deeper than Python calls."""
    left = [tree]
    while left:
        node = left.pop()
        if isinstance(node, dict):
            yield from (part for key, part in node.items() if key == name)
            left += reversed(node.values())
        elif isinstance(node, list):
            left += reversed(node)


# ---- Functions

def reached(library, crate):
    """By name the functions of a crate and all that these reach in others; library answers where a crate's library stands, which has
    the crate's own functions alone. Of an impl that is handed on, so that its functions can be called, each counts as reached."""
    libraries, found = {}, {}

    def functions(name):
        own = name.partition('::')[0]
        if own not in libraries:
            libraries[own] = dict(json.loads((library(own) / 'toolchain' / 'mir.json').read_text()))
        return libraries[own]

    left = list(functions(crate))
    while left:
        name = left.pop()
        if name not in found:
            found[name] = functions(name)[name]
            left += [called for called, _ in nodes(found[name]['body'], 'Fn')]
            left += [part for impl, *_ in nodes(found[name]['body'], 'Impl') for part in parts(functions(impl), impl)]
    return found


def parts(functions, impl):
    """The names of an impl's functions; some impls have none."""
    for name, function in functions.items():
        of = function['generics']['method_of']
        if of and of.get('Impl', [None])[0] == impl:
            yield name


# ---- Operations

def operations(functions):
    """Every product, quotient and remainder of each function."""
    for name, function in functions.items():
        assigned = list(nodes(function['body'], 'Assign'))
        for at, (place, value) in enumerate(assigned):
            what = operator(value)
            if any(costly in what for costly in COSTLY):
                yield Operation(name, what, bits(function['locals'], place), brings_index(assigned[at:]))


def operator(value):
    """What is done with two numbers: `mul`, or `floatmul`; nothing where a value is no such thing."""
    if 'Op2' not in value:
        return ''
    what = value['Op2'][0]
    return (what if isinstance(what, str) else next(iter(what))).lower()


def bits(variables, place):
    """Of how many bits the number at a place is; a result always goes to a local."""
    kind = variables[place['local']]['ty']
    if place['steps'] or 'Int' not in kind:
        raise ValueError(f'a result goes to {place}, of which the width is not known')
    return kind['Int']


def brings_index(assigned):
    """Whether the first of these is an index by the size of its element: with the address of an array after it or not, it is then
    added to an address, and an element of that size is read or written there."""
    (place, value), *after = assigned
    if after and 'AddrOf' in after[0][1]:
        after = after[1:]
    if len(after) < 2 or operator(after[0][1]) != 'offset' or after[0][1]['Op2'][2] != {'Copy': place}:
        return False
    pointer = after[0][0]['local']
    written, read = after[1]
    places = (written, *nodes(read, 'Copy'), *nodes(read, 'AddrOf'))
    within = [step for one in places if one['local'] == pointer for step in one['steps']]
    size = next((step['Deref']['Int'] // 8 for step in within if 'Deref' in step and 'Int' in step['Deref']), 1)
    return operator(value) == 'mul' and size > 1 and value['Op2'][2] == {'Int': {'width': 64, 'value': size}}
