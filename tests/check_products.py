"""No product of 64 bits (document 02, W3): none in the sources of four crates, none in the code that is made of the place and of
the step, no routine for one that the recorder calls on a controller; and places and steps beside the 64-bit product.

Each look is tried on something that it must find: sources, C and programs that have such a product, and wrong versions of the
two functions.
"""

import os
import re
import subprocess
import tempfile
from collections import Counter
from pathlib import Path

import compiled
import mir
import programs
from compiled import CORTEX_M0, TARGETS, X86_64

CRATES = ('draw', 'record', 'tables', 'station')
COMMAND = programs.ROOT / 'bin' / 'compiled'

# ---- What must be found

# The functions of a crate, each provable, and what of each is of more than 32 bits.
HEAD = '#![tactic(auto)]\n\nghost use Rattle.std.specs.Prelude.{length, ◌<◌, ◌*◌};\n\nuse std::num::Wrapping;\n\n'
WIDE_SOURCES = {
    'pub fn product(a: u32, b: u32) -> u64 { (a as u64) * (b as u64) }': 'mul of 64 bits in wide::product',
    'pub fn words(room: u32) -> usize { 3 * (room as usize) }': 'mul of 64 bits in wide::words',
    'pub fn rooms(len: usize) -> usize { len / 3 }': 'div of 64 bits in wide::rooms',
    'pub fn rest(len: usize) -> usize { len % 3 }': 'rem of 64 bits in wide::rest',
    'pub fn narrow(a: u16, b: u16) -> u32 { (a as u32) * (b as u32) }': None,
    'pub fn element(q: &[u32], at: usize) -> u32 requires few { at < 9 } requires in_q { at < length q.now } { q[at] }': None,
    'pub fn put(q: &mut [u64], at: usize) requires few { at < 9 } requires in_q { at < length q.old } { q[at] = 1; }': None,
    'pub fn eighth(q: &[u8], at: usize) -> u8 requires few { at < 9 } requires in_q { at * 8 < length q.now } { q[at * 8] }':
        'mul of 64 bits in wide::eighth',
    'pub fn same(q: &[u8], at: usize) -> u8 requires few { at < 9 } requires in_q { at * 1 < length q.now } { q[at * 1] }':
        'mul of 64 bits in wide::same',
    'pub fn fourth(q: &[u32], at: usize) -> u32 requires few { at < 9 } requires in_q { at * 4 < length q.now } { q[at * 4] }':
        'mul of 64 bits in wide::fourth',
    'pub fn cell(row: usize, at: usize) -> u32 requires first { row < 1 } requires in_table { at < 3 } '
    '{ let place = row * 4 + at; let table = [7u32, 8, 9]; table[at] + table[place] }': 'mul of 64 bits in wide::cell',
    'pub fn modular(a: Wrapping<u64>, b: Wrapping<u64>) -> Wrapping<u64> { a * b }': None,
}
# What the last of them reaches in std, to which it hands the arithmetic of its numbers.
REACHED = {f'{what} of 64 bits in core::num::modular::integers::U64Wraps::wrapped_{name}'
           for what, name in (('wrapmul', 'mul'), ('rem', 'shl'), ('rem', 'shr'))}
# Instructions, and whether they work in more than 32 bits or call something.
INSTRUCTIONS = {
    X86_64: {'imull %eax, %ecx': False, 'imull $25, %eax, %ecx': False, 'imull 8(%rdi,%rsi,4), %eax': False, 'leal (%rdi,%rdi,4), %ecx': False,
             'jmp .LBB0_1': False, 'jne .LBB0_1': False, 'retq': False,
             'imull %ecx': True, 'imull (%rdi,%rsi,4)': True, 'imulq %rcx, %rax': True, 'mull %ecx': True, 'mulq %rdx': True,
             'mulxl %eax, %ecx, %edx': True, 'leaq (%rdi,%rdi,4), %rcx': True, 'shrq $32, %rax': True, 'pmuludq %xmm1, %xmm0': True,
             'mulsd %xmm1, %xmm0': True, 'jmp place': True, 'jne place': True, 'callq *%rax': True},
    CORTEX_M0: {'muls r2, r1, r2': False, 'bics r0, r1': False, 'bx lr': False, 'b .LBB0_1': False, 'bne .LBB0_1': False,
                'umull r0, r1, r2, r3': True, 'smlal r0, r1, r2, r3': True, 'adcs r1, r3': True, 'bl __aeabi_lmul': True, 'b place': True,
                'beq place': True, 'blx r3': True},
}
# The place with a sum of 64 bits; with the product whole; and from four products of halves, for any length of 32 bits, of which a
# compiler makes the whole one again.
SUM = 'unsigned place(unsigned s, unsigned len) { return ((unsigned long long)s + len + len) >> 32; }'
WHOLE = 'unsigned place(unsigned s, unsigned len) { return (unsigned long long)s * len >> 32; }'
FOUR = '''
unsigned place(unsigned s, unsigned len)
{
    unsigned a = s >> 16, b = s & 65535, c = len >> 16, d = len & 65535, t = a * d + (b * d >> 16);
    return a * c + (t >> 16) + (b * c + (t & 65535) >> 16);
}
'''
# C that calls a routine on a controller, and whether it is let pass.
ROUTINES = {
    WHOLE: False,
    'unsigned long long of(unsigned long long a, unsigned long long b) { return a / b; }': False,
    'double of(double a, double b) { return a * b; }': False,
    'unsigned of(unsigned a, unsigned b) { return a / b; }': True,
}
# A library that exports the two names, and a recorder, each with a product of 64 bits.
WIDE_PLACES = '''#![tactic(auto)]

#[unsafe(no_mangle)]
pub extern "C" fn draw_step(s: u32) -> u32 { s }

#[unsafe(no_mangle)]
pub extern "C" fn draw_place(s: u32, len: u16) -> u32 { ((s as u64) * 1664525 / 4294967296) as u32 }
'''
WIDE_RECORDER = '''#![tactic(auto)]

ghost use Rattle.std.specs.Prelude.{◌≤◌};

use std::io::{Read, Write};

fn word(b: u8) -> u32 ensures { result ≤ 255 } { b as u32 }

fn high(s: u32) -> u32 { ((s as u64) * 1664525 / 4294967296) as u32 }

fn byte(s: u32) -> u8 { (s % 256) as u8 }

fn main(rt: HostRuntime) {
    let mut reader = rt.stdin();
    let mut writer = rt.stdout();
    let mut text = [0u8; 4];
    let got = reader.read(&mut text);
    let s = 16777216 * word(text[0]) + 65536 * word(text[1]) + 256 * word(text[2]) + word(text[3]);
    text[0] = byte(high(s));
    let put = writer.write(&text);
}
'''
MAIN = r'(?:main|recorder::main\S*)'  # its functions by name, of which the compiler makes one or two
# The function in which the compiler may divide by 3 with a 64-bit multiply, on x86-64.
OPENS = 'frames::session::open_reply'

# ---- What is compared

LONGEST = 800
COUNT, FEW = 4_000_000, 20_000
OF_PLACES = {'edges': LONGEST * (LONGEST + 1), 'lengths': 11 * 2 ** 16, 'random-pairs': COUNT, 'random-blocks': COUNT}
OF_STEPS = {'halves': 4 * 2 ** 16, 'random-states': COUNT, 'walk': COUNT}
SOURCE = programs.ROOT / 'tests' / 'places.c'
# The versions of tests/places.c by number, and the groups in which each must differ.
BENDS = (
    ('a right version', ()),
    ('place: nothing is carried from the low half', OF_PLACES), ('place: the high half\'s product is cut', OF_PLACES),
    ('place: the halves in the other order', OF_PLACES), ('place: the low half\'s product is not brought down', OF_PLACES),
    ('place: rounded to the nearest', OF_PLACES),
    ('step: one mixed product is left out', OF_STEPS), ('step: the halves in the other order', OF_STEPS),
    ('step: the mixed products are cut once more', OF_STEPS), ('step: the low halves\' product is cut', OF_STEPS),
)
# Instructions that multiply in 32 bits in the code of each function, as docs/DECISIONS.md has them.
PRODUCTS = {('draw_place', X86_64): 2, ('draw_step', X86_64): 2, ('draw_place', CORTEX_M0): 2, ('draw_step', CORTEX_M0): 3}


def check(report, pair, options):
    told = [check_sources(report), check_pairs(report, options.seed), check_code(report), check_command(report), check_recorder(report)]
    return ''.join(f'\n    {line}' for line in told)


# ---- The sources, as the compiler has typed them

def check_sources(report):
    """Of each crate all that its functions reach in the others and in std is looked at too."""
    products = set()
    for crate in CRATES:
        functions = functions_of(programs.RECORDER_ROOT, crate)
        missing = written(crate) - Counter(name.split('::')[-1] for name in functions if name.startswith(f'{crate}::'))
        report.check(not missing, f'the MIR of {crate} has no {", ".join(sorted(missing))}')
        for made in mir.operations(functions):
            report.check(within_32(made), f'a {made}')
            if made.what == 'mul' and not made.of_index:
                products.add(made)
    report.check(products, 'the four crates multiply nowhere')
    check_wide_sources(report)
    return f'{", ".join(CRATES)}: products of at most 32 bits in {", ".join(sorted({made.function for made in products}))}'


def within_32(made):
    """A product that brings an index to its element is the compiler's own, and a shift."""
    return made.bits <= 32 or made.of_index


def written(crate):
    """The functions that a crate's sources have, by the last part of their names."""
    texts = [path.read_text() for path in (programs.RECORDER_ROOT / 'crates' / crate / 'src').rglob('*.rt')]
    return Counter(name for text in texts for name in re.findall(r'(?m)^[^/\n]*\bfn (\w+)', text))


def functions_of(root, crate):
    """The MIR of a crate's functions and of those that they reach, of which rt builds the libraries anew where it must."""
    folder = root / 'crates' / crate
    asked = subprocess.run(['rt', 'lib'], cwd=folder, capture_output=True, text=True)
    if asked.returncode != 0:
        raise programs.Missing(f'rt lib in {folder} ended with {asked.returncode}: {(asked.stdout + asked.stderr).strip()[-500:]}')

    def library(name):
        own = root / 'crates' / name / 'out' / 'rlib' / f'{name}.rlib'
        return own if own.is_dir() else programs.kit() / 'rlibs' / f'{name}.rlib'

    return mir.reached(library, crate)


def check_wide_sources(report):
    """What must be found is found, and nothing else."""
    with tempfile.TemporaryDirectory() as folder:
        functions = functions_of(one_crate(folder, 'wide', HEAD + '\n'.join(WIDE_SOURCES)), 'wide')
    found = {str(made) for made in mir.operations(functions) if not within_32(made)}
    due = REACHED | {what for what in WIDE_SOURCES.values() if what}
    report.check(found == due, f'of sources with products of 64 bits {sorted(found)} were found')


def one_crate(folder, name, text, kind='', root='lib.rt'):
    """A repository with one crate in it."""
    folder = Path(folder)
    source = folder / 'crates' / name / 'src' / root
    source.parent.mkdir(parents=True)
    source.write_text(text)
    (folder / 'crates.txt').write_text(f'{name} {kind}:\n')
    return folder


# ---- Places and steps beside the 64-bit product

def check_pairs(report, seed):
    job = programs.c_under_kit('places', (SOURCE,), ('-O2',), (programs.static_library('places'),))
    given = compared(job, seed, COUNT)
    for name, due in {**OF_PLACES, **OF_STEPS}.items():
        count, differ, first = given.get(name, (0, 0, 'nothing was compared'))
        report.check(count == due and differ == 0, f'{name}: {count:,} compared of {due:,}, {differ:,} differ: {first}')
    for number, (what, shows_in) in enumerate(BENDS):
        bent = compared(programs.c_under_kit(f'places-{number}', (SOURCE,), ('-O2', f'-DBENT={number}')), seed, FEW)
        differing = {name for name, (_, differ, _) in bent.items() if differ}
        as_due = bent.keys() == given.keys() and differing == set(shows_in)
        report.check(as_due, f'{what}: of {sorted(bent)} it differs in {sorted(differing)}')
    places, steps = sum(OF_PLACES.values()), sum(OF_STEPS.values())
    return f'{places:,} places and {steps:,} steps as the 64-bit product has them; {len(BENDS) - 1} wrong versions differ'


def compared(job, seed, count):
    """What the program says of each group: how many were compared, how many differ, and the first that does."""
    said = programs.output([*job, str(seed), str(count)], b'').decode()
    lines = re.findall(r'(?m)^([a-z-]+) (\d+) (\d+)(.*)$', said)
    return {name: (int(tried), int(differ), first.strip()) for name, tried, differ, first in lines}


# ---- The code that is made

def check_code(report):
    for target, instructions in INSTRUCTIONS.items():
        for line, due in instructions.items():
            report.check(compiled.more_than_32(line, target) == due, f'{line} of {target} is taken for the other kind')
    made = compiled.module(compiled.PLACES)
    code = {target: compiled.code_of(made, target) for target in TARGETS}
    for (name, target), due in PRODUCTS.items():
        lines = code[target].get(name, [])
        report.check(not wide(lines, target), f'{name} for {target} has {wide(lines, target)}')
        products = sum(compiled.narrow_product(line, target) for line in lines)
        report.check(products == due, f'{name} for {target} multiplies {products} times, and not {due}')
    for target in TARGETS:
        for source in (SUM, WHOLE, FOUR):
            lines = compiled.code_of_c(source, target).get('place', [])
            report.check(wide(lines, target), f'nothing of 64 bits is found for {target} in {source.strip()}: {lines}')
    return f'the code multiplies in 32 bits: {", ".join(f"{name} for {target} {due} times" for (name, target), due in PRODUCTS.items())}'


def wide(lines, target):
    return [line for line in lines if compiled.more_than_32(line, target)]


# ---- The command, on the two functions and on the recorder

def check_command(report):
    status, said = run_command()
    report.check(status == 0 and '**' not in said, f'bin/compiled ends with {status}: {said}')
    for target, of in TARGETS.items():
        due = sum(products for (_, own), products in PRODUCTS.items() if own == target)
        last = f'{of.what}: {due} lines with a star, none with two\n'
        report.check(last in said, f'bin/compiled does not say {last.strip()}: {said}')
    for words, due in {'--help': 0, '--nonsense': 2}.items():
        status, _ = run_command(words)
        report.check(status == due, f'bin/compiled {words} ends with {status}')
    with tempfile.TemporaryDirectory() as folder:
        status, said = run_command(RECORDER_ROOT=str(one_crate(folder, 'places', WIDE_PLACES, 'staticlib')))
        starred = re.findall(r'(?m): .* with a star, \d+ with two$', said)
        report.check(status == 1 and len(starred) == len(TARGETS), f'with a product of 64 bits bin/compiled ends with {status}: {said}')
    with tempfile.TemporaryDirectory() as folder:
        status, said = run_command(RECORDER_ROOT=folder)
        report.check(status == 2 and not said, f'with nothing to compile bin/compiled ends with {status}: {said}')
    return 'bin/compiled shows the same, and two stars where a product is of 64 bits'


def check_recorder(report):
    """On a controller the whole recorder calls nothing for arithmetic of 64 bits."""
    for source, due in ROUTINES.items():
        names = compiled.called_outside(compiled.code_of_c(source, CORTEX_M0))
        passed = bool(names) and all(map(compiled.is_narrow, names))
        report.check(names and passed == due, f'what {source.strip()} calls on a Cortex-M0 is taken for the other kind: {names}')
    with tempfile.TemporaryDirectory() as folder:
        status, said = run_command('--recorder', RECORDER_ROOT=str(one_crate(folder, 'recorder', WIDE_RECORDER, root='main.rt')))
        found = re.search(rf'__aeabi_lmul .*, in {MAIN}\n', said) and re.search(rf'(?m)^  {MAIN} +\w*mul\w* ', said)
        report.check(status == 1 and found, f'of a recorder with a product of 64 bits bin/compiled --recorder ends with {status}: {said}')
    status, said = run_command('--recorder')
    names = re.findall(r'(?m)^ +\d+  (\S+)', said)
    report.check(status == 0 and names, f'bin/compiled --recorder ends with {status}: {said}')
    wide_in = re.findall(r'(?m)^  (\S+) +\w*mul\w* ', said)
    report.check(wide_in in ([], [OPENS]), f'more than the division by 3 at an open multiplies to 64 bits on x86-64: {said}')
    for name in names:
        report.check(compiled.is_narrow(name), f'on a Cortex-M0 the recorder calls {name}: {compiled.purpose(name)}')
    return f'on a Cortex-M0 the recorder calls {", ".join(names)}'


def run_command(*words, **more):
    done = subprocess.run([COMMAND, *words], capture_output=True, text=True, env={**os.environ, **more})
    return done.returncode, done.stdout
