"""The code that the kit's compiler makes of a crate: for x86-64, as the kit has it made, and for a controller.

rt has one LLVM module compiled for a program or a static library, and keeps neither the module nor its code as text. So once
the crate is proved in its own place, rt is asked again in a copy of the repository, and out of a kit of links whose compiler
is a script that keeps the module and the words that it is given.
"""

import re
import shutil
import subprocess
import tempfile
from collections import Counter
from pathlib import Path
from typing import NamedTuple

import programs

# What rt is asked in a crate's folder, so that its module is compiled.
PLACES, RECORDER = ('lib', 'places'), ('run', 'recorder')
# What a check reads of a crate and of those below it, and what it keeps of the crate itself.
READ, KEPT = ('src', 'specs', 'proofs', 'out/rlib'), 'out/incremental'
# rt finds the kit that it works with by where these lie themselves.
RT = (Path('bin/rt'), Path('bin/rtlib.py'))
CLANG = Path('toolchain/bin/clang')
KEEPS = '''#!/bin/sh
for word; do case $word in *.bc) cp "$word" '{folder}/module' ;; esac; done
printf '%s\\n' "$@" >'{folder}/words'
exec '{compiler}' "$@"
'''
# What binds a module to the kit's own target.
BOUND = re.compile(r'(?m)^target (?:datalayout|triple) = .*\n| "target-cpu"="[^"]*"')


class Module(NamedTuple):
    """An LLVM module as text, and the words with which the kit has it compiled."""

    text: str
    words: tuple


class Target(NamedTuple):
    """A processor: what the compiler is told; an instruction whose product has no more bits than its factors, at most 32; one that
    works in 64 bits, or carries from 32 bits to the next; and what begins a comment."""

    what: str
    words: tuple
    narrow: str
    in_64: str
    comment: str


X86_64, CORTEX_M0 = 'x86-64', 'cortex-m0'
TARGETS = {
    X86_64: Target(
        'x86-64, as the recorder is built', ('--target=x86_64-unknown-linux-gnu', '-march=x86-64', '-O3'),
        r'imul[wl] [^,(]*(?:\([^)]*\))?,', r'(?!ret|push|pop)[a-z]+q\b', '#',
    ),
    CORTEX_M0: Target(
        'Arm Cortex-M0, a controller with no multiply wider than 32 bits', ('--target=thumbv6m-none-eabi', '-mcpu=cortex-m0', '-O3'),
        r'muls? ', r'(?:adc|sbc)s? ', '@',
    ),
}
MULTIPLIES = re.compile(r'\w*(?:mul|mla|maal)\w* ')
CALLS = re.compile(r'(?:callq?|j[a-z]+|b(?:eq|ne|cs|hs|cc|lo|mi|pl|vs|vc|hi|ls|ge|lt|gt|le|l|lx|x)?) (?!\.L|lr$)"?([^"]+)"?$')

# What code calls on a controller that is not its own: for arithmetic of 64 bits, and for anything else. A name that is in neither is
# taken for one of the first.
WIDE = {
    '__aeabi_lmul': 'a product of 64 bits', '__aeabi_uldivmod': 'a quotient of 64 bits', '__aeabi_ldivmod': 'a quotient of 64 bits',
    '__aeabi_llsl': 'a shift of 64 bits', '__aeabi_llsr': 'a shift of 64 bits',
}
NARROW = {
    '__aeabi_uidiv': 'a quotient of 32 bits', '__aeabi_uidivmod': 'a quotient of 32 bits, and its remainder',
    '__aeabi_memcpy': 'a copy of memory', '__aeabi_memmove': 'a copy of memory that may lie across itself',
    '__aeabi_memclr': 'zeros into memory', '__aeabi_memset': 'a byte into memory',
    'read': 'the system\'s', 'write': 'the system\'s', 'rattle_errno': 'the kit\'s, in C',
    '__sysv_signal': 'the system\'s, as it starts', '__x86_get_cpuid_feature_leaf': 'the system\'s, as it starts on x86-64',
    '__write': 'the system\'s, where it cannot start',
}


# ---- The module

def module(asked):
    """The module that rt has compiled where it is asked this for a crate."""
    command, crate = asked
    programs.kit()  # says so where there is no rt
    rt('rt', programs.RECORDER_ROOT / 'crates' / crate, 'check')
    with tempfile.TemporaryDirectory() as name:
        folder = Path(name)
        own = kit(folder / 'kit', folder)
        rt(own / RT[0], repository(folder / 'repository', crate) / 'crates' / crate, command)
        if not (folder / 'module').is_file():
            raise programs.Missing(f'rt {command} in crates/{crate} has no module compiled')
        text = clang('-Xclang', '-disable-llvm-passes', '-S', '-emit-llvm', '-x', 'ir', folder / 'module')
        return Module(text, compiling((folder / 'words').read_text().splitlines()))


def compiling(words):
    """Of the words that make an object file of a module those that say how, and not of what."""
    paths = {'-c', '-x', 'ir', '-o', words[words.index('-o') + 1]}
    return tuple(word for word in words if word not in paths and not word.endswith('.bc') and not word.startswith('--sysroot='))


def repository(folder, crate):
    """The repository once more, with all proved but the crate; by copies, since rt takes no links among what it may write."""
    root = programs.RECORDER_ROOT.resolve()
    folder.mkdir()
    shutil.copy(root / 'crates.txt', folder)
    for own in (root / 'crates').iterdir():
        for part in (*READ, KEPT) if own.name == crate else READ:
            if (own / part).is_dir():
                shutil.copytree(own / part, folder / 'crates' / own.name / part)
    return folder


def kit(folder, keep):
    """The kit once more, by links, but for rt, and for its compiler, which keeps what it is given."""
    apart = (*RT, CLANG)
    for depth in sorted({depth for path in apart for depth in path.parents}):
        own = folder / depth
        own.mkdir()
        for path in (programs.kit() / depth).iterdir():
            if not any(one.is_relative_to(depth / path.name) for one in apart):
                (own / path.name).symlink_to(path)
    for path in RT:
        shutil.copy(programs.kit() / path, folder / path)
    script = folder / CLANG
    script.write_text(KEEPS.format(folder=keep, compiler=programs.kit() / CLANG))
    script.chmod(0o755)
    return folder


def rt(program, folder, word):
    try:
        done = subprocess.run([program, word], cwd=folder, stdin=subprocess.DEVNULL, capture_output=True, text=True)
    except OSError as why:
        raise programs.Missing(f'cannot ask rt in {folder}: {why.strerror}')
    if done.returncode != 0:
        said = (done.stdout + done.stderr).strip().splitlines()[-3:]
        raise programs.Missing(f'rt {word} in {folder} ended with {done.returncode}: {" / ".join(said)[:1000]}')


def clang(*words, text=None):
    """What the kit's compiler writes to its output."""
    line = [str(word) for word in (programs.toolchain() / 'bin' / 'clang', *words, '-o', '-')]
    done = subprocess.run(line, input=text, capture_output=True, text=True)
    if done.returncode != 0:
        raise programs.Missing(f'the kit\'s compiler failed: {done.stderr.strip()[:1000]}')
    return done.stdout


# ---- Its code

def code_of(made, target):
    """The instructions of each function of a module: on x86-64 by the kit's own words, elsewhere of the module without its target."""
    words, text = (made.words, made.text) if target == X86_64 else (TARGETS[target].words, BOUND.sub('', made.text))
    return functions(clang(*words, '-Wno-override-module', '-S', '-x', 'ir', '-', text=text), target)


def code_of_c(text, target):
    return functions(clang(*TARGETS[target].words, '-S', '-x', 'c', '-', text=text), target)


def functions(text, target):
    found, own = {}, None
    for line in text.splitlines():
        label = re.match(r'"([^"]+)":|([A-Za-z_]\w*):', line)
        if label:
            own = found.setdefault(label[1] or label[2], [])
        elif own is not None and re.match(r'\t[a-z]', line):
            own.append(line.partition(TARGETS[target].comment)[0].strip().replace('\t', ' '))
    return found


def narrow_product(instruction, target):
    return bool(re.match(TARGETS[target].narrow, instruction))


def wide_product(instruction, target):
    """Whether it multiplies to more bits than its factors have, or to more than 32."""
    return bool(MULTIPLIES.match(instruction)) and not narrow_product(instruction, target)


def called(instruction):
    """The name of what an instruction calls, or jumps to outside its function; or None."""
    found = CALLS.match(instruction)
    return found[1] if found else None


def more_than_32(instruction, target):
    """Whether it works in more than 32 bits, or calls something, which may."""
    in_64 = re.match(TARGETS[target].in_64, instruction)
    return bool(in_64) or wide_product(instruction, target) or called(instruction) is not None


def called_outside(code):
    """What functions call that is none of them, each with how often."""
    names = Counter(called(line) for lines in code.values() for line in lines)
    return {name: names[name] for name in sorted(names.keys() - code.keys() - {None})}


def purpose(name):
    """What a routine that is called works out; some have an alignment behind their name."""
    return NARROW.get(name.rstrip('48')) or WIDE.get(name, 'not known here')


def is_narrow(name):
    return name.rstrip('48') in NARROW
