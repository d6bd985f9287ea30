"""Is a program what its sources make? Where it is not, rt proves and builds it, with a line for each crate.

rt says by the contents of the files whether a crate is proved and a program is the one that it made of them, and takes
a while for each crate to say so. So once rt has proved a program, a seal under build/ holds two digests: of the sources
(and the kit), and of the program. While both hold, the program runs at once. Without a seal the times of the files
decide, which is what an outsider can see too.
"""

import errno
import fcntl
import hashlib
import os
import re
import shutil
import signal
import subprocess
import sys
import time
from pathlib import Path

sys.path.insert(0, str(Path(__file__).resolve().parent.parent.parent / 'tests'))

import programs
from lib.command import FAILED, Fault, Unbroken, say

PARTS = ('src', 'specs', 'proofs')
LOG = 'build/log/bin-session.log'
# Seconds that a proof takes on two idle cores, half its processor time: for a reader who waits, so no more than a hint.
SECONDS = {
    'rules': 12, 'draw': 10, 'tables': 12, 'record': 22, 'station': 75, 'frames': 55, 'recorder': 35, 'probe': 50, 'rooms': 20,
}
AT_ONCE = 1.5   # seconds in which rt says that nothing has changed, so that no line need be shown
PATIENCE = 5    # seconds that a process has to end in before it is killed
TAIL = 12
UNPROVED = re.compile(r'^fn \S+: (?!proved)|: error\b')
LITTLE = 1 << 16


class Program:
    """A program of crates/, and the files that it is made of."""

    def __init__(self, name):
        self.name = name
        self.root = programs.RECORDER_ROOT.resolve()
        self.shown = f'crates/{name}/out/{name}'
        self.path = self.root / self.shown
        self.seal = self.root / 'build' / 'seal' / name
        self.stamp = self.path.with_name(f'{name}.stamp')  # rt's own: what it has proved, and the program that it made of that

    def crates(self):
        """The crates that the program stands on, each behind those that it stands on, itself the last."""
        listed = self.root / 'crates.txt'
        if not listed.is_file():
            return []  # another repository, of programs alone: there is no source to be older than
        lines = (line.partition('#')[0].partition(':') for line in listed.read_text().splitlines())
        needs = {name.split()[0]: rest.split() for name, colon, rest in lines if name.strip() and colon}
        found = []

        def visit(name):
            if name in needs and name not in found:
                for other in needs[name]:
                    visit(other)
                found.append(name)

        visit(self.name)
        return found

    def sources(self):
        """Every file that the program is made of."""
        crates = self.crates()
        folders = [self.root / 'crates' / crate / part for crate in crates for part in PARTS]
        files = [path for folder in folders for path in sorted(folder.rglob('*')) if path.is_file()]
        return [self.root / 'crates.txt', *files] if crates else []

    def digests(self):
        """Of the sources and the kit, and of the program."""
        made_of = hashlib.sha256()
        kit = programs.kit() / 'KIT-ID'
        made_of.update(kit.read_bytes() if kit.is_file() else b'')
        for path in self.sources():
            made_of.update(f'\n{path.relative_to(self.root)} {path.stat().st_size}\n'.encode() + path.read_bytes())
        return f'{made_of.hexdigest()} {hashlib.sha256(self.path.read_bytes()).hexdigest()}\n'

    def newest(self):
        return max(self.sources(), key=lambda path: path.stat().st_mtime_ns, default=None)

    # ---- Is it what its sources make?

    def sealed(self):
        """Whether a seal says so."""
        return self.path.is_file() and self.seal.is_file() and self.seal.read_text() == self.digests()

    def fault(self):
        """Why the program is not what its sources make, or None: by a seal of this very program, else by its age."""
        if not self.path.is_file():
            return f'{self.shown} is not built yet'
        if self.seal.is_file():
            sources, program = self.digests().split()
            known = self.seal.read_text().split()
            if known[1:] == [program]:
                return None if known[0] == sources else f'{self.shown} was made of other sources than these'
        newest = self.newest()
        if newest and newest.stat().st_mtime_ns > self.path.stat().st_mtime_ns:
            return f'{self.shown} is older than {newest.relative_to(self.root)}'
        return None

    def written(self):
        """The folders that proving it writes to."""
        return [self.root / 'build', *(self.root / 'crates' / crate / 'out' for crate in self.crates())]


# ---- Proving

def ready(name, command):
    """Proves and builds a program where it is not what its sources make. Answers the words that run it."""
    try:
        programs.kit()
        program = Program(name)
        if not program.sealed() and program.crates():
            prove(program, command)
        return programs.kit_program(name)
    except programs.Missing as missing:
        raise Fault(str(missing))


def prove(program, command):
    fault = program.fault()
    if not all(writable(folder) for folder in program.written()):
        if fault:
            raise Fault(f'{fault}, and {program.root} cannot be written: prove it where it can')
        say(command, 'the checkout cannot be written, so rt was not asked; the recorder is no older than its sources')
        return
    if full(program.root):
        raise Fault(f'{fault or "rt must be asked"}, and the disk that holds {program.root} is full')
    log = program.root / LOG
    log.parent.mkdir(parents=True, exist_ok=True)
    with open(log, 'ab') as out:
        alone(out)
        Proof(program, command, out).run(fault)
    seal(program)


def writable(folder):
    """Whether a folder can be written, or made where it is not there."""
    while not folder.exists():
        folder = folder.parent
    return os.access(folder, os.W_OK)


def full(folder):
    return shutil.disk_usage(folder).free < LITTLE


def alone(log):
    """Two commands must not prove in one place; the log is theirs who hold it, and starts anew."""
    try:
        fcntl.flock(log, fcntl.LOCK_EX | fcntl.LOCK_NB)
    except BlockingIOError:
        raise Fault(f'another command is proving here; its log is {LOG}')
    log.truncate(0)


def seal(program):
    """rt leaves no stamp where a source has changed while it built: then this is not known, and rt is asked again."""
    if program.stamp.is_file():
        program.seal.parent.mkdir(exist_ok=True)
        program.seal.write_text(program.digests())


class Proof:
    """One run of rt over the crates of a program, one after the other, so that each line says where the time goes."""

    def __init__(self, program, command, log):
        self.program, self.command, self.log = program, command, log
        self.crates = program.crates()
        self.said = False
        self.open_line = False

    def run(self, fault):
        self.why = fault or f'{self.program.shown} is not known to be proved'
        for at, crate in enumerate(self.crates, 1):
            self.check(at, crate)
        if not self.program.path.is_file():
            raise Fault(f'rt says that {self.program.name} is proved, and {self.program.shown} is not there', FAILED)

    def check(self, at, crate):
        """Has rt prove and build one crate; what it stands on is proved already. A program is also run, on no input."""
        began, process = time.monotonic(), None
        folder = self.program.root / 'crates' / crate
        verb = 'run' if (folder / 'src' / 'main.rt').is_file() else 'lib'
        self.logged = os.path.getsize(self.log.name)
        try:
            with Unbroken():
                process = started(['rt', verb], folder, self.log)
            status = waited(process, AT_ONCE)
            if status is None:
                self.show(at, crate)
                status = process.wait()
                self.end_line(f' .. {self.outcome(crate, status)} in {time.monotonic() - began:.0f} s\n')
        except BaseException:
            if process is not None:
                end(process)
            self.end_line('\n')
            raise
        if not self.proved(crate, status):
            raise self.failed(crate, status)

    def proved(self, crate, status):
        """Once rt has begun to run a program, it has proved and built it, and the status is the program's own."""
        return status == 0 or self.told(f'rt: running out/{crate};')

    def outcome(self, crate, status):
        """rt takes its time on a busy machine, also where nothing has changed and it proves nothing."""
        if not self.proved(crate, status):
            return 'NOT PROVED'
        return 'proved' if self.told('logic=proved ') else 'found unchanged'

    def told(self, beginning):
        """Whether rt has told so of this crate."""
        return any(line.startswith(beginning) for line in self.lines())

    def show(self, at, crate):
        if not self.said:
            about = sum(SECONDS.get(name, 0) for name in self.crates[at - 1:])
            say(self.command, f'{self.why}: proving, up to {about} s on an idle machine; the prover\'s log is {LOG}')
            self.said = True
        hint = f', about {SECONDS[crate]} s' if crate in SECONDS else ''
        self.write(f'{self.command}: proving {crate}, {at} of {len(self.crates)}{hint}')
        self.open_line = True

    def end_line(self, text):
        if self.open_line:
            self.write(text)
            self.open_line = False

    def write(self, text):
        if sys.stderr is not None:
            sys.stderr.write(text)
            sys.stderr.flush()

    def lines(self):
        """What rt has said of this crate."""
        with open(self.log.name, 'rb') as log:
            log.seek(self.logged)
            return log.read().decode(errors='replace').splitlines()

    def failed(self, crate, status):
        """What rt said of each function or place that is not proved, else what it said last, and where all of it stands."""
        tail = self.lines()[-TAIL:]
        if full(self.program.root) or any(os.strerror(errno.ENOSPC) in line for line in tail):
            return Fault(f'{crate} was not proved: the disk that holds {self.program.root} is full; the log is {LOG}')
        unproved = [line for line in self.lines() if UNPROVED.search(line)]
        for line in unproved[:TAIL] or tail:
            self.write(f'    {line[:400]}\n')
        return Fault(f'{crate} was not proved: rt ended with {status}; above are lines of {LOG}', FAILED)


# ---- Processes

def started(words, folder, log):
    """A process in a group of its own, so that all that it starts can be ended with it."""
    try:
        streams = {'stdin': subprocess.DEVNULL, 'stdout': log, 'stderr': subprocess.STDOUT}
        return subprocess.Popen(words, cwd=folder, start_new_session=True, **streams)
    except OSError as why:
        raise Fault(f'cannot start {words[0]} in {folder}: {why.strerror}')


def waited(process, seconds):
    try:
        return process.wait(seconds)
    except subprocess.TimeoutExpired:
        return None


def end(process):
    """Ends a process and all that it started: first with a plea, and what is then left of its group without."""
    with Unbroken():
        for number in (signal.SIGTERM, signal.SIGKILL):
            try:
                os.killpg(process.pid, number)
            except (ProcessLookupError, PermissionError):
                pass  # none is left, or what is left runs as another user and ends with its parent
            waited(process, PATIENCE)
