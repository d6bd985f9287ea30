"""Has the prover check a crate with each must-fail edit made, and keeps what it says: rt tries the edits too, and keeps no log.

The edits are made in rooms, copies of the repository's crates under build/must-fail, where all is proved before: a check then
looks at what an edit changed, and at what stands on that. A log is kept, and not made again while the edit, its crate, those below
and the kit stay as they are.
"""

import hashlib
import os
import shutil
import subprocess
from concurrent.futures import ThreadPoolExecutor
from queue import Queue

import edits
import programs
from programs import ROOT

FOLDER = programs.BUILD / 'must-fail'
PARTS = ('src', 'specs', 'proofs')
# A check takes a processor, and up to 4 GB.
MOST_ROOMS, ROOM_OF = 4, 4 << 30


def logs(edit_files):
    """What the prover says of each edit, by its path."""
    wanted = {edit: FOLDER / edit.parts[-3] / f'{edit.stem}.log' for edit in edit_files}
    stale = [edit for edit, log in wanted.items() if kept(log) != digest(edit)]
    if stale:
        make(stale, wanted)
    return {edit: log.read_text(errors='replace').partition('\n')[2] for edit, log in wanted.items()}


def kept(log):
    """What a log was made of: its first line."""
    return log.read_text(errors='replace').partition('\n')[0] if log.is_file() else ''


def digest(edit):
    """Of the edit and all that its check reads."""
    made_of = hashlib.sha256((programs.kit() / 'KIT-ID').read_bytes() + edit.read_bytes())
    for crate in (*below(edit.parts[-3]), edit.parts[-3]):
        for path in sources(crate):
            made_of.update(f'\n{path.relative_to(ROOT)}\n'.encode() + path.read_bytes())
    return made_of.hexdigest()


def sources(crate):
    folders = (ROOT / 'crates' / crate / part for part in PARTS)
    return [path for folder in folders for path in sorted(folder.rglob('*')) if path.is_file()]


def below(crate):
    """The crates that a crate stands on, each behind those that it stands on itself."""
    found = []
    for other in needs().get(crate, ()):
        found += [name for name in (*below(other), other) if name not in found]
    return found


def needs():
    """What each crate that crates.txt lists stands on, of those that it lists."""
    lines = (line.partition('#')[0].partition(':') for line in (ROOT / 'crates.txt').read_text().splitlines())
    listed = {name.split()[0]: rest.split() for name, colon, rest in lines if colon}
    return {name: [other for other in rest if other in listed] for name, rest in listed.items()}


# ---- Rooms

def make(stale, wanted):
    """Makes the logs of these edits, some side by side."""
    shutil.rmtree(FOLDER / 'rooms', ignore_errors=True)
    rooms = Queue()
    try:
        for room in furnished({edit.parts[-3] for edit in stale}):
            rooms.put(room)
        with ThreadPoolExecutor(rooms.qsize()) as workers:
            list(workers.map(lambda edit: keep(edit, wanted[edit], rooms), stale))
    finally:
        shutil.rmtree(FOLDER / 'rooms', ignore_errors=True)


def furnished(crates):
    """As many rooms as are worth while; in each the crates are proved, and what they stand on."""
    first = FOLDER / 'rooms' / '0'
    first.mkdir(parents=True)
    shutil.copy(ROOT / 'crates.txt', first)
    for crate in needs():
        for part in PARTS:
            if (ROOT / 'crates' / crate / part).is_dir():
                shutil.copytree(ROOT / 'crates' / crate / part, first / 'crates' / crate / part)
    for crate in crates:
        if checked(first, crate).returncode != 0:
            raise programs.Missing(f'{crate} is not proved, so its edits show nothing: run rt check in crates/{crate}')
    memory = os.sysconf('SC_PAGE_SIZE') * os.sysconf('SC_PHYS_PAGES')
    others = [first.with_name(str(number)) for number in range(1, max(1, min(os.cpu_count(), MOST_ROOMS, memory // ROOM_OF)))]
    for room in others:
        shutil.copytree(first, room)
    return [first, *others]


def checked(room, crate):
    words = ['rt', 'check', '--jobs', '1']
    return subprocess.run(words, cwd=room / 'crates' / crate, stdin=subprocess.DEVNULL, capture_output=True, text=True, errors='replace')


def keep(edit, log, rooms):
    """Makes an edit in a room that is free, has its crate checked there, and puts back what it changed."""
    room = rooms.get()
    try:
        crate, before, after = room / 'crates' / edit.parts[-3], {}, {}
        for hunk in edits.hunks(edit.read_text()):
            whole = before.setdefault(hunk.file, (crate / hunk.file).read_text())
            after[hunk.file] = after.get(hunk.file, whole).replace(hunk.old, hunk.new, 1)
        for file, text in after.items():
            (crate / file).write_text(text)
        said = checked(room, edit.parts[-3])
        for file, text in before.items():
            (crate / file).write_text(text)
        log.parent.mkdir(exist_ok=True)
        log.write_text(f'{digest(edit)}\n{said.stdout}{said.stderr}\nended with {said.returncode}\n')
    finally:
        rooms.put(room)
