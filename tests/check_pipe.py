"""A peer on a pipe that waits for each answer: it must come as soon as its frame has ended, however the bytes arrive."""

import fcntl
import itertools
import os
import random
import select
import struct
import subprocess
import termios
import time

import programs
import stored
from drive import Driver
from model import CSP_1, run
from script import Script

PATIENCE = 30
SESSIONS = ('example', 'case-6-reduced-need', 'markers-between-takes', 'ill-formed-after-open', 'last-line-without-line-feed')


class Silent(Exception):
    """The program did not read, answer or end in time."""


class Peer:
    """A program on two pipes."""

    def __init__(self, words):
        pipe = subprocess.PIPE
        self.process = subprocess.Popen(words, stdin=pipe, stdout=pipe, bufsize=0, env=programs.environment())
        self.heard = b''

    def send(self, part):
        """Sends a part and waits until the program has read all of it, so that parts do not run together."""
        self.process.stdin.write(part)
        deadline = time.monotonic() + PATIENCE
        while self.unread():
            if self.process.poll() is not None:
                raise Silent('the program ended early')
            if time.monotonic() > deadline:
                raise Silent('what was sent is not read')

    def unread(self):
        return struct.unpack('i', fcntl.ioctl(self.process.stdin, termios.FIONREAD, bytes(4)))[0]

    def listen(self, length):
        """Waits until so many bytes of answers have come, and takes no more than are there."""
        deadline = time.monotonic() + PATIENCE
        while len(self.heard) < length:
            if not self.ready(max(0, deadline - time.monotonic())):
                raise Silent(f'{len(self.heard):,} bytes of answers came, not {length:,}')
            part = os.read(self.process.stdout.fileno(), 65536)
            if not part:
                raise Silent('the program ended early')
            self.heard += part

    def ready(self, seconds):
        return bool(select.select([self.process.stdout], [], [], seconds)[0])

    def end(self):
        """Closes the input and hears the rest."""
        self.process.stdin.close()
        while True:
            if not self.ready(PATIENCE):
                raise Silent('the program does not end with its input')
            part = os.read(self.process.stdout.fileno(), 65536)
            if not part:
                return self.process.wait(PATIENCE)
            self.heard += part

    def stop(self):
        self.process.kill()
        self.process.wait()
        self.process.stdin.close()
        self.process.stdout.close()


def check(report, pair, options):
    texts = {name: stored.text_of(stored.SESSIONS[name]) for name in SESSIONS}
    texts['random'] = Driver(f'{options.seed}-pipe').drive()
    texts['long'] = long_session()
    ways = {'frame by frame': by_frames, 'byte by byte': by_bytes, 'in odd parts': in_odd_parts}
    for program in pair:
        for name, text in texts.items():
            for way, parts in ways.items():
                if (name, way) != ('long', 'byte by byte'):
                    said = talk(programs.recorder_job(program), text, parts(text))
                    report.check(not said, f'pipe, {program}, {name}, {way}: {said}')
        storm = storm_session()
        said = talk(programs.recorder_job(program), storm, in_large_parts(storm))
        report.check(not said, f'pipe, {program}, a storm, in large parts: {said}')
    return f'{len(texts)} sessions with each program: {", ".join(ways)}; a storm of short lines in large parts'


def long_session():
    script = Script()
    script.open(CSP_1, 3, 4)
    for _ in range(400):
        script.units(3)
        script.tick()
        script.take(2)
    return script.text()


def storm_session():
    """Ticks and empty lines: the answers to a part of them have no room in one write, and the peer waits for all of them."""
    script = Script()
    script.open(CSP_1, 3, 4)
    return script.text() + b'06\n' * 6_000 + b'\n' * 20_000 + b'06\n07\n' * 2_000


# ---- How a session is cut into parts

def by_frames(text):
    return text.splitlines(keepends=True)


def by_bytes(text):
    return [text[at:at + 1] for at in range(len(text))]


def in_odd_parts(text):
    chosen, parts = random.Random(len(text)), []
    while text:
        size = chosen.choice((1, 2, 3, 5, 11, 12, 13, 31, 64, 79, 80, 81, 82, 127, 500, 1000))
        parts.append(text[:size])
        text = text[size:]
    return parts


def in_large_parts(text):
    """No part is larger than one read: a program that waits for its answers to be heard would not read the rest of it."""
    sizes, parts = itertools.cycle((8192, 993, 994, 5000, 1986, 8191)), []
    while text:
        size = next(sizes)
        parts.append(text[:size])
        text = text[size:]
    return parts


def talk(words, text, parts):
    """Sends part after part and waits for what each should bring. Answers what went wrong, or nothing."""
    expected, ended = run(text), 0
    peer = Peer(words)
    try:
        for part in parts:
            peer.send(part)
            ended += part.count(b'\n')
            peer.listen(33 * ended)
            if len(peer.heard) > 33 * ended:
                return 'an answer came before its frame had ended'
        status = peer.end()
    except (Silent, OSError) as why:
        return str(why)
    finally:
        peer.stop()
    if status != 0:
        return f'the program ended with {status}'
    return '' if peer.heard == expected else 'the answers are not those of the model'
