"""Journals of about 4,096 records, once: filled past their room, and taken back to the last record and once more."""
from .forms import *
from .steer import program_of

RECORD = 23
MOST = 4_096


def once(rng):
    for journal in (RECORD * MOST, RECORD * MOST - 1, RECORD * (MOST - 1) - 1, RECORD * (MOST + 1), 94_300):
        yield wrapped(rng, journal)
    for journal in (RECORD * MOST - 1, RECORD * MOST + 7):
        yield drained(rng, journal)


def counting(rng, journal):
    """It counts in A, and stores the count."""
    loop = [arith(ADD, A, 1), word_access(A, B, 1, 10), jmp(0)]
    return [f"new 16 0 {journal} 0 {rng.randrange(65_536)}", program_of(loop)]


def wrapped(rng, journal):
    """Over the ring's end and back, on each side of it."""
    room = min(MOST, journal // RECORD)
    lines = counting(rng, journal)
    for n in (room - 1, 1, 1, room, 3 * room + 2):
        lines += [f"run {n}", "state", "back", "state", "back", "back", "state", "run 3", "state"]
    return lines + ["forget", "back", "state"]


def drained(rng, journal):
    room = min(MOST, journal // RECORD)
    lines = counting(rng, journal) + [f"run {room + 5}", "state"]
    for i in range(room + 1):
        lines += ["back", "state"] if i % 500 == 0 or i > room - 4 else ["back"]
    return lines + ["step", "state", "back", "back", "state"]
