"""The kinds of scripts. Each is a function from a random source to blocks of lines; a block starts with `new`, so that it
stands by itself."""
import itertools
import random

from . import (
    damaged,
    edges,
    encodings,
    journal_limits,
    journal_readings,
    line_shapes,
    lines,
    moves,
    numbers,
    source_limits,
    source_readings,
    source_words,
    sources,
    step_readings,
    steps,
    text_limits,
    text_readings,
    texts,
    walks,
    words,
)

# These have blocks without end.
ENDLESS = {
    "edges": edges.blocks,
    "random": walks.blocks,
    "damaged": damaged.blocks,
    "steps": steps.blocks,
    "moves": moves.blocks,
    "texts": texts.blocks,
    "lines": lines.blocks,
    "sources": sources.blocks,
}

# These go once through all that they are about.
ONCE = {
    "step-readings": step_readings.once,
    "journal-readings": journal_readings.once,
    "journal-limits": journal_limits.once,
    "words": words.once,
    "encodings": encodings.once,
    "roots": numbers.roots,
    "powers": numbers.powers,
    "all-powers": numbers.all_powers,
    "text-readings": text_readings.once,
    "text-limits": text_limits.once,
    "line-shapes": line_shapes.once,
    "source-readings": source_readings.once,
    "source-limits": source_limits.once,
    "source-words": source_words.once,
}

KINDS = ENDLESS | ONCE


def blocks(kind, seed):
    """A kind's blocks. The random source is seeded by a text, so that kinds do not share their choices."""
    return KINDS[kind](random.Random(f"{kind} {seed}"))


def script(kind, seed, count):
    """The first lines of them."""
    return list(itertools.islice(itertools.chain.from_iterable(blocks(kind, seed)), count))


def scripts(kind, seed, length):
    """All lines of a kind that ends, in scripts of whole blocks, each of about so many lines."""
    lines = []
    for block in blocks(kind, seed):
        lines += block
        if len(lines) >= length:
            yield lines
            lines = []
    if lines:
        yield lines


def script_with(kind, seed, commands, count):
    """Whole blocks with so many of these commands, or a few more."""
    lines, found = [], 0
    for block in blocks(kind, seed):
        lines += block
        found += sum(line.split(" ")[0] in commands for line in block)
        if found >= count:
            return lines
