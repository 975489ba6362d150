"""Single lines with a table of labels: any line, and entries that lie well, name something else, or run past their text."""
from . import texts
from .assembly import NAMES, TO_LABEL, Writer, line

BLOCK = 100


def blocks(rng):
    while True:
        yield ["new 0 0 0 0 0"] + [command(rng) for _ in range(BLOCK)]


def command(rng):
    """Half of the lines with a table refer to its names, as far as they refer to any."""
    if rng.random() < 0.2:
        return line(any_code(rng, NAMES))
    names = rng.sample(NAMES, 4)
    return line(any_code(rng, rng.choice([names, NAMES])), *table(rng, names))


def any_code(rng, names):
    return rng.choices(WAYS, WEIGHTS)[0](rng, names)


def table(rng, names):
    """A text of a few names, and entries in it. Of equal names the first counts; one that runs past the text names nothing."""
    text, entries = "", []
    for name in [rng.choice(names) for _ in range(rng.randrange(1, 7))]:
        entries.append((len(text), len(name), address(rng)))
        text += name + rng.choice(["", ":", "\n", " ", "\xff"])
    for _ in range(rng.randrange(3)):
        entries.append(stray(rng, len(text)))
    rng.shuffle(entries)
    if rng.random() < 0.3:
        # a name at the text's very end, and an entry that begins there and runs past
        name = rng.choice(names)
        entries.insert(0, (len(text), len(name) + rng.choice([1, 2, 65_536, 4_294_967_000]), address(rng)))
        text += name
    return text, entries


def stray(rng, size):
    """An entry that ends at the text's end, beside it or far past it, or anywhere in the text."""
    place = rng.choice([0, size - 1, size, size + 1, rng.randrange(size + 1), 65_535, 65_536, 4_294_967_295])
    length = rng.choice([0, 1, size - place, size - place + 1, rng.randrange(4), 65_536, 4_294_967_295])
    return max(0, place), max(0, length), address(rng)


def address(rng):
    return rng.choice([0, 2, 2047, 2048, 65_534, 65_535, rng.randrange(65_536)])


def any_line(rng, names):
    return Writer(rng, 0.2, 0.06, names).line()


def reference(rng, names):
    write = Writer(rng, 0, 0.02, names)
    return write.around(write.spaced([write.cased(rng.choice(TO_LABEL)), write.name()]))


def damaged(rng, names):
    """Now and then of more than one line: byte 10 is a blank here."""
    text = texts.damaged(rng)
    return text if rng.random() < 0.2 else text.split("\n")[0]


def cut_short(rng, names):
    return texts.cut_short(rng)


def blank(rng, names):
    return rng.choice(["", " ", "\n", "\t\v\f\r\n ", "\x1c", ";", ":", "\0"])


WAYS = [any_line, reference, damaged, cut_short, blank]
WEIGHTS = [47, 24, 18, 10, 1]
