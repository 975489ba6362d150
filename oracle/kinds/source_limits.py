"""Text from words at each limit: references that are open at once, the last address that a jump has, 1,024 labels, full programs,
the longest text that the language has room for."""
from .forms import *
from .source_words import LONGEST, text, textn

JUMPS = [jmp, cjp, call]


def once(rng):
    yield from (["new 0 0 0 0 0", command] for family in FAMILIES for command in family(rng))


def open_references(rng):
    """512 may be open at once when the text is assembled again. A label closes its own; a jump back opens none."""
    for count in (511, 512, 513, 514):
        for jump in JUMPS:
            yield text(count * [jump(2 * count)] + [RET])
        # each to another label
        yield text([jmp(min(2 * (count + i), 2_046)) for i in range(count)] + count * [RET])
        # one label comes before the last is opened
        half = count // 2
        yield text(half * [jmp(2 * half)] + [RET] + (count - half) * [jmp(2 * count + 2)] + [RET])
        yield text([jmp(2 * count)] + (count - 1) * [jmp(2)] + [RET])
        yield text(count * [jmp(0)])
        yield text(count * [jmp(2 * count - 2)])
        # to the end and beyond: no label, so none is open
        yield text(count * [jmp(2 * count)])
        yield text((count + 100) * [jmp(2001)])
    yield text(512 * [jmp(1024)] + 512 * [jmp(2000)] + 100 * [NOOP])
    yield text(512 * [jmp(1026)] + 513 * [jmp(2044)])


def last_addresses(rng):
    """A jump reaches 2,047; so 2,046 is the last label, in a program of 1,024 words or more. The end is never inside."""
    for count in (1_022, 1_023, 1_024, 1_025, 1_500):
        for address in (0, 1, 1_022, 1_024, 2_042, 2_043, 2_044, 2_045, 2_046, 2_047):
            words = count * [NOOP]
            words[rng.choice([0, count - 1, rng.randrange(count)])] = rng.choice(JUMPS)(address)
            yield text(words)
        yield text([rng.choice(JUMPS)(rng.randrange(2_036, 2_048)) for _ in range(count)])


def many_labels(rng):
    """1,024 labels are the most."""
    every = [jmp(2 * i) for i in range(1_024)]
    yield text(every)
    yield text(every + [NOOP])
    yield text(every[:-1])
    yield text(1_024 * [NOOP] + every)
    yield text(every[::-1])
    yield text(1_024 * [NOOP] + every[::-1] + [RET])
    for _ in range(3):
        yield text(rng.sample([rng.choice(JUMPS)(2 * i) for i in range(1_024)], 1_024))


def full_programs(rng):
    """32,767 words are the most. 33 comes before 19, at the lowest index; 16 comes before both."""
    for word in (NOOP, RET, mov(7, 255), LONGEST, jmp(0), jmp(2_046), cjp(2_047), call(1_000), 12, 16):
        for count in (32_766, 32_767, 32_768, 32_769, 32_800):
            yield textn(count, word, rng.choice([0, 1, 30, 300]))
    for count in (32_767, 32_768):
        full = [rng.choice([NOOP, RET, LONGEST, jmp(600)]) for _ in range(count)]
        yield text(full, 5)
        yield text(full[:-1] + [12], 5)
        yield text(full[:-3] + [16, 13, NOOP], 0)
        yield text([59] + full[1:], 5)
    for count in (32_800, 32_801):
        yield text(count * [RET], 2)
    yield textn(32_801, RET, 2)


def long_texts(rng):
    """Texts of as many bytes as there is room for, and of a few more."""
    for count in (16_399, 16_400, 16_401):
        yield textn(count, rng.choice([NOOP, RET]), 65_600)
    for count in (2_523, 2_524):
        yield textn(count, LONGEST, 65_600)
        yield textn(count, LONGEST, 65_601)
    yield textn(6_559, jmp(0), 65_600)
    yield textn(6_560, jmp(0), 65_600)
    mixed = [NOOP, RET, LONGEST, mov(1, 200)] + [jmp(2 * rng.randrange(1_024)), cjp(rng.randrange(2_048))]
    yield text([rng.choice(mixed) for _ in range(5_000)], 65_600)


FAMILIES = [open_references, last_addresses, many_labels, full_programs, long_texts]
