"""Text from words: random programs, with jumps to where a label stands and to all places where none does."""
from .bad_lines import bad_line
from .forms import *
from .source_words import MOST, text, textn

BLOCK = 20


def blocks(rng):
    while True:
        yield ["new 0 0 0 0 0"] + [command(rng) for _ in range(BLOCK)]


def command(rng):
    if rng.random() < 0.03:
        return bad_line(rng, rng.choice([text([jmp(0), NOOP]), textn(3, RET, 20)]))
    if rng.random() < 0.05:
        count = rng.choice([0, 1, 2, 3, 5, rng.randrange(60)])
        return textn(count, rng.choice(WAYS)(rng, count), rng.choice([MOST * count, rng.randrange(MOST * count + 3)]))
    return text(*program(rng))


def program(rng):
    """Words, and mostly room for any text of so many."""
    return program_of(rng, rng.choices(COUNTS, WEIGHTS)[0](rng))


def program_of(rng, count):
    # one way all through, or all of them
    ways = rng.choice([WAYS, WAYS, [rng.choice(WAYS), to_label], [to_label, to_label, any_jump], [to_last]])
    words = [rng.choice(ways)(rng, count) for _ in range(count)]
    if words and rng.random() < 0.12:
        for _ in range(rng.choice([1, 1, 2])):
            words[rng.randrange(count)] = rng.choice(BROKEN)(rng)
    room = MOST * count
    return words, rng.choice([room] * 8 + [room + 1, rng.randrange(room + 1), rng.randrange(6 * count + 1)])


# How many words.
COUNTS = [
    lambda rng: rng.randrange(5),
    lambda rng: rng.randrange(1, 40),
    lambda rng: rng.randrange(40, 200),
    lambda rng: rng.randrange(500, 560),
    lambda rng: rng.randrange(1_000, 1_100),
]
WEIGHTS = [40, 44, 13, 2, 1]


def to_label(rng, count):
    """To an even address in the program, as far as a jump reaches."""
    return jump(rng, 2 * rng.randrange(max(1, min(count, 1_024))))


def to_last(rng, count):
    """To one of the last words: in a program of over 512 the references are too many to be open at once."""
    return jump(rng, 2 * max(0, count - 1 - rng.randrange(8)))


def any_jump(rng, count):
    """About the end, odd, or anywhere."""
    near = 2 * count + rng.randrange(-5, 5)
    return jump(rng, rng.choice([near, near, rng.randrange(2 * count + 1), rng.randrange(2_048), 2_046, 2_047, 0, 1]))


def jump(rng, address):
    return rng.choice([jmp, cjp, call])(max(0, min(address, 2_047)))


def by_register(rng, count):
    return rng.choice([register_jmp, register_cjp])(register(rng))


def other(rng, count):
    """Any form that is no jump."""
    return rng.choice(OTHERS)(rng)


def register(rng):
    return rng.randrange(8)


def number(rng, bits):
    top = 1 << bits
    return rng.choice([0, 1, top - 1, rng.randrange(top), rng.randrange(top)])


OTHERS = [
    lambda rng: rng.choice([NOOP, RET]),
    lambda rng: mov(register(rng), number(rng, 8)),
    lambda rng: mov_register(register(rng), register(rng)),
    lambda rng: shifted(register(rng), number(rng, 3), rng.randrange(2), number(rng, 5)),
    lambda rng: arith(rng.randrange(4), register(rng), number(rng, 6)),
    lambda rng: arith_register(rng.randrange(4), register(rng), register(rng)),
    lambda rng: rng.choice([word_access, byte_access])(register(rng), register(rng), rng.randrange(2), number(rng, 5)),
    lambda rng: compare(rng.randrange(6), register(rng), number(rng, 5)),
    lambda rng: compare_register(rng.randrange(6), register(rng), register(rng)),
    lambda rng: cpy(register(rng), register(rng)),
    lambda rng: reg_reg(rng.randrange(7), register(rng), register(rng), register(rng)),
]

# Words that no line says, and any words, of which some are said.
BROKEN = [
    lambda rng: rng.randrange(65_536),
    lambda rng: rng.choice([12, 13, 14, 15]) + 16 * rng.randrange(4_096),
    lambda rng: 16 * rng.randrange(1, 4_096),
    lambda rng: RET + 32 * rng.randrange(1, 2_048),
    lambda rng: register_cjp(register(rng)) + 256 * rng.randrange(1, 256),
    lambda rng: register_jmp(register(rng)) + 256 * rng.randrange(1, 256),
    lambda rng: cpy(register(rng), register(rng)) + 1_024 * rng.randrange(1, 64),
    lambda rng: mov_register(register(rng), register(rng)) + 2_048 * rng.randrange(1, 32),
    lambda rng: arith_register(rng.randrange(4), register(rng), register(rng)) + 8_192 * rng.randrange(1, 8),
    lambda rng: compare_register(rng.randrange(8), register(rng), register(rng)) + 16_384 * rng.randrange(4),
    lambda rng: reg_reg(7, register(rng), register(rng), register(rng)),
]

WAYS = [to_label, any_jump, by_register, other, other, other]
