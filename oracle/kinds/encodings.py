"""Instructions by their fields: every form with every edge value, those that fit and those that do not; then random
ones; then fields that are none."""
import itertools

REGISTERS = range(8)
BITS = range(2)
# Around every width of the table: 3, 5, 6, 8, 11 and 16 bits.
WORDS = [0, 1, 7, 8, 9, 30, 31, 32, 33, 62, 63, 64, 65, 254, 255, 256, 257, 2046, 2047, 2048, 2049, 32_767, 32_768, 65_534, 65_535]
BYTES = [0, 1, 6, 7, 8, 9, 15, 16, 30, 31, 32, 33, 63, 64, 127, 128, 254, 255]
UNUSED = [0]

# The fields of each form. An operand is a mode bit and a value, here as a list of pairs.
OPERANDS = [(1, register) for register in REGISTERS] + [(0, word) for word in WORDS]
FORMS = {
    0: [UNUSED] * 4,
    1: [REGISTERS, OPERANDS, UNUSED],
    2: [REGISTERS, BYTES, BITS, WORDS],
    3: [REGISTERS, range(4), OPERANDS],
    4: [REGISTERS, REGISTERS, BITS, BYTES],
    5: [OPERANDS, UNUSED, UNUSED],
    6: [OPERANDS, UNUSED, UNUSED],
    7: [REGISTERS, range(6), OPERANDS],
    8: [REGISTERS, REGISTERS, BITS, BYTES],
    9: [REGISTERS, REGISTERS, UNUSED, UNUSED],
    10: [REGISTERS, range(7), REGISTERS, REGISTERS],
    11: [BITS, WORDS, UNUSED, UNUSED],
}

# What a field of no form holds, and what one of some forms does not.
STRANGE = [2, 3, 4, 5, 6, 7, 8, 255, 256, 65_535, 65_536, 4_294_967_296]


def once(rng):
    lines = [line for op in FORMS for line in edges(op)]
    lines += [random_one(rng) for _ in range(4_000)]
    lines += [strange(rng) for _ in range(2_000)]
    rng.shuffle(lines)
    for at in range(0, len(lines), 64):
        yield ["new 0 0 0 0 0"] + lines[at : at + 64]


def edges(op):
    for fields in itertools.product(*FORMS[op]):
        yield encode(op, fields)


def random_one(rng):
    """Any value where an edge value stood."""
    op = rng.choice(list(FORMS))
    return encode(op, [any_value(rng, choices) for choices in FORMS[op]])


def any_value(rng, choices):
    if choices is OPERANDS:
        return rng.choice([(1, rng.randrange(8)), (0, rng.randrange(65_536))])
    if choices is WORDS:
        return rng.randrange(65_536)
    return rng.randrange(256) if choices is BYTES else rng.choice(choices)


def strange(rng):
    """One field that is out of its range in some form, or a field too many or too few, or no form at all."""
    fields = random_one(rng).split(" ")
    choice = rng.random()
    if choice < 0.8:
        fields[rng.randrange(1, 6)] = str(rng.choice(STRANGE))
    elif choice < 0.9:
        del fields[rng.randrange(1, 6)]
    else:
        fields.insert(rng.randrange(1, 7), "0")
    return " ".join(fields)


def encode(op, fields):
    numbers = []
    for field in fields:
        numbers += field if isinstance(field, tuple) else [field]
    return " ".join(["encode", str(op), *map(str, numbers)])
