"""Programs that go round for ever and store much, with registers to run them: no sum overflows, no store fails, unless the
host changes something. What they store in is asked of what the generator believes."""
from .forms import *
from .steer import inside, program_of

# Their addresses stay as they are set; A and M take every value, FLAGS bit 1 stays set.
BASES = [B, C, SP, BP]
FREE = [A, M]
SHIFTS = 8
STORE_REMAINDER = 2


class Loop:
    """A program of some words, to stand at 0, and the registers that it wants."""

    def __init__(self, rng, machine, count, may_stop):
        self.machine = machine
        # it leaves itself alone, most of the time
        self.first = 2 * count + 2 if rng.random() < 0.9 else 0
        self.registers = [0] * 8
        for base in BASES:
            self.registers[base] = self.place(rng)
        self.registers[FLAGS] = STORE_REMAINDER
        words = []
        while len(words) < count:
            words += rng.choices(FORMS, WEIGHTS)[0](rng, self) or []
            if may_stop and rng.random() < 0.1:
                words.append(NOOP)
        self.words = words[:count] + [jmp(0)]

    def place(self, rng):
        """An address from which something can be stored: near a border of the tables, if that can be."""
        for _ in range(40):
            a = self.machine.address(rng)
            if a >= self.first and any(self.takes(a + shift) for shift in range(SHIFTS)):
                return a
        return self.first

    def takes(self, a):
        return a >= self.first and self.machine.takes(a)

    def shift(self, rng, base, fits):
        """A shift with which the register's address fits, or None."""
        found = [shift for shift in range(SHIFTS) if fits(self.registers[base] + shift)]
        return rng.choice(found) if found else None

    def lines(self):
        return [program_of(self.words), regs(self.registers)]


def regs(values):
    return " ".join(["regs", *map(str, map(inside, values))])


# ---- one or two words each; none where there is no place for the store


def store_byte(rng, loop):
    base = rng.choice(BASES)
    shift = loop.shift(rng, base, loop.takes)
    return shift is not None and [byte_access(rng.randrange(8), base, 1, shift)]


def store_word(rng, loop):
    base = rng.choice(BASES)
    shift = loop.shift(rng, base, lambda a: loop.takes(a) and loop.takes(a + 1))
    return shift is not None and [word_access(rng.randrange(8), base, 1, shift)]


def copy(rng, loop):
    target = rng.choice(BASES)
    source = rng.choice(BASES)
    return loop.takes(loop.registers[target]) and loop.takes(loop.registers[source]) and [cpy(source, target)]


def divide(rng, loop):
    return [mov(A, rng.randrange(256)), arith(DIV, A, rng.randrange(1, 64))]


def load(rng, loop):
    access = rng.choice([byte_access, word_access])
    return [access(rng.choice(FREE), rng.choice(BASES), 0, rng.randrange(SHIFTS))]


def count_up(rng, loop):
    return [mov(A, rng.randrange(256)), arith(rng.choice([ADD, MUL]), A, rng.randrange(64))]


def move(rng, loop):
    return [rng.choice([mov_register(A, rng.randrange(8)), mov(M, rng.randrange(256))])]


def shift_bits(rng, loop):
    return [shifted(A, rng.randrange(8), rng.randrange(2), rng.randrange(32))]


def root(rng, loop):
    return [reg_reg(SQRT, rng.choice(FREE), rng.randrange(8), rng.randrange(8))]


def ask(rng, loop):
    return [compare(rng.randrange(6), rng.randrange(8), rng.randrange(32)), cjp(0)] if rng.random() < 0.2 else [compare(0, A, 1)]


FORMS, WEIGHTS = zip(
    (store_byte, 8),
    (store_word, 14),
    (copy, 5),
    (divide, 5),
    (load, 3),
    (count_up, 4),
    (move, 3),
    (shift_bits, 4),
    (root, 1),
    (ask, 2),
)
