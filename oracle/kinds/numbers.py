"""The two operators that are worked out step by step, on whole ranges of numbers: the square root of all of them, and
powers. Several results stand in the registers before a `state` shows them, so that each is compared at a small cost."""
from .forms import *
from .steer import TOP, program_of

# All but PC and FLAGS, which a step looks at.
FREE = [A, B, C, M, SP, BP]


def regs(values):
    """A `regs` line: registers by number, the others 0."""
    return " ".join(["regs"] + [str(values.get(r, 0)) for r in range(8)])


def roots(rng):
    """The square root of every number, each once: six registers are replaced by their roots, then shown."""
    numbers = list(range(65_536))
    rng.shuffle(numbers)
    program = program_of([reg_reg(SQRT, r, r, rng.randrange(8)) for r in FREE])
    for at in range(0, len(numbers), 60):
        lines = ["new 12 0 0 0 0", program]
        for start in range(at, min(at + 60, len(numbers)), 6):
            six = numbers[start : min(start + 6, at + 60)]
            lines += [regs(dict(zip(FREE, six)))] + ["step"] * len(six) + ["state"]
        yield lines


def powers(rng):
    """Every base below 256 to the exponents 0 to 17, those near the last that fits 16 bits included; every base above
    to 0, 1 and one exponent more, since all of those are past 65,535; and large exponents, for which 0 and 1 alone
    have an answer."""
    asked = [(base, exponent) for base in range(256) for exponent in range(18)]
    asked += [(base, exponent) for base in (0, 1, 2, 3) for exponent in large(rng)]
    rng.shuffle(asked)
    for at in range(0, len(asked), 20):
        yield [SCENE, POWER] + [line for pair in asked[at : at + 20] for line in one_power(*pair)]
    bases = list(range(256, 65_536))
    rng.shuffle(bases)
    for at in range(0, len(bases), 12):
        yield [SCENE, SMALL_POWERS] + [line for base in bases[at : at + 12] for line in small_powers(rng, base)]


def all_powers(rng):
    """Every base to every exponent from 0 to 17."""
    bases = list(range(65_536))
    rng.shuffle(bases)
    for base in bases:
        yield [SCENE, POWER] + [line for exponent in range(18) for line in one_power(base, exponent)]


SCENE = "new 6 0 0 0 0"
POWER = program_of([reg_reg(EXP, C, A, B)])
SMALL_POWERS = program_of([reg_reg(EXP, SP, A, B), reg_reg(EXP, BP, A, C), reg_reg(EXP, B, A, M)])


def large(rng):
    return [18, 31, 32, 33, 255, 256, 32_767, 32_768, TOP - 1, TOP] + [rng.randrange(18, 65_536) for _ in range(20)]


def one_power(base, exponent):
    return [regs({A: base, B: exponent}), "step", "state"]


def small_powers(rng, base):
    """To 0 and to 1, both shown after the third, which is refused."""
    more = rng.choice([2, 2, 3, rng.randrange(2, 18), rng.randrange(2, 65_536)])
    return [regs({A: base, B: 0, C: 1, M: more}), "step", "step", "step", "state"]
