"""Single lines, once through: every mnemonic with operands of every shape, every form of number in every place for one, and every
byte at every place of short lines. A part of them is sent as whole texts too."""
import itertools

from .assembly import EDGES, MNEMONICS, NEARLY, NO_BLANKS, BLANKS, asm, immediates, line

# In what is tried, `lab` is a label at 2,048 and `A` is both a label and a register.
NAMES, ENTRIES = "lab A,", [(0, 3, 2_048), (4, 1, 6), (4, 2, 8)]

FIRST = ["A", "A,", "A,,", "FLAGS,", "a,", "X,", ",", "#5", "lab"]
SECOND = ["B", "B,", "B,,", "b", "#5", "#5,", "[B", "[[B", "[#5", "[", "lab", "5"]
THIRD = ["C", "C,", "#4", "#4]", "#4]]", "#4],", "C]", "]", "lab"]
MORE = [
    "A, B, C, C", "A, [B #4 ]", "A, [B #4] ;", "A, B ;", "A , B", "A,B", "A, #5 ; x", "; x", ",", "A, [#1 #2 ]",
    "A,, B,, C,,",
]

# Where a number can stand.
PLACES = [
    "MOV A, {}", "ADD A, {}", "DIV A, {}", "EQ A, {}", "JMP {}", "CJP {}", "CALL {}", "MSL A, [{} #1]",
    "MSR A, [#1 {}]", "LDR A, [B {}]", "STB A, [B {}]", "ADDR A, B, {}", "CPY A, {}", "LDR A, {}",
]

SHORT = ["MOV A, #5", "LDR A, [B #4]", "MSL A, [#1 #2]", "JMP lab", "RET", "ADDR A, B, C", "EQ A, #0x1"]


def once(rng):
    lines = [*mnemonics(), *shapes(), *numbers(), *bytes_at_places()]
    rng.shuffle(lines)
    commands = [line(code, NAMES, ENTRIES) for code in lines]
    commands += [asm(rng.choice(["plain", "strict"]), 2, 1, code) for code in lines if rng.random() < 0.2]
    for at in range(0, len(commands), 100):
        yield ["new 0 0 0 0 0"] + commands[at : at + 100]


def mnemonics():
    """In either case, with a letter too few or too many."""
    for name in MNEMONICS + ["NOOP", "NOP", ""]:
        cases = (name, name.lower(), name.capitalize(), name.swapcase())
        for written in (*cases, name[:-1], name + "R", name + ",", name + ":", "R" + name):
            yield from (written, f"{written} A, B", f"{written} A, B, C", f"{written} lab")


def shapes():
    """No operand, one, two, three, and more."""
    for name in MNEMONICS:
        yield name
        for count in (1, 2, 3):
            for operands in itertools.product(*[FIRST, SECOND, THIRD][:count]):
                yield " ".join([name, *operands])
        yield from (f"{name} {more}" for more in MORE)
        yield from (f"{name} {one}" for one in SECOND + THIRD + ["#70000", "labx", "LAB", "A:"])


def numbers():
    for place in PLACES:
        for value in EDGES:
            yield from (place.format(number) for number in immediates(value))
        yield from (place.format(number) for number in NEARLY)


def bytes_at_places():
    """Each byte in the place of another, and between two."""
    for code in SHORT:
        for at in range(len(code) + 1):
            for byte in map(chr, [*range(128), 128, 133, 160, 255]):
                yield code[:at] + byte + code[at + 1 :]
                if byte in [*BLANKS, *NO_BLANKS, *"\n,#[]+:;0xA", "\x80"]:
                    yield code[:at] + byte + code[at:]
