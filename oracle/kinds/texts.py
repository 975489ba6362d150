"""Whole texts: generated programs, copies of them with a few bytes damaged, and single lines as texts. The rooms are mostly just
enough."""
from . import assembly
from .assembly import NAMES, REGISTERS, Writer, asm, listing

BLOCK = 40


def blocks(rng):
    while True:
        yield ["new 0 0 0 0 0"] + [command(rng) for _ in range(BLOCK)]


def command(rng):
    text = rng.choices(WAYS, WEIGHTS)[0](rng)
    if rng.random() < 0.1:
        return listing(text)
    return asm(rng.choice(["plain", "strict"]), *rooms(rng, text), text)


def rooms(rng, text):
    """About as many words and labels as the text has lines of each."""
    lines = [line.strip() for line in text.split("\n")]
    labels = sum(line.endswith(":") for line in lines)
    words = sum(bool(line) and not line.startswith(";") for line in lines) - labels
    return around(rng, words), around(rng, labels)


def around(rng, count):
    return max(0, rng.choice([count] * 8 + [count + 1] * 3 + [count + rng.randrange(6), count - 1, count - 2, count // 2, 0]))


def writer(rng, few=assembly.GOOD_NAMES[:3]):
    names = rng.choice([assembly.GOOD_NAMES, few, NAMES])
    return Writer(rng, rng.choice([0, 0, 0, 0.02, 0.3]), rng.choice([0, 0, 0, 0.01, 0.05]), names)


def program(rng):
    """Some lines, ended each in one of the ways that a line can."""
    write = writer(rng)
    count = rng.choice([1, 2, 3, 4, 5, 8, 12, rng.randrange(1, 40)])
    return ended(rng, [write.line() for _ in range(count)])


def ended(rng, lines):
    end = rng.choice(["\n", "\n", "\n", "\r\n", "\n\n", " \n"])
    return end.join(lines) + rng.choice(["", end, end])


def by_register(rng):
    """A program with a CJP by a register in it, which strict assembly refuses. Its labels may be named as registers are."""
    write = writer(rng, REGISTERS)
    lines = [write.line() for _ in range(rng.choice([0, 1, 2, 3, 4, 5, 8, 12]))]
    jump = write.spaced([write.cased("CJP"), rng.choice(REGISTERS)])
    lines.insert(rng.randrange(len(lines) + 1), write.around(jump))
    return ended(rng, lines)


def one_line(rng):
    return Writer(rng, 0.3, 0.15, NAMES).line()


def cut_short(rng):
    """A line that ends before its operands do."""
    code = Writer(rng, names=NAMES).instruction()
    return code[: rng.randrange(len(code) + 1)]


def references(rng):
    """Little but labels and jumps: before and after, defined again, never defined."""
    write = Writer(rng, 0, rng.choice([0, 0, 0.01]), rng.choice([NAMES, NAMES[:3], NAMES[:6]]))
    lines = []
    for _ in range(rng.randrange(2, 16)):
        jump = f"{write.cased(rng.choice(assembly.TO_LABEL))} {write.name()}"
        lines.append(write.around(rng.choice([jump, jump, write.label(), "DBG", "RET"])))
    return ended(rng, lines)


def far(rng):
    """A program of over 2,047 bytes, with labels about that place."""
    write = Writer(rng, 0, 0)
    count = 1_024 + rng.randrange(-6, 12)
    lines = [write.instruction() if rng.random() < 0.1 else rng.choice(["DBG", "RET"]) for _ in range(count)]
    for at in (rng.randrange(1_015, 1_036), rng.randrange(1_015, 1_036), rng.randrange(1_000)):
        lines.insert(at, rng.choice(["x:", "y:", "z:"]))
    for _ in range(3):
        lines.insert(rng.randrange(len(lines)), rng.choice(["JMP x", "CJP y", "CALL z", "JMP z"]))
    return "\n".join(lines)


def damaged(rng):
    """A good program with a byte or a few changed, left out, put in, swapped or doubled."""
    text = list(ended(rng, [Writer(rng).line() for _ in range(rng.randrange(1, 8))]))
    for _ in range(rng.choice([1, 1, 1, 2, 3])):
        rng.choice(DAMAGES)(rng, text, rng.randrange(len(text) + 1))
    return "".join(text)


def change(rng, text, at):
    text[at : at + 1] = [a_byte(rng)]


def leave_out(rng, text, at):
    del text[at : at + 1]


def put_in(rng, text, at):
    text.insert(at, a_byte(rng))


def swap(rng, text, at):
    text[at : at + 2] = reversed(text[at : at + 2])


def double(rng, text, at):
    text[at:at] = text[max(0, at - rng.randrange(1, 6)) : at]


def a_byte(rng):
    """Mostly one that means something, seldom one over 127."""
    choice = rng.random()
    if choice < 0.6:
        return rng.choice(" ,[]#+:;0x159AMP\n\r\t\v\f")
    return chr(rng.randrange(128) if choice < 0.97 else rng.randrange(128, 256))


DAMAGES = [change, leave_out, put_in, swap, double]
WAYS = [program, by_register, one_line, cut_short, references, damaged, far]
WEIGHTS = [34, 6, 12, 6, 18, 23.5, 0.5]
