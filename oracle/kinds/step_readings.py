"""The cases of 01 and of READINGS 8 to 12 that are about a step, as they stand there: one instruction each, the state
after it."""
from .forms import *
from .steer import program_of

ALL = 65_536
LAST_WORD = 65_534

def case(w, registers, memory=8, at=0, before=(), debug=0):
    """A block: the instruction at an address, PC there, the other registers by number; one step."""
    values = [registers.get(r, 0) for r in range(8)]
    values[PC] = at
    lines = [f"new {memory} 4 0 {debug} 77", *before, program_of([w], at), " ".join(["regs", *map(str, values)])]
    return lines + ["step", "state"]


def once(rng):
    yield from run_and_compared()
    yield from fetches()
    yield from at_the_top()
    yield from to_the_top()
    yield from stores()
    yield from numbers()
    yield from order()


def run_and_compared():
    yield case(reg_reg(EXP, C, A, B), {A: 2, B: 15})
    yield case(reg_reg(EXP, C, A, B), {A: 2, B: 16})
    yield case(mov(PC, 10), {})
    yield case(word_access(A, B, 1), {A: 0x1234, B: 3}, memory=4)
    yield case(reg_reg(EXP, C, A, B), {})
    for v in (0, 1, 65_024, 65_025, 65_535):
        yield case(reg_reg(SQRT, C, A, B), {A: v, B: 9})


def fetches():
    """2, or 3 at the last address if that is mapped; Stop before either."""
    for memory in (65_535, ALL):
        yield [f"new {memory} 0 0 1 5", "regs 0 0 0 0 0 65535 0 0", "step", "regs 0 0 0 0 0 65535 0 1", "step", "state"]
    yield ["new 1 0 0 0 5", "step", "regs 0 0 0 0 0 1 0 0", "step", "regs 0 0 0 0 0 1 0 65535", "step", "state"]
    yield ["new 0 4 0 0 5", "device 7 4", "poke device 0 0501", "regs 0 0 0 0 0 7 0 0", "step", "state"]


def at_the_top():
    """9 goes by PC after the act: what raises PC here is refused, and leaves neither byte nor flag behind."""
    protect = ["protect 0 4"]
    for w in (mov(PC, 10), mov(A, 10), NOOP, jmp(4), RET, cjp(4), call(4), compare(0, A, 0), shifted(PC, 7, 0, 1)):
        for flags in (0, 8):
            yield case(w, {M: 6, FLAGS: flags}, ALL, LAST_WORD, debug=flags // 8)
    for w in (word_access(A, B, 1), byte_access(A, B, 1), cpy(B, C), word_access(A, B, 0), word_access(PC, B, 0)):
        yield case(w, {A: 0x1234, B: 2, C: 3}, ALL, LAST_WORD)
        yield case(w, {A: 0x1234, B: 2, C: 3}, ALL, LAST_WORD, protect)
    yield case(arith(DIV, A, 7), {A: 100, SP: 9, FLAGS: 2}, ALL, LAST_WORD)
    yield case(word_access(A, B, 1), {A: 0x1234, B: 65_535}, ALL, 0)
    yield case(word_access(A, B, 1), {A: 0x1234, B: 65_535}, 65_535, 0)


def to_the_top():
    """PC may be written as any register: 65,533 is the last that can be raised."""
    for to in (65_533, 65_534, 65_535):
        yield case(mov_register(PC, A), {A: to})
        yield case(arith_register(ADD, PC, A), {A: to - 2}, at=2)
        yield case(word_access(PC, A, 0), {A: 4}, before=[f"putw 4 {to}"])


def stores():
    """A failed load leaves its register; a failed store or Cpy sets flags 0 and 2; half a word stays."""
    for w in (word_access(A, B, 0), byte_access(A, B, 0), word_access(A, B, 1), byte_access(A, B, 1), cpy(B, C), cpy(C, B)):
        for address in (5, 7, 8):
            yield case(w, {A: 0xABCD, B: address, C: 6, FLAGS: 8})
            yield case(w, {A: 0xABCD, B: address, C: 6}, before=["protect 6 2", "device 7 4"])
    for flags in (0, 2):
        for stack in (3, 8):
            yield case(arith(DIV, A, 7), {A: 1000, SP: stack, FLAGS: flags})
            yield case(reg_reg(DIV, A, A, B), {A: 1000, B: 7, SP: stack, FLAGS: flags})
    yield case(arith(DIV, SP, 7), {SP: 5, FLAGS: 2})
    yield case(arith_register(DIV, A, A), {A: 1000, SP: 3, FLAGS: 2})


def numbers():
    """Operators, compares, shifts; PC is read before it is raised."""
    for op in range(7):
        yield case(reg_reg(op, C, A, B), {A: 7, B: 3})
        yield case(reg_reg(op, C, A, B), {A: 3, B: 0})
    for op in range(4):
        yield case(arith(op, A, 3), {A: 7})
        yield case(arith(op, A, 0), {A: 65_535, FLAGS: 2})
    for op in range(8):
        for a in (4, 5, 6):
            yield case(compare(op, A, 5), {A: a, FLAGS: 8 * (a % 2)})
    yield case(shifted(A, 7, 1, 31), {A: 65_535})
    yield case(shifted(A, 7, 0, 31), {A: 65_535})
    yield case(mov_register(A, PC), {}, at=4)
    yield case(arith_register(ADD, PC, PC), {}, at=4)
    yield case(word_access(A, PC, 0), {}, at=4)
    yield case(arith(ADD, FLAGS, 1), {FLAGS: 0})


def order():
    """What comes first where two refusals could be given."""
    for op in (12, 13, 14, 15):
        yield case(op, {}, ALL, LAST_WORD)
    yield case(compare(6, A, 0), {}, ALL, LAST_WORD)
    yield case(reg_reg(7, A, A, A), {}, ALL, LAST_WORD)
    yield case(arith(SUB, A, 1), {}, ALL, LAST_WORD)
    yield case(arith(DIV, A, 0), {FLAGS: 2}, ALL, LAST_WORD)
    yield case(word_access(A, B, 0, 31), {B: 65_505}, ALL, LAST_WORD)
    yield case(word_access(A, B, 1, 31), {B: 65_504}, ALL, LAST_WORD)
    yield ["new 0 0 0 1 3", "regs 0 0 0 0 0 0 0 1", "step", "regs 0 0 0 0 0 0 0 0", "step", "state"]
    yield ["new 8 0 0 1 3", program_of([NOOP, NOOP]), "step", "set 0 9", "set 8 1", "set 65535 1", "step", "state"]
