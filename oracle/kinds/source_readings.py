"""Text from words: the cases of 02's request 3 and of its readings."""
from .forms import *
from .source_words import LONGEST, text, textn
from .sources import program_of


def once(rng):
    yield ["new 0 0 0 0 0", "text 40 1281 6", *(text(words) for words in FORMS)]
    yield ["new 0 0 0 0 0", *(text([word]) for word in WITHOUT + BESIDE)]
    yield ["new 0 0 0 0 0", *ORDER]
    yield ["new 0 0 0 0 0", *(text(words) for words in LABELS)]
    # one more word, and the end is inside
    yield ["new 0 0 0 0 0", *(textn(count, jmp(26), 26 * count) for count in (12, 13, 14, 15))]
    yield ["new 0 0 0 0 0", *NO_COMMANDS]
    yield ["new 0 0 0 0 0", *(text(*program_of(rng, count)) for count in range(1, 13))]
    # the last label that there can be
    yield ["new 0 0 0 0 0", text([jmp(2046), cjp(2044), call(2047), cjp(4)] + 1_020 * [NOOP], 4_150)]
    # 512 references may be open at once: the second text is written, and plain assembly refuses it
    yield ["new 0 0 0 0 0", *(text(count * [jmp(2 * count)] + [NOOP], 10 * count + 12) for count in (512, 513))]


# Every form, with each register somewhere.
FORMS = [
    [NOOP, mov(A, 0), mov(FLAGS, 255), mov_register(B, SP), mov_register(PC, FLAGS)],
    [shifted(C, 0, 1, 0), shifted(M, 7, 0, 1), shifted(SP, 1, 1, 31), shifted(BP, 3, 0, 10)],
    [arith(op, A + op, 9 * op) for op in (ADD, SUB, MUL, DIV)] + [arith_register(op, PC, op) for op in (ADD, SUB, MUL, DIV)],
    [arith(ADD, B, 63), arith_register(DIV, FLAGS, FLAGS), cpy(A, B), cpy(FLAGS, FLAGS), cpy(M, BP)],
    [access(A, C, store) for access in (word_access, byte_access) for store in (0, 1)],
    [access(SP, BP, store, shift) for access in (word_access, byte_access) for store in (0, 1) for shift in (1, 31)],
    [compare(op, op, 5 * op) for op in range(6)] + [compare_register(op, B, 7 - op) for op in range(6)] + [compare(0, A, 31)],
    [reg_reg(op, op, 7 - op, 3) for op in (ADD, SUB, MUL, DIV, MOD, EXP, SQRT)] + [LONGEST],
    [register_cjp(register) for register in range(8)],
    [register_jmp(register) for register in range(8)],
    [RET, call(2047), jmp(2047), cjp(2047)],
]

# Each reason for which no line says a word: an opcode, a compare or an operator that there is none of; a bit outside of the fields;
# a return with an address.
WITHOUT = [
    12, 13, 14, 15, 0xFFFF, compare(6, A, 0), compare(7, B, 31), compare_register(7, A, A), reg_reg(7, A, A, A), reg_reg(7, 7, 7, 7),
    16, 0x8000, 0xFFF0, mov_register(A, B) + 0x0800, mov_register(FLAGS, FLAGS) + 0x8000, arith_register(ADD, A, A) + 0x2000,
    arith_register(DIV, FLAGS, FLAGS) + 0x8000, compare_register(0, A, A) + 0x4000, compare_register(5, FLAGS, FLAGS) + 0x8000,
    cpy(A, A) + 0x0400, cpy(FLAGS, FLAGS) + 0x8000, register_cjp(A) + 0x0100, register_cjp(FLAGS) + 0x8000, register_jmp(A) + 0x0100,
    register_jmp(FLAGS) + 0x8000, RET + 32, RET + 64, RET + 0x8000, 0xFFFB,
]

# What looks like them and is said.
BESIDE = [
    compare(5, A, 0), reg_reg(SQRT, A, A, A), 0xFC01, mov_register(FLAGS, FLAGS), 0xFC03, arith_register(DIV, FLAGS, FLAGS), 0xF807,
    compare_register(5, FLAGS, FLAGS), cpy(FLAGS, FLAGS), 0xFFF5 - 16, 0xFFF6 - 16, register_cjp(FLAGS), register_jmp(FLAGS), RET,
    call(1), call(1024), 0xFFEB, 0xFFF2, 0xFFF4, 0xFFF8,
]

# 16, 33 with the lowest index, 19; no words.
ORDER = [
    "text 0", "text 3", "textn 0 12 3", "textn 0 0 0", "text 9 0 0 12 0 13", "text 9 0 0 0 12", "text 30 27 59 16", "text 0 12",
    "text 3 0 12", "text 4 0 12", "text 0 0 16", "text 0 0", "text 1 0", "text 3 0", "text 4 0", "text 5 0", "text 6 0",
    "textn 32768 12 3", "textn 32768 0 3", "textn 32800 0 0", "textn 32767 12 3", "textn 32767 0 3", "textn 32767 6 1",
    f"textn 32767 {LONGEST} 0", f"textn 2 {LONGEST} 51", f"textn 2 {LONGEST} 52", "textn 1 6 16", "textn 1 6 17",
]

# Labels: even addresses inside the program; not the end, not beyond, not odd ones, not by a register.
LABELS = [
    [jmp(0)], [cjp(0)], [call(0)], [jmp(1)], [jmp(2)], [jmp(3)], [jmp(4)], [jmp(2046)], [jmp(2), NOOP], [NOOP, jmp(2)],
    [jmp(1), cjp(3), call(5), jmp(7)], [jmp(2), jmp(4), jmp(6)], [jmp(4), cjp(2), call(0)], [call(6), NOOP, RET, mov(A, 1)],
    [jmp(8), NOOP, NOOP, NOOP], [jmp(8), NOOP, NOOP, NOOP, NOOP], [jmp(9), NOOP, NOOP, NOOP, NOOP], [call(4), call(4), RET],
    [mov(A, 5), jmp(0), cjp(0), call(0)], [mov(PC, 4), register_jmp(A), RET, cjp(2), arith(ADD, PC, 2)],
    [shifted(A, 1, 1, 2), jmp(0), NOOP, register_cjp(B), cjp(6)], [jmp(0), 12], [jmp(12), cjp(12), call(11), jmp(14), NOOP, NOOP, RET],
    [jmp(20), cjp(22), call(24), jmp(26), cjp(28), call(30)] + 10 * [RET],
]

# Fields missing, left over, out of range, badly parted; and names that are none.
NO_COMMANDS = [
    "text", "text ", "text x", "text 65601", "text -1", "text +1", "text 5 65536", "text 5 0  0", "text 5 0 ", "text  5 0", "text 5 0x1",
    "text 5 -", "text 5 0,0", "text 4294967296", "textn", "textn 1", "textn 1 0", "textn 1 0 5 0", "textn 1 0 5 ", "textn 32801 0 5",
    "textn 1 65536 5", "textn 1 0 65601", "textn -1 0 5", "textn 1 0 -", "textn x 0 5", "Text 5", "TEXT 5 0", "texts 5", "textnn 1 0 5",
    "tex 5", "text 4 0",
]
