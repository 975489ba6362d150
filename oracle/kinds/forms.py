"""Words by 01's table, for the generators: registers and operators by number, one function for each form."""

A, B, C, M, SP, PC, BP, FLAGS = range(8)
ADD, SUB, MUL, DIV, MOD, EXP, SQRT = range(7)

NOOP = 0
RET = 0x1B


def mov(dst, imm):
    return 1 + 16 * dst + 256 * imm


def mov_register(dst, src):
    return 1 + 16 * dst + 128 + 256 * src


def shifted(dst, amount, left, imm):
    return 2 + 16 * dst + 128 * amount + 1024 * left + 2048 * imm


def arith(op, dst, imm):
    return 3 + 16 * dst + 128 * op + 1024 * imm


def arith_register(op, dst, src):
    return 3 + 16 * dst + 128 * op + 512 + 1024 * src


def word_access(reg, base, store, shift=0):
    return 4 + 16 * reg + 128 * base + 1024 * store + 2048 * shift


def byte_access(reg, base, store, shift=0):
    return word_access(reg, base, store, shift) + 4


def cjp(address):
    return 5 + 32 * address


def register_cjp(reg):
    return 21 + 32 * reg


def jmp(address):
    return 6 + 32 * address


def register_jmp(reg):
    return 22 + 32 * reg


def compare(op, reg, imm):
    return 7 + 16 * reg + 128 * op + 2048 * imm


def compare_register(op, reg, other):
    return 7 + 16 * reg + 128 * op + 1024 + 2048 * other


def cpy(source, target):
    return 9 + 16 * source + 128 * target


def reg_reg(op, dst, first, second):
    return 10 + 16 * dst + 128 * op + 1024 * first + 8192 * second


def call(address):
    return 11 + 32 * address
