"""The cases of 01 and of READINGS 13 to 20, as they stand there, and those of 02's request 2: as single lines and as texts."""
from .assembly import REGISTERS, asm, copies, line, listing

EXAMPLE = "; poll\nagain:\nLDB A, B\nEQ A, #0\nCJP again\nMOV PC, C\n"

# A program of over 2,047 bytes: the last line's label cannot be reached by eleven bits.
INCIDENT = "JMP end\n" + "MOV A, #1\n" * 1_024 + "end:\nRET\n"

MARKED = ["MOV A, #5", "MOV C, #300", "JMP #2047", "JMP #2048", "CJP A", "SQRTR A, B, C", "STR A, [B #31]"]

ORDER = [
    "MOV X, #70000", "ADD X", "LDR A, [X", "LDR A, [B", "MSL A, [#70000 #256]", "MSL A, [#1 #256]",
    "MSL X, [#70000 #256]", "ADD", "ADD A", "LDR", "LDR A", "LDR A,", "STB A, [B", "ADD A B C", "LDR A B C D", "MOV A",
    "MOV A #1 #2", "ADDR A, B", "LDR A, [B #256]", "LDR A, [B #255]", "MSL A, [#1 #255]", "LDR A, B x",
    "LDR A, B #70000", "RET x y z", "DBG #",
]

TARGETS = [
    "JMP #x", "CALL A", "JMP A", "JMP A,", "CJP x", "CALL x", "CALL #x", "JMP x", "JMP X", "CALL x,", "CJP #2048",
    "CALL #65536",
]

IMMEDIATES = [
    "#0x+5", "#+0x5", "#0X5", "#-0", "#", "#+", "#0x", "#5,", "5", "#+5", "#0xfF", "#0000065535", "#65536", "#0x0ffff",
    "#0x10000",
]

LABELS = ["foo :", "a: :", "::", ":", "MOV A, #5:", "JMP a:", ";x:", " ; x:", "x y:", "x:y:", "\tx:\r"]

COMMENTS = ["MOV A, #5 ; x", "RET ; x", "LDR A, B ;x", "; x", ";", "JMP a ;"]

BLANK = ["", " ", "\t\n\v\f\r ", "\n"]

# Labels `x`, `#x`, `A`, `A,` and `a:`, then `x` again, an empty name, and two entries that run past the text.
NAMES = "x#xAA,a:"
ENTRIES = [(0, 1, 2), (1, 2, 4), (3, 1, 6), (4, 2, 8), (6, 2, 10), (0, 1, 12), (8, 0, 14), (8, 1, 16), (9, 0, 18)]


def once(rng):
    yield block([listing(EXAMPLE), asm("strict", 6, 2, EXAMPLE), asm("plain", 4, 1, EXAMPLE)])
    yield block([listing(""), asm("plain", 0, 0, ""), asm("strict", 2, 2, "")])
    for rules in ("plain", "strict"):
        yield block([asm(rules, 1_026, 1, INCIDENT)])
    yield block([listing(INCIDENT)])
    singles = MARKED + ORDER + TARGETS + LABELS + COMMENTS + BLANK
    singles += [f"{start}{number}" for start in ("MOV A, ", "JMP ", "CALL ") for number in IMMEDIATES]
    yield block([line(code, NAMES, ENTRIES) for code in singles])
    yield block([line(code) for code in singles])
    for rules in ("plain", "strict"):
        yield block([asm(rules, 2, 2, code) for code in singles])
    yield block([listing(code) for code in singles])
    yield block([line("JMP x\n"), line("\nJMP\nx", "x", [(0, 1, 7)])])
    yield block([line("JMP x", "ax", [(1, 2, 5)]), line("JMP x", "ax", [(1, 2, 5), (1, 1, 7)])])
    yield block([line("JMP x", "\xff\xffx", [(2, 1, 9)]), line("JMP \xff", "\xff", [(0, 1, 9)])])
    yield block([asm("plain", 4, 3, text) for text in WHOLE] + [listing(text) for text in WHOLE])
    yield from by_register()


def by_register():
    """CJP by a register: 32 where it is strict, and never on a single line."""
    yield block([line(code, "Aa", [(0, 1, 2), (1, 1, 4)]) for code in BY_REGISTER])
    texts = BY_REGISTER + REGISTER_OR_LABEL
    for rules in ("plain", "strict"):
        yield block([asm(rules, 4, 2, text) for text in texts])
    yield block([listing(text) for text in texts])
    for rules in ("plain", "strict"):
        # with 512 references open a register is none, and `a` would be one more
        full = [copies(rules, 513, 0, 512, "JMP x\n", last) for last in ("CJP A", "CJP a")]
        yield block([asm(rules, *rooms, text) for rooms, text in LITTLE_ROOM] + full)


# Labels before and after their references, again and never; and what comes first.
WHOLE = [
    "JMP x\nx:\nJMP x\nx:\nJMP x",
    "x:\nDBG\nJMP x\nx:\nJMP x",
    "JMP x\nCJP x\nCALL x\nx:",
    "JMP x\nJMP y\ny:",
    "JMP x",
    "x:\nx:\nx:",
    "A:\nJMP A\nCALL A",
    "#x:\nJMP #x",
    "JMP A,\nA,:",
    ":\nDBG\n::\n",
    "   :\n",
    "foo :\nCALL foo",
    "a: :\nCALL a:\nDBG",
    "MOV A, #5:\nJMP a:\nDBG",
    "x:\ny:\nz:\nw:\nDBG",
    "DBG\nDBG\nDBG\nDBG\nDBG",
    "DBG\nDBG\nDBG\nDBG\nMOV A, #256",
    "DBG\nDBG\nDBG\nDBG\nJMP x",
    "DBG\nDBG\nDBG\nDBG\nMOV",
    "MOV A, #256\nMOV",
    "MOV\nMOV A, #256\n\xff",
    "\n\n\n\xff\n\xff",
    "MOV A, #5\r\n\r\nRET\r",
    "MOV A, #5\rRET",
    "\n \n\t;\nMOVE",
]

# Registers are exact, mnemonics in either case.
BY_REGISTER = [f"CJP {register}" for register in REGISTERS] + ["cjp A", "cJp FLAGS", "\tCJP\v A\r"]

# A label of the register's name, before and after; names that are no register; lines that are no CJP; and which line is refused.
REGISTER_OR_LABEL = [
    "A:\nCJP A",
    "CJP A\nA:",
    "CJP a",
    "CJP flags",
    "a:\nCJP a",
    "CJP a\na:\n",
    "CJP A,\nA,:",
    "CJP A:",
    ";CJP A",
    "JMP A\nCALL A\nA:",
    "CJP #2047\nCJP #0",
    "CJP A B",
    "CJP A ; x",
    "CJP A\nMOV",
    "MOV\nCJP A",
    "CJP A\nCJP #2048",
    "CJP #2048\nCJP A",
    "CJP A\n\xff",
    "; poll\n\nagain:\nCJP A",
    "; poll\nagain:\nLDB A, B\nEQ A, #0\nCJP C\nMOV PC, C\n",
    "JMP x\nCJP SP\nx:\nMOV A, #256\n",
    "x:\ny:\nCJP A\nz:\nDBG",
]

# 32 comes before 29 on a line; of two lines the first decides.
LITTLE_ROOM = [
    ((0, 0), "CJP A"),
    ((0, 0), "CJP a"),
    ((1, 0), "DBG\nCJP A"),
    ((1, 0), "DBG\nDBG\nCJP A"),
    ((1, 0), "CJP A\nDBG"),
    ((1, 0), "CJP A\nx:"),
    ((1, 0), "x:\nCJP A"),
    ((1, 0), "DBG\nMOV A, #256\nCJP A"),
    ((1, 0), "DBG\nCJP A\nMOV A, #256"),
]


def block(commands):
    return ["new 0 0 0 0 0", *commands]
