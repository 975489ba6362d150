"""Lines of assembly, for the generators: mnemonics, operands and labels, written well or oddly."""

ARITH = ["ADD", "SUB", "MUL", "DIV"]
THREE = ["ADDR", "SUBR", "MULR", "DIVR", "MODR", "EXPR", "SQRTR"]
ACCESS = ["LDR", "STR", "LDB", "STB"]
SHIFTS = ["MSL", "MSR"]
COMPARES = ["EQ", "NEQ", "LT", "LTE", "GT", "GTE"]
TO_LABEL = ["JMP", "CJP", "CALL"]
ALONE = ["RET", "DBG"]
MNEMONICS = ["MOV", "CPY"] + SHIFTS + ARITH + THREE + ACCESS + TO_LABEL + COMPARES + ALONE

REGISTERS = ["A", "B", "C", "M", "SP", "PC", "BP", "FLAGS"]

# The last value of each field's width, its neighbours, and where a byte, sixteen and thirty-two bits end.
EDGES = [
    0, 1, 7, 8, 9, 30, 31, 32, 33, 62, 63, 64, 65, 254, 255, 256, 257, 300, 2046, 2047, 2048, 2049, 4095, 4096, 32_767,
    32_768, 65_534, 65_535, 65_536, 65_537, 65_791, 99_999, 4_294_967_295, 4_294_967_296, 18_446_744_073_709_551_616,
]

# The blanks of 01, and bytes beside them that are none.
BLANKS = [" ", "\t", "\v", "\f", "\r"]
NO_BLANKS = ["\0", "\b", "\x0e", "\x1c", "\x1f", "\x7f"]

# Names that are registers, mnemonics, numbers or half an operand are names too; a name may hold blanks, or nothing.
NAMES = [
    "x", "y", "z", "loop", "again", "end", "Loop", "x1", "x2", "_", "A", "PC", "a", "MOV", "ret", "0", "5", "-", "a:b",
    "x,", ",", "[x", "x]", "#x", "#5", "+1", "x;", "x y", "x ", "", "a: ", "\x7f",
    "averylongnameofalabelthatgoesonandonandon",
]
GOOD_NAMES = NAMES[:9]


def immediates(value):
    """A number in every form that is written for it."""
    hexed = f"{value:x}"
    yield from (f"#{value}", f"#+{value}", f"#00{value}")
    yield from (f"#0x{hexed}", f"#0x{hexed.upper()}", f"#0x+{hexed}", f"#0x000{hexed}")


# What is nearly an immediate. A few of them are one.
NEARLY = [
    "#", "#+", "#-", "#0x", "#0x+", "#0X5", "#+0x5", "#0x0x5", "#-0", "#-1", "#++1", "#+-1", "#0x-1", "#5,", "#5]",
    "#5:", "##5", "# 5", "#5 ", "#5;", "#1_0", "#1.0", "#1e3", "#0b1", "#0xg", "#0xFFFFF", "#0xffff", "#0xAbCd", "#ff",
    "#a", "#A", "5", "+5", "0x5", "-5", "#\t5", "#000000000000000000000000000065535",
    "#000000000000000000000000000065536", "#0x0000000000000000000ffff", "#0x10000", "#'1'", "#+00",
]


def text_hex(text):
    """A text of the language. Latin-1 stands for bytes."""
    return text.encode("latin-1").hex() or "-"


def asm(rules, words, labels, text):
    return f"asm {rules} {words} {labels} {text_hex(text)}"


def copies(rules, words, labels, count, text, rest=""):
    return f"asmn {rules} {words} {labels} {count} {text_hex(text)} {text_hex(rest)}"


def line(code, names="", entries=()):
    return " ".join(["line", text_hex(code), text_hex(names)] + [",".join(map(str, entry)) for entry in entries])


def listing(text):
    return f"listing {text_hex(text)}"


class Writer:
    """Writes lines of a program. `wide`: how often a number exceeds its field. `odd`: how often something is written oddly."""

    def __init__(self, rng, wide=0.0, odd=0.0, names=GOOD_NAMES):
        self.rng, self.wide, self.odd, self.names = rng, wide, odd, names

    def oddly(self):
        return self.rng.random() < self.odd

    def register(self):
        if self.oddly():
            return self.rng.choice(["X", "a", "Sp", "", "AA", "R0", "D", "flags", "A,", "#1", "FLAG", "[A"])
        return self.rng.choice(REGISTERS)

    def number(self, width):
        """An immediate of so many bits."""
        if self.oddly():
            return self.rng.choice(NEARLY)
        top = 1 << width
        value = self.rng.choice([0, 1, top - 1, top // 2, self.rng.randrange(top)])
        if self.rng.random() < self.wide:
            value = self.rng.choice([top, top + 1, 2 * top - 1, 255, 256, 65_535, 65_536, self.rng.choice(EDGES)])
        return self.rng.choice([f"#{value}"] * 4 + list(immediates(value)))

    def operand(self, width):
        return self.register() if self.rng.random() < 0.5 else self.number(width)

    def comma(self):
        return self.rng.choice(["", ",,", " ,", ";"]) if self.oddly() else ","

    def name(self):
        return self.rng.choice(self.names)

    def operands(self, mnemonic):
        """Each operand with what follows it."""
        if mnemonic == "MOV":
            return [self.register() + self.comma(), self.operand(8)]
        if mnemonic == "CPY":
            return [self.register() + self.comma(), self.register()]
        if mnemonic in ARITH:
            return [self.register() + self.comma(), self.operand(6)]
        if mnemonic in COMPARES:
            return [self.register() + self.comma(), self.operand(5)]
        if mnemonic in THREE:
            return [self.register() + self.comma(), self.register() + self.comma(), self.register()]
        if mnemonic in SHIFTS:
            return [self.register() + self.comma(), "[" + self.number(5), self.number(3) + "]"]
        if mnemonic in ACCESS:
            return [self.register() + self.comma(), *self.address()]
        return [self.target()] if mnemonic in TO_LABEL else []

    def address(self):
        if self.rng.random() < 0.4:
            return [self.register()]
        opening, closing = self.rng.choice(["["] * 5 + ["[[", "[[["]), self.rng.choice(["]"] * 5 + ["]]", ""])
        return [opening + self.register(), self.number(5) + closing]

    def target(self):
        choice = self.rng.random()
        if choice < 0.7:
            return self.name()
        return self.register() if choice < 0.8 else self.number(11)

    def instruction(self):
        mnemonic = self.rng.choice(MNEMONICS)
        parts = [mnemonic, *self.operands(mnemonic)]
        if self.oddly():
            parts[0] = self.rng.choice(["NOOP", "MO", "MOVE", "NOP", "ADDX", "RETT", "D", ".word", "#5", parts[0] + ",", "\u00e9"])
        if self.oddly():
            self.misplace(parts)
        return self.spaced([self.cased(parts[0]), *parts[1:]])

    def misplace(self, parts):
        """An operand too many, too few, or in another's place."""
        way, at = self.rng.randrange(3), self.rng.randrange(len(parts))
        if way == 0:
            parts.insert(at + 1, self.rng.choice(["A", "A,", "#1", "x", ";", ",", "#1]"]))
        elif at:
            moved = parts.pop(at)
            parts += [moved] if way == 1 else []

    def cased(self, mnemonic):
        return self.rng.choice([mnemonic] * 3 + [mnemonic.lower(), mnemonic.capitalize(), mnemonic.swapcase()])

    def spaced(self, parts):
        return self.blanks().join(parts)

    def blanks(self):
        if self.rng.random() < 0.85:
            return " "
        return "".join(self.rng.choice(BLANKS) for _ in range(self.rng.randint(1, 3)))

    def around(self, text):
        """The line with blanks before and after it."""
        if self.rng.random() < 0.8:
            return text
        return "".join(self.rng.choice(BLANKS) for _ in range(2)) + text + self.rng.choice(BLANKS + [""])

    def label(self):
        return self.name() + self.rng.choice([":"] * 6 + ["::", " :", ":::", ": :"])

    def other(self):
        return self.rng.choice(["", "", "; a comment", ";x:", " ", ";", "\t; MOV A, #5"])

    def line(self):
        choice = self.rng.random()
        text = self.instruction() if choice < 0.72 else self.label() if choice < 0.92 else self.other()
        return self.around(text)
