"""Texts at each limit: open references, label tables, word rooms, the last address that eleven bits reach, the last word of a
program, the longest input of the listing."""
from .assembly import TO_LABEL, asm, copies, line, listing

RULES = ["plain", "strict"]


def once(rng):
    yield from (["new 0 0 0 0 0", command] for family in FAMILIES for command in family(rng))


def open_references(rng):
    """512 may be open at once; a label closes all of its own."""
    for rules in RULES:
        for count in (511, 512, 513, 514):
            yield asm(rules, count, 3, "JMP x\n" * count)
            yield asm(rules, count, 3, "".join(f"CALL x{i}\n" for i in range(count)))
            yield asm(rules, count + 2, 3, "JMP y\n" + "JMP x\n" * (count - 1) + "x:\n" + "JMP z\n" * 2)
            yield asm(rules, count + 512, 3, "CJP x\n" * (count - 1) + "x:\n" + "JMP z\n" * 512)
        # a line that does not parse comes first, then 32, 29, 28
        yield asm(rules, 512, 0, "JMP x\n" * 513)
        yield asm(rules, 513, 0, "JMP x\n" * 513)
        yield asm(rules, 512, 0, "JMP x\n" * 512 + "JMP x y")
        yield from (asm(rules, room, 0, "JMP x\n" * 512 + "CJP A") for room in (512, 513))
        yield asm(rules, 600, 0, "JMP x\n" * 512 + "JMP A\nJMP #5\nDBG\nJMP y")
    yield listing("JMP x\n" * 512)
    yield listing("JMP x\n" * 513)
    yield copies("plain", 513, 0, 513, "JMP x\n")


def tables(rng):
    """Tables of 0 to 3 entries, of 1,024 as the listing has, and of 1,100."""
    for rules in RULES:
        for room in range(4):
            for count in range(6):
                yield asm(rules, 8, room, "".join(f"x{i}:\nDBG\n" for i in range(count)))
            yield asm(rules, 9, room, "a:\nDBG\nb:\nDBG\na:\nDBG\nb:\nCALL a\nc:\nCALL b\nc:\na:\nd:")
        for room, count in ((1_024, 1_024), (1_024, 1_025), (1_100, 1_100), (1_100, 1_101)):
            yield asm(rules, 1, room, "".join(f"l{i}:\n" for i in range(count)) + "l5:\nCALL l5")
    for count in (1_024, 1_025):
        yield listing("".join(f"l{i}:\n" for i in range(count)) + "l7:\nJMP l7")


def word_rooms(rng):
    for rules in RULES:
        for room in range(5):
            for count in range(7):
                yield asm(rules, room, 1, "RET\n" * count)
            full = "RET\n" * room
            for last in ("MOV A, #256", "JMP #2048", "LDR A, [B #32]", "CJP A", "MOV A", "JMP x"):
                yield asm(rules, room, 1, full + last)
            for last in ("x:", "x:\nx:\ny:", "; no word", "\x80"):
                yield asm(rules, room, 1, full + last)


def far_labels(rng):
    """A label at 2,046 is the last that eleven bits reach. A reference to one beyond is 30 on its own line if the label is known, and
    else on the label's line."""
    for count in (1_022, 1_023, 1_024, 1_025):
        for rules in RULES:
            for jump in TO_LABEL:
                far = "DBG\n" * count
                yield asm(rules, count + 3, 2, f"{far}x:\n{jump} x\nRET")
                yield asm(rules, count + 3, 2, f"{jump} x\n{far[4:]}x:\nRET")
            jump = rng.choice(TO_LABEL)
            yield asm(rules, count + 1, 1, f"{jump} x\n{far}x:")
            yield asm(rules, count + 1, 0, f"{jump} x\n{far}x:")
            yield asm(rules, count, 1, f"{far}x:\n{jump} x")
            yield asm(rules, count + 2, 1, f"x:\n{far}x:\n{jump} x\nDBG")
            yield asm(rules, count + 2, 2, f"{jump} x\n{jump} y\n{far}y:\nx:")
        yield listing(f"{far}x:\nCALL x\n")


def full_programs(rng):
    """32,767 words are the most, in any room; on a full program 30 and 32 come before 29, and a label still has its address."""
    for rules in RULES:
        for count in (32_766, 32_767, 32_768):
            yield copies(rules, 32_800, 2, count, "DBG\n")
            yield copies(rules, 4, 1, count, "DBG\n")
        for room in (32_766, 32_767, 32_768):
            yield copies(rules, room, 2, 32_767, "DBG\n", "x:\n")
            yield copies(rules, room, 2, 32_766, "DBG\n", "x:\nRET\ny:\n\n; nothing\nRET")
        for last in ("x:\nJMP x", "MOV A, #256", "CJP A", "MOV A, X", "JMP x", "x:\ny:\n", "x:\ny:\nz:", "\xff"):
            yield copies(rules, 32_800, 2, 32_767, "DBG\n", last)
        yield copies(rules, 32_800, 1, 32_767, "RET\n", "x:\nx:\nRET")
        yield copies(rules, 32_800, 1, 32_766, "RET\n", "JMP x\nx:\nRET")
    yield copies("plain", 3, 3, 0, "MOV", "x:")
    yield copies("plain", 3, 3, 3, "", "RET")
    yield copies("strict", 3, 3, 2, "x:\nJMP x\n", "x:\n")


def not_ascii(rng):
    """26 comes before all else, at the line of the first such byte."""
    for rules in RULES:
        for at in range(6):
            lines = ["MOV", "x:", "y:", "RET", "RET", "RET"]
            lines[at] += "\x80"
            yield asm(rules, 1, 1, "\n".join(lines))
    yield asm("plain", 0, 0, "\n" * 300 + "\xff\xfe")


def listings(rng):
    """65,536 bytes are the most; 19 comes before 26."""
    for size in (65_535, 65_536, 65_537, 65_600):
        yield listing("DBG\n" * 16_383 + " " * (size - 65_532))
        yield listing("\n" * (size - 1) + "\xff")
        yield listing("\n" * (size - 4) + "MOVE")
    # the longest listing that there is, and one that is nearly as long
    yield listing("DBG\n" * 16_384)
    yield listing("RET\n" * 16_384)
    yield listing("".join(f"MSL FLAGS, [#{rng.randrange(32)} #{rng.randrange(8)}]\n" for _ in range(2_800)))
    # one byte over what the language takes
    yield listing("\n" * 65_601)
    yield asm("plain", 1, 1, "\n" * 65_601)
    yield asm("plain", 1, 1, "\n" * 65_600)


def far_places(rng):
    """Places and line numbers of more than sixteen bits, and names as long as a text."""
    for rest in ("x:\nCALL x", "MOV", "\xff", "x:\ny:", "x:\nx:\nx:"):
        yield copies("plain", 1, 1, 32_700, "\n\n\n\n", rest)
        yield asm("plain", 1, 1, "\n" * (65_600 - len(rest)) + rest)
    name = "x" * 20_000
    yield asm("plain", 2, 2, f"CALL {name}\n{name}y:\n{name}:")
    yield asm("strict", 2, 2, f"{name[1:]}:\n{name}:\nDBG\n{name}:\nJMP {name}")


def long_lines(rng):
    """The longest line, text and table of a single line, and one more of each."""
    longest = "JMP" + " " * 65_596 + "x"
    for code in (longest, longest + " ", " " * 65_600, "RET" + ";" * 65_597, "RET;" + " " * 65_596):
        yield line(code, "x", [(0, 1, 6)])
    for count in (65_599, 65_600):
        yield line("CALL x", "." * count + "x", [(count, 1, 6)])
    for count in (1_099, 1_100):
        yield line("CALL x", "xy", [(1, 1, 2)] * count + [(0, 1, 6)])
    digits = "0" * 60_000
    yield line(f"MOV A, #{digits}7")
    yield line(f"MSL A, {'[' * 30_000}#0x{digits[:9]}31 #7{']' * 30_000}")


FAMILIES = [
    open_references, tables, word_rooms, far_labels, full_programs, not_ascii, listings, far_places, long_lines
]
