"""The cases of 01 and of READINGS 12, 21 and 22 that are about run and journal, with the state after them."""
from .forms import *
from .steer import program_of, tables

RECORD = 23
HALT = mov(FLAGS, 1)
HALTED = "regs 0 0 0 0 0 0 0 1"


def once(rng):
    yield from runs()
    yield from rings()
    yield stores()
    yield from other_stores()
    yield from emptied()
    yield from kept()
    yield from damaged()
    yield from not_valid()
    yield no_commands()


def block(words, moves, registers=None, before=(), memory=16, device=4, journal=2 * RECORD, debug=0):
    """A machine with a program at 0 and the registers by number; the moves, and the state."""
    program = [program_of(words)] if words else []
    return [f"new {memory} {device} {journal} {debug} 77", *before, *program, regs(registers or {}), *moves, "state"]


def regs(registers):
    return " ".join(["regs", *(str(registers.get(r, 0)) for r in range(8))])


def shown(*moves):
    """The state after each move."""
    return [line for move in moves for line in (move, "state")]


def runs():
    """Until n accepted, Stop, Debug or a refusal; a refusal keeps the steps before it."""
    for debug in (0, 1):
        for n in (0, 2, 5):
            moves = [*shown(f"run {n}", f"run {n}", "back"), "back", "back"]
            yield block([mov(A, 5), NOOP, mov(B, 6), 12], moves, debug=debug)
    yield block([HALT], ["run 9", "run 0", "run 1", "back", "run 0"])
    yield block([mov(A, 5)] * 2, ["run 4294967295", "state", "back", "run 1"], memory=4)
    # the store at the last word is refused, and neither made nor recorded
    top = program_of([NOOP, word_access(A, B, 1)], 65_532)
    yield block([], ["run 9", "state", "back", "back"], {A: 0x1234, B: 8, PC: 65_532}, [top], memory=65_536)
    yield ["new 0 0 0 0 5", HALTED, "run 0", "run 4294967295", "regs 0 0 0 0 0 0 0 0", "run 0", "run 1", "run 2", "back"]
    yield ["new 50 62 185 0 251", "load 1768 569", "state", "run 0", "step", "state", "back", "state"]


def rings():
    """Rings of none up to four records, some of them cut within one: filled, wrapped round, taken back, filled again."""
    loop = [arith(ADD, A, 1), byte_access(A, B, 1, 8), jmp(0)]
    for journal in (0, 22, 23, 45, 46, 68, 69, 100):
        moves = shown("run 3", "back", "step", "run 2", "back", "back", "back") + ["back", "back", "run 7", "back"]
        yield block(loop, moves, journal=journal)


def stores():
    """What a record holds: each byte that was taken, and the half of a word; none that was not. A border of each kind lies
    among the addresses."""
    words = [word_access(A, B, 1), byte_access(A, B, 1), cpy(C, B)]
    lines = block(words, [], before=[tables([(10, 1), (13, 3)], [(11, 12), (16, 18)])], memory=20)
    for address in (8, 9, 10, 11, 12, 15, 17, 18, 19, 20):
        for at in range(len(words)):
            lines += [regs({A: 0x1234, B: address, C: 9, PC: 2 * at}), *shown("step", "back")]
    return lines


def other_stores():
    """A byte of equal value; Div's remainder, where it is taken; the last addresses; a program that stores over itself."""
    back = [*shown("step", "back"), "back"]
    yield block([word_access(C, B, 1)], back, {B: 4, C: 0}, ["poke memory 4 0000"])
    for stack in (8, 10, 16):
        yield block([arith(DIV, A, 7)], back, {A: 1000, SP: stack, FLAGS: 2}, ["protect 10 1"])
    yield block([arith(DIV, A, 7)], back, {A: 1000, SP: 8})
    yield block([arith(DIV, SP, 3)], back, {SP: 8, FLAGS: 2})
    yield block([cpy(B, C)], back, {B: 16, C: 5})
    yield block([word_access(A, B, 1), mov(A, 9)], ["run 2", "state", "back", "back", "run 2"], {A: 0x0731, B: 2})
    for w, address in ((byte_access(A, B, 1), 65_535), (word_access(A, B, 1), 65_535), (word_access(A, B, 1), 65_534)):
        yield block([w], back, {A: 0x1234, B: address}, memory=65_536)


def emptied():
    """Accepted set, protect, device, forget; load past 16 and 14, also where it is 15 or 13."""
    for change in ("set 0 1", "protect 9 2", "device 9 2", "forget", "load", "load 1 2", "loadn 9 7"):
        yield block([mov(A, 5)] * 3, ["run 2", change, "state", "back", "step", "back", "back"])
    for region in ("0 0", "1 1"):
        yield block([mov(A, 5)] * 3, ["run 2", "load 9", "state", "back"], before=[f"protect {region}"])


def kept():
    """What is refused leaves all as it is; what the host does to bytes and raw fields leaves the journal."""
    refused = ["set 8 1", "protect 65535 1", "protect 1 1", "device 65535 1", "device 9 5", "loadn 32769 0", "step", "run 3"]
    yield block([mov(A, 5), mov(B, 6), 12], ["run 2", *refused, "state", "back"], before=["protect 0 4"])
    yield block([mov(A, 5), HALT], ["run 9", "step", "run 0", "back"])
    full = [f"protect {16 + i} 1" for i in range(8)]
    yield block([mov(A, 5)] * 3, ["run 2", "protect 30 1", "load 9", "state", "back"], before=full)
    meddling = ["put 8 1", "putw 8 1", "poke memory 9 aa", "regs 9 9 9 9 9 4 9 0"]
    yield block([mov(A, 5)] * 3, ["run 2", *meddling, *shown("step", "back", "back")])


def record(kind, first=(0, 0), second=(0, 0)):
    """A record in slot 0, which is then the newest: its old bytes are (address, byte)."""
    words = [f"{r:02x}00" for r in range(8)]
    old = [f"{a % 256:02x}{a // 256:02x}{byte:02x}" for a, byte in (first, second)]
    return ["poke journal 0 " + "".join([f"{kind:02x}", *words, *old]), "cursor 1 1"]


def damaged():
    """11: kind over 2, or a used address that takes no store. Nothing is restored then; what is not used may be anything."""
    places = [(4, 7), (5, 7), (6, 8), (9, 9), (10, 10), (11, 11), (15, 12), (16, 13), (65_535, 14)]
    records = [record(kind, (8, 1), (9, 2)) for kind in (0, 1, 2, 3, 4, 127, 128, 255)]
    records += [record(0, place, place) for place in places[:1]]
    records += [record(1, place, (4, 3)) for place in places]
    records += [record(2, place, (8, 3)) for place in places]
    records += [record(2, (8, 3), place) for place in places]
    # one address twice: the first's byte ends up there
    records += [record(2, (address, 170), (address, 85)) for address in (8, 10, 15)]
    moves = [line for lines in records for line in (*lines, *shown("back"))]
    yield block([], moves, before=["protect 4 2", "device 10 2"])
    # a slot that no step has filled, the last one from slot 0 on, and one that was damaged and filled again
    yield block([mov(A, 5)] * 4, shown("cursor 0 1", "back", "cursor 0 2", "step", "back", "back", "back"), journal=47)
    yield block([mov(A, 5)] * 4, ["run 2", "poke journal 0 09", *shown("back", "back", "step", "back", "back")])
    yield block([byte_access(A, B, 1, 8)], ["step", tables([(8, 1)], []), "back", tables([], []), "back"], {A: 5})


def not_valid():
    """1 comes first wherever the cursor is none, whatever else there is to refuse; the memory part does not ask."""
    every = ["step", "run 0", "run 5", "back", "forget", "set 8 1", "set 0 1", "protect 65535 1", "device 65535 1", "load 1"]
    every += ["loadn 32769 0", "read 65535 1 1", "read 0 1 0", "byte 0", "word 65535", "put 8 1", "putw 8 258"]
    for journal, cursors in ((22, ["0 1", "1 0"]), (23, ["1 0", "0 2"]), (69, ["3 0", "0 4", "65535 65535"])):
        for cursor in cursors:
            yield [f"new 16 4 {journal} 0 7", HALTED, f"cursor {cursor}", *every, "state", "cursor 0 0", "run 5", "forget", "back"]
    for journal, room in ((94_300, 4_096), (94_207, 4_095)):
        cursors = [(room - 1, room), (room, 0), (room - 1, room + 1)]
        yield [f"new 16 4 {journal} 0 7", *(line for c in cursors for line in (f"cursor {c[0]} {c[1]}", "forget")), "state"]
    yield block([mov(A, 5)], ["step", "tables 9" + " 0" * 33, "back", "run 0", "forget", "step", tables([], []), "back"])


def no_commands():
    wrong = ["run", "run ", "run x", "run -1", "run 4294967296", "run 1 1", "back 1", "back ", "forget 0", "cursor", "cursor 0"]
    wrong += ["cursor 0 65536", "cursor 65536 0", "cursor 0 0 0", "cursor  0 0", "Back", "runs 1", "forge", "state"]
    return ["new 8 0 46 0 7", "run 2", *wrong, "back", "cursor 00 00", "run 0000000000000000000000001", "state"]
