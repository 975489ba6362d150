"""Steps of random machines, the state shown after each. Instructions are planted where PC is put; registers are aimed at
what the instruction looks at: the borders of the tables, the last sum that fits, equal numbers, the top of memory."""
from . import walks
from .forms import *
from .steer import TOP, Machine, inside, new, program_of

# How often each opcode, from 0 on; 12 to 15 are none.
OPCODES = [4, 6, 5, 12, 12, 6, 4, 8, 10, 8, 14, 5, 1, 1, 1, 1]


def blocks(rng):
    while True:
        yield rng.choices(SCENES, WEIGHTS)[0](rng)


# ---- scenes


def aimed(rng):
    """Single steps from many states, over instructions that stand somewhere in memory."""
    machine, lines = small_machine(rng)
    words = [instruction(rng) for _ in range(rng.randrange(4, 10))]
    at = rng.randrange(machine.memory - 2 * len(words) + 1)
    lines.append(program_of(words, at))
    for _ in range(rng.randrange(15, 30)):
        i = rng.randrange(len(words))
        lines += tried(rng, machine, words[i], at + 2 * i)
    return lines


def going(rng):
    """A program that goes on for a while: small numbers, jumps to its own instructions, stores into its own memory."""
    machine, lines = small_machine(rng)
    count = rng.randrange(4, machine.memory // 2 + 1)
    lines.append(program_of([tame(rng, count) for _ in range(count)]))
    for _ in range(rng.randrange(2, 5)):
        lines.append(tame_registers(rng, machine, count))
        for _ in range(rng.randrange(4, 12)):
            lines += ["step", "state"]
            if rng.random() < 0.08:
                lines.append(rng.choice(MEDDLING)(rng, machine))
    return lines


def loaded(rng):
    """The same from a program that was loaded, so that its first bytes are protected."""
    machine, lines = small_machine(rng, False)
    count = rng.randrange(4, machine.memory // 2 + 1)
    machine.protect(0, count)
    lines.append(" ".join(["load"] + [str(tame(rng, count)) for _ in range(count)]))
    for _ in range(2):
        lines.append(tame_registers(rng, machine, count))
        for _ in range(rng.randrange(5, 14)):
            lines += ["step", "state"]
    return lines


def wild(rng):
    """Bytes as they come, and registers too."""
    machine, lines = small_machine(rng)
    for _ in range(rng.randrange(6, 12)):
        lines.append(any_regs(rng, machine))
        lines += ["step", "state"] * rng.randrange(1, 4)
    return lines


def top_device(rng):
    """A device that ends at the last address but one, or just below, with instructions in it."""
    memory, size = rng.randrange(8, 60), rng.randrange(6, 30)
    machine = Machine(memory, size)
    start = TOP - size - rng.choice([0, 0, 0, 1, 2])
    machine.register(start, size)
    words = [instruction(rng) for _ in range(size // 2)]
    at = rng.choice([0, size % 2])
    lines = [new(rng, memory, size), f"device {start} {size}", program_of(words, at).replace("memory", "device")]
    for _ in range(rng.randrange(12, 25)):
        i = max(0, len(words) - 1 - rng.choice([0, 0, 0, 1, 2, rng.randrange(8)]))
        lines += tried(rng, machine, words[i], start + at + 2 * i + rng.choice([0, 0, 0, 0, 1, 2]))
    return lines


def top_memory(rng):
    """All of memory, or a little less: the fetch at the last addresses, and loads and stores there."""
    memory = rng.choice([65_534, 65_535, 65_536, 65_536, 65_536, 65_537, 65_792])
    machine = Machine(memory, 4)
    lines = [new(rng, memory, 4)]
    if rng.random() < 0.3:
        lines.append(walks.valid_tables(rng, machine))
    words = [instruction(rng) for _ in range(6)]
    at = 65_534 - 2 * len(words) + rng.choice([0, 1, 2, 2, 2, 2, 3])
    if at + 2 * len(words) > memory:
        at = memory - 2 * len(words)
    lines.append(program_of(words, at))
    for _ in range(10):
        i = rng.choice([0, 1, 2, 3, 4, 5, 5, 5, 5])
        lines += tried(rng, machine, words[i], at + 2 * i + rng.choice([0, 0, 0, 0, 0, 1]))
    return lines


SCENES = [aimed, going, loaded, wild, top_device, top_memory]
WEIGHTS = [50, 22, 6, 8, 12, 8]


def small_machine(rng, with_tables=True):
    memory, device = rng.choice([rng.randrange(20, 60), rng.randrange(20, 300)]), rng.choice([0, rng.randrange(1, 60)])
    machine = Machine(memory, device)
    lines = [new(rng, memory, device)]
    if with_tables and rng.random() < 0.7:
        lines.append(walks.valid_tables(rng, machine))
    return machine, lines


def tried(rng, machine, w, pc):
    """One step of an instruction that stands at pc. Now and then one register is set once more."""
    lines = [regs(aimed_registers(rng, machine, w, inside(pc)))]
    if rng.random() < 0.05:
        lines.append(set_one(rng, machine))
    return lines + ["step", "state"]


# ---- one command each


def regs(values):
    return " ".join(["regs", *map(str, values)])


def any_regs(rng, machine):
    return regs([edge(rng, machine) for _ in range(PC)] + [machine.address(rng), edge(rng, machine), flags(rng)])


def set_one(rng, machine):
    number = rng.choice([0, 1, 2, 3, 4, 5, 6, 7, 7, 8, 9, 255, 256, TOP]) if rng.random() < 0.5 else rng.randrange(8)
    return f"set {number} {edge(rng, machine)}"


MEDDLING = [any_regs, set_one, set_one, walks.protect, walks.register, walks.put_byte, walks.put_word, walks.new_tables]


# ---- instructions


def instruction(rng):
    """Any word, most of them real instructions."""
    op = rng.choices(range(16), OPCODES)[0]
    w = op + 16 * rng.randrange(4_096)
    mend = rng.random() < 0.8
    if mend and op == 7 and field(w, 7, 3) >= 6:
        w ^= 1 << 9
    if mend and op == 10 and field(w, 7, 3) == 7:
        w ^= 1 << rng.choice([7, 8, 9])
    return w


def field(w, at, width):
    return w >> at & (1 << width) - 1


def tame(rng, count):
    """An instruction of a program that goes on."""
    return rng.choices(TAME_FORMS, TAME_WEIGHTS)[0](rng, count)


def any_register(rng):
    return rng.choice([A, A, A, B, C, M, SP, BP])


def address_register(rng):
    return rng.choice([B, C, SP, BP])


def a_move(rng, count):
    return mov(any_register(rng), rng.choice([0, 1, 2 * rng.randrange(count) % 256, rng.randrange(256)]))


def a_register_move(rng, count):
    return mov_register(any_register(rng), rng.randrange(8))


def a_shift(rng, count):
    return shifted(any_register(rng), rng.randrange(8), rng.randrange(2), rng.randrange(32))


def an_arith(rng, count):
    if rng.random() < 0.3:
        return arith_register(rng.randrange(4), any_register(rng), rng.randrange(8))
    return arith(rng.randrange(4), any_register(rng), rng.choice([1, 2, 3, rng.randrange(64)]))


def a_word_access(rng, count):
    return word_access(any_register(rng), address_register(rng), rng.randrange(2), rng.randrange(8))


def a_byte_access(rng, count):
    return byte_access(any_register(rng), address_register(rng), rng.randrange(2), rng.randrange(8))


def a_jump(rng, count):
    return rng.choice([jmp, cjp, cjp, call])(2 * rng.randrange(count))


def a_return(rng, count):
    return RET + 32 * rng.randrange(2_048)


def a_compare(rng, count):
    return compare(rng.randrange(6), any_register(rng), rng.randrange(32)) + rng.choice([0, 1024])


def a_copy(rng, count):
    return cpy(address_register(rng), address_register(rng))


def a_reg_reg(rng, count):
    return reg_reg(rng.randrange(7), any_register(rng), rng.randrange(8), rng.randrange(8))


def a_noop(rng, count):
    return NOOP + 16 * rng.randrange(4_096)


def anything(rng, count):
    return instruction(rng)


TAME = [
    (a_move, 8),
    (a_register_move, 4),
    (a_shift, 5),
    (an_arith, 12),
    (a_word_access, 14),
    (a_byte_access, 10),
    (a_jump, 14),
    (a_return, 3),
    (a_compare, 10),
    (a_copy, 8),
    (a_reg_reg, 10),
    (a_noop, 4),
    (anything, 4),
]
TAME_FORMS, TAME_WEIGHTS = zip(*TAME)


# ---- registers


def tame_registers(rng, machine, count):
    values = [machine.address(rng) if rng.random() < 0.7 else rng.randrange(machine.memory) for _ in range(8)]
    values[A] = rng.choice([0, 1, 7, rng.randrange(300)])
    values[M] = 2 * rng.randrange(count)
    values[PC] = 2 * rng.randrange(count)
    values[FLAGS] = 2 * rng.randrange(8)
    return regs(values)


def edge(rng, machine):
    """A number beside some edge, or any."""
    choice = rng.random()
    if choice < 0.4:
        return rng.choice([0, 1, 2, 255, 256, 32_767, 32_768, 65_533, 65_534, 65_535])
    if choice < 0.8:
        return machine.address(rng)
    return rng.randrange(65_536) if choice < 0.9 else rng.randrange(300)


def flags(rng):
    """The three bits that a step looks at, all ways; halted now and then; and bits that say nothing."""
    return 2 * rng.randrange(8) + (rng.random() < 0.04) + 16 * rng.choice([0, 0, rng.randrange(4_096)])


def aimed_registers(rng, machine, w, pc):
    values = [edge(rng, machine) for _ in range(8)]
    values[PC], values[FLAGS] = pc, flags(rng)
    aim = AIMS.get(w % 16)
    if aim and rng.random() < 0.9:
        aim(rng, machine, w, values)
    values = [inside(value) for value in values]
    values[PC] = pc
    if rng.random() < 0.9:
        values[FLAGS] &= TOP - 1
    return values


def aim_access(rng, machine, w, values):
    """At an address that matters; sometimes just past the last."""
    target = machine.address(rng) if rng.random() < 0.85 else TOP + rng.randint(-2, 2)
    values[field(w, 7, 3)] = target - (w >> 11)


def aim_copy(rng, machine, w, values):
    values[field(w, 4, 3)] = machine.address(rng)
    values[field(w, 7, 3)] = machine.address(rng)


def aim_arith(rng, machine, w, values):
    dst, op = field(w, 4, 3), field(w, 7, 2)
    values[SP] = machine.address(rng)
    if not field(w, 9, 1):
        values[dst] = first_for(rng, op, w >> 10)
    else:
        aim_both(rng, op, dst, field(w, 10, 3), values)


def aim_registers(rng, machine, w, values):
    op, first, second = field(w, 7, 3), field(w, 10, 3), field(w, 13, 3)
    if op == SQRT:
        values[first] = rng.randrange(257) ** 2 + rng.randint(-1, 1)
    else:
        aim_both(rng, op, first, second, values)


def aim_both(rng, op, first, second, values):
    """Two numbers whose result is the last that fits, or the next. PC stays: then the other number is aimed."""
    if op == EXP:
        values[second] = rng.choice([0, 1, 2, 3, rng.randrange(18), rng.randrange(18), values[second]])
    elif op in (DIV, MOD):
        values[second] = rng.choice([0, 1, 2, values[second], rng.randrange(300)])
    elif rng.random() < 0.5:
        values[second] = rng.randrange(300)
    if first == PC:
        values[second] = {ADD: 65_534 - values[PC], SUB: values[PC], MUL: 2}.get(op, values[second]) + rng.randint(-2, 2)
    else:
        values[first] = first_for(rng, op, inside(values[second]))


def first_for(rng, op, second):
    by = rng.randint(-1, 1)
    if op == ADD:
        return TOP - second + by
    if op == MUL:
        return TOP // max(second, 1) + by
    if op == EXP:
        return int(TOP ** (1 / second)) + by if second else rng.randrange(65_536)
    return rng.choice([second, second, second * rng.randrange(9), rng.randrange(65_536)]) + by


def aim_compare(rng, machine, w, values):
    other = values[field(w, 11, 3)] if field(w, 10, 1) else w >> 11
    values[field(w, 4, 3)] = other + rng.randint(-1, 1)


AIMS = {3: aim_arith, 4: aim_access, 7: aim_compare, 8: aim_access, 9: aim_copy, 10: aim_registers}
