"""Random machines and random commands, mostly on small memories and mostly beside the borders of the tables."""
from .steer import LENGTHS, TOP, Machine, byte, inside, new, tables, word


def blocks(rng):
    while True:
        yield walk(rng)


def walk(rng):
    memory, device = memory_length(rng), device_length(rng)
    machine = Machine(memory, device)
    lines = [new(rng, memory, device)]
    if rng.random() < 0.4:
        lines += [valid_tables(rng, machine), "state"]
    for _ in range(rng.randrange(20, 120)):
        lines.append(rng.choices(COMMANDS, WEIGHTS)[0](rng, machine))
        if is_cheap(machine) and rng.random() < 0.08 or rng.random() < 0.01:
            lines.append("state")
    return lines + ["state"]


def is_cheap(machine):
    """A state line reads all the bytes."""
    return machine.memory + machine.device < 3_000


def memory_length(rng):
    choice = rng.random()
    if choice < 0.88:
        return rng.randrange(8, 601) if choice < 0.6 else rng.randrange(8, 40)
    return rng.choice(LENGTHS) if choice < 0.97 else rng.randrange(65_793)


def device_length(rng):
    choice = rng.random()
    if choice < 0.15:
        return 0
    if choice < 0.93:
        return rng.randrange(1, 200)
    return rng.choice(LENGTHS)


def valid_tables(rng, machine):
    """Tables that the rules allow (by what the generator believes), in any order of their entries."""
    limit = min(TOP, machine.memory + rng.randrange(40))
    machine.regions = spaced(rng, limit, limit, 0, True)
    machine.devices = [(start, start + size) for start, size in spaced(rng, limit, machine.device, 1, False)]
    return tables(machine.regions, machine.devices)


def spaced(rng, limit, room, gap, may_be_empty):
    """Entries (start, size) below a limit, at least so far apart, together within the room."""
    entries, at = [], 0
    for _ in range(rng.choice([0, 1, 1, 2, 3, 5, 7, 8])):
        start = at + rng.choice([0, 0, 1, 2, rng.randrange(1 + limit // 6)])
        size = rng.choice([0, 1, 2, 3, rng.randrange(1 + limit // 6)])
        if start + size > limit or size > room:
            break
        entries.append((start, size))
        room -= size
        at = start + size + gap + (1 if may_be_empty and size == 0 else 0)
    rng.shuffle(entries)
    return entries


# ---- one command each


def read_byte(rng, machine):
    return f"byte {machine.address(rng)}"


def read_word(rng, machine):
    return f"word {machine.address(rng)}"


def put_byte(rng, machine):
    return f"put {machine.address(rng)} {byte(rng)}"


def put_word(rng, machine):
    return f"putw {machine.address(rng)} {word(rng)}"


def entry(rng, machine):
    """A start beside a border, and a size that is small, or reaches to a border, or past the top."""
    start = machine.address(rng)
    ends = [edge - start for edge in machine.borders() if edge >= start]
    size = rng.choice([0, 1, 2, 3, rng.randrange(20), rng.choice(ends) + rng.randint(-1, 1)])
    if rng.random() < 0.05:
        size = rng.choice([TOP - start, TOP - start + 1, TOP])
    return start, inside(size)


def protect(rng, machine):
    start, length = entry(rng, machine)
    if rng.random() < 0.3:
        length = 0
    machine.protect(start, length)
    return f"protect {start} {length}"


def register(rng, machine):
    start, size = entry(rng, machine)
    if rng.random() < 0.2:
        size = inside(machine.free() + rng.randint(-1, 1))
    machine.register(start, size)
    return f"device {start} {size}"


def load(rng, machine):
    most = min(machine.memory // 2 + 2, 40)
    count = rng.choice([0, 1, 2, rng.randrange(most + 1), most])
    machine.protect(0, count)
    return " ".join(["load"] + [str(word(rng)) for _ in range(count)])


def load_same(rng, machine):
    half = machine.memory // 2
    count = rng.choice([0, 1, half - 1, half, half + 1, rng.randrange(half + 1)])
    if rng.random() < 0.02:
        count = rng.choice([32_767, 32_768, 32_769, 32_800])
    count = max(0, min(count, 32_800))
    machine.protect(0, count)
    return f"loadn {count} {word(rng)}"


def read_out(rng, machine):
    start = machine.address(rng)
    ends = [edge - start for edge in machine.borders() if start <= edge <= start + 300]
    size = rng.choice([0, 1, 2, rng.randrange(40), rng.choice(ends or [3]) + rng.randint(0, 2)])
    if rng.random() < 0.06:
        size = TOP - start + rng.randint(0, 2)
    if rng.random() < 0.02:
        size = rng.choice([65_536, 70_000, 4_294_967_295])
    room = size + rng.choice([0, 0, 0, 1, 4, -1]) if size <= 400 else rng.randrange(9)
    return f"read {start} {size} {max(0, room)}"


def poke(rng, machine):
    whose, length = rng.choice([("memory", machine.memory), ("device", machine.device)])
    count = rng.randrange(6)
    at = max(0, rng.choice([0, length - count, length - count + 1, rng.randrange(length + 1)]))
    text = "".join(f"{byte(rng):02x}" for _ in range(count)) or "-"
    return f"poke {whose} {at} {text}"


def new_tables(rng, machine):
    return valid_tables(rng, machine)


COMMANDS = [read_byte, read_word, put_byte, put_word, protect, register, load, load_same, read_out, poke, new_tables]
WEIGHTS = [10, 14, 12, 18, 9, 9, 3, 2, 8, 3, 2]
