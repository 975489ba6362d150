"""Walks of steps, step-backs and runs, the host's actions between them, over journals with room for no record up to 4,096: the
state is shown after each move where that is cheap."""
from . import damaged, steps, walks
from .forms import *
from .loops import Loop, regs
from .steer import TOP, Machine, byte, inside, program_of, word

RECORD = 23
MOST = 4_096
# Lengths with room for no record up to four, some of them cut within a record; and about as many as there can be.
SHORT = [0, 22, 23, 24, 45, 46, 47, 68, 69, 70, 91, 92, 115, 185]
LONG = [RECORD * n + more for n in (MOST - 1, MOST) for more in (-1, 0, 1, 22)] + [RECORD * MOST + 30, 94_300]


def blocks(rng):
    while True:
        yield rng.choices(SCENES, WEIGHTS)[0](rng)


class Walk:
    """The lines of a walk, and what the generator believes of its machine and its journal."""

    def __init__(self, rng, journal, debug=None):
        self.rng = rng
        self.journal = journal
        self.room = min(MOST, journal // RECORD)
        memory = rng.choices([rng.randrange(40, 200), rng.randrange(250, 600), 65_536], [70, 29, self.room < 100])[0]
        self.machine = Machine(memory, rng.choice([0, rng.randrange(1, 40)]))
        debug = rng.randrange(2) if debug is None else debug
        self.lines = [f"new {memory} {self.machine.device} {journal} {debug} {rng.randrange(65_536)}"]
        # a state line reads all the bytes
        self.often = 1 if memory + journal < 3_000 else 0.15

    def plant(self, may_stop=True):
        """Tables, a loop over them, and registers to run it."""
        rng = self.rng
        if rng.random() < 0.7:
            self.lines.append(walks.valid_tables(rng, self.machine))
        count = rng.randrange(3, max(4, min(14, self.machine.memory // 4)))
        self.loop = Loop(rng, self.machine, count, may_stop and rng.random() < 0.3)
        self.lines += self.loop.lines()
        return self

    def move(self, lines, often=1.0):
        """A move, and the state after it so often, or less often where it is long."""
        self.lines += [lines] if isinstance(lines, str) else lines
        if self.rng.random() < often * self.often:
            self.lines.append("state")

    def slot(self):
        return self.rng.choice([0, self.room - 1, self.rng.randrange(self.room)]) if self.room else 0


# ---- scenes


def small(rng):
    """A small ring that is filled, wrapped round and emptied again and again, nothing else happening."""
    walk = Walk(rng, rng.choice(SHORT)).plant()
    for _ in range(rng.randrange(10, 40)):
        walk.move(rng.choices([step, back, run, forget], [30, 34, 16, 1])[0](walk))
    return walk.lines


def meddled(rng):
    """The same with every action of the host between."""
    walk = Walk(rng, rng.choice(SHORT)).plant()
    for _ in range(rng.randrange(20, 50)):
        walk.move(rng.choices(ACTIONS, ACTION_WEIGHTS)[0](walk))
    return walk.lines


def unplanned(rng):
    """Programs of any instructions: refusals, halts and failed stores between the accepted steps."""
    walk = Walk(rng, rng.choice(SHORT))
    machine = walk.machine
    walk.lines.append(walks.valid_tables(rng, machine))
    count = rng.randrange(4, min(150, machine.memory // 2) + 1)
    walk.lines.append(program_of([steps.tame(rng, count) for _ in range(count)]))
    for _ in range(rng.randrange(2, 5)):
        walk.lines.append(steps.tame_registers(rng, machine, count))
        for _ in range(rng.randrange(4, 14)):
            walk.move(rng.choices([step, back, run], [40, 30, 20])[0](walk))
    return walk.lines


def by_hand(rng):
    """Records that no step has written, and a step-back of each."""
    walk = Walk(rng, rng.choice(SHORT[2:] + LONG[:2])).plant()
    for _ in range(rng.randrange(8, 20)):
        slot = walk.slot()
        walk.lines.append(f"poke journal {RECORD * slot} {a_record(rng, walk)}")
        walk.lines.append(f"cursor {(slot + 1) % walk.room} {rng.choice([1, walk.room, rng.randint(1, walk.room)])}")
        walk.move("back")
        if rng.random() < 0.3:
            walk.move(rng.choice([step, back, run, poke_journal])(walk))
    return walk.lines


def broken(rng):
    """A cursor or tables that are not valid, or only just are, and every move on them; then they are mended."""
    walk = Walk(rng, rng.choice(SHORT + LONG[:1])).plant()
    walk.move(run(walk))
    for _ in range(rng.randrange(1, 4)):
        way = rng.choice(damaged.WAYS)
        walk.lines.append(any_cursor(walk) if rng.random() < 0.7 else way(rng, walk.machine))
        for move in rng.sample(EVERY, len(EVERY)):
            walk.move(move(walk), 0.3)
        walk.lines += [walks.valid_tables(rng, walk.machine), good_cursor(walk), *walk.loop.lines()]
        walk.move([step(walk), back(walk)])
    return walk.lines


def large(rng):
    """About 4,096 records: runs that wrap the ring, step-backs over its ends."""
    walk = Walk(rng, rng.choice(LONG), debug=0).plant(may_stop=False)
    for _ in range(rng.randrange(2, 5)):
        n = rng.choice([walk.room - 1, walk.room, walk.room + 1, 5_000, rng.randrange(1, 9_000)])
        walk.move([f"run {n}", "state"], 0)
        for _ in range(rng.randrange(4, 20)):
            walk.move(rng.choices([step, back, run], [30, 50, 10])[0](walk))
        if rng.random() < 0.3:
            walk.move(rng.choices(ACTIONS, ACTION_WEIGHTS)[0](walk))
        walk.lines.append("state")
    return walk.lines


def drained(rng):
    """The longest ring filled and taken back whole, one step-back more than it holds."""
    walk = Walk(rng, rng.choice(LONG), debug=0).plant(may_stop=False)
    walk.move(f"run {rng.choice([walk.room - 1, walk.room, walk.room + 1, 5_000])}")
    for i in range(walk.room + 2):
        walk.move("back", i % 64 == 0)
    return walk.lines + ["state"]


SCENES, WEIGHTS = zip((small, 40), (meddled, 40), (unplanned, 25), (by_hand, 25), (broken, 12), (large, 8), (drained, 0.05))


# ---- one move each


def step(walk):
    return "step"


def back(walk):
    return "back"


def forget(walk):
    return "forget"


def run(walk):
    """A few steps, or about as many as the ring has room for; now and then none, or many."""
    rng = walk.rng
    few = [0, 1, 2, rng.randrange(8)]
    about = [walk.room - 1, walk.room, walk.room + 1] if walk.room < 100 else few
    many = rng.choice([50, 200, rng.randrange(600)]) if rng.random() < 0.3 else 3
    return f"run {max(0, rng.choice(few + about + [many]))}"


def again(walk):
    """The loop's registers, from its first instruction on."""
    return regs(walk.loop.registers)


def set_one(walk):
    """Mostly something that the loop goes on from."""
    number = walk.rng.choice([A, PC, FLAGS])
    values = {A: word(walk.rng), PC: 0, FLAGS: 2}
    return f"set {number} {values[number]}" if walk.rng.random() < 0.7 else steps.set_one(walk.rng, walk.machine)


def protect(walk):
    return walks.protect(walk.rng, walk.machine)


def register(walk):
    return walks.register(walk.rng, walk.machine)


def load(walk):
    """The loop itself, or any program."""
    if walk.rng.random() < 0.5:
        return " ".join(["load", *map(str, walk.loop.words)])
    return walks.load(walk.rng, walk.machine)


def load_same(walk):
    return walks.load_same(walk.rng, walk.machine)


def poke(walk):
    return walks.poke(walk.rng, walk.machine)


def put(walk):
    return walk.rng.choice([walks.put_byte, walks.put_word])(walk.rng, walk.machine)


def any_regs(walk):
    return steps.any_regs(walk.rng, walk.machine)


def valid_tables(walk):
    return walks.valid_tables(walk.rng, walk.machine)


def poke_journal(walk):
    """A kind, an address or another byte of some record; or a byte past the last."""
    rng = walk.rng
    if walk.journal == 0:
        return "poke journal 0 -"
    at = RECORD * walk.slot() + rng.choice([0, 0, 17, 18, 20, 21, rng.randrange(RECORD)])
    at = min(at, walk.journal - 1) if rng.random() < 0.95 else walk.journal - 1
    return f"poke journal {at} {rng.choice([0, 1, 2, 2, 3, byte(rng)]):02x}"


def good_cursor(walk):
    held = walk.rng.choice([0, walk.room, walk.rng.randint(0, walk.room)])
    return f"cursor {walk.slot()} {held}"


def any_cursor(walk):
    """Just inside or just outside."""
    rng, room = walk.rng, walk.room
    next_slot = rng.choice([0, room - 1, room, room, room + 1, TOP])
    held = rng.choice([0, room, room, room + 1, room + 1, TOP])
    return f"cursor {inside(next_slot)} {held}"


def read_out(walk):
    return walks.read_out(walk.rng, walk.machine)


def no_end(walk):
    """As long as it goes: only where it is sure to end at once."""
    return ["regs 0 0 0 0 0 0 0 1", "run 4294967295"]


def run_none_halted(walk):
    return ["regs 0 0 0 0 0 0 0 1", "run 0", "run 1"]


MOVES = [
    (step, 20),
    (back, 24),
    (run, 14),
    (again, 5),
    (forget, 2),
    (set_one, 4),
    (protect, 2),
    (register, 2),
    (load, 2),
    (load_same, 1),
    (poke, 3),
    (put, 2),
    (any_regs, 1),
    (valid_tables, 1),
    (poke_journal, 4),
    (good_cursor, 4),
    (any_cursor, 1),
    (read_out, 1),
    (no_end, 1),
    (run_none_halted, 1),
]
ACTIONS, ACTION_WEIGHTS = zip(*MOVES)
# What is tried on a state that is perhaps not valid: then each of them but a put is refused.
EVERY = [step, back, run, forget, set_one, protect, register, load, load_same, put, read_out, step, back, run]


# ---- a record


def a_record(rng, walk):
    """Mostly one that is right but for one thing: its kind, or one of its addresses."""
    kind = rng.choice([0, 1, 1, 2, 2, 2, 2, 3, 4, 127, 128, 255, byte(rng)])
    registers = [word(rng) for _ in range(8)] if rng.random() < 0.5 else walk.loop.registers
    first, second = an_address(rng, walk), an_address(rng, walk)
    second = rng.choice([first, inside(first + 1), second, second])
    numbers = [kind, *halves(registers), *halves([first]), byte(rng), *halves([second]), byte(rng)]
    return "".join(f"{number:02x}" for number in numbers)


def an_address(rng, walk):
    """One that takes a store, or any near a border."""
    return walk.loop.place(rng) if rng.random() < 0.6 else walk.machine.address(rng)


def halves(words):
    return [half for w in words for half in (inside(w) % 256, inside(w) // 256)]
