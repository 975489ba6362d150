"""Tables with one thing broken and then every command on them, and lines that are no commands. What asks for no state, as
decoding does, is among them too."""
from . import encodings, lines, steps, texts, walks
from .assembly import asm, copies, listing
from .bad_lines import bad_line
from .steer import TOP, Machine, inside, new, tables, word


def blocks(rng):
    while True:
        yield damaged(rng)


def damaged(rng):
    memory, device = rng.randrange(8, 80), rng.randrange(4, 60)
    machine = Machine(memory, device)
    lines = [new(rng, memory, device)]
    for _ in range(rng.randrange(2, 5)):
        lines += [walks.valid_tables(rng, machine), *every_command(rng, machine)]
        broken = rng.choice(WAYS)(rng, machine)
        machine.believe(broken)
        lines += [broken, *every_command(rng, machine)]
    return lines


def every_command(rng, machine):
    """Each command once or twice in some order, a few bad lines between, and the state."""
    commands = [command(rng, machine) for command in walks.COMMANDS if command is not walks.new_tables]
    commands += [walks.put_word(rng, machine), walks.read_byte(rng, machine), "read 0 0 0"]
    commands += [steps.any_regs(rng, machine), steps.set_one(rng, machine), steps.set_one(rng, machine), "step", "step"]
    commands += [f"run {rng.choice([0, 1, 3])}", "back", "back", "forget", f"cursor {rng.choice(['0 0', '0 0', '0 1', '1 2'])}"]
    commands += [f"decode {word(rng)}", f"print {word(rng)} {rng.randrange(20)}", encodings.random_one(rng)]
    commands += [lines.command(rng), asm("strict", 3, 2, texts.one_line(rng)), listing(texts.one_line(rng))]
    commands += [copies("plain", 3, 2, 2, texts.one_line(rng) + "\n", texts.one_line(rng))]
    # a run is left alone: one digit more, and it might not end
    bases = [command for command in commands if not command.startswith("run")]
    bases += [walks.valid_tables(rng, Machine(machine.memory, machine.device)), new(rng, 30, 9), "state"]
    commands += [bad_line(rng, rng.choice(bases)) for _ in range(5)]
    rng.shuffle(commands)
    commands.insert(rng.randrange(len(commands)), "state")
    return commands + ["text 22 70 0", "textn 2 12 3", "state"]


# ---- one broken thing each. Some ways keep the tables valid on purpose: they stand just beside a broken one


def surplus_regions(rng, machine):
    """Eight entries that are right, and a count that is not, or just is."""
    regions = [(3 * i, rng.choice([0, 1, 3])) for i in range(8)]
    return tables(regions, machine.devices, rng.choice([8, 9, 9, 10, 255, 256, TOP]), None)


def surplus_devices(rng, machine):
    devices = [(5 * i, 5 * i) for i in range(7)] + [(36, 36 + rng.randrange(4))]
    return tables(machine.regions, devices, None, rng.choice([8, 9, 9, 10, 255, 256, TOP]))


def stray_region(rng, machine):
    """An entry past the count that is not zero: the last one in use is no longer counted, or one is put behind it."""
    regions = machine.regions[:7] + [rng.choice([(0, 1), (1, 0), (3, 2), (TOP, TOP)])]
    return tables(regions, machine.devices, len(regions) - 1, None)


def stray_device(rng, machine):
    devices = machine.devices[:7] + [rng.choice([(0, 1), (1, 0), (3, 2), (TOP, TOP)])]
    return tables(machine.regions, devices, None, len(devices) - 1)


def region_past_the_top(rng, machine):
    """An end of 65,535 is in range, the next is not."""
    length = rng.choice([1, 2, 300])
    start = TOP - length + rng.choice([0, 1, 1, 1])
    return tables(put_in(rng, machine.regions, (start, length)), machine.devices)


def device_backwards(rng, machine):
    start = rng.randrange(1, machine.memory)
    return tables(machine.regions, put_in(rng, machine.devices, (start, rng.choice([0, start - 1, start - 1]))))


def regions_overlap(rng, machine):
    """A second region that starts inside the first, holds its start, or only touches it."""
    start, length = rng.randrange(machine.memory), rng.randrange(1, 8)
    second = rng.choice([(start, 0), (start, 1), (start + length - 1, 2), (max(0, start - 1), 2), (start + length, 1)])
    return tables(put_in(rng, put_in(rng, machine.regions, (start, length)), second), machine.devices)


def devices_overlap(rng, machine):
    """A second device that lies over the first, touches it, or is one apart."""
    start, size = rng.randrange(machine.memory), rng.randrange(0, 3)
    end = start + size
    second = rng.choice([(start, end), (end, end), (end, end + 1), (max(0, start - 1), start), (end + 1, end + 2)])
    return tables(machine.regions, put_in(rng, put_in(rng, [], (start, end)), second))


def devices_too_large(rng, machine):
    """One device, or two, that fit the buffer exactly or are one byte over."""
    over = rng.choice([0, 1, 1])
    start, size = rng.randrange(40), machine.device + over
    cut = start + rng.randrange(size + 1)
    devices = rng.choice([[(start, start + size)], [(start, cut), (cut + 1, start + size + 1)]])
    return tables(machine.regions, devices)


def anything(rng, machine):
    numbers = [str(rng.choice([0, 0, 1, 2, 3, 8, rng.randrange(machine.memory), word(rng)])) for _ in range(34)]
    return " ".join(["tables"] + numbers)


def put_in(rng, entries, entry):
    """The entry among at most seven others, anywhere."""
    entries = list(entries[:7])
    entries.insert(rng.randrange(len(entries) + 1), tuple(map(inside, entry)))
    return entries


WAYS = [
    surplus_regions,
    surplus_devices,
    stray_region,
    stray_device,
    region_past_the_top,
    device_backwards,
    regions_overlap,
    devices_overlap,
    devices_too_large,
    anything,
]
