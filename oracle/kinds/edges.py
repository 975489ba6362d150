"""Limits and overlaps around every edge. The readings' own cases come first, then everything else in an order that the
seed decides, over and over with other bytes."""
from .steer import LENGTHS, TOP, byte, inside, new, tables, word


def blocks(rng):
    yield from readings(rng)
    while True:
        pool = [block for family in FAMILIES for block in family(rng)]
        rng.shuffle(pool)
        yield from pool


def touch(rng, a):
    """Every byte and word command at an address."""
    return [f"byte {a}", f"word {a}", f"putw {a} {word(rng)}", f"word {a}", f"put {a} {byte(rng)}", f"byte {a}"]


def touch_all(rng, addresses):
    lines = []
    for a in sorted({inside(a) for a in addresses}):
        lines += touch(rng, a)
    return lines + ["state"]


def near(*edges):
    return [edge + by for edge in edges for by in (-2, -1, 0, 1)]


# ---- the cases of READINGS, as they stand there


def readings(rng):
    last_word = ["byte 65535", "word 65535", "putw 65535 4660", "state", "put 65535 7", "byte 65535", "state"]
    yield [new(rng, 65_536)] + last_word
    yield [new(rng, 65_535)] + last_word
    yield [new(rng, 65_536, 64), "protect 65535 1", "device 65535 1", "protect 65535 0", "device 65535 0"] + last_word
    yield [new(rng, 65_536), "protect 65534 1", "putw 65534 4660", "putw 65533 4660", "state"] + last_word

    yield [new(rng, 20, 8), "device 5 0", "device 5 0", "device 5 1", "device 6 0", "state"]

    yield [new(rng, 20), "load", "load 4660", "state"]
    yield [new(rng, 20), "load 4660", "load", "state"]
    yield [new(rng, 20), "load", "load", "state"]
    yield [new(rng, 20), "load 4660", "load 17185", "state"]

    yield [new(rng, 40, 8), "device 4 4", "load 1 2 3 4 5", "protect 20 4", "device 30 4", "load 9", "state"]

    yield [new(rng, 20, 4), tables([(0, 0), (0, 0)], []), "read 0 0 0", "load 1", "state"]
    yield [new(rng, 20, 4), tables([], [(5, 5), (5, 5)]), "read 0 0 0", "load 1", "state"]
    yield [new(rng, 20, 4), tables([(2, 4)], [(3, 5)]), "read 0 0 0", "put 3 1", "put 2 1", "state"]

    yield [new(rng, 10), tables([(0, 1)], [], 9), "byte 0", "put 0 1", "put 1 1", "word 1", "putw 1 9", "load", "state"]

    for memory in (65_535, 65_536, 65_792):
        yield [new(rng, memory), "read 65535 0 0", "read 65535 1 1", "read 65534 1 1", "read 65534 2 2"]
    yield [new(rng, 65_536), "read 0 65535 65535", "read 0 65536 4", "read 1 65534 65600", "read 1 65535 0"]

    # a valid table holds at most eight, and a device's bytes lie within the buffer
    for count in (8, 9):
        yield [new(rng, 40, 8), tables([(4 * i, 1) for i in range(8)], [], count), "read 0 0 0", "put 0 1", "put 1 1", "state"]
        yield [new(rng, 40, 8), tables([], [(4 * i, 4 * i + 1) for i in range(8)], None, count), "read 0 0 0", "byte 28", "state"]
    yield [new(rng, 4, 2), tables([], [(10, 13)]), "read 0 0 0", "put 11 1", "put 12 1", "byte 12", "putw 11 1", "state"]

    # outside the domain, as seen: the Rust takes a first region unchecked, and wraps the addresses of a long program
    yield [new(rng, 65_536), "protect 65535 10", "put 65535 1", "state"]
    yield [new(rng, 65_536), "loadn 32769 1", "state"]

    # 01's marked cases of this part
    yield [new(rng, 4), "putw 3 4660", "byte 3", "state"]
    yield [new(rng, 40), "load 1 2 3", "put 2 9", "put 3 9", "state"]
    yield [new(rng, 40, 64), "device 100 16", "device 116 1", "device 117 1", "state"]


# ---- families of blocks


def lengths(rng):
    """Bytes and words around the end of memory, and at the top."""
    for memory in LENGTHS:
        addresses = near(memory, 2, TOP)
        yield [new(rng, memory)] + touch_all(rng, addresses)
        protected = inside(memory - 2)
        yield [new(rng, memory), f"protect {protected} 1"] + touch_all(rng, addresses)


def device_room(rng):
    """Device buffers one over, exactly full, and one short."""
    for room in (0, 1, 2, 16, 255, 256, 600, 65_534, 65_535, 65_536, 65_792):
        size = min(room, 65_525)
        yield [
            new(rng, 300, room),
            f"device 10 {inside(room + 1)}",
            f"device 10 {size}",
            f"device {inside(12 + size)} 1",
            "device 65535 0",
            *touch_all(rng, near(10, 10 + size)),
        ]
        first = rng.randrange(min(room, 30_000) + 1)
        rest = min(room - first, 30_000)
        yield [
            new(rng, 300, first + rest),
            f"device 100 {first}",
            f"device {101 + first} {rest + 1}",
            f"device {101 + first} {rest}",
            f"device {103 + first + rest} 1",
            f"device {103 + first + rest} 0",
            *touch_all(rng, near(100, 100 + first, 101 + first + rest)),
        ]
        if first + rest:
            yield [new(rng, 300, first + rest - 1), f"device 100 {first}", f"device {101 + first} {rest}", "state"]


def region_pairs(rng):
    """Every pair of small regions, low and at the top: added one after the other, and standing in a table."""
    for base in (0, 65_531):
        for first in small_entries(base):
            lines = [new(rng, rng.choice([8, 65_536]))]
            for start, length in small_entries(base):
                lines += [tables([first], []), f"protect {start} {length}"]
                lines += [tables([first, (start, length)], []), "read 0 0 0"]
            yield lines + ["state"]


def device_pairs(rng):
    """The same for devices, whose table has ends."""
    for base in (0, 65_531):
        for start, size in small_entries(base):
            first = (start, inside(start + size))
            lines = [new(rng, 8, rng.choice([6, 8]))]
            for start, size in small_entries(base):
                lines += [tables([], [first]), f"device {start} {size}"]
                lines += [tables([], [first, (start, inside(start + size))]), "read 0 0 0"]
            yield lines + ["state"]


def small_entries(base):
    return [(base + start, size) for start in range(5) for size in range(4)]


def tops(rng):
    """Regions and devices that end at 65,534, 65,535 and 65,536."""
    for end in (65_534, 65_535, 65_536):
        for size in (0, 1, 2, 300, end):
            start = end - size
            if start > TOP or size > TOP:
                continue
            memory = rng.choice([300, 65_535, 65_536, 65_537])
            addresses = near(start, end)
            yield [new(rng, memory, 65_792), f"protect {start} {size}"] + touch_all(rng, addresses)
            yield [new(rng, memory, 65_792), f"device {start} {size}"] + touch_all(rng, addresses)
    yield [new(rng, 300, 65_792), "device 0 65535", "byte 65534", "byte 65535", "word 65534", "put 0 1", "state"]
    yield [new(rng, 65_536), "protect 0 65535", "put 65534 1", "putw 65534 1", "put 65535 1", "state"]


def counts(rng):
    """Eight entries that are right, under every count around eight and far from it."""
    regions = [(4 * i, i % 3) for i in range(8)]
    devices = [(4 * i + 2, 4 * i + 2 + i % 2) for i in range(8)]
    for count in (0, 7, 8, 9, 16, 255, 256, 257, TOP):
        for line in (tables(regions, [], count), tables([], devices, None, count), tables(regions, devices, count, count)):
            asked = ["read 0 0 0", "protect 50 1", "device 50 1", "load", "load 1", "state"]
            yield [new(rng, 40, 9), line] + asked + touch_all(rng, near(4, 28, 31))


def full_tables(rng):
    """Eight entries, then a ninth: one that overlaps, one out of range, one that fits no room, one that is all right."""
    regions = [f"protect {10 * i} {rng.randrange(10)}" for i in range(8)]
    devices = [f"device {10 * i} {rng.randrange(9)}" for i in range(8)]
    ninths = ["protect 60 20", "protect 65535 1", "protect 90 5", "protect 90 0"]
    yield [new(rng, 200)] + regions + ninths + ["load", "load 1 2", "loadn 32769 7", "state"]
    ninths = ["device 60 20", "device 65535 1", "device 90 5", "device 90 60", "device 90 0"]
    yield [new(rng, 200, 100)] + devices + ninths + ["state"] + touch_all(rng, near(0, 70, 90))
    yield [new(rng, 200)] + ["load"] * 9 + ["protect 0 0", "protect 0 1", "protect 3 1", "state"]
    seven = [(20 * i + 5, 3) for i in range(7)]
    yield [new(rng, 200, 64), tables(seven, seven_devices(seven)), "protect 180 4", "device 180 4", "protect 190 1", "device 190 1", "state"]
    yield [new(rng, 200, 64), tables(seven, []), "load 1 2", "load 3", "load", "state"]


def seven_devices(regions):
    return [(start + 8, start + 8 + length) for start, length in regions]


def loads(rng):
    """Programs that end just before, at and just past the end of memory; twice; and the longest ones."""
    for count in (0, 1, 2, 3, 127, 128, 300):
        for memory in sorted({max(0, 2 * count + by) for by in (-2, -1, 0, 1)}):
            yield [new(rng, memory), program(rng, count), "state", program(rng, count), "load", "state"]
    for count in (32_767, 32_768, 32_769, 32_800):
        for memory in (2 * 32_767, 65_535, 65_536, 65_792):
            w = word(rng)
            yield [new(rng, memory), f"loadn {count} {w}", "state", "put 32766 1", "put 32767 1", "put 32768 1", f"loadn {count} {w}", "state"]
    yield [new(rng, 65_536), program(rng, 32_768), "state"]
    yield [new(rng, 65_536), program(rng, 32_769), program(rng, 32_800), program(rng, 32_801), "state"]


def program(rng, count):
    return " ".join(["load"] + [str(word(rng)) for _ in range(count)])


def loads_over(rng):
    """Programs over protected bytes, over empty regions, and over devices."""
    for at in range(7):
        for length in (0, 1, 2):
            block = [new(rng, 12, 12), f"protect {at} {length}", program(rng, 2), "state", program(rng, 3), "state"]
            yield block
            device = [f"device {rng.randrange(8)} {rng.randrange(6)}"]
            yield block[:1] + device + block[1:]
            yield [new(rng, 3, 12), f"device {at} {length}", program(rng, 2), "state", program(rng, 4), "state"]
    yield [new(rng, 0, 65_792), "device 0 65535", "loadn 32767 258", "state"]
    yield [new(rng, 0, 65_792), "device 0 65535", "loadn 32768 258", "state"]
    yield [new(rng, 65_536, 65_792), "device 0 65535", "loadn 32768 258", "state", "loadn 32768 1", "state"]


def reading_out(rng):
    """Around the end of memory, around devices, over a gap, into buffers that are short, full and long."""
    for memory, device in ((20, None), (20, (5, 4)), (20, (18, 4)), (20, (20, 4)), (20, (23, 4)), (0, (0, 3)), (0, None), (1, None)):
        lines = [new(rng, memory, 8)]
        if device:
            lines.append(f"device {device[0]} {device[1]}")
        edges = [0, memory] + ([device[0], sum(device)] if device else [])
        for start in sorted({inside(a) for a in near(*edges)}):
            for size in (0, 1, 2, 5):
                lines.append(f"read {start} {size} {rng.choice([size, size, size + 1, size + 3, max(0, size - 1)])}")
        yield lines
    for memory in (65_534, 65_535, 65_536):
        lines = [new(rng, memory)]
        for start in range(65_531, 65_536):
            for size in (0, 1, 2, 3, 4, 5, 65_535, 65_536, 65_537, 4_294_967_295):
                lines.append(f"read {start} {size} {rng.choice([0, 3, 5, 6])}")
        yield lines
    yield [new(rng, 300), "read 0 300 300", "read 0 301 301", "read 0 301 300", "read 0 300 299", "read 299 3 600", "read 300 3 0"]


def crossings(rng):
    """Words with one half in a device, protected, unmapped, or hidden under a device."""
    layouts = [
        ["device 4 2"],
        ["protect 4 2"],
        ["protect 3 4", "device 4 2"],
        ["device 4 2", "device 7 2"],
        ["device 4 2", "protect 6 2"],
        ["device 9 3"],
        ["device 10 2"],
        ["device 11 2"],
        ["protect 8 2"],
        ["protect 9 4"],
        ["protect 2 2", "protect 4 2"],
        ["device 2 6", "protect 0 10"],
    ]
    for layout in layouts:
        yield [new(rng, 10, 8)] + layout + touch_all(rng, range(0, 14))


def uncovered(rng):
    """A device that goes away by a `tables` line shows the linear byte that it hid."""
    for _ in range(4):
        start, size = rng.randrange(8), rng.randrange(1, 6)
        yield [
            new(rng, 12, 8),
            *[f"put {a} {byte(rng)}" for a in range(12)],
            f"device {start} {size}",
            *[f"put {a} {byte(rng)}" for a in range(14)],
            "state",
            tables([], []),
            "state",
            "read 0 14 14",
            tables([], [(start, start + size)]),
            "state",
            "read 0 14 14",
        ]


def pokes(rng):
    """The host's own changes, at both ends of each buffer and just past them."""
    for length in (0, 1, 2, 255, 256):
        lines = [new(rng, length, length, length), f"device 3 {length}", f"protect 0 {length}"]
        for whose in ("memory", "device", "journal"):
            for at in (0, max(0, length - 1), length, length + 1):
                for text in ("-", "00", "a5ff", "0123456789abcdef"):
                    lines.append(f"poke {whose} {at} {text}")
            lines += ["state", "byte 0", "byte 3"]
        yield lines
    yield [new(rng, 65_792, 65_792, 94_300), "poke memory 65791 7f", "poke device 65791 7f", "poke journal 94299 7f", "poke memory 65535 0102", "byte 65535", "state"]


FAMILIES = [
    readings,
    lengths,
    device_room,
    region_pairs,
    device_pairs,
    tops,
    counts,
    full_tables,
    loads,
    loads_over,
    reading_out,
    crossings,
    uncovered,
    pokes,
]
