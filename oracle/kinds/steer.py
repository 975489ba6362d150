"""What the generators believe of the machine that a script has built. It only steers their choices towards the borders:
nothing is ever checked against it, and where it is wrong a script is merely less well aimed."""

TOP = 65_535
LENGTHS = [0, 1, 2, 255, 256, 65_534, 65_535, 65_536, 65_537, 65_792]


def new(rng, memory, device=0, journal=None):
    """`new` with these lengths, in either mode, and a short journal if none is given."""
    if journal is None:
        journal = rng.choice([0, 0, 23, 46, 185])
    return f"new {memory} {device} {journal} {rng.randrange(2)} {rng.randrange(65_536)}"


def tables(regions, devices, region_count=None, device_count=None):
    """A `tables` line. Entries not given are zero; a count may be given that is not the number of entries."""

    def shown(entries, count):
        padded = list(entries) + [(0, 0)] * (8 - len(entries))
        numbers = [len(entries) if count is None else count] + [n for entry in padded for n in entry]
        return " ".join(map(str, numbers))

    return f"tables {shown(regions, region_count)} {shown(devices, device_count)}"


def program_of(words, at=0):
    """A `poke` that puts these words into memory, low byte first, whatever is protected there."""
    return f"poke memory {at} " + "".join(f"{w % 256:02x}{w // 256:02x}" for w in words)


def used_entries(numbers):
    """The entries in use of a count and eight pairs."""
    return list(zip(numbers[1::2], numbers[2::2]))[: numbers[0]]


def inside(a):
    """An address: the nearest one that a field can hold."""
    return max(0, min(TOP, a))


def byte(rng):
    return rng.choice([0, 1, 127, 128, 255, rng.randrange(256)])


def word(rng):
    return rng.choice([0, 1, 255, 256, 0x1234, TOP, rng.randrange(65_536)])


class Machine:
    def __init__(self, memory, device):
        self.memory = memory
        self.device = device
        self.regions = []
        self.devices = []

    def believe(self, line):
        """Takes the tables of a `tables` line as they are, broken or not."""
        numbers = [int(field) for field in line.split(" ")[1:]]
        self.regions = used_entries(numbers[:17])
        self.devices = used_entries(numbers[17:])

    def free(self):
        """Bytes of the device buffer that no device has."""
        return self.device - sum(end - start for start, end in self.devices)

    def borders(self):
        """Addresses where the answer changes."""
        edges = {0, self.memory, TOP}
        for start, length in self.regions:
            edges |= {start, start + length}
        for start, end in self.devices:
            edges |= {start, end}
        return sorted(map(inside, edges))

    def address(self, rng):
        """Mostly beside a border, else anywhere in memory, else anywhere."""
        choice = rng.random()
        if choice < 0.7:
            return inside(rng.choice(self.borders()) + rng.randint(-2, 2))
        if choice < 0.95:
            return inside(rng.randrange(self.memory + 4))
        return rng.randrange(65_536)

    def takes(self, a):
        """Whether a store there succeeds."""
        if any(start <= a < end for start, end in self.devices):
            return True
        return a < self.memory and not any(start <= a < start + length for start, length in self.regions)

    def protect(self, start, length):
        apart = all(not (s <= start < s + n or start <= s < start + length) for s, n in self.regions)
        if start + length <= TOP and apart and len(self.regions) < 8:
            self.regions.append((start, length))

    def register(self, start, size):
        end = start + size
        apart = all(start > e or end < s for s, e in self.devices)
        if end <= TOP and apart and len(self.devices) < 8 and size <= self.free():
            self.devices.append((start, end))
