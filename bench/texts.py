"""The texts that the benchmarks assemble."""

# One of each kind of line. No hex immediates: the Rust writes a line to standard error for each.
INSTRUCTIONS = [
    "MOV A, #5",
    "MSL B, [#5 #3]",
    "CPY A, B",
    "ADD A, #9",
    "    SUB C, B",
    "MULR A, B, C",
    "; what follows is kept for later",
    "SQRTR A, B, C",
    "LDR A, [B #8]",
    "STB C, M",
    "eq A, #3",
    "GTE FLAGS, SP",
    "",
    "DIV M, #200",
]


def name(label):
    """Names are of one length and begin alike: the worst case for a search that compares lengths and then bytes in turn."""
    return f"row{label:04}"


def text(size, labels):
    """A text of `size` bytes that defines so many labels.

    It begins with a jump to each of the last half of them, so that labels / 2 references are open together, and stay open
    until the second half of the text. Each label is followed by instructions and by a jump back to it.
    """
    opening = [f"JMP {name(label)}" for label in range(labels - labels // 2, labels)]
    fixed = sum(len(line) + 1 for line in opening) + labels * len(f"{name(0)}:\nCJP {name(0)}\n")
    room = size - fixed
    assert room >= 0, "no room for so many labels"

    blocks = max(labels, 1)
    lines = opening
    used = 0
    next_line = 0
    for block in range(blocks):
        if labels:
            lines.append(f"{name(block)}:")
        while True:
            line = INSTRUCTIONS[next_line % len(INSTRUCTIONS)]
            if used + len(line) + 1 > room * (block + 1) // blocks:
                break
            lines.append(line)
            used += len(line) + 1
            next_line += 1
        if labels:
            lines.append(f"CJP {name(block)}")
    made = "\n".join(lines) + "\n"
    # the rest, shorter than any line, is blank
    return made + " " * (size - len(made))
