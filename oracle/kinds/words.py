"""All 65,536 words, decoded and printed into buffers of any length, in an order that the seed decides."""

# The longest text of a decoded word is 25 bytes long.
ROOMS = range(31)


def once(rng):
    words = list(range(65_536))
    rng.shuffle(words)
    for at in range(0, len(words), 32):
        lines = ["new 0 0 0 0 0"]
        for w in words[at : at + 32]:
            lines += [f"decode {w}", f"print {w} {rng.choice(ROOMS)}"]
        yield lines
