"""Text from words: the commands, and all 65,536 words, each by itself."""
from .forms import *

# The longest line, with its line end. A label and the jump to it are not longer together.
LONGEST = reg_reg(SQRT, FLAGS, FLAGS, FLAGS)
MOST = 26


def text(words, room=None):
    """With room for any text of so many words, where nothing else is said."""
    return " ".join(["text", str(MOST * len(words) if room is None else room), *map(str, words)])


def textn(count, word, room):
    return f"textn {count} {word} {room}"


def once(rng):
    words = list(range(65_536))
    rng.shuffle(words)
    for at in range(0, len(words), 32):
        yield ["new 0 0 0 0 0"] + [alone(rng, word) for word in words[at : at + 32]]


def alone(rng, word):
    room = rng.choice([MOST] * 6 + [rng.randrange(MOST + 4)])
    return text([word], room) if rng.random() < 0.9 else textn(1, word, room)
