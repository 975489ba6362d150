"""The way back of texts from words: what is sent after a script that has some, and what has to be answered. Shared by compare and
sample."""
import re

# Each line of a text that names a label. So many references may be open at once.
REFERENCE = re.compile(r"^\w+ L", re.M)
MOST_OPEN = 512


def way(lines, answers):
    """For each text that was answered the lines to send, each with what its answer may begin with: the same words into just
    enough room and into one byte less, and the text through plain assembly."""
    asked = [(line, answer) for line, answer in zip(lines, answers) if line.startswith("text")]
    return [step for line, answer in asked for step in after(line, answer.removeprefix("~"))]


def after(line, answer):
    length, *buffer = answer.split(" ")
    if not length.isdigit():
        return
    name, *fields = line.split(" ")
    length = int(length)
    written = buffer[0][: 2 * length] or "-"
    yield with_room(name, fields, length), [f"{length} {written}"]
    if length:
        yield with_room(name, fields, length - 1), [f"no 19 {'ee' * (length - 1) or '-'}"]
    yield assembled(words_of(name, fields), written)


def with_room(name, fields, room):
    place = 0 if name == "text" else 2
    return " ".join([name, *fields[:place], str(room), *fields[place + 1 :]])


def words_of(name, fields):
    return [int(word) for word in (fields[1:] if name == "text" else int(fields[0]) * [fields[1]])]


def assembled(words, written):
    """Plain assembly, with no more room than it takes, gives the very same words. 28 is for more open references than there is room
    for, so there must be more references."""
    text = bytes.fromhex(written.replace("-", "")).decode("ascii")
    labels = text.count(":\n")
    may = [f"ok {len(words)} {labels} 0 | {' '.join(f'{word:04X}' for word in words)} |"]
    if len(REFERENCE.findall(text)) > MOST_OPEN:
        may.append("no 28 line ")
    return f"asm plain {len(words)} {labels} {written}", may


def astray(steps, answers):
    """The first of them whose answer begins otherwise: the line, the answer, and what it may begin with."""
    for (line, may), answer in zip(steps, answers):
        if not answer.removeprefix("~").startswith(tuple(may)):
            return line, answer, may
    return None
