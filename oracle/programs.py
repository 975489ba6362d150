"""The two programs that speak the replay language, and what their answers say. Shared by generate, compare and sample."""
import os
import subprocess
import sys

HERE = os.path.dirname(os.path.abspath(__file__))
DRIVER = os.path.join(os.path.dirname(HERE), "target", "oracle", "driver")

# The commands of the language so far. A later part adds its own.
LANGUAGE = ["new", "poke", "regs", "tables", "cursor"]
MEMORY = ["byte", "word", "put", "putw", "protect", "device", "load", "loadn", "read"]
MACHINE = ["set", "step", "decode", "print", "encode"]
JOURNAL = ["run", "back", "forget"]
ASSEMBLER = ["asm", "asmn", "line", "listing"]
SOURCES = ["text", "textn"]
COMMANDS = LANGUAGE + MEMORY + MACHINE + JOURNAL + ASSEMBLER + SOURCES + ["state"]

# A move of a walk: what the machine does, and what the host does to it.
MOVES = JOURNAL + ["step", "set", "protect", "device", "load", "loadn", "put", "putw", "poke", "regs", "tables", "cursor"]
WALKS = ["moves", "journal-readings", "journal-limits"]

# What is counted apart. Moves are counted in walks alone.
COUNTED = {
    "steps": ["step"],
    "moves": MOVES,
    "step-backs": ["back"],
    "texts": ["asm", "asmn", "listing"],
    "lines": ["line"],
    "sources": SOURCES,
}

# The numbers that a command can answer: 01's, and 32 and 33 of 02. 31 is the block's, which no command has.
NUMBERS = [*range(1, 31), 32, 33]

# What a step answers, and answers that are a word by themselves.
WENT = ["continue", "debug", "stop"]
ANSWERS = ["ok", "none", "failed", *WENT, "?"]


def fail(words):
    """Something is missing or broken: nothing was compared, which must not look like success."""
    sys.exit(f"{os.path.basename(sys.argv[0])}: {words}")


def build():
    """Builds the driver, or finds that it is up to date."""
    status = subprocess.run([os.path.join(HERE, "build")]).returncode
    if status != 0:
        fail(f"the oracle was not built (oracle/build ended with {status}), so there is nothing to compare with")


def text_of(lines):
    return "".join(line + "\n" for line in lines).encode(errors="surrogateescape")


def lines_of(text):
    """The lines, whatever bytes they hold, and what follows the last line end."""
    return text.decode(errors="surrogateescape").split("\n")


def run(program, lines):
    """The answers to a script, one for each line that was answered, and the exit status."""
    ran = subprocess.run(program, input=text_of(lines), stdout=subprocess.PIPE)
    # what follows the last line end is no answer; if it is not empty the program died in the middle of one
    return lines_of(ran.stdout)[:-1], ran.returncode


def answered_all(lines, answers, status):
    """The driver must answer every line; where it ended early its own fault hides the rest."""
    if status != 0 or len(answers) != len(lines):
        at = lines[len(answers)][:200] if len(answers) < len(lines) else "(the end)"
        fail(f"the driver ended with status {status} after {len(answers)} of {len(lines)} lines, at: {at}")


def command_of(line):
    """The command's name, or `no command`."""
    name = line.split(" ")[0]
    return name if name in COMMANDS else "no command"


def said(answer):
    """What kind of answer it is: a refusal with its number, a word, or a value."""
    answer = answer.removeprefix("~")
    if answer.startswith("no "):
        return " ".join(answer.split(" ")[:2])
    if answer.startswith("ok "):
        return "ok"
    if answer.split(" ")[0] in WENT:
        return answer.split(" ")[0]
    return answer if answer in ANSWERS else "value"


def counted(script, command):
    """What a command of a script of this kind is counted as."""
    return [name for name, commands in COUNTED.items() if command in commands and (name != "moves" or script in WALKS)]


def whose(line, answer):
    """Whose word the driver's answer is."""
    if answer.startswith("~"):
        return "outside the domain"
    if answer == "?" or command_of(line) in LANGUAGE:
        return "the language's own"
    return "the Rust's word"
