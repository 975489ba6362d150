"""Who steps in bench/steps and bench/instructions: our run without a journal and with one, the Rust's step in a loop, and a plain C
interpreter by each compiler that is there, all on the same program."""
import os
import pathlib
import platform
import shutil
import struct
import sys

import programs

RUN = programs.ROOT / "bench" / "run"

# Each word beside its line of the listing. Nine instructions are in the inner loop: two loads, two stores, three sums, a comparison
# and a jump. No step is refused, however long it runs: A has at most 20 bytes' sum, and C, once 256, is stored as 0.
PROGRAM = [
    0xFA41,  # 0000 MOV SP, #250
    0xF061,  # 0002 MOV BP, #240
    0xC811,  # 0004 MOV B, #200
    0x0084,  # 0006 LDR A, B
    0x0228,  # 0008 LDB C, SP
    0x0A03,  # 000A ADD A, C
    0x1484,  # 000C STR A, [B #2]
    0x0423,  # 000E ADD C, #1
    0x0628,  # 0010 STB C, SP
    0x0813,  # 0012 ADD B, #2
    0x3517,  # 0014 LT B, BP
    0x00C5,  # 0016 CJP #6
    0x0086,  # 0018 JMP #4
]

EMULATED = platform.machine() != "x86_64"

# The answer, the accepted steps, eight registers, and a number made of the memory. Ours writes one more line, of its journal.
RESULTS = 11

# As the tables call them.
OURS, JOURNAL, RUST = "ours, D = 0", "ours, D = 4,096", "the Rust"
C, CLANG, C_HERE = "C, -O2", "C, clang -O3", "C, -O2, without the emulator"


def given(steps, device, journal):
    return struct.pack("<IBB", steps, device, journal) + struct.pack(f"<{len(PROGRAM)}H", *PROGRAM)


def ours():
    """The program that the command line names, else our own, proved and built."""
    if len(sys.argv) > 1:
        print(f"ours: {sys.argv[1]}, as it was given")
        return pathlib.Path(sys.argv[1]).resolve()
    print(f"ours: proved and built by {programs.first_line('rt', 'version')}")
    return programs.build_ours(RUN, "pace", "base inputs map machine journal", "0\n" * 12)


def interpreter(name, compiler, level, what):
    """The C interpreter by one compiler, which is named as it names itself."""
    program = programs.MADE / name
    programs.call(compiler, level, "-Wall", "-Wextra", "-Werror", "-o", program, RUN / "interpreter.c")
    print(f"{what}: {compiler} {level}, {programs.first_line(compiler, '--version')}")
    return program


def c_compiler():
    """The one that makes x86-64 programs; gcc where there is one."""
    if EMULATED:
        return os.environ.get("CC_X86_64", "x86_64-linux-gnu-gcc")
    return "gcc" if shutil.which("gcc") else "cc"


def interpreters():
    """The C interpreter's programs, by what the table calls them."""
    made = {C: interpreter("run-c", c_compiler(), "-O2", C)}
    if EMULATED:
        print(f"{CLANG}: left out, since it is asked on an x86-64 machine alone")
    elif shutil.which("clang") is None:
        print(f"{CLANG}: left out, since there is no clang here (Debian's clang)")
    else:
        made[CLANG] = interpreter("run-clang", "clang", "-O3", CLANG)
    return made


def everyone():
    """Each one's program, and whether it is given a journal. Says by which compiler each is made."""
    programs.MADE.mkdir(parents=True, exist_ok=True)
    program = ours()
    made = {OURS: (program, 0), JOURNAL: (program, 1), RUST: (programs.build_rust(RUN), 0)}
    print(f"{RUST}: rustc {' '.join(programs.RUST_FLAGS)}, {programs.first_line(programs.rustc(), '--version')}")
    made.update({name: (program, 0) for name, program in interpreters().items()})
    return made


def check_results(commands, device, steps):
    """All of them have the same result after as many steps, or the script stops. A command, and whether it is given a journal."""
    wrote = {}
    for name, (command, journal) in commands.items():
        wrote[name] = programs.run(command, given(steps, device, journal))[0].split()[:RESULTS]
    for name in commands:
        if len(wrote[name]) != RESULTS or wrote[name] != wrote[C]:
            programs.stop(f"after {steps} steps {name} has other registers or other bytes than {C}")
