"""What the benchmarks share: how the programs are built, and what the processor spends on one. All that is made goes to
target/bench/."""
import os
import pathlib
import platform
import shutil
import subprocess
import sys

ROOT = pathlib.Path(__file__).resolve().parent.parent
MADE = ROOT / "target" / "bench"
RUST_FLAGS = ["--edition", "2024", "-O", "-C", "overflow-checks=on", "--cap-lints", "allow"]


def stop(why):
    sys.exit(f"{pathlib.Path(sys.argv[0]).name}: {why}")


def call(*command, cwd=ROOT):
    """Runs a command. What it says is shown only where it fails."""
    command = [str(word) for word in command]
    done = subprocess.run(command, cwd=cwd, stdin=subprocess.DEVNULL, stdout=subprocess.PIPE, stderr=subprocess.STDOUT, text=True)
    if done.returncode != 0:
        stop(f"{' '.join(command)} ended with {done.returncode}\n{done.stdout}")


def first_line(*command):
    """What a command that names itself writes first."""
    return subprocess.run(command, stdout=subprocess.PIPE, text=True, check=True).stdout.splitlines()[0]


def build_ours(folder, crate, uses, wrote):
    """Proves and builds the program of `folder`/main.rattle as a crate in a copy of the repository: it is no crate of the
    repository itself. `uses` is all that it names, `wrote` what it writes on no input."""
    copy = MADE / "ours"
    shutil.rmtree(copy, ignore_errors=True)
    shutil.copytree(ROOT / "crates", copy / "crates", ignore=shutil.ignore_patterns("out"))
    (copy / "crates.txt").write_text(f"{(ROOT / 'crates.txt').read_text()}{crate}: {uses}\n")
    made = copy / "crates" / crate
    (made / "src").mkdir(parents=True)
    shutil.copy(folder / "main.rattle", made / "src" / "main.rt")
    call("rt", "run", "--cpu", "x86-64", cwd=made)
    program = made / "out" / crate
    if run(on_x86_64(program), b"")[0].decode() != wrote:
        stop(f"{program} writes something else than {wrote!r} on no input")
    return program


def rustc():
    """The rustc that makes x86-64 programs."""
    named = os.environ.get("RUSTC_X86_64")
    if named is None and platform.machine() != "x86_64":
        stop("set RUSTC_X86_64 to a rustc that makes x86-64 programs")
    return named or "rustc"


def build_rust(folder):
    call(ROOT / "oracle" / "build")
    library = MADE / "librust16vm.rlib"
    program = MADE / f"{folder.name}-rust"
    source = ROOT / "target" / "oracle" / "src" / "lib.rs"
    call(rustc(), *RUST_FLAGS, "--crate-type", "rlib", "--crate-name", "rust16vm", "-o", library, source)
    call(rustc(), *RUST_FLAGS, "--crate-name", "program", "--extern", f"rust16vm={library}", "-o", program, folder / "main.rs")
    return program


def run(command, given):
    """What the command wrote, and the seconds that the processor spent on it."""
    path = MADE / "input"
    path.write_bytes(given)
    with open(path, "rb") as standard_input:
        process = subprocess.Popen(command, stdin=standard_input, stdout=subprocess.PIPE, stderr=subprocess.DEVNULL)
        wrote = process.stdout.read()
        _, status, spent = os.wait4(process.pid, 0)
        process.returncode = status
    if status != 0:
        stop(f"{command[-1]} ended with {status}")
    return wrote, spent.ru_utime + spent.ru_stime


def on_x86_64(program):
    return [ROOT / "tools" / "on-x86-64", program]
