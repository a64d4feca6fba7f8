"""The library beside plain C: times in turns, then instructions a call. `python3 bench/bench.py [RUN WORDS...] PROGRAM`

The words before the program are how it is run here: none where this machine runs it, an emulator's elsewhere."""
import os
import pathlib
import re
import shutil
import subprocess
import sys
import tempfile

# The program counts over so many inputs; the second run goes over them once more than the first.
FEW, MANY = 128, 256


def callgrind(command):
    """Instructions of a whole run, by valgrind."""
    with tempfile.TemporaryDirectory() as scratch:
        found = pathlib.Path(scratch, "callgrind")
        options = ["--tool=callgrind", f"--callgrind-out-file={found}"]
        subprocess.run(["valgrind", *options, *command], check=True, capture_output=True)
        return int(re.search(r"^(?:summary|totals): (\d+)", found.read_text(), re.MULTILINE)[1])


def traces(log):
    """How often the emulator says that it ran something; its other lines do not count."""
    word = b"Trace "
    count, rest = 0, b""
    while chunk := log.read(1 << 20):
        count += (rest + chunk).count(word)
        rest = chunk[1 - len(word):]
    return count


def emulator(command):
    """Instructions of a whole run, by the emulator: made to take them one at a time, it logs a line for each."""
    reading, writing = os.pipe()
    options = ["-one-insn-per-tb", "-d", "exec,nochain", "-D", f"/dev/fd/{writing}"]
    whole = [command[0], *options, *command[1:]]
    with subprocess.Popen(whole, stdout=subprocess.DEVNULL, pass_fds=[writing]) as process, open(reading, "rb") as log:
        os.close(writing)
        counted = traces(log)
    if process.returncode:
        raise subprocess.CalledProcessError(process.returncode, whole)
    return counted


def counter(run):
    """What counts the program's instructions here, and its name; nothing, and why."""
    if run:
        known = pathlib.Path(run[0]).name.startswith("qemu-")
        return (emulator, "the emulator's log") if known else (None, "this emulator is not known")
    return (callgrind, "valgrind") if shutil.which("valgrind") else (None, "valgrind is not found")


def a_call(count, command, kind, who):
    """Instructions a call, by the difference of two runs: starting, ending and a first call's linking fall out."""
    few, many = (count([*command, "count", kind, who, str(calls)]) for calls in (FEW, MANY))
    return (many - few) / (MANY - FEW)


def show_counts(count, command):
    kinds = subprocess.run([*command, "kinds"], check=True, capture_output=True, text=True).stdout.split()
    print(f"{'work':13} {'ratio':>7} {'library':>9} {'plain':>9} {'the loop':>9}", flush=True)
    for kind in kinds:
        loop, library, plain = (a_call(count, command, kind, who) for who in ("nothing", "library", "plain"))
        ratio = (library - loop) / (plain - loop)
        print(f"{kind:13} {ratio:7.2f} {library - loop:9.1f} {plain - loop:9.1f} {loop:9.1f}", flush=True)


def main(run, program):
    command = [*run, str(pathlib.Path(program).resolve())]
    if run:
        print("Run by an emulator: times say little here. Instructions are what they are.\n", flush=True)
    subprocess.run(command, check=True)
    count, name = counter(run)
    if not count:
        print(f"\nInstructions are not counted: {name}.")
        return
    print(f"\nInstructions a call, counted by {name}, less the loop and its call of a function that does nothing.")
    show_counts(count, command)


if __name__ == "__main__":
    main(sys.argv[1:-1], sys.argv[-1])
