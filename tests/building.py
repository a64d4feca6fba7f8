"""What the tests build and run: C programs over the library."""
import subprocess
from pathlib import Path

ROOT = Path(__file__).resolve().parent.parent


def make(*words):
    """Runs make, and returns what it prints."""
    ran = subprocess.run(["make", "--no-print-directory", "-s", *words], cwd=ROOT, stdin=subprocess.DEVNULL,
                         capture_output=True, text=True)
    if ran.returncode:
        raise RuntimeError(f"make {' '.join(words)}: {ran.stdout}{ran.stderr}")
    return ran.stdout


def running(program):
    """Builds a program, and returns the words that run it here: an emulator's first, where this machine needs one."""
    make(program)
    return [*make("print-RUN").split(), program]
