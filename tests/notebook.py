"""What the tests of the notebook share: the program, how it tells a word, the worked example, and stores of editions."""
import contextlib
import functools
import pathlib
import struct
import subprocess
import tempfile

from building import ROOT, running

PROGRAM = "target/host/notebook"

# document 000's readings, and the limits that follow from a minimum of 13.0, a target of 4.0 and its Table 1
READINGS = {
    "VMA": "13.0 12.5 13.0 13.3 12.9 12.4 13.4 13.0 12.6 12.8",
    "Voids": "4.2 4.5 3.3 5.0 5.4 2.5 3.8 4.1 4.3 4.5",
    "Density": "91.5 93.0 92.9 93.5 93.0 94.0 92.8 93.5 91.0 92.7",
}
LIMITS = {"VMA": "12.30 16.00", "Voids": "2.65 5.35", "Density": "91.50 97.00"}
# mean and deviation as document 000 has them, PWL as document 01 has it
ROWS = {"VMA": "12.890 0.325 97.51", "Voids": "4.160 0.825 91.28", "Density": "92.790 0.910 92.56"}


def data():
    """Table 106-1 in hundredths: the column of each number of readings."""
    _, *lines = (ROOT / "data/table-106-1.tsv").read_text("ascii").splitlines()
    return dict(enumerate(zip(*([int(cell.replace(".", "")) for cell in line.split("\t")[1:]] for line in lines)), start=2))


TABLE = data()
# a column by which a side is 100 from the second row on, and one by which it is 50 up to the last row but one
STEEP, FLAT = (5000, *[10000] * 53), (*[5000] * 53, 10000)


@functools.cache
def command():
    """Builds the program, and returns the words that run it from any folder."""
    *words, program = running(PROGRAM)
    return [*words, str(ROOT / program)]


def notebook(*words, **more):
    """Runs the program, with nothing to read where nothing is given."""
    streams = {"stdout": subprocess.PIPE, "stderr": subprocess.PIPE, **more}
    if "input" not in streams:
        streams.setdefault("stdin", subprocess.DEVNULL)
    return subprocess.run([*command(), *words], **streams)


def edition(number, columns):
    """An edition as it stands in a store (document 02, R-5), of columns by their numbers of readings."""
    parts = [struct.pack(">BHBB", 1, number, min(columns), max(columns)), *(struct.pack(">54H", *columns[n]) for n in sorted(columns))]
    return struct.pack(">H", sum(map(len, parts))) + b"".join(parts)


@contextlib.contextmanager
def stored(*parts):
    """A file of these bytes; its folder has nothing else."""
    with tempfile.TemporaryDirectory() as folder:
        file = pathlib.Path(folder) / "the store"
        file.write_bytes(b"".join(parts))
        yield str(file)


def shown(word):
    """A word as it is told: its first 24 bytes, and by its number each that is no letter, digit or sign."""
    start = "".join(chr(byte) if 32 < byte < 127 else f"\\x{byte:02x}" for byte in word[:24])
    return f'"{start}{"..." * (len(word) > 24)}"'
