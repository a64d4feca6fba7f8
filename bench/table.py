"""Table 106-1 as a C header: its edition's bytes, n = 2 to 10, under number 0. `python3 bench/table.py data/table-106-1.tsv`"""
import pathlib
import struct
import sys


def header(text):
    rows = [[int(cell.replace(".", "")) for cell in line.split("\t")[1:]] for line in text.splitlines()[1:]]
    columns = [struct.pack(f">{len(column)}H", *column) for column in zip(*rows)]
    head = struct.pack(">HBHBB", 5 + sum(map(len, columns)), 1, 0, 2, 1 + len(columns))
    lines = [", ".join(map(str, part)) for part in (head, *columns)]
    return f"static const uint8_t TABLE_106_1[TULPAVICE_TABLE_106_1_BYTES] = {{\n" + ",\n".join(lines) + "};\n"


if __name__ == "__main__":
    print(header(pathlib.Path(sys.argv[1]).read_text(encoding="ascii")), end="")
