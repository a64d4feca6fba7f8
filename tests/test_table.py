"""Table 106-1: the constants of the crate, through what its program prints, are the data file, and that is document 004 with the corrections of
document 02 and no others."""
import pathlib
import re
import unittest

ROOT = pathlib.Path(__file__).resolve().parent.parent
DATA = ROOT / "data/table-106-1.tsv"
CORRECTIONS = ROOT / "data/table-106-1-corrections.tsv"
# `rt ci` holds what the program prints to this file, as two compilers build it
PRINTED = ROOT / "crates/printed/stdout"


def cells_of(file):
    """The cells of a data file: those of its first line, and those of the others."""
    head, *rows = [line.split("\t") for line in file.read_text(encoding="ascii").splitlines()]
    return head, rows


def paper(pattern):
    """A paper, where it lies beside the checkout."""
    return next(iter(sorted((ROOT.parent / "shared").glob(pattern))), None)


DOCUMENT_004, DOCUMENT_02 = paper("004_*.txt"), paper("02-*.md")


def rows_of(document):
    """Index and columns n = 2 to 10 of each printed row; the first column, n = 1, is not used."""
    cells = [line.split("\t") for line in document.read_text(encoding="utf-8").splitlines()]
    return [[row[0], *row[2:]] for row in cells if len(row) == 11 and re.fullmatch(r"\d\.\d\d", row[0])]


def corrections_of(request):
    """Each correction that document 02 asks for, by count and index: its count, its index, as printed and as it should be."""
    text = request.read_text(encoding="utf-8")
    found = re.findall(r"at n=(\d+), index (\d\.\d\d), the printed (\d+\.\d\d) should be (\d+\.\d\d)", text)
    return sorted(map(list, found), key=lambda correction: (int(correction[0]), correction[1]))


def differences(printed, ours):
    """Each entry in which the rows of two tables differ, as a correction is written: its count, its index, as printed and as it is here."""
    return [[str(n), theirs[0], theirs[n - 1], own[n - 1]]
            for n in range(2, 11) for theirs, own in zip(printed, ours, strict=True) if theirs[n - 1] != own[n - 1]]


class Table(unittest.TestCase):
    def test_data_is_a_whole_table(self):
        head, rows = cells_of(DATA)
        self.assertEqual(head, ["index"] + [f"n={n}" for n in range(2, 11)])
        self.assertEqual([row[0] for row in rows], [f"{k / 20:.2f}" for k in range(54)])
        self.assertTrue(all(re.fullmatch(r"\d+\.\d\d", cell) for row in rows for cell in row))

    def test_program_prints_the_data(self):
        self.assertEqual(PRINTED.read_text(), DATA.read_text())

    def test_data_is_corrected(self):
        head, corrections = cells_of(CORRECTIONS)
        self.assertEqual(head, ["n", "index", "printed", "corrected"])
        rows = {row[0]: row for row in cells_of(DATA)[1]}
        self.assertEqual([rows[index][int(n) - 1] for n, index, _, _ in corrections], [corrected for *_, corrected in corrections])

    def test_each_difference_is_seen(self):
        rows = cells_of(DATA)[1]
        self.assertEqual(differences(rows, rows), [])
        other = [[*row] for row in rows]
        other[0][1], other[53][9] = "50.01", "99.99"
        self.assertEqual(differences(other, rows), [["2", "0.00", "50.01", "50.00"], ["10", "2.65", "99.99", "100.00"]])

    @unittest.skipUnless(DOCUMENT_02, "document 02 does not lie beside this checkout")
    def test_corrections_are_those_of_document_02(self):
        self.assertEqual(corrections_of(DOCUMENT_02), cells_of(CORRECTIONS)[1])

    @unittest.skipUnless(DOCUMENT_004, "document 004 does not lie beside this checkout")
    def test_data_is_document_004_corrected(self):
        printed, ours = rows_of(DOCUMENT_004), cells_of(DATA)[1]
        self.assertEqual([row[0] for row in printed], [row[0] for row in ours])
        self.assertEqual(differences(printed, ours), cells_of(CORRECTIONS)[1])
