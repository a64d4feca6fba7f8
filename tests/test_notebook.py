"""The notebook: document 000's worked example as `make run` shows it, the lots of a file, each answered or told, by Table 106-1 or an edition of a store,
and a job cut into lots.

test_sheet.py has the pay sheets."""
import itertools
import os
import pathlib
import pty
import random
import re
import shlex
import statistics
import subprocess
import tempfile
import tty
import unittest

from building import ROOT, make
from notebook import command, edition, FLAT, LIMITS, notebook, PROGRAM, READINGS, ROWS, shown, STEEP, stored, TABLE

PAPERS = sorted((ROOT.parent / "shared").glob("000_*.txt"))
ANSWER = re.compile(r"line +(\d+) +mean +(-?\d+\.\d{3}) +deviation +(\d+\.\d{3}) +PWL +(\d+\.\d\d)")
FAULT = re.compile(r"notebook: line (\d+): (.+)")


def lines(pattern, text):
    """What a stream says of each line; no other word may stand in it."""
    found = [pattern.fullmatch(line) for line in text.decode().splitlines()]
    if None in found:
        raise ValueError(text)
    return [(int(match[1]), " ".join(match.groups()[1:])) for match in found]


def seen(ran):
    """What a run says of each line, a row or a fault, and its exit status."""
    said = lines(ANSWER, ran.stdout) + lines(FAULT, ran.stderr)
    if len(dict(said)) != len(said):
        raise ValueError(f"a line is spoken of twice: {said}")
    return dict(said), ran.returncode


def read(text):
    return seen(notebook("-", input=text if isinstance(text, bytes) else text.encode()))


class Example(unittest.TestCase):
    @classmethod
    def setUpClass(cls):
        cls.shown = make("run")
        cls.lines = [line.split() for line in cls.shown.splitlines()]

    def of(self, word):
        """The lines that start with a word, without it."""
        return [" ".join(line[1:]) for line in self.lines if line[:1] == [word]]

    def test_it_is_the_program_without_words(self):
        ran = notebook()
        self.assertEqual((ran.stdout.decode(), ran.stderr, ran.returncode), (self.shown, b"", 0))

    def test_characteristics_come_in_order(self):
        self.assertEqual([line[0] for line in self.lines if line and line[0] in READINGS], [*READINGS, *READINGS])

    def test_readings_limits_row_and_verdict_of_each(self):
        for name, readings in READINGS.items():
            with self.subTest(name):
                first, second = self.of(name)
                self.assertEqual(first, readings)
                self.assertEqual(second.split()[-6:], f"{LIMITS[name]} {ROWS[name]} accepted".split())

    def test_composite_verdict_and_pay(self):
        self.assertEqual((self.of("Composite"), self.of("Lot")), (["0.998"], ["accepted"]))
        (pay,) = self.of("Pay")
        self.assertRegex(pay, r"^\$638,720\.00 .*\b8,000 tons\b.*\$80\.00 a ton \(document 01's\)$")

    def test_mean_and_deviation_are_those_of_the_readings(self):
        for name, readings in READINGS.items():
            numbers = [float(word) for word in readings.split()]
            self.assertEqual([f"{number:.3f}" for number in (statistics.mean(numbers), statistics.stdev(numbers))],
                             ROWS[name].split()[:2])

    def test_it_fits_a_page(self):
        self.assertLess(len(self.lines), 25)
        for line in self.shown.split("\n"):
            self.assertRegex(line, r"\A([ -~]{,79}[!-~])?\Z")

    @unittest.skipUnless(PAPERS, "document 000 does not lie beside this checkout")
    def test_readings_are_those_of_document_000(self):
        row = r"^\|[ 1]*\| (\d+) \| (\d\.\d) \| (\d\d\.\d) \| (\d\d\.\d) \|$"
        rows = re.findall(row, PAPERS[0].read_text("utf-8"), re.M)
        self.assertEqual([int(row[0]) for row in rows], list(range(1, 11)))
        for name, column in ("Voids", 1), ("VMA", 2), ("Density", 3):
            self.assertEqual(self.of(name)[0], " ".join(row[column] for row in rows))


class Lots(unittest.TestCase):
    """Lots that are answered."""

    def answered(self, text, rows):
        """Each line has its row, mean, deviation and PWL; None where it is passed over."""
        self.assertEqual(read(text), ({i: row for i, row in enumerate(rows, 1) if row}, 0))

    def test_the_three_lots_from_a_file_and_from_standard_input(self):
        text = "".join(f"{LIMITS[name]} {READINGS[name]}\n" for name in READINGS)
        with tempfile.TemporaryDirectory() as folder:
            file = pathlib.Path(folder) / "the lots"
            file.write_text(text)
            self.assertEqual(seen(notebook(str(file))), (dict(enumerate(ROWS.values(), 1)), 0))
        self.answered(text, ROWS.values())

    def test_desk_examples(self):
        examples = {
            "- 4 4 4": "4.000 0.000 100.00",
            "- 3.999 4.000 4.000": "4.000 0.000 0.00",
            "- 2 1 3": "2.000 1.414 50.00",
            "2 2 1 3": "2.000 1.414 0.00",
            "- 0.021 0 0 0 0.08": "0.020 0.040 51.67",
            "- 0.019 0 0 0 0.08": "0.020 0.040 48.33",
            "- 0.020 0 0 0 0.08": "0.020 0.040 50.00",
            "0.019 0.021 0 0 0 0.08": "0.020 0.040 3.34",
            "- 0.001 0 0.001": "0.001 0.001 73.49",
            "- 1.2 0 1 2": "1.000 1.000 55.54",  # document 02, R-2
            "0 - -500 500": "0.000 707.107 50.00",
        }
        self.answered("\n".join(examples), examples.values())

    def test_a_limit_may_be_absent(self):
        lot = "0 0 0 0.08"
        self.answered(f"- 0.021 {lot}\n0.019 - {lot}\n0.021 - {lot}\n-0.001 - {lot}\n",
                      ["0.020 0.040 51.67", "0.020 0.040 51.67", "0.020 0.040 48.33", "0.020 0.040 68.33"])

    def test_lines_and_blanks(self):
        row = "4.000 0.000 100.00"
        for text, rows in {
            "": [], "\n": [], "\n\n": [], "# 1 2 x": [], "#": [], "  \t\n": [], "\r\n": [],
            "- 4 4 4": [row], "- 4 4 4\n\n": [row], "\n- 4 4 4": [None, row], "- 4 4 4\n- 4 4 4": [row, row],
            "# lots\n \t # of\n\n- 4 4 4\n": [None, None, None, row], "#- 4 4 4\n- 4 4 4\n#": [None, row],
            "\t-\t4\t\t4 \t4\t \n": [row], "   - 4 4 4   ": [row],
            "- 4 4 4\r\n\r\n# lots\r\n- 4 4 4\r\n": [row, None, None, row], "- 4 4 4\r\n- 4 4 4\r": [row, row],
        }.items():
            with self.subTest(text):
                self.answered(text, rows)

    def test_ways_to_write_one_number(self):
        four = "4.2 4.20 4.200 4.2000 04.2 4.2000000000 0004.2".split() + ["0" * 9000 + "4.2" + "0" * 9000]
        zero = "0 -0 0.0 -0.000 000 0.0000 -0000.00000 -0.0".split()
        text = "".join(f"{a} {a} {a} {b}\n" for number in (four, zero) for a in number for b in number)
        self.answered(text, ["4.200 0.000 100.00"] * len(four) ** 2 + ["0.000 0.000 100.00"] * len(zero) ** 2)

    def test_every_decimal_is_its_thousandths(self):
        """Where all readings are one number, PWL is 100 or 0 as the limit is at it or a thousandth off."""
        chosen = random.Random(0)
        edges = [-500000, -499999, -1001, -1000, -999, -2, -1, 0, 1, 9, 10, 99, 100, 999, 1000, 499998, 499999]
        numbers = edges + [chosen.randrange(-500000, 500000) for _ in range(500)]
        text, rows = "", []
        for number in numbers:
            this, more = (f"{'-' * (n < 0)}{abs(n) // 1000}.{abs(n) % 1000:03}" for n in (number, number + 1))
            text += f"{this} {this} {this} {this}\n- {this} {more} {more}\n"
            rows += [f"{this} 0.000 100.00", f"{more} 0.000 0.00"]
        self.answered(text, rows)

    def test_counts_that_have_a_column(self):
        self.answered("".join("- 4" + " 4" * n + "\n" for n in range(2, 11)), ["4.000 0.000 100.00"] * 9)

    def test_the_range_has_its_ends(self):
        self.answered("- 500 500 500\n-500 - -500.000 -500", ["500.000 0.000 100.00", "-500.000 0.000 100.00"])


class BadLines(unittest.TestCase):
    """Lines that are told. Good ones, before and after, are answered all the same."""

    def told(self, faults):
        """Each line has its fault, told by the line's number."""
        good = b"- 4 4 4"
        said, status = read(b"\n".join([good, *(line + b"\n" + good for line in faults)]))
        said = [said[i] for i in sorted(said)]
        self.assertEqual(dict(zip(faults, said[1::2])), faults)
        self.assertEqual((said[::2], status), (["4.000 0.000 100.00"] * (len(faults) + 1), 1))

    def words(self, fault, line, *words):
        """Where each word stands in a line, it has this fault."""
        words = [word if isinstance(word, bytes) else word.encode() for word in words]
        self.told({line.encode().replace(b"{}", word): fault.replace("{}", shown(word)) for word in words})

    def refused(self, refusal, *bad):
        """Each line is refused, with these words after the refusal's number."""
        self.told({line.encode(): f"refusal {refusal}" for line in bad})

    def test_not_a_number(self):
        words = "x +4 .5 5. 4,2 4.2.1 1e3 4e 0x10 nan inf --4 -x -.5 4- 4.2x 4.x 4.-2 -4- 1_000 4# $4 4% \u0664 x\"y 4.2\\n".split()
        self.words("the lower limit {} is not a number", "{} 5 4 4", *words)
        self.words("the upper limit {} is not a number", "4 {} 4 4", *words, "#")
        self.words("reading 2 {} is not a number", "- 5 4 {} 4", *words, "#", "-")

    def test_more_than_three_decimals(self):
        words = "4.0001 4.20001 4.0000000001 -0.0005 0.9999 500.0001 4.0001x".split()
        words += [f"4.{'0' * 9000}1", f"{'9' * 9000}.0001"]
        self.words("the lower limit {} has more than three decimals", "{} 5 4 4", *words)
        self.words("the upper limit {} has more than three decimals", "- {} 4 4", *words)
        self.words("reading 1 {} has more than three decimals", "- 5 {} 4", *words)

    def test_how_long_a_word_is_told(self):
        words = ["x" * n for n in (1, 2, 23, 24, 25, 26, 100, 70000)]
        self.words("the lower limit {} is not a number", "{} 5 4 4", *words)
        for reading in 11, 17, 18, 19:
            self.words(f"reading {reading} {{}} is not a number", f"- 5{' 4' * (reading - 1)} {{}} 4", *words)

    def test_one_limit_and_nothing_else(self):
        self.told(dict.fromkeys([b"5", b"-", b" 5\t", b"5\r"], "the upper limit is missing"))

    def test_the_first_fault_is_told(self):
        self.told({b"x": 'the lower limit "x" is not a number', b"x y": 'the lower limit "x" is not a number',
                   b"x 4.0001": 'the lower limit "x" is not a number',
                   b"- 5 4.0001 x": 'reading 1 "4.0001" has more than three decimals',
                   b"- - 4.0001": 'reading 1 "4.0001" has more than three decimals',
                   b"- -" + b" 4" * 19 + b" x 4 y": 'reading 20 "x" is not a number'})

    def test_bytes_that_are_no_text(self):
        self.words("the lower limit {} is not a number", "{} 5 4 4", b"\0", b"\0-", b"\xef\xbb\xbf-", b"\x1b[2J")
        self.words("reading 1 {} is not a number", "- 5 {}", b"\0", b"4\0", b"4\0004", b"4\x0b4", b"4\x1a", b"\x7f")
        self.words("reading 2 {} is not a number", "- 5 4 {}", b"\0", b"4\xff", b"4\0")

    def test_carriage_returns_elsewhere_than_at_the_end(self):
        """Lines that end in nothing else are not taken for one lot, nor for one comment."""
        self.words("reading 2 {} is not a number", "- 5 4 {} 5 4 4", b"4\r-", b"\r4", b"4\r4", b"4\r")
        self.told({b"- 5 4 4\r\r": 'reading 2 "4\\x0d" is not a number', b"\r\r": 'the lower limit "\\x0d" is not a number'})
        self.words("the lower limit {} is not a number", "{} 5 4 4", b"\r", b"\r-")
        self.told(dict.fromkeys([b"# lots\r- 5 4 4\r", b"#\r#", b" # \r\r"], "a carriage return within a comment"))

    def test_wrong_number_of_readings(self):
        for line, count in {"- 5": 0, "- 5 4": 1, "4 5 4": 1, **{"- 5" + " 4" * n: n for n in (18, 19, 255, 256 + 2, 10000, 65536 + 2)}}.items():
            self.refused(f"4, a lot has 2 to 17 readings, and this has {count}", line)

    def test_counts_that_have_no_column(self):
        """Equal readings, one limit and two make no difference."""
        for n in range(11, 18):
            told = f"10, the table has no column for {n} readings, so there is no PWL"
            self.refused(told, "- 5" + " 4" * n, "3 -" + " 4" * n, "3 5 3.5" + " 4" * (n - 1))

    def test_out_of_range(self):
        self.refused('5, the upper limit "500.001" is out of range', "- 500.001 4 4", "-501 500.001 501 4")
        self.refused('5, the lower limit "-500.001" is out of range', "-500.001 - 4 4", "-500.001 500 4 4", "-500.001 - 501 4")
        self.refused('5, reading 1 "500.001" is out of range', "- 5 500.001 4", "- 5 500.001 501")
        self.refused('5, reading 2 "-500.001" is out of range', "- 5 4 -500.001", "- 5 4 -500.001 501")
        self.refused('5, reading 10 "501" is out of range', "- 5" + " 4" * 9 + " 501")
        self.refused('5, reading 17 "501" is out of range', "- 5" + " 4" * 16 + " 501")

    def test_numbers_too_large_for_any_type(self):
        """Some would be 4 if they wrapped at 32 or 64 bits."""
        whole = [2**31 - 1, 2**31, 2**32, 2**32 + 4000, 2**63 - 1, 2**63, 2**64, 2**64 + 4000, 10**4000 + 4000]
        large = [f"{n // 1000}.{n % 1000:03}" for n in whole] + [f"{2**32 + 4}", f"{2**64 + 4}", "9" * 9000]
        large += [f"-{word}" for word in large]
        for place, lines in {"reading 1": ["- 5 {} 4"], "reading 2": ["- 5 4 {}"], "the lower limit": ["{} - 4 4"],
                             "the upper limit": ["- {} 4 4", "{} {} 4 4"]}.items():
            for line in lines:
                self.words(f"refusal 5, {place} {{}} is out of range", line, *large)

    def test_both_limits_absent(self):
        self.refused("6, both limits are absent", "- - 4 4", "-\t-\t4.000\t5")

    def test_lower_limit_above_the_upper(self):
        for lower, upper in ("5", "4"), ("4.001", "4"), ("0.001", "-0.001"), ("-1", "-2"):
            self.refused(f'7, the lower limit "{lower}" is above the upper limit "{upper}"', f"{lower} {upper} 4 4")

    def test_the_lowest_refusal_is_told(self):
        self.refused("4, a lot has 2 to 17 readings, and this has 1", "- - 4", "501 - 4", "5 4 4", "- 5 501")
        self.refused("4, a lot has 2 to 17 readings, and this has 0", "- -")
        self.refused("4, a lot has 2 to 17 readings, and this has 18", "5 4 501" + " 4" * 17)
        self.refused('5, reading 1 "501" is out of range', "- - 501" + " 4" * 16)
        self.refused("6, both limits are absent", "- -" + " 4" * 11)
        self.refused('7, the lower limit "5" is above the upper limit "4"', "5 4" + " 4" * 17)
        self.refused('5, reading 1 "501" is out of range', "- - 501 4")
        self.refused('5, reading 2 "501" is out of range', "5 4 4 501")
        self.refused('5, the lower limit "501" is out of range', "501 4 4 4")
        self.refused('5, the upper limit "-501" is out of range', "5 -501 4 4")

    def test_a_line_is_no_part_of_the_next(self):
        said, status = read("3 5 4 4 4 4 4 4 4 4 4 4\n- - 4 4\n3 5 4 x\n- 5 4\n4 5 x\n- - 4 4\n3 5 4 4")
        self.assertEqual([said[i][:9] for i in range(1, 8)],
                         ["4.000 0.0", "refusal 6", "reading 2", "refusal 4", "reading 1", "refusal 6", "4.000 0.0"])
        self.assertEqual(status, 1)

    def test_lines_keep_their_order_on_one_stream(self):
        ran = notebook("-", input=b"- 4 4 4\nx\n- 4 4 4\n- - 4 4\n- 4 4 4", stderr=subprocess.STDOUT)
        self.assertEqual(re.findall(rb"\bline +(\d+)", ran.stdout), [b"1", b"2", b"3", b"4", b"5"])

    def test_long_lines(self):
        much, row = 300000, "4.000 0.000 100.00"
        text = "\n".join(["#" + " 4 x" * much, " " * much, "- 5 4" + "\t" * much + "4", "x" * much, "- 5 4 4"])
        self.assertEqual(read(text), ({3: row, 4: f"the lower limit {shown(b'x' * much)} is not a number", 5: row}, 1))


def lots(sublots):
    """The lots of a job by document 000's words: its sublots dealt out in tens, and seven or fewer at the end put to the lot before."""
    dealt = [list(range(at, min(at + 10, sublots + 1))) for at in range(1, sublots + 1, 10)]
    if len(dealt) > 1 and len(dealt[-1]) <= 7:
        dealt[-2:] = [dealt[-2] + dealt[-1]]
    return [(number, lot[0], lot[-1], len(lot)) for number, lot in enumerate(dealt, start=1)]


class Jobs(unittest.TestCase):
    def test_a_job_is_cut(self):
        line = re.compile(r"lot +(\d+)   sublots +(\d+) to +(\d+)   +(\d+) in all")
        for sublots in *range(41), 4088, 4096:
            ran = notebook("--cut", str(sublots))
            shown = [tuple(map(int, line.fullmatch(text).groups())) for text in ran.stdout.decode().splitlines()]
            self.assertEqual((shown, ran.stderr, ran.returncode), (lots(sublots), b"", 0))

    def test_tabs(self):
        for sublots in 0, 1, 18, 4096:
            ran = notebook("--tabs", "--cut", str(sublots))
            header, *rows = ran.stdout.decode().splitlines()
            self.assertEqual(header.split("\t"), ["lot", "first", "last", "sublots"])
            self.assertEqual([tuple(map(int, row.split("\t"))) for row in rows], lots(sublots))
            self.assertEqual((ran.stderr, ran.returncode), (b"", 0))

    def test_a_job_that_is_too_long(self):
        for sublots in 4097, 10000, 2**32, 2**32 + 18, 2**64 - 1, 2**64, 2**64 + 18, 10**4000:
            ran = notebook("--cut", str(sublots))
            self.assertEqual((ran.stdout, ran.stderr, ran.returncode), (b"", b"notebook: refusal 9, a job has up to 4096 sublots\n", 1))

    def test_zeros_before_a_number(self):
        self.assertEqual(notebook("--cut", "0" * 50 + "18").stdout, notebook("--cut", "18").stdout)


# Table 106-1 as document 004 prints it, before R-2
PRINTED = {**TABLE, 3: (*TABLE[3][:4], 5654, *TABLE[3][5:]), 2: (*TABLE[2][:14], 7249, *TABLE[2][15:])}
# a lot whose index is 0.20, and one whose index is 0.70
MISPRINTED = b"- 1.2 0 1 2\n- 0.001 0 0.001\n"


class Editions(unittest.TestCase):
    """Lots that are looked up in an edition of a store."""

    def by(self, store, number, text, *options):
        """What is said of lots by an edition of a file."""
        return seen(notebook(*options, "--store", store, "--edition", str(number), "-", input=text))

    def told(self, fault, store, number, *options, words=("-",)):
        """Nothing is answered by that edition of a file, and the fault is told once."""
        ran = notebook(*options, "--store", store, "--edition", str(number), *words, input=b"- 4 4 4\nx\n- 4 4 4\n")
        self.assertEqual((ran.stdout, ran.stderr.decode(), ran.returncode), (b"", f"notebook: {store}: refusal {fault}\n", 1))

    def refused(self, fault, number, *parts):
        """The same of a store of these bytes."""
        with stored(*parts) as store:
            self.told(fault, store, number)

    def test_the_table_is_written(self):
        """Byte for byte the data file's, as document 02 writes an edition."""
        for word in "0", "1", "7", "255", "256", "65535", "007", "0" * 50 + "258":
            ran = notebook("--write-table", word)
            self.assertEqual((ran.stdout, ran.stderr, ran.returncode), (edition(int(word), TABLE), b"", 0))
            self.assertEqual(len(ran.stdout), 979)

    def test_the_table_that_was_written_is_used_again(self):
        text = "".join(f"{LIMITS[name]} {READINGS[name]}\n" for name in READINGS).encode() + MISPRINTED + b"- - 4 4\n- 4 4\nx\n- 500.001 4 4\n"
        for number in "0", "7", "65535":
            with stored(notebook("--write-table", number).stdout) as store:
                for options in [], ["--tabs"]:
                    own, plain = (notebook(*options, *words, "-", input=text) for words in (["--store", store, "--edition", number], []))
                    self.assertEqual((own.stdout, own.stderr, own.returncode), (plain.stdout, plain.stderr, 1))

    def test_the_edition_that_is_named_is_the_one(self):
        """Two are as document 004 prints the table and as document 02 corrects it, a third answers 100 for both lots."""
        with stored(edition(3, PRINTED), edition(258, TABLE), edition(65535, {2: STEEP, 3: STEEP})) as store:
            for number, pwls in (3, ("56.54", "72.49")), (258, ("55.54", "73.49")), (65535, ("100.00", "100.00")):
                rows = {1: f"1.000 1.000 {pwls[0]}", 2: f"0.001 0.001 {pwls[1]}"}
                self.assertEqual(self.by(store, number, MISPRINTED), (rows, 0))

    def test_files_one_after_the_other_are_a_store(self):
        parts = [notebook("--write-table", number).stdout for number in ("1", "2", "9")]
        with stored(*parts) as store:
            for number in 1, 2, 9:
                self.assertEqual(self.by(store, number, b"- 4 4 4\n"), ({1: "4.000 0.000 100.00"}, 0))

    def test_columns_that_an_edition_has_and_has_not(self):
        """For every number of readings; of equal readings too, which need no entry."""
        with stored(edition(4, {n: STEEP for n in range(6, 13)}), edition(5, {17: FLAT}), edition(6, {2: FLAT})) as store:
            for number, has, pwl in (4, range(6, 13), "100.00"), (5, [17], "50.00"), (6, [2], "50.00"):
                said, _ = self.by(store, number, "".join(f"- 5{' 4' * n}\n- 4.1 3{' 4' * (n - 2)} 5\n" for n in range(2, 18)).encode())
                for n in range(2, 18):
                    none = f"refusal 10, edition {number} has no column for {n} readings, so there is no PWL"
                    equal, other = said[2 * n - 3], said[2 * n - 2]
                    self.assertEqual((equal, other.split()[-1] if n in has else other), ("4.000 0.000 100.00", pwl) if n in has else (none, none))

    def test_the_tabs_are_the_same(self):
        with stored(edition(3, PRINTED)) as store:
            ran = notebook("--tabs", "--store", store, "--edition", "3", "-", input=MISPRINTED + b"- 4" + b" 4" * 11)
        self.assertEqual(ran.stdout, b"line\tmean\tdeviation\tPWL\n1\t1.000\t1.000\t56.54\n2\t0.001\t0.001\t72.49\n")
        self.assertEqual(ran.stderr, b"notebook: line 3: refusal 10, edition 3 has no column for 11 readings, so there is no PWL\n")
        self.assertEqual(ran.returncode, 1)

    def test_a_lot_s_refusals_are_as_without_a_store(self):
        text = b"- 5 4\n- 501 4 4\n- - 4 4\n5 4 4 4\n- - 501\n- 501" + b" 4" * 11 + b"\n5 4" + b" 4" * 11 + b"\nx\n"
        with stored(edition(3, {2: FLAT})) as store:
            self.assertEqual(self.by(store, 3, text), read(text))

    def test_options_in_any_order(self):
        with stored(edition(3, PRINTED)) as store:
            for options in itertools.permutations([["--tabs"], ["--store", store], ["--edition", "3"]]):
                ran = notebook(*itertools.chain(*options), "-", input=MISPRINTED)
                self.assertEqual((ran.stdout.split()[-1], ran.stderr, ran.returncode), (b"72.49", b"", 0))
            self.assertEqual(seen(notebook("--edition", "0003", "--store", store, "-", input=MISPRINTED)), self.by(store, 3, MISPRINTED))

    def test_lots_from_a_file(self):
        with stored(edition(3, PRINTED)) as store, stored(MISPRINTED) as file:
            self.assertEqual(seen(notebook("--store", store, "--edition", "3", file)), self.by(store, 3, MISPRINTED))

    def test_what_lies_behind_the_end_is_not_looked_at(self):
        parts = edition(3, PRINTED), edition(4, TABLE)
        for behind in (b"\0", b"x", b"\0\0", b"\0\0x", b"\0\0" + edition(1, TABLE), b"\0\0" + edition(5, TABLE), b"\0" * 4000, b"\0\0" + b"x" * 100000,
                       (b"\0\0" + b"x" * 2**20)[:2**20 - 2 * 979]):
            with stored(*parts, behind) as store:
                self.assertEqual(self.by(store, 4, MISPRINTED)[0][1], "1.000 1.000 55.54")
                self.told("13, it has no edition 5; it has 3, 4", store, 5)

    def test_the_largest_store(self):
        """Eight editions of sixteen columns."""
        with stored(*(edition(number, {n: FLAT for n in range(2, 18)}) for number in range(10, 18))) as store:
            self.assertEqual(os.path.getsize(store), 13880)
            for number in 10, 17:
                self.assertEqual(self.by(store, number, b"- 4.1" + b" 4" * 16 + b" 5")[0][1].split()[-1], "50.00")
            self.told("13, it has no edition 18; it has 10, 11, 12, 13, 14, 15, 16, 17", store, 18)

    def test_an_edition_that_is_not_there(self):
        for number in 0, 2, 5, 8, 65535, 65536, 65536 + 7, 2**32 - 1:
            self.refused(f"13, it has no edition {number}; it has 1, 3, 7", number, *(edition(known, TABLE) for known in (1, 3, 7)))
        self.refused("13, it has no edition 8; it has 7", 8, edition(7, TABLE), b"\0\0", edition(8, TABLE))

    def test_a_store_that_has_none(self):
        for empty in b"", b"\0", b"x", b"\0\0", b"\0\0x", b"\0" * 5000, b"\0\0" + edition(7, TABLE):
            self.refused("13, it has no edition 7; it has none", 7, empty)

    def damaged(self, place, *parts, number=3):
        """The entry at this place is to blame."""
        self.refused(f"11, it is not up to 8 editions with rising numbers: the entry at byte {place} is wrong", number, *parts)

    def test_a_store_that_is_none(self):
        good = edition(7, TABLE)
        wrong = {
            "text": b"- 4 4 4\n", "one byte short": good[:-1], "a length alone": good[:2], "a head alone": good[:7],
            "a length too small": b"\x03\xd0" + good[2:], "a length too large": b"\x03\xd2" + good[2:], "a length of one": b"\0\1x",
            "version 0": good[:2] + b"\0" + good[3:], "version 2": good[:2] + b"\2" + good[3:],
            "first n 1": good[:5] + b"\1" + good[6:], "first n 3": good[:5] + b"\3" + good[6:], "last n 11": good[:6] + b"\x0b" + good[7:],
            "last n 18": edition(7, {n: FLAT for n in range(10, 19)}), "first n above last": good[:5] + b"\x0a\2" + good[7:],
            "no column": good[:5] + b"\5\4", "a start of 50.01": edition(7, {5: (5001, *TABLE[5][1:])}), "a start of 49.99": edition(7, {5: (4999, *TABLE[5][1:])}),
            "an end of 99.99": edition(7, {5: (*TABLE[5][:53], 9999)}), "an end of 100.01": edition(7, {5: (*TABLE[5][:53], 10001)}),
            "a fall": edition(7, {4: TABLE[4], 5: (*TABLE[5][:9], TABLE[5][8] - 1, *TABLE[5][10:])}),
        }
        for name, entry in wrong.items():
            with self.subTest(name):
                self.damaged(0, entry, number=7)
                self.damaged(979 + 115, edition(3, TABLE), edition(4, {5: FLAT}), entry)
        for second in good, edition(6, TABLE), edition(0, {5: FLAT}):
            self.damaged(979, good, second, number=7)
            self.damaged(979, good, second, edition(9, {5: FLAT}), number=9)
        self.damaged(8 * 115, *(edition(number, {5: FLAT}) for number in range(9)))
        self.damaged(0, b"x" * 2**20, number=65536)

    def test_a_store_is_told_before_anything_is_read(self):
        """Lots, which here are not there, or a sheet, which here is none."""
        with stored(edition(7, TABLE), edition(7, TABLE)) as wrong, stored(edition(7, TABLE)) as store:
            for words in ["-"], [f"{store}/none"], ["--check", "-"]:
                for options in [], ["--tabs"]:
                    self.told("11, it is not up to 8 editions with rising numbers: the entry at byte 979 is wrong", wrong, 7, *options, words=words)
                    self.told("13, it has no edition 8; it has 7", store, 8, *options, words=words)

    def test_a_store_that_cannot_be_read(self):
        """Nor is the file of lots looked for."""
        with tempfile.TemporaryDirectory() as folder:
            for name in f"{folder}/none", f"{folder}/none/store", "":
                ran = notebook("--store", name, "--edition", "7", f"{folder}/lots")
                self.assertEqual((ran.stdout, ran.returncode), (b"", 2))
                self.assertRegex(ran.stderr.decode(), rf"\Anotebook: {re.escape(name)} cannot be opened: .+\n\Z")
            ran = notebook("--store", folder, "--edition", "7", f"{folder}/lots")
            self.assertEqual((ran.stdout, ran.stderr.decode(), ran.returncode), (b"", f"notebook: {folder} cannot be read\n", 2))

    def test_a_file_too_large_for_a_store(self):
        for behind in b"\0\0", b"x":
            with stored(edition(7, TABLE), b"\0\0", behind * 2**20) as store:
                os.truncate(store, 2**20 + 1)
                ran = notebook("--store", store, "--edition", "7", "-", input=b"- 4 4 4\n")
                told = f"notebook: {store} has more than 1048576 bytes, and no store needs so many\n"
                self.assertEqual((ran.stdout, ran.stderr.decode(), ran.returncode), (b"", told, 2))
                os.truncate(store, 2**20)
                self.assertEqual(self.by(store, 7, b"- 4 4 4\n"), ({1: "4.000 0.000 100.00"}, 0))


class Usage(unittest.TestCase):
    def test_help(self):
        ran = notebook("--help")
        self.assertEqual((ran.stderr, ran.returncode), (b"", 0))
        self.assertIn(b"LOWER UPPER READING", ran.stdout)
        self.assertLess(max(map(len, ran.stdout.splitlines()[1:])), 80)

    def test_help_begins_with_a_line_that_can_be_pasted(self):
        """What it shows is answered; here the program may need an emulator's words before its name."""
        pasted, answer, _ = notebook("--help").stdout.decode().split("\n", 2)
        answer = answer.removeprefix("    is answered by: ")
        name = str(ROOT / PROGRAM)
        self.assertTrue(pasted.endswith(f" | {name} -"), pasted)
        ran = subprocess.run(["sh", "-c", pasted.replace(name, shlex.join(command()))], capture_output=True, text=True)
        self.assertEqual((ran.stdout, ran.stderr, ran.returncode), (f"{answer}\n", "", 0))
        self.assertEqual(lines(ANSWER, answer.encode()), [(1, ROWS["Voids"])])

    def test_the_manual_s_examples(self):
        """The page is a text for roff, in which a minus is written with a backslash. A file that it shows is there before; some write one for the next."""
        page = (ROOT / "hosts/notebook.1.in").read_text("utf-8").replace("\\-", "-")
        examples, files = (re.findall(rf"^\$ {words}\n((?:[^.$\n].*\n)*)", page, re.M) for words in (r"(.*\btulpavice-notebook -.*)", r"cat (\S+)"))
        self.assertEqual((len(examples), len(files)), (7, 1))
        with tempfile.TemporaryDirectory() as folder:
            for name, text in files:
                (pathlib.Path(folder) / name).write_text(text)
            for words, printed in examples:
                words = words.replace("tulpavice-notebook", shlex.join(command()))
                ran = subprocess.run(["sh", "-c", words], cwd=folder, capture_output=True, text=True)
                self.assertEqual(ran.stdout + ran.stderr, printed.removeprefix("tulpavice-"))

    def test_the_manual_names_what_help_names(self):
        page = (ROOT / "hosts/notebook.1.in").read_text("utf-8").replace("\\-", "-")
        options = set(re.findall(rb"--[\w-]+", notebook("--help").stdout))
        self.assertEqual({word.encode() for word in re.findall(r"^\.TP\n\.B (--[\w-]+)$", page, re.M)}, options)

    def test_version(self):
        """The header has it, and docs/VERSIONS.md begins with it."""
        ran = notebook("--version")
        version = re.search(r'^#define TULPAVICE_VERSION "(\d+\.\d+\.\d+)"$', (ROOT / "include/tulpavice.h").read_text("utf-8"), re.M)[1]
        self.assertEqual((ran.stdout.decode(), ran.stderr, ran.returncode), (f"notebook (Tulpavice) {version}\n", b"", 0))
        self.assertEqual(re.search(r"^## (\S+)", (ROOT / "docs/VERSIONS.md").read_text("utf-8"), re.M)[1], version)

    def test_tabs(self):
        """The same answers under a header, to be split at tabs; what is bad is told as it is without."""
        text = "".join(f"{LIMITS[name]} {READINGS[name]}\n\n" for name in READINGS) + "- 4 x\n-1 - -1 -1\n- 500 500 500"
        plain, tabs = (notebook(*words, "-", input=text.encode()) for words in ([], ["--tabs"]))
        header, *rows = [line.split("\t") for line in tabs.stdout.decode().splitlines()]
        self.assertEqual(header, ["line", "mean", "deviation", "PWL"])
        self.assertEqual([(int(row[0]), " ".join(row[1:])) for row in rows], lines(ANSWER, plain.stdout))
        self.assertEqual([row[1:] for row in rows[:3]], [row.split() for row in ROWS.values()])
        self.assertEqual((tabs.stderr, tabs.returncode), (plain.stderr, 1))

    def test_tabs_of_no_lots(self):
        ran = notebook("--tabs", "-", input=b"# none\n")
        self.assertEqual((ran.stdout, ran.stderr, ran.returncode), (b"line\tmean\tdeviation\tPWL\n", b"", 0))

    def misused(self, *calls):
        """Each call is told by a word and what is wrong with it, and nothing is answered."""
        for words, word, why in calls:
            ran = notebook(*words, input=b"- 4 4 4\n")
            self.assertEqual((ran.stdout, ran.stderr.decode(), ran.returncode), (b"", f'notebook: "{word}" {why}; --help shows how notebook is used\n', 2))

    def test_wrong_usage(self):
        here, more = "is not understood here", "is a word too many"
        self.misused((["-", "-"], "-", more), (["--tabs"], "--tabs", "needs a file, or - for standard input"),
                     (["--tabs", "-", "x"], "x", more), (["-", "--tabs"], "--tabs", more), (["--tab", "-"], "--tab", here), (["-x"], "-x", here),
                     (["--tabs", "--help"], "--help", here), (["--help", "-"], "--help", here), (["--"], "--", here),
                     (["--cut"], "--cut", "needs a number of sublots"), (["--tabs", "--cut"], "--cut", "needs a number of sublots"),
                     (["--check"], "--check", "needs a file, or - for standard input"), (["--check", "-", "x"], "x", more),
                     (["--tabs", "--check"], "--check", "needs a file, or - for standard input"), (["--check", "--tabs", "-"], "--tabs", here),
                     (["-", "--check"], "--check", more), (["--check", "--cut", "18"], "--cut", here), (["--cut", "--check", "-"], "--check", here),
                     (["--cut", "18", "19"], "19", more), (["--cut", "--tabs", "18"], "--tabs", here), (["--cut", "-5"], "-5", here),
                     *((["--cut", word], word, "is not a number of sublots") for word in ("", "x", "18x", "1.5", "+18", " 18", "0x12", "-")))

    def test_wrong_usage_of_a_store(self):
        """One option without the other, each twice, behind what is asked for, or where no percentage is asked for."""
        here, more, besides = "is not understood here", "is a word too many", "needs a file of lots besides, or - for standard input"
        alone, edition_alone = "needs --edition beside it", "needs --store beside it"
        both = ["--store", "x", "--edition", "7"]
        self.misused((["--store"], "--store", "needs a file"), (["--tabs", "--edition", "7", "--store"], "--store", "needs a file"),
                     (["--edition"], "--edition", "needs a number"), (["--store", "x", "--edition"], "--edition", "needs a number"),
                     (["--store", "x"], "--store", alone), (["--store", "x", "-"], "--store", alone), (["--store", "x", "--cut", "18"], "--store", alone),
                     (["--edition", "7"], "--edition", edition_alone), (["--edition", "7", "--check", "-"], "--edition", edition_alone),
                     (both, "--store", besides), ([*both, "--tabs"], "--store", besides), (["--tabs", *both], "--store", besides),
                     ([*both, "--check"], "--check", "needs a file, or - for standard input"), ([*both, "-", "x"], "x", more),
                     (["-", *both], "--store", more), (["--check", "-", *both], "--store", more), (["--check", *both, "-"], "--store", here),
                     ([*both, *both, "-"], "--store", here), ([*both, "--edition", "8", "-"], "--edition", here), (["--tabs", *both, "--tabs", "-"], "--tabs", here),
                     (["--store", "--edition", "7", "-"], "--edition", here), (["--store", "-x", "--edition", "7", "-"], "-x", here),
                     (["--store", "x", "--edition", "--tabs", "-"], "--tabs", here), ([*both, "--help"], "--help", here),
                     ([*both, "--cut", "18"], "--cut", here), ([*both, "--write-table", "7"], "--write-table", here),
                     (["--store", "-", "--edition", "7", "-"], "-", "is standard input, and a store comes from a file"))

    def test_wrong_usage_of_an_edition_s_number(self):
        here, none = "is not understood here", ("", "x", "7x", "1.5", "+7", " 7", "7 ", "0x7", "-", f"{2**64 + 7}", f"{10**4000}")
        self.misused(*((["--store", "x", "--edition", word, "-"], word, "is not a whole number from 0 to 4294967295") for word in (*none, "4294967296")),
                     *((["--write-table", word], word, "is not a whole number from 0 to 65535") for word in (*none, "65536", f"{2**32 + 7}")),
                     (["--store", "x", "--edition", "-7", "-"], "-7", here), (["--write-table", "-7"], "-7", here),
                     (["--write-table"], "--write-table", "needs a number for the edition"), (["--write-table", "7", "8"], "8", "is a word too many"),
                     (["--tabs", "--write-table", "7"], "--write-table", here), (["--write-table", "--tabs", "7"], "--tabs", here))

    def test_it_is_built_anew_where_a_header_changes(self):
        command()
        compiled = re.compile(r"\bhosts/(\w+)\.c\b")
        self.assertEqual(compiled.findall(make("--dry-run", PROGRAM)), [])
        for header in "hosts/words.h", "hosts/sheet.h", "hosts/store.h":
            asked = make("--dry-run", f"--what-if={header}", PROGRAM)
            self.assertEqual(sorted(compiled.findall(asked)), ["notebook", "sheet", "store", "words"])

    def test_it_goes_by_the_name_that_it_is_called(self):
        with tempfile.TemporaryDirectory() as folder:
            other = pathlib.Path(folder) / "tulpavice-notebook"
            other.symlink_to(command()[-1])
            ran = subprocess.run([*command()[:-1], str(other), "-"], input=b"x\n", capture_output=True)
            self.assertEqual(ran.stderr, b'tulpavice-notebook: line 1: the lower limit "x" is not a number\n')
            ran = subprocess.run([*command()[:-1], str(other), "--help"], capture_output=True, text=True)
            self.assertTrue(ran.stdout.split("\n")[0].endswith(f" | {other} -"))
            self.assertEqual(re.findall(r"\S*notebook", ran.stdout.split("\n", 1)[1]), ["tulpavice-notebook"] * 7)

    def test_a_file_that_cannot_be_opened(self):
        with tempfile.TemporaryDirectory() as folder:
            for name in (f"{folder}/none", f"{folder}/none/lots", ""):
                ran = notebook(name)
                self.assertEqual((ran.stdout, ran.returncode), (b"", 2))
                self.assertRegex(ran.stderr.decode(), rf"\Anotebook: {re.escape(name)} cannot be opened: .+\n\Z")

    def test_a_file_that_cannot_be_read(self):
        with tempfile.TemporaryDirectory() as folder:
            ran = notebook(folder)
        self.assertEqual((ran.stdout, ran.returncode), (b"", 2))
        self.assertEqual(ran.stderr.decode(), f"notebook: {folder} cannot be read\n")

    def test_a_line_that_is_cut_short_is_not_answered(self):
        """A terminal that hangs up is an error to whoever reads from its other side."""
        ours, theirs = pty.openpty()
        with os.fdopen(ours, "rb", buffering=0) as stream:
            tty.setraw(theirs)
            os.write(theirs, b"- 4 4 4\n- 4 4 4")
            os.close(theirs)
            ran = notebook("-", stdin=stream)
        self.assertEqual(ran.stderr, b"notebook: standard input cannot be read\n")
        self.assertEqual((ANSWER.fullmatch(ran.stdout.decode().rstrip("\n"))[1], ran.returncode), ("1", 2))

    @unittest.skipUnless(os.path.exists("/dev/full"), "there is no full device here")
    def test_answers_that_cannot_be_written(self):
        sheet = b"vma - 4 4 4\nvoids - 4 4 4\ndensity - 4 4 4\nprice 0\nquantity 0\npwl 100 100 100\ncomposite 1.03\nverdict accepted\npay 0"
        for words, given in ((), None), (("--help",), None), (("-",), b"- 4 4 4\n"), (("--check", "-"), sheet), (("--cut", "18"), None), (("--write-table", "7"), None):
            with open("/dev/full", "wb") as full:
                ran = notebook(*words, **({"input": given} if given else {}), stdout=full)
            self.assertEqual((ran.stderr, ran.returncode), (b"notebook: the answers cannot be written\n", 2))


if __name__ == "__main__":
    unittest.main()
