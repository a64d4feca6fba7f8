"""The notebook's --check: a pay sheet that is right, one that is wrong, and one that cannot be checked.

The right sheet is the worked example's: document 000's readings, with the PWLs, the composite and the pay that document 01 has for them."""
import contextlib
import itertools
import os
import pathlib
import pty
import random
import re
import sys
import tempfile
import tty
import unittest

from building import ROOT
from notebook import edition, LIMITS, notebook, READINGS, shown, STEEP, stored, TABLE

sys.path.append(str(ROOT / "second"))
from papers import TABLE_106_1, differences, lot_of, our_sheet

SHEET = {
    **{name.lower(): f"{LIMITS[name]} {READINGS[name]}" for name in READINGS},
    "price": "80.00", "quantity": "8000", "pwl": "97.51 91.28 92.56", "composite": "0.998", "verdict": "accepted", "pay": "638720.00",
}
RIGHT = "The sheet is right: its six entries are what the rules give.\n"
HEADER = "entry\tsheet\trules\tdifference\n"
ENTRIES = ["PWL of VMA", "PWL of voids", "PWL of density", "composite", "verdict", "pay"]
# the line and the word of each number
PLACES = {"PWL of VMA": ("pwl", 0), "PWL of voids": ("pwl", 1), "PWL of density": ("pwl", 2), "composite": ("composite", 0),
          "verdict": ("verdict", 0), "pay": ("pay", 0), "price": ("price", 0), "quantity": ("quantity", 0)}
LINE = {name: number for number, name in enumerate(SHEET, 1)}


def with_word(entry, word):
    """The worked example's lines with another word for one number of its, price and quantity among these."""
    line, at = PLACES[entry]
    words = [given.encode() for given in SHEET[line].split()]
    words[at] = word if isinstance(word, bytes) else word.encode()
    return {line: b" ".join(words)}


def text(lines=(), **changed):
    """A sheet's file: the worked example with some lines changed, None for one that is left out, and others after it."""
    kept = {name: words for name, words in {**SHEET, **changed}.items() if words is not None}
    encoded = [name.encode() + b" " + (words if isinstance(words, bytes) else words.encode()) for name, words in kept.items()]
    return b"\n".join([*encoded, *lines, b""])


def check(sheet, *options):
    """What the program says of a sheet's file on both streams, and its exit status."""
    ran = notebook(*options, "--check", "-", input=sheet)
    return ran.stdout.decode(), ran.stderr.decode(), ran.returncode


class Right(unittest.TestCase):
    def right(self, sheet):
        self.assertEqual(check(sheet), (RIGHT, "", 0))
        self.assertEqual(check(sheet, "--tabs"), (HEADER, "", 0))

    def test_the_worked_example_from_a_file_and_from_standard_input(self):
        self.right(text())
        with tempfile.TemporaryDirectory() as folder:
            file = pathlib.Path(folder) / "the sheet"
            file.write_bytes(text())
            for options, said in ([], RIGHT), (["--tabs"], HEADER):
                ran = notebook(*options, "--check", str(file))
                self.assertEqual((ran.stdout.decode(), ran.stderr, ran.returncode), (said, b"", 0))

    def test_the_sheet_that_help_shows(self):
        pasted = re.findall(r"^    (\w+) +(.*)$", notebook("--help").stdout.decode().split("A pay sheet is")[1], re.M)
        self.assertEqual(dict(pasted), SHEET)
        self.right("".join(f"    {name} {words}\n" for name, words in pasted).encode())

    def test_lines_in_any_order(self):
        lines, chosen = text().splitlines(), random.Random(0)
        for order in lines[::-1], *(chosen.sample(lines, len(lines)) for _ in range(20)):
            self.right(b"\n".join(order))

    def test_lines_and_blanks(self):
        whole, cut = text(), text().rstrip(b"\n")
        for sheet in (cut, cut + b"\r", whole.replace(b"\n", b"\r\n"), whole.replace(b"\n", b"\n\n \t\n# pay 3\n \t#\n"),
                      whole.replace(b" ", b" \t  "), b" \t" + whole.replace(b"\n", b" \t\n \t"), b"#" + cut.replace(b"\n", b"\n#") + b"\n" + whole):
            with self.subTest(sheet):
                self.right(sheet)

    def test_ways_to_write_one_number(self):
        for entry, words in {"price": "80 80.0 80.000 080 80.0000000", "quantity": "8000.0 8000.00 8000.000 0008000", "composite": "00.998 0.99800",
                             "PWL of voids": "91.280 091.28", "pay": f"638720 638720.0 638720.000 {'0' * 9000}638720.{'0' * 9000}"}.items():
            for word in words.split():
                self.right(text(**with_word(entry, word)))

    def test_every_decimal_counts(self):
        """80.01 * 8000.25 is 640100.0025, times 0.998 is 638819.802495; and 80.1 * 8000.3 is 640824.03, times 0.998 is 639542.38194."""
        self.right(text(price="80.01", quantity="8000.25", pay="638819.80"))
        self.right(text(price="80.1", quantity="8000.3", pay="639542.38"))

    def test_a_sheet_that_rejects(self):
        """Equal readings outside a limit have a PWL of 0. The factors are 101.755, 53 and 99.28: 30.5265 + 15.9 + 39.712 = 86.1385."""
        self.right(text(voids="- 3.999 4 4", pwl="97.51 0 92.56", composite="0.861", verdict="rejected", pay="551040"))

    def test_the_most_that_can_be_paid(self):
        """All equal readings inside their limits: three factors of 103."""
        self.right(text(vma="- 4 4 4", voids="4 - 4 4", density="4 4 4 4 4", price="100000", quantity="1000000",
                        pwl="100 100 100", composite="1.03", pay="103000000000"))

    def test_nothing_is_paid_for_nothing(self):
        for more in {"price": "0"}, {"quantity": "0"}, {"price": "0", "quantity": "1000000"}, {"price": "100000", "quantity": "0"}:
            self.right(text(**more, pay="0"))


class Wrong(unittest.TestCase):
    def wrong(self, sheet, first, *lines):
        """The first that differs is named, and each has a line: its name, what the sheet has, what the rules give, and by how much."""
        told = [f"{name:17}the sheet has {theirs}, the rules give {': '.join(ours)}\n" for name, theirs, *ours in lines]
        self.assertEqual(check(sheet), (f"The sheet is wrong, first in its {first}.\n{''.join(told)}", "", 1))

    def test_a_composite_and_the_pay_that_follows_from_it(self):
        """Document 000's composite, by its own table, is 1.001: 640,000 dollars times it are 640,640."""
        self.wrong(text(composite="1.001", pay="640640"), "composite", ("composite", "1.001", "0.998", "0.003 too high"),
                   ("pay", "$640,640.00", "$638,720.00", "$1,920.00 too high"))

    def test_each_line_is_as_it_is_shown(self):
        """The same, letter for letter."""
        self.assertEqual(check(text(composite="1.001", pay="640640"))[0], (
            "The sheet is wrong, first in its composite.\n"
            "composite        the sheet has 1.001, the rules give 0.998: 0.003 too high\n"
            "pay              the sheet has $640,640.00, the rules give $638,720.00: $1,920.00 too high\n"))

    def test_each_entry_alone(self):
        for name, word, theirs, ours, more in (
            ("PWL of VMA", "97.52", "97.52", "97.51", "0.01 too high"), ("PWL of VMA", "97.5", "97.50", "97.51", "0.01 too low"),
            ("PWL of voids", "91.29", "91.29", "91.28", "0.01 too high"), ("PWL of voids", "0", "0.00", "91.28", "91.28 too low"),
            ("PWL of density", "100", "100.00", "92.56", "7.44 too high"), ("PWL of density", "92.06", "92.06", "92.56", "0.50 too low"),
            ("composite", "0.999", "0.999", "0.998", "0.001 too high"), ("composite", "0", "0.000", "0.998", "0.998 too low"),
            ("composite", "0.99", "0.990", "0.998", "0.008 too low"), ("composite", "12.3", "12.300", "0.998", "11.302 too high"),
            ("pay", "638720.01", "$638,720.01", "$638,720.00", "$0.01 too high"),
            ("pay", "638719.99", "$638,719.99", "$638,720.00", "$0.01 too low"),
            ("pay", "639720", "$639,720.00", "$638,720.00", "$1,000.00 too high"),
            ("pay", "1638725.5", "$1,638,725.50", "$638,720.00", "$1,000,005.50 too high"),
            ("pay", "999.09", "$999.09", "$638,720.00", "$637,720.91 too low"),
            ("pay", "0", "$0.00", "$638,720.00", "$638,720.00 too low"),
        ):
            self.wrong(text(**with_word(name, word)), name, (name, theirs, ours, more))

    def test_a_verdict_that_accepts_and_one_that_rejects(self):
        """A verdict has no difference. Voids of 48.33 are rejected; their factor is 77.165, and 30.5265 + 23.1495 + 39.712 = 93.388."""
        self.wrong(text(verdict="rejected"), "verdict", ("verdict", "rejected", "accepted"))
        self.wrong(text(voids="- 0.019 0 0 0 0.08", pwl="97.51 48.33 92.56", composite="0.934", pay="597760"),
                   "verdict", ("verdict", "accepted", "rejected"))

    def test_entries_that_cannot_be(self):
        """They are not refused, but differ; the largest that is taken among them."""
        self.wrong(text(**with_word("PWL of VMA", "100.01")), "PWL of VMA", ("PWL of VMA", "100.01", "97.51", "2.50 too high"))
        self.wrong(text(composite="1.031"), "composite", ("composite", "1.031", "0.998", "0.033 too high"))
        most = "10000000000000"
        for name, ours, more in (("PWL of VMA", "97.51", "9999999999902.49"), ("PWL of voids", "91.28", "9999999999908.72"),
                                 ("PWL of density", "92.56", "9999999999907.44")):
            self.wrong(text(**with_word(name, most)), name, (name, f"{most}.00", ours, f"{more} too high"))
        self.wrong(text(composite=most[:-1]), "composite", ("composite", f"{most[:-1]}.000", "0.998", "999999999999.002 too high"))
        self.wrong(text(pay=most), "pay", ("pay", "$10,000,000,000,000.00", "$638,720.00", "$9,999,999,361,280.00 too high"))

    def test_all_entries_at_once(self):
        lines = [("PWL of VMA", "98.00", "97.51", "0.49 too high"), ("PWL of voids", "92.00", "91.28", "0.72 too high"),
                 ("PWL of density", "92.00", "92.56", "0.56 too low"), ("composite", "0.997", "0.998", "0.001 too low"),
                 ("verdict", "rejected", "accepted"), ("pay", "$638,080.00", "$638,720.00", "$640.00 too low")]
        sheet = text(pwl="98 92 92", composite="0.997", verdict="rejected", pay="638080")
        self.wrong(sheet, "PWL of VMA", *lines)
        for first in range(6):
            words = {entry: line[1].strip("$").replace(",", "") for entry, line in zip(ENTRIES, lines)}
            right = dict(zip(ENTRIES, [*SHEET["pwl"].split(), SHEET["composite"], SHEET["verdict"], SHEET["pay"]]))
            given = [*(right[entry] for entry in ENTRIES[:first]), *(words[entry] for entry in ENTRIES[first:])]
            self.wrong(text(pwl=" ".join(given[:3]), composite=given[3], verdict=given[4], pay=given[5]), ENTRIES[first], *lines[first:])

    def test_the_lots_the_price_or_the_quantity_are_others(self):
        """Half the quantity is half the pay. Voids of 4.2 alone have a PWL of 100, and a factor of 103 for 98.64: 1.308 more on 99.768."""
        self.wrong(text(quantity="4000"), "pay", ("pay", "$638,720.00", "$319,360.00", "$319,360.00 too high"))
        self.wrong(text(price="40"), "pay", ("pay", "$638,720.00", "$319,360.00", "$319,360.00 too high"))
        self.wrong(text(voids="2.65 5.35" + " 4.2" * 10), "PWL of voids", ("PWL of voids", "91.28", "100.00", "8.72 too low"),
                   ("composite", "0.998", "1.011", "0.013 too low"), ("pay", "$638,720.00", "$647,040.00", "$8,320.00 too low"))

    def test_lots_in_each_other_s_place(self):
        """PWLs go with their lots: voids and VMA weigh the same, so that nothing else differs."""
        self.wrong(text(vma=SHEET["voids"], voids=SHEET["vma"]), "PWL of VMA", ("PWL of VMA", "97.51", "91.28", "6.23 too high"),
                   ("PWL of voids", "91.28", "97.51", "6.23 too low"))


def written(number, decimals):
    """A number that is given in units of its last decimal."""
    return f"{'-' * (number < 0)}{abs(number) // 10**decimals}.{abs(number) % 10**decimals:0{decimals}}"


DECIMALS = [2, 2, 2, 3, None, 2]


def for_programs(sheet):
    """The entries of a sheet, as they are written."""
    return [written(number, decimals) if decimals else ["accepted", "rejected"][number] for number, decimals in zip(sheet, DECIMALS)]


def for_programs_less(entry, difference):
    return written(difference, DECIMALS[entry]) if DECIMALS[entry] else str(difference)


class Tabs(unittest.TestCase):
    def test_plain_numbers_under_a_header(self):
        rows = [["PWL of VMA", "97.00", "97.51", "-0.51"], ["composite", "1.001", "0.998", "0.003"], ["verdict", "rejected", "accepted", "1"],
                ["pay", "1640640.00", "638720.00", "1001920.00"]]
        said = "".join("\t".join(row) + "\n" for row in rows)
        sheet = text(pwl="97 91.28 92.56", composite="1.001", verdict="rejected", pay="1640640")
        self.assertEqual(check(sheet, "--tabs"), (HEADER + said, "", 1))

    def test_a_verdict_that_the_rules_reject(self):
        sheet = text(voids="- 3.999 4 4", pwl="97.51 0 92.56", composite="0.861", pay="551039.99")
        self.assertEqual(check(sheet, "--tabs"), (f"{HEADER}verdict\taccepted\trejected\t-1\npay\t551039.99\t551040.00\t-0.01\n", "", 1))

    def test_nothing_is_said_of_a_sheet_that_cannot_be_checked(self):
        for sheet in text(pay=None), text(pay="x"), text(pay="-1"), b"":
            said, fault, status = check(sheet, "--tabs")
            self.assertEqual((said, fault, status), ("", check(sheet)[1], 1))
            self.assertTrue(fault)


class Second(unittest.TestCase):
    """Sheets that the second program works out, right ones and wrong ones."""

    def some_lot(self, rng):
        """A lot as the second program has it, and as it is written."""
        middle, spread = rng.choice(((13_000, 900), (4_000, 1_500), (93_000, 2_000), (0, 3), (-200_000, 150_000)))
        readings = [middle + rng.randint(-spread, spread) for _ in range(rng.randint(2, 10))]
        lower, upper = sorted(middle + rng.randint(-2 * spread, 2 * spread) for _ in range(2))
        present = rng.choice(((1, 1), (1, 1), (0, 1), (1, 0)))
        limits = [written(limit, 3) if there else "-" for limit, there in zip((lower, upper), present)]
        lot = lot_of(upper, present[1], lower, present[0], len(readings), tuple(readings))
        return lot, " ".join([*limits, *(written(reading, 3) for reading in readings)])

    def changed(self, rng, entry, number):
        if entry == 4:
            return 1 - number
        return abs(number + rng.choice((-1, 1, -100, 100, 12_345, rng.randint(-(10**9), 10**9))))

    def test_what_differs_is_what_the_second_program_says(self):
        rng, seen = random.Random(106), set()
        for entries in itertools.chain(*itertools.repeat([set(), *({entry} for entry in range(6)), None, None, None], 20)):
            lots, lines = zip(*(self.some_lot(rng) for _ in range(3)))
            price, quantity = rng.choice(((8_000, 800_000), (rng.randint(0, 10_000_000), rng.randint(0, 100_000_000))))
            ours = our_sheet(lots, TABLE_106_1, price, quantity)
            entries = set(rng.sample(range(6), rng.randint(2, 6))) if entries is None else entries
            theirs = [self.changed(rng, entry, number) if entry in entries else number for entry, number in enumerate(ours)]
            words = for_programs(theirs)
            sheet = [f"{name} {line}" for name, line in zip(SHEET, [
                *lines, written(price, 2), written(quantity, 2), " ".join(words[:3]), *words[3:]], strict=True)]
            rows = [[ENTRIES[entry], words[entry], for_programs(ours)[entry], for_programs_less(entry, this - that)]
                    for entry, this, that in differences(theirs, ours)]
            seen.add(frozenset(row[0] for row in rows))
            said = "".join("\t".join(row) + "\n" for row in rows)
            with self.subTest(sheet):
                self.assertEqual(check("\n".join(rng.sample(sheet, 9)).encode(), "--tabs"), (HEADER + said, "", 1 if rows else 0))
        self.assertLessEqual({frozenset(), *(frozenset([entry]) for entry in ENTRIES)}, seen)


class Bad(unittest.TestCase):
    """Sheets that cannot be checked: the first fault is told, and nothing is answered."""

    def told(self, sheet, fault):
        self.assertEqual(check(sheet), ("", f"notebook: {fault}\n", 1))

    def words(self, entry, fault, *words):
        """A word for one of the numbers is told with this fault."""
        for word in words:
            word = word if isinstance(word, bytes) else word.encode()
            self.told(text(**with_word(entry, word)), f"line {LINE[PLACES[entry][0]]}: {fault.replace('{}', shown(word))}")

    def test_names_that_a_sheet_does_not_have(self):
        for name in (b"VMA", b"Voids", b"pays", b"pa", b"PWL", b"pay:", b"2.65", b"-", b"composite,", b"x" * 24, b"x" * 25, b"x" * 70000,
                     b"pay\0", b"\0", b"\xef\xbb\xbfvma", b"pay\rverdict", b"\r", b"\x1b[2J", b"p\xc3\xa4y"):
            for rest in b" 1", b" ", b" x y":
                self.told(text([name + rest]), f"line 10: {shown(name)} is not a name that a sheet has; --help shows them")
        self.told(b"2.65 5.35 4.2 4.5\n", 'line 1: "2.65" is not a name that a sheet has; --help shows them')

    def test_a_name_that_comes_a_second_time(self):
        for name in SHEET:
            for words in SHEET[name], "", "x":
                self.told(text([f"{name} {words}".encode()]), f'line 10: "{name}" comes a second time')

    def test_a_line_that_is_missing(self):
        missing = ["the lot of VMA is", "the lot of voids is", "the lot of density is", "the price is", "the quantity is", "the PWLs are",
                   "the composite is", "the verdict is", "the pay is"]
        for name, told in zip(SHEET, missing, strict=True):
            self.told(text(**{name: None}), f"{told} missing")
        self.told(text(pay=None, price=None), "the price is missing")
        for nothing in b"", b"\n\n", b"# vma\n", b"\r\n":
            self.told(nothing, "the lot of VMA is missing")

    def test_not_a_number(self):
        words = "x +4 .5 5. 4,2 $4 $638,720.00 638,720.00 4% 1e3 0x10 nan inf --4 - -x -.5 4- 4.2.1 4.x # 80# accepted".split()
        words += [b"\0", b"4\0", b"4\xff", b"4\r4", b"4\r", b"\x1b[2J", b"4\x0b", "x" * 25, "\u0664"]
        for entry in PLACES:
            if entry != "verdict":
                some = words if entry in ("price", "pay") else words[::4]
                # a carriage return at the end of a line is no part of it
                self.words(entry, f"the {entry} {{}} is not a number", *(word for word in some if word != b"4\r"))
        self.told(text(pwl=b"4\r 5 6"), 'line 6: the PWL of VMA "4\\x0d" is not a number')

    def test_too_many_decimals(self):
        for entry in PLACES:
            if entry not in ("verdict", "composite"):
                self.words(entry, f"the {entry} {{}} has more than two decimals", "4.001", "80.0001", "-0.005", "4.001x",
                           f"4.{'0' * 9000}1", f"{'9' * 9000}.001")
        self.words("composite", "the composite {} has more than three decimals", "0.9985", "0.0001", "1.00000001", f"{'9' * 9000}.0001")

    def test_verdicts_that_are_none(self):
        self.words("verdict", "the verdict {} is neither accepted nor rejected", "Accepted", "REJECTED", "accept", "accepted.", "rejecte",
                   "0", "1", "-", b"accepted\0", b"accepted\rpay", b"\xffaccepted", "accepted" * 4)

    def test_words_that_are_missing(self):
        for name in "price", "quantity", "composite", "verdict", "pay":
            for words in "", " \t ", "\r":
                self.told(text(**{name: words}), f"line {LINE[name]}: the {name} is missing")
        for count, entry in enumerate(ENTRIES[:3]):
            self.told(text(pwl=" ".join(SHEET["pwl"].split()[:count])), f"line 6: the {entry} is missing")
        for name in "vma", "voids", "density":
            for words, limit in ("", "lower"), (" \t", "lower"), ("4", "upper"), ("- ", "upper"):
                self.told(text(**{name: words}), f"line {LINE[name]}: the {limit} limit is missing")

    def test_words_too_many(self):
        for name in "price", "quantity", "pwl", "composite", "verdict", "pay":
            for more in "4", "x", "#", "x" * 30, "dollars a ton", SHEET[name]:
                self.told(text(**{name: f"{SHEET[name]} {more}"}), f"line {LINE[name]}: {shown(more.split()[0].encode())} is a word too many")

    def test_lots_that_are_none(self):
        for name in "vma", "voids", "density":
            for words, fault in {
                "x 5 4 4": 'the lower limit "x" is not a number', "4 4,5 4 4": 'the upper limit "4,5" is not a number',
                "- 5 4 4.0001": 'reading 2 "4.0001" has more than three decimals', "- 5 4 -": 'reading 2 "-" is not a number',
                "- 5" + " 4" * 20 + " x": 'reading 21 "x" is not a number', "- 5 4 4\r4": 'reading 2 "4\\x0d4" is not a number',
            }.items():
                self.told(text(**{name: words}), f"line {LINE[name]}: {fault}")

    def test_carriage_returns_alone_end_no_line(self):
        self.told(text().replace(b"\n", b"\r"), f"line 1: reading 10 {shown(b'12.8' + chr(13).encode() + b'voids')} is not a number")
        for comment in b"# a sheet\rvma 4 4", b"#\r#", b" # \r\r":
            self.told(text([comment]), "line 10: a carriage return within a comment")

    def test_the_first_fault_is_told(self):
        """In the order of the lines: before what is missing, and before what is refused, which is known at the end."""
        self.told(text(price="x", pay="y"), 'line 4: the price "x" is not a number')
        self.told(text([b"x", b"y"]), 'line 10: "x" is not a name that a sheet has; --help shows them')
        self.told(text([b"pay", b"#\r#"]), 'line 10: "pay" comes a second time')
        self.told(text(vma="- - 4", price="-1", pay="x"), 'line 9: the pay "x" is not a number')
        self.told(text(vma=None, pay="x"), 'line 8: the pay "x" is not a number')
        self.told(text(vma="- - 4", pay=None), "the pay is missing")
        self.told(text(pwl="x 4.001 y"), 'line 6: the PWL of VMA "x" is not a number')
        self.told(text(pwl="4 4.001 y"), 'line 6: the PWL of voids "4.001" has more than two decimals')

    def test_lines_are_counted(self):
        for before in b"\n", b"# a sheet\n\n", b"\r\n" * 99:
            self.told(before + text(pay="x"), f'line {9 + before.count(10)}: the pay "x" is not a number')
            self.told(before + text(pay="-1"), f'line {9 + before.count(10)}: refusal 9, the pay "-1" is not from 0 to 10,000,000,000,000 dollars')

    def test_long_lines(self):
        much = 300000
        self.assertEqual(check(b"#" + b" 4 x" * much + b"\n" + b" " * much + b"\n" + text(pay=b"\t" * much + b"638720")), (RIGHT, "", 0))
        self.told(text(pay="4 " * much), 'line 9: "4" is a word too many')


class Refused(unittest.TestCase):
    """Sheets that the library refuses, and which of their parts is to blame."""
    told, words = Bad.told, Bad.words

    def test_lots(self):
        for name in "vma", "voids", "density":
            for words, fault in {
                "- 5": "4, a lot has 2 to 17 readings, and this has 0",
                "- - 501": "4, a lot has 2 to 17 readings, and this has 1",
                "- 5" + " 4" * 18: "4, a lot has 2 to 17 readings, and this has 18",
                "- 5" + " 4" * 300: "4, a lot has 2 to 17 readings, and this has 300",
                "2.65 5.35 4.2 4.5 600": '5, reading 3 "600" is out of range',
                "- 5" + " 4" * 16 + " 501": '5, reading 17 "501" is out of range',
                "- 500.001 4 4": '5, the upper limit "500.001" is out of range',
                "-500.001 - 4 4": '5, the lower limit "-500.001" is out of range',
                "- - 4 4": "6, both limits are absent",
                "5 4 4 4": '7, the lower limit "5" is above the upper limit "4"',
                "- 5" + " 4" * 11: "10, the table has no column for 11 readings, so there is no PWL",
                "- 5" + " 4" * 17: "10, the table has no column for 17 readings, so there is no PWL",
            }.items():
                self.told(text(**{name: words}), f"line {LINE[name]}: refusal {fault}")

    def test_price_and_quantity(self):
        self.words("price", "refusal 9, the price {} is not from 0 to 100,000 dollars a ton", "200000", "100000.01", "-0.01", "-80")
        self.words("quantity", "refusal 9, the quantity {} is not from 0 to 1,000,000 tons", "2000000", "1000000.01", "-0.01", "-8000")

    def test_entries(self):
        for entry in "PWL of VMA", "PWL of voids", "PWL of density":
            self.words(entry, f"refusal 9, the {entry} {{}} is not from 0 to 10,000,000,000,000 percent", "-0.01", "-91.28", "10000000000000.01")
        self.words("composite", "refusal 9, the composite {} is not from 0 to 1,000,000,000,000", "-0.001", "-1", "1000000000000.001")
        self.words("pay", "refusal 9, the pay {} is not from 0 to 10,000,000,000,000 dollars", "-0.01", "-1", "10000000000000.01")

    def test_numbers_too_large_for_any_type(self):
        """Some would be the right number if they wrapped at 32 or 64 bits."""
        ranges = {"price": "0 to 100,000 dollars a ton", "quantity": "0 to 1,000,000 tons", "PWL of voids": "0 to 10,000,000,000,000 percent",
                  "composite": "0 to 1,000,000,000,000", "pay": "0 to 10,000,000,000,000 dollars"}
        right = {"price": 8000, "quantity": 800000, "PWL of voids": 9128, "composite": 998, "pay": 63872000}
        for entry, within in ranges.items():
            whole = [right[entry] + 2**64, right[entry] + 2**65, 2**63 - 1, 2**63, 2**64 - 1, 10**4000 + right[entry]]
            words = [written(number, 3 if entry == "composite" else 2) for number in whole] + ["9" * 9000]
            self.words(entry, f"refusal 9, the {entry} {{}} is not from {within}", *words, *(f"-{word}" for word in words))
        self.words("price", "refusal 9, the price {} is not from 0 to 100,000 dollars a ton", written(right["price"] + 2**32, 2))

    def test_the_order_is_the_library_s(self):
        """Whatever the order of the lines: each part is to blame as long as it is refused, and then the next."""
        lines = dict(vma="- - 4 4", voids="- 5 4", density="5 4 4 4", price="-1", quantity="-2", pwl="-3 -4 -5", composite="-6", pay="-7")
        faults = [("vma", "refusal 6, both limits are absent"), ("voids", "refusal 4, a lot has 2 to 17 readings, and this has 1"),
                  ("density", 'refusal 7, the lower limit "5" is above the upper limit "4"'),
                  ("price", 'refusal 9, the price "-1" is not from 0 to 100,000 dollars a ton'),
                  ("quantity", 'refusal 9, the quantity "-2" is not from 0 to 1,000,000 tons'),
                  ("pwl", 'refusal 9, the PWL of VMA "-3" is not from 0 to 10,000,000,000,000 percent'),
                  ("composite", 'refusal 9, the composite "-6" is not from 0 to 1,000,000,000,000'),
                  ("pay", 'refusal 9, the pay "-7" is not from 0 to 10,000,000,000,000 dollars')]
        for order in list(SHEET), list(SHEET)[::-1], sorted(SHEET):
            given = dict(lines)
            for name, fault in faults:
                whole = {**SHEET, **given}
                self.told("\n".join(f"{each} {whole[each]}" for each in order).encode(), f"line {order.index(name) + 1}: {fault}")
                del given[name]
        self.told(text(pwl="97.51 -4 -5"), 'line 6: refusal 9, the PWL of voids "-4" is not from 0 to 10,000,000,000,000 percent')

    def test_a_refusal_comes_before_what_is_wrong(self):
        self.told(text(pwl="0 0 0", composite="0", pay="-1"), 'line 9: refusal 9, the pay "-1" is not from 0 to 10,000,000,000,000 dollars')


class Editions(unittest.TestCase):
    """Sheets that are checked by an edition of a store: Table 106-1 as edition 7, as edition 8 one by which each lot of the example has a PWL of 100, and as
    edition 9 one that has no column for ten readings."""

    @classmethod
    def setUpClass(cls):
        files = contextlib.ExitStack()
        cls.addClassCleanup(files.close)
        cls.store = files.enter_context(stored(edition(7, TABLE), edition(8, {10: STEEP}), edition(9, {9: STEEP})))

    def check(self, number, sheet, *options):
        return check(sheet, *options, "--store", self.store, "--edition", str(number))

    def test_a_sheet_is_right_by_its_own_edition(self):
        """Three factors of 103 make a composite of 1.030, and 640,000 dollars times it are 659,200."""
        best = text(pwl="100 100 100", composite="1.03", pay="659200")
        for number, sheet in (7, text()), (8, best):
            self.assertEqual(self.check(number, sheet), (RIGHT, "", 0))
            self.assertEqual(self.check(number, sheet, "--tabs"), (HEADER, "", 0))

    def test_a_sheet_is_wrong_by_another(self):
        """Its first entry that differs is named, and each that differs shown, by the edition that is asked for."""
        self.assertEqual(self.check(8, text(pwl="97.51 100 100", composite="1.03")), (
            "The sheet is wrong, first in its PWL of VMA.\n"
            "PWL of VMA       the sheet has 97.51, the rules give 100.00: 2.49 too low\n"
            "pay              the sheet has $638,720.00, the rules give $659,200.00: $20,480.00 too low\n", "", 1))
        rows = [["PWL of VMA", "97.51", "100.00", "-2.49"], ["PWL of voids", "91.28", "100.00", "-8.72"], ["PWL of density", "92.56", "100.00", "-7.44"],
                ["composite", "0.998", "1.030", "-0.032"], ["pay", "638720.00", "659200.00", "-20480.00"]]
        self.assertEqual(self.check(8, text(), "--tabs"), (HEADER + "".join("\t".join(row) + "\n" for row in rows), "", 1))

    def test_tabs_may_stand_between_the_options(self):
        ran = notebook("--edition", "7", "--tabs", "--store", self.store, "--check", "-", input=text())
        self.assertEqual((ran.stdout.decode(), ran.stderr, ran.returncode), (HEADER, b"", 0))

    def test_a_lot_without_a_column_is_to_blame(self):
        """The first, after all that lots are refused for otherwise; price and quantity come after."""
        none = "refusal 10, edition 9 has no column for 10 readings, so there is no PWL"
        for options in [], ["--tabs"]:
            self.assertEqual(self.check(9, text(price="-1"), *options), ("", f"notebook: line 1: {none}\n", 1))
        nine = "- 5" + " 4" * 9
        self.assertEqual(self.check(9, text(vma=nine)), ("", f"notebook: line 2: {none}\n", 1))
        self.assertEqual(self.check(9, text(vma=nine, voids=nine)), ("", f"notebook: line 3: {none}\n", 1))
        self.assertEqual(self.check(9, text(vma="- -" + " 4" * 10)), ("", "notebook: line 1: refusal 6, both limits are absent\n", 1))
        self.assertEqual(self.check(9, text(voids="5 4 4 4")), ("", f"notebook: line 1: {none}\n", 1))

    def test_price_quantity_and_entries_are_refused_alike(self):
        for changed in {"price": "-1"}, {"quantity": "2000000"}, {"pay": "-1"}, {"pay": "x"}, {"pay": None}:
            self.assertEqual(self.check(8, text(**changed)), check(text(**changed)))

    def test_a_store_that_is_refused(self):
        """It is told before the sheet is read; here that has a fault too."""
        for number, parts, fault in (
            (8, [edition(7, TABLE)], "13, it has no edition 8; it has 7"), (7, [], "13, it has no edition 7; it has none"),
            (7, [edition(7, TABLE)[:-1]], "11, it is not up to 8 editions with rising numbers: the entry at byte 0 is wrong"),
            (7, [edition(7, TABLE), b"pay 3"], "11, it is not up to 8 editions with rising numbers: the entry at byte 979 is wrong"),
        ):
            with stored(*parts) as store:
                for sheet, options in itertools.product((text(), text(pay="x"), b""), ([], ["--tabs"])):
                    self.assertEqual(check(sheet, *options, "--store", store, "--edition", str(number)), ("", f"notebook: {store}: refusal {fault}\n", 1))


class Files(unittest.TestCase):
    def test_a_file_that_cannot_be_opened(self):
        with tempfile.TemporaryDirectory() as folder:
            for name in f"{folder}/none", "":
                ran = notebook("--check", name)
                self.assertEqual((ran.stdout, ran.returncode), (b"", 2))
                self.assertRegex(ran.stderr.decode(), rf"\Anotebook: {re.escape(name)} cannot be opened: .+\n\Z")

    def test_a_file_that_cannot_be_read(self):
        with tempfile.TemporaryDirectory() as folder:
            for options in [], ["--tabs"]:
                ran = notebook(*options, "--check", folder)
                self.assertEqual((ran.stdout, ran.stderr.decode(), ran.returncode), (b"", f"notebook: {folder} cannot be read\n", 2))

    def test_a_sheet_that_is_cut_short_is_not_checked(self):
        """A terminal that hangs up is an error to whoever reads from its other side. A line that has no end then is not told."""
        cut, short = text().rstrip(b"\n"), text(pay=None)
        for sheet in text(), cut, text(pay=""), text(pay="63872"), text(pay="x").rstrip(b"\n"), short, short + b"p", short + b"pay":
            ours, theirs = pty.openpty()
            with os.fdopen(ours, "rb", buffering=0) as stream:
                tty.setraw(theirs)
                os.write(theirs, sheet)
                os.close(theirs)
                ran = notebook("--check", "-", stdin=stream)
            # a bad line that has its end is told before the rest is read
            self.assertEqual((ran.stdout, ran.returncode), (b"", 2))
            self.assertEqual(ran.stderr.splitlines()[-1:], [b"notebook: standard input cannot be read"])
            self.assertEqual(len(ran.stderr.splitlines()), 2 if sheet == text(pay="") else 1)


if __name__ == "__main__":
    unittest.main()
