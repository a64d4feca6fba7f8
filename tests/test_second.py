"""The compiled library answers as the second program does, which shares no file with it; and the comparison tells a library that does not."""
import re
import struct
import subprocess
import sys
import unittest

from building import ROOT, make, running

WRONG = "target/wrong"


def second(program, *words):
    """A program of second/: its exit status and what it prints."""
    done = subprocess.run([sys.executable, f"second/{program}", *words], cwd=ROOT, stdin=subprocess.DEVNULL,
                          stdout=subprocess.PIPE, stderr=subprocess.STDOUT, text=True)
    return done.returncode, done.stdout


class Second(unittest.TestCase):
    def test_library_and_second_program_agree(self):
        status, said = second("compare.py", *running("target/host/answers"))
        print(f"\n{said}", flush=True)
        self.assertEqual(status, 0, said)
        counts = [int(number.replace(",", "")) for number in re.findall(r" ([\d,]+) compared, 0 differ", said)]
        self.assertGreaterEqual(sum(counts), 1_000_000)
        # each row was found by as many tries as the law says
        found = re.findall(r"rows found by (\d+) tries, \d+: (.*)", said)
        tries = {int(row): int(tried) for tried, rows in found for row in rows.split()}
        (law,) = re.findall(r"^tries_by_row =\n(.*?)\[\]$", (ROOT / "crates/laws/specs/Tried.antt").read_text("utf-8"), re.M | re.S)
        self.assertEqual([tries[row] for row in range(54)], [int(tried) for tried in re.findall(r"\d+", law)])

    def test_a_wrong_constant_is_told(self):
        """In a copy of the library the entry for ten readings at index 1.20 is 88.75, where the table has 88.76."""
        *words, _ = running("target/host/answers")
        (ROOT / WRONG).mkdir(parents=True, exist_ok=True)
        library = (ROOT / "target/lib/libtulpavice.a").read_bytes()
        old, new = struct.pack(">3H", 8766, 8876, 8979), struct.pack(">3H", 8766, 8875, 8979)
        self.assertEqual(library.count(old), 1)
        (ROOT / WRONG / "libtulpavice.a").write_bytes(library.replace(old, new))
        make(f"HOST={WRONG}", f"LIBRARY={WRONG}/libtulpavice", f"{WRONG}/answers")
        status, said = second("compare.py", "--stop", *words, f"{WRONG}/answers")
        self.assertEqual(status, 1, said)
        # an evaluation reads what it is lent: it is the table that is written as an edition that has it
        found = re.search(r"call    table .*\nlibrary .*\nsecond  .*\nat character \d+ the library has (\w+), the second (\w+)", said)
        self.assertTrue(found, said)
        self.assertIn(new.hex(), found[1])
        self.assertIn(old.hex(), found[2])

    def test_what_the_beta_distribution_says_is_written_down(self):
        status, said = second("beta.py")
        self.assertEqual(status, 0, said)
        off = re.findall(r"n=(\d+) index ([\d.]+): the table has ([\d.]+), the formula gives ([\d.]+)", said)
        self.assertTrue(off, said)
        decisions = (ROOT / "docs/DECISIONS.md").read_text("utf-8")
        self.assertEqual(re.findall(r"\| n = (\d+) \| ([\d.]+) \| ([\d.]+) \| ([\d.]+) \|", decisions), off)
