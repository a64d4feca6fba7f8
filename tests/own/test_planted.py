"""The runner of edits tells apart what it must, and nothing that an edit leaves behind reaches the next."""
import contextlib
import io
import tempfile
import unittest
from pathlib import Path

import planted
from edits import read_edit, refused_in

TREE = {
    "crates.txt": "toy_rules:\ntoy_laws: toy_rules\ntoy_sums: toy_rules\n",
    "crates/toy_rules/src/lib.rt": "// No code.\n#![tactic(auto)]\n",
    "crates/toy_rules/specs/Lib.antt": "pub mod Row\n",
    "crates/toy_rules/specs/Row.antt": """-- The row of a reading.
use Rattle.std.specs.Prelude.{ℕ, ◌+◌, ◌*◌}

unfoldable pub row : ℕ → ℕ
row n = n + 3

unfoldable pub twice : ℕ → ℕ
twice n = 2 * n
""",
    "crates/toy_laws/src/lib.rt": "// No code.\n#![tactic(auto)]\n",
    "crates/toy_laws/specs/Lib.antt": "pub mod Own\n",
    "crates/toy_laws/specs/Own.antt": """-- A number.
use Rattle.std.specs.Prelude.{ℕ}

pub own : ℕ → ℕ
own n = n

pub seven : ℕ
seven = 7
""",
    "crates/toy_laws/proofs/Lib.antt": "pub mod Desk\npub mod Turned\n",
    "crates/toy_laws/proofs/Desk.antt": """-- What the desk has.
use Rattle.std.proofs.Common.{◌≡◌, refl}
use Rattle.toy_rules.specs.Row.{row}

pub desk : row 4 ≡ 7
unfolding row
desk = refl
""",
    "crates/toy_laws/proofs/Turned.antt": """-- What the desk has, turned.
use Rattle.std.proofs.Common.{◌≡◌, sym}
use Rattle.toy_rules.specs.Row.{row}
use Rattle.toy_laws.proofs.Desk.{desk}

pub turned : 7 ≡ row 4
turned = sym desk
""",
    "crates/toy_sums/src/lib.rt": """// Sums.
#![tactic(auto)]

ghost use Rattle.std.specs.Prelude.{◌≡◌, ◌+◌, ◌<◌};
ghost use Rattle.toy_rules.specs.Row.{row};

// The prover proves it by itself.
pub fn after(n: u32) -> u32
    requires { n < 100 }
    ensures { result ≡ n + 3 }
{
    n + 3
}

// And this one.
pub fn twice(n: u32) -> u32
    requires { n < 100 }
    ensures { result ≡ n + n }
{
    n + n
}

pub fn row(n: u32) -> u32
    requires { n < 100 }
    ensures { result ≡ row n }
{
    after(n)
}
""",
    "crates/toy_sums/proofs/row/Answers.antt": """-- The row is three after.
use Rattle.toy_rules.specs.Row.{row}
use Rattle.toy_sums.proofs.row.Goals as goal

pub returns : goal.returns
unfolding row
returns c = c.after.ensures
""",
}
# An edit of a definition, refused by a law of the crate above.
RULE = """# the row is one too high
refused: Desk
file: crates/toy_rules/specs/Row.antt
old: n + 3
new: n + 4
"""
# An edit of code, refused in the function's own proof; and one of a function that has no file of its own.
CODE = """# every row is the seventh
refused: row
file: crates/toy_sums/src/lib.rt
old:     after(n)
new:     after(n) - 1
"""
AFTER = """# four for three
refused: after
file: crates/toy_sums/src/lib.rt
old:     n + 3
new:     n + 4
"""
# An edit of a function that no other calls, and that calls none.
TWICE = """# one more than twice
refused: twice
file: crates/toy_sums/src/lib.rt
old:     n + n
new:     n + n + 1
"""
# An edit that no promise sees.
GOOD = """# three and n
refused: after
file: crates/toy_sums/src/lib.rt
old:     n + 3
new:     3 + n
"""


class Trial(unittest.TestCase):
    """The trial of an edit, on crates of its own."""

    @classmethod
    def setUpClass(cls):
        cls.folder = tempfile.TemporaryDirectory()
        cls.addClassCleanup(cls.folder.cleanup)
        cls.root = Path(cls.folder.name).resolve()
        for name, text in TREE.items():
            (cls.root / name).parent.mkdir(parents=True, exist_ok=True)
            (cls.root / name).write_text(text, "utf-8")
        with contextlib.redirect_stdout(io.StringIO()) as said:
            lost = planted.made(cls.root)
        if lost:
            raise ValueError(said.getvalue())
        cls.kept = tempfile.TemporaryDirectory()
        cls.addClassCleanup(cls.kept.cleanup)
        cls.bench = planted.Bench(planted.Proved(cls.root, cls.kept.name))

    def edit(self, crate, text, *changes, label="toy"):
        """An edit that a crate must refuse, with some of its lines changed."""
        for old, new in changes:
            self.assertEqual(text.count(old), 1)
            text = text.replace(old, new)
        file = self.root / f"{label}.edit"
        file.write_text(text, "utf-8")
        return read_edit(file, f"{crate}/{label}", crate)

    def says(self, words, crate, text, *changes, judge=planted.by_the_prover):
        """What the trial says of it; no words, no complaint."""
        why, _ = self.bench.plant(self.edit(crate, text, *changes), judge)
        self.assertIn(words, why) if words else self.assertEqual(why, "")

    def test_a_wrong_rule_is_refused(self):
        self.says("", "toy_laws", RULE)

    def test_wrong_code_is_refused(self):
        self.says("", "toy_sums", CODE)

    def test_wrong_code_that_the_prover_proves_itself_is_refused(self):
        self.says("", "toy_sums", AFTER)

    def test_an_edit_of_two_lines(self):
        self.says("", "toy_laws", RULE, ("old: n + 3", r"old: unfoldable pub row : ℕ → ℕ\nrow n = n + 3"),
                  ("new: n + 4", r"new: unfoldable pub row : ℕ → ℕ\nrow n = n + 4"))

    def test_what_no_law_sees_is_not_refused(self):
        self.says("NOT REFUSED", "toy_laws", RULE, ("old: n + 3", "old: 2 * n"), ("new: n + 4", "new: 3 * n"))

    def test_a_comment_is_not_refused(self):
        self.says("NOT REFUSED", "toy_laws", RULE, ("old: n + 3", "old: of a reading"), ("new: n + 4", "new: of any reading"))

    def test_code_that_is_as_good_is_not_refused(self):
        self.says("NOT REFUSED", "toy_sums", GOOD)

    def test_a_text_that_is_not_there(self):
        self.says("BAD EDIT", "toy_laws", RULE, ("old: n + 3", "old: n + 9"))

    def test_a_text_that_is_there_twice(self):
        self.says("BAD EDIT", "toy_laws", RULE, ("old: n + 3", "old: unfoldable"))

    def test_a_file_that_is_not_there(self):
        self.says("BAD EDIT", "toy_laws", RULE, ("specs/Row.antt", "specs/Rows.antt"))

    def test_no_replacement(self):
        self.says("BAD EDIT", "toy_laws", RULE, ("old: n + 3\nnew: n + 4\n", ""))

    def test_an_edit_of_a_proof_and_nothing_else(self):
        self.says("BAD EDIT", "toy_laws", RULE, ("toy_rules/specs/Row.antt", "toy_laws/proofs/Desk.antt"), ("old: n + 3", "old: 7"))

    def test_a_rule_that_is_itself_broken(self):
        self.says("toy_rules, the edited crate, is itself not proved", "toy_laws", RULE, ("new: n + 4", "new: n +"))

    def test_a_rule_that_names_nothing(self):
        self.says("toy_rules, the edited crate, is itself not proved", "toy_laws", RULE, ("new: n + 4", "new: m + 4"))

    def test_a_rule_that_is_hidden(self):
        self.says("a name is unknown", "toy_laws", RULE, ("old: n + 3", "old: unfoldable pub row"), ("new: n + 4", "new: row"))

    def test_a_definition_beside_the_law_that_is_ill_formed(self):
        self.says("is itself ill-formed", "toy_laws", RULE, ("toy_rules/specs/Row.antt", "toy_laws/specs/Own.antt"), ("old: n + 3", "old: seven = 7"),
                  ("new: n + 4", "new: seven = own"))

    def test_code_that_does_not_compile(self):
        self.says("BAD EDIT: it did not reach the prover", "toy_sums", CODE, ("new:     after(n) - 1", "new:     after(n"))

    def test_code_that_mixes_types(self):
        self.says("BAD EDIT: it did not reach the prover", "toy_sums", CODE, ("new:     after(n) - 1", "new:     after(n) as u64"))

    def test_code_that_its_proof_does_not_fit(self):
        self.says("the proof file does not fit", "toy_sums", CODE, ("new:     after(n) - 1", "new:     n + 4"))
        self.says("the proof file does not fit", "toy_sums", CODE, ("new:     after(n) - 1", "new:     if n < 7 { after(n) } else { 7 }"))

    def test_code_that_calls_as_it_may_not_is_refused(self):
        self.says("", "toy_sums", CODE, ("new:     after(n) - 1", "new:     after(n + 1)"))

    def test_a_loop_without_a_measure_is_not_refused_for_a_fact(self):
        loop = "new:     let mut i = 0; while i < n { i = i + 1; } i + n"
        self.says("no fact was tried", "toy_sums", TWICE, ("new:     n + n + 1", loop))

    def test_a_law_of_another_file(self):
        self.says("and not Record", "toy_laws", RULE, ("refused: Desk", "refused: Record"))

    def test_one_law_of_two(self):
        self.says("and not Record", "toy_laws", RULE, ("refused: Desk", "refused: Desk Record"))

    def test_another_function(self):
        self.says("and not row", "toy_sums", AFTER, ("refused: after", "refused: row"))

    def test_a_crate_that_is_not_there(self):
        self.says("crates.txt does not list it", "lores", RULE)

    def test_a_crate_that_does_not_stand_on_it(self):
        self.says("does not depend on what is edited", "toy_rules", RULE, ("toy_rules/specs/Row.antt", "toy_laws/specs/Own.antt"), ("old: n + 3", "old: = 7"))

    def test_no_comment(self):
        self.says("BAD EDIT", "toy_laws", RULE, ("# the row is one too high\n", ""))

    def test_no_proof(self):
        self.says("BAD EDIT", "toy_laws", RULE, ("refused: Desk\n", ""))

    def test_a_mixing_of_kinds(self):
        mixing = CODE.replace("refused: row", "refused: expected `u32`, found `u64`").replace("after(n) - 1", "after(n as u64)")
        self.says("", "toy_sums", mixing, judge=planted.by_the_compiler)
        self.says("the compiler does not refuse it", "toy_sums", mixing, ("found `u64`", "found `u16`"), judge=planted.by_the_compiler)
        self.says("the compiler does not refuse it", "toy_sums", mixing, ("after(n as u64)", "after(n)"), judge=planted.by_the_compiler)

    def grouped(self, *texts):
        """The groups in which edits of code are planted, by their places among them."""
        edits = [self.edit("toy_sums", text, label=str(at)) for at, text in enumerate(texts)]
        return [[edits.index(edit) for edit in group] for group in planted.groups(self.root, edits)], edits

    def test_edits_of_two_functions_are_planted_together(self):
        groups, edits = self.grouped(CODE, TWICE)
        self.assertEqual(groups, [[0, 1]])
        said = self.bench.plant_all(edits, planted.by_the_prover)
        self.assertEqual([why for why, _ in said], ["", ""])
        self.assertEqual([refused_in(log) for _, log in said], [{("toy_sums", "row")}, {("toy_sums", "twice")}])

    def test_an_edit_that_is_not_refused_is_told_among_others(self):
        groups, edits = self.grouped(TWICE, GOOD)
        self.assertEqual(groups, [[0, 1]])
        (first, _), (second, _) = self.bench.plant_all(edits, planted.by_the_prover)
        self.assertEqual(first, "")
        self.assertIn("NOT REFUSED", second)

    def test_a_proof_that_is_spoiled_is_told_among_others(self):
        spoiled = CODE.replace("- 1", "+ 0") + "file: crates/toy_sums/proofs/row/Answers.antt\nold: returns c = c.after.ensures\nnew: returns c = c.after.ensures c\n"
        groups, edits = self.grouped(TWICE, spoiled)
        self.assertEqual(groups, [[0, 1]])
        (first, _), (second, _) = self.bench.plant_all(edits, planted.by_the_prover)
        self.assertEqual(first, "")
        self.assertIn("the edited text is itself ill-formed", second)

    def test_an_edit_of_a_caller_that_is_not_refused_is_told_beside_one_of_what_it_calls(self):
        """They are not planted together; and if they were, the one would not pass for the other."""
        groups, edits = self.grouped(AFTER, CODE.replace("after(n) - 1", "{ after(n) }"))
        self.assertEqual(groups, [[0], [1]])
        (first, _), (second, _) = self.bench.plant_all(edits, planted.by_the_prover)
        self.assertEqual(first, "")
        self.assertIn("NOT REFUSED", second)

    def test_an_edit_that_does_not_compile_is_told_among_others(self):
        (first, _), (second, _) = self.bench.plant_all(self.grouped(CODE, AFTER.replace("n + 4", "m + 4"))[1], planted.by_the_prover)
        self.assertEqual(first, "")
        self.assertIn("did not reach the prover", second)

    def test_edits_that_are_planted_alone(self):
        """Of one function; whose text the other has twice; of a promise; refused elsewhere than they change; that bring a function."""
        for other in (AFTER, TWICE.replace("n + 1", "n;     n + 3"), TWICE.replace("    n + n", "≡ n + n"),
                      TWICE.replace("refused: twice", "refused: after twice"), TWICE.replace("n + 1", "n } fn more(n: u32) -> u32 { 7")):
            self.assertEqual(self.grouped(other, GOOD)[0], [[0], [1]], other)

    def test_edits_are_planted_alone_where_a_constant_may_be_what_code_returns(self):
        source = self.root / "crates/toy_sums/src/lib.rt"
        self.addCleanup(source.write_text, TREE["crates/toy_sums/src/lib.rt"], "utf-8")
        source.write_text(TREE["crates/toy_sums/src/lib.rt"] + "const fn seven() -> u32 { 7 }\n", "utf-8")
        self.assertEqual(self.grouped(CODE, TWICE)[0], [[0], [1]])

    def test_what_an_edit_leaves_does_not_reach_the_next(self):
        """A law that is proved of the wrong rule is left in the folder; then all that is there is spoiled."""
        proved = ("new: n + 4\n", "new: n + 4\nfile: crates/toy_laws/proofs/Desk.antt\nold: row 4 ≡ 7\nnew: row 4 ≡ 8\n"
                  "file: crates/toy_laws/proofs/Turned.antt\nold: 7 ≡ row 4\nnew: 8 ≡ row 4\n")
        for _ in range(2):
            self.says("NOT REFUSED", "toy_laws", RULE, proved)
            self.says("", "toy_laws", RULE)
            for file in self.bench.kept.rglob("*.oantt"):
                file.write_bytes(b"spoiled")

    def test_a_tree_that_is_not_proved_shows_nothing(self):
        with tempfile.TemporaryDirectory() as folder:
            bench = planted.Bench(planted.Proved(self.root, folder))
            (bench.where / "crates/toy_laws/proofs/Desk.antt").write_text(TREE["crates/toy_laws/proofs/Desk.antt"].replace("≡ 7", "≡ 8"), "utf-8")
            why, _ = bench.plant(self.edit("toy_laws", RULE), planted.by_the_prover)
        self.assertIn("toy_laws is not proved without an edit", why)

    def test_a_crate_that_is_not_proved_is_counted(self):
        law = self.root / "crates/toy_laws/proofs/Desk.antt"
        self.addCleanup(law.write_text, TREE["crates/toy_laws/proofs/Desk.antt"], "utf-8")
        law.write_text(TREE["crates/toy_laws/proofs/Desk.antt"].replace("≡ 7", "≡ 8"), "utf-8")
        with contextlib.redirect_stdout(io.StringIO()):
            self.assertEqual(planted.made(self.root), 1)


if __name__ == "__main__":
    unittest.main()
