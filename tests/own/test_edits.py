"""What the prover says of an edit is read as it is meant: a fact that falls is told from a text that no longer fits, and each is told of its own proof."""
import tempfile
import unittest
from pathlib import Path

from edits import Change, Edit, fell_elsewhere, from_the_root, not_a_fact, proof_of, reaching, refused_in, without

LAW = "crates/toy/proofs/Laws.antt:6:7: error: `law`: computed as far as they go, the two types differ"
FOLLOWING = "crates/toy/proofs/Laws.antt:9:7: error: 1 declaration that depends on `law`, which was not admitted, was not checked: laws"
ANSWER = "crates/toy/proofs/f/Answers.antt:2:2: error: `returns`: "
OPEN = """note: crates/toy/src/lib.rt:27:1: it is not proved that what the function ensures holds when it returns (`returns`)
note: a goal may be false even if its line does not say so
fn toy::own: no proof: expected answers in ./proofs/own/Answers.antt; `search` did not prove `returns`
"""
CALLER = "fn toy::caller: no proof: it calls `toy::own`, which is not proved\n"
# a function with answers, of which none is refused, beside a goal that stays open
BESIDE = """note: crates/toy/src/lib.rt:40:1: it is not proved that what `own` requires holds at this call (`own-requires`)
fn toy::inner::Pair::first: not proved
"""
LOG = f"""struct toy::Pair: proved
{LAW}
  `κs` is not in scope here, so what is shown does not paste back as it stands
{FOLLOWING}
fn toy::mean: not proved
logic=not-proved
"""
EDIT = Edit("toy/two_more", "toy", None, "The mean is two too large.", "Laws", (Change("crates/toy/specs/Sum.antt", "total [] = 0", "total [] = [] 0"),))


class Said(unittest.TestCase):
    def why(self, *changes, places=(), refused="Laws"):
        """Why the log, with some lines changed, does not show the edit refused; empty where it does."""
        log = LOG
        for old, new in changes:
            self.assertEqual(log.count(old), 1)
            log = log.replace(old, new)
        return not_a_fact(log, places) or fell_elsewhere(EDIT._replace(refused=refused), log)

    def test_a_law_that_falls(self):
        self.assertEqual(self.why(), "")

    def test_a_goal_that_search_does_not_prove(self):
        self.assertEqual(self.why((LAW, OPEN + CALLER), refused="own"), "")
        self.assertEqual(refused_in(LOG.replace(LAW, OPEN + CALLER)), {("toy", "own")})

    def test_a_goal_of_a_function_with_answers(self):
        self.assertEqual(self.why((LAW, OPEN + CALLER + BESIDE), refused="inner::Pair::first own"), "")

    def test_an_answer_that_falls(self):
        self.assertEqual(self.why((LAW, ANSWER + "as printed, the two types differ only where one has `row` (expected)"), refused="f"), "")

    def test_what_is_no_fact(self):
        for words, line in {
            "the proof file does not fit": (
                ANSWER + "`goal.returns`: module `Rattle.toy.proofs.f.Goals` has no `returns` that can be named from here (did you mean `returns-2`?)",
                ANSWER + "record `Rattle.toy.proofs.f.Lts.Start` has no field `after` (nearest: .after-r)",
                ANSWER + "record `Held A` has no field `at`",
                ANSWER + "expected type `goal.add`, but this has type `goal.returns`",
                ANSWER + "expected a type, but `goal.returns` has type `goal.Inv-loop → Type 0`",
                "crates/toy/proofs/f/Answers.antt: error: `toy` has no function `f` for this file to be the proof of: help: delete the folder",
                "crates/toy/proofs/f/Answers.antt: error: `toy::f` is in a cycle of calls, whose functions have one proof, `+f_spec`"),
            "a name is unknown": (
                "crates/toy/proofs/Laws.antt:2:2: error: module `Rattle.rules.specs.Row` has no `row` that can be named from here",
                "crates/toy/specs/Sum.antt:12:42: error: `total`: `nope` is not in scope"),
            "a text cannot be read": ("crates/toy/specs/Sum.antt:13:1: error: the `(` at 12:36 is never closed (reached end of file)",),
            "a contract is ill-formed": ("crates/toy/src/lib.rt:27:26: error: `ensures-1`: expected type `ℕ`, but this has type `ℕ → ℕ`",),
            "a definition is ill-formed": ("crates/toy/specs/Sum.antt:8:1: error: `total`: `total` has no clause for 1 case; the missing clause is:",),
            "a rewriting finds nothing": (
                "crates/toy/proofs/Laws.antt:6:7: error: `law`: `rw`: no occurrence of the path's left endpoint in the goal",
                "crates/toy/proofs/Laws.antt:6:7: error: `law`: `simp`: no equation of the list has an instance in the goal"),
            "no fact was tried": (
                "fn toy::own: no proof: expected a measure in ./proofs/own/Invariants.antt", CALLER.strip(),
                "note: `search` has not tried the goals of `toy::caller`, which wait for a callee's proof: some may be open after it"),
        }.items():
            for each in line:
                self.assertIn(words, self.why((LAW, each)), each)
                # a fact that falls beside it does not make up for a text that cannot be taken as it is
                if words not in ("a rewriting finds nothing", "no fact was tried"):
                    self.assertIn(words, self.why((LAW, f"{each}\n{LAW}")), each)

    def test_nothing_is_refused(self):
        self.assertIn("not refused by the prover", self.why(("logic=not-proved", "logic=proved functions=1")))
        self.assertIn("not refused by the prover", self.why((LOG, "crates/toy/src/lib.rt:29:11: error[unclosed-delimiter]: unclosed delimiter `[`\n")))

    def test_what_is_refused_elsewhere(self):
        self.assertIn("and not Laws", self.why((LAW, ANSWER + "as printed, the two types differ")))
        self.assertIn("and not Laws", self.why((LAW, OPEN)))
        self.assertIn("and not caller", self.why((LAW, OPEN + CALLER), refused="caller"))
        self.assertIn("and not mean", self.why(refused="Laws mean"))

    def test_an_edited_definition_that_is_ill_formed(self):
        place = "crates/toy/specs/Sum.antt:14:"
        self.assertIn("is itself ill-formed", self.why((LAW, LAW.replace("proofs/Laws.antt:6:", "specs/Sum.antt:14:")), places=(place,)))
        self.assertEqual(self.why(places=(place,)), "")

    def test_a_log_without_some_proofs(self):
        log = LOG.replace(LAW, LAW + "\n" + OPEN + BESIDE)
        every = {("toy", "Laws"), ("toy", "own"), ("toy", "inner::Pair::first")}
        self.assertEqual(refused_in(log), every)
        for proof in every:
            self.assertEqual(refused_in(without(log, {proof})), every - {proof})
            self.assertEqual(refused_in(without(log, every - {proof})), {proof})

    def test_whose_proof_a_file_is(self):
        for path, name in {"crates/toy/proofs/Laws.antt": "Laws", "crates/toy/proofs/Answers.antt": "Answers",
                           "crates/toy/proofs/row/admits/Answers.antt": "row::admits",
                           "crates/toy/proofs/row/admits/Invariants.antt": "row::admits", "crates/toy/proofs/f/Proof.antt": "f"}.items():
            self.assertEqual(proof_of(path), ("toy", name))

    def test_paths_from_the_root(self):
        said = "note: src/lib.rt:3:1: it\n./proofs/Laws.antt:1:1: error: it\n/some/where/crates/rules/specs/Row.antt:1:1: error: it\nspecs/Sum.antt:1:1: error: it\n"
        self.assertEqual(from_the_root(said, "toy", "/some/where"), "note: crates/toy/src/lib.rt:3:1: it\ncrates/toy/proofs/Laws.antt:1:1: error: it\n"
                         "crates/rules/specs/Row.antt:1:1: error: it\ncrates/toy/specs/Sum.antt:1:1: error: it\n")


class Reaching(unittest.TestCase):
    def test_what_a_function_calls(self):
        with tempfile.TemporaryDirectory() as folder:
            (Path(folder) / "crates/toy/src").mkdir(parents=True)
            (Path(folder) / "crates/toy/src/lib.rt").write_text("""
fn low(n: u8) -> u8 { n }
fn high(n: u8) -> u8 ensures { result ≡ lone n } { Pair::mid(n) }
// lone(n)
fn lone(n: u8) -> u8 { let high = n; high }
impl Pair { fn mid(n: u8) -> u8 { low (n) } }
""", "utf-8")
            self.assertEqual(reaching(Path(folder), "toy"), {"low": {"low"}, "lone": {"lone"}, "Pair::mid": {"Pair::mid", "low"}, "high": {"high", "Pair::mid", "low"}})


if __name__ == "__main__":
    unittest.main()
