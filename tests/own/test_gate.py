"""What the gate counts: a test that is skipped or expected to fail is not passed over, and a step without a tally has failed."""
import contextlib
import io
import sys
import unittest
from unittest import mock

import gate


class Counts(unittest.TestCase):
    def counted(self, body):
        """What is counted of a suite of one good test and another."""
        case = type("Toy", (unittest.TestCase,), {"test_good": lambda self: None, "test_other": body})
        suite = unittest.TestSuite([case("test_good"), case("test_other")])
        with contextlib.redirect_stdout(io.StringIO()):
            return gate.run(suite, io.StringIO())

    def test_a_good_test(self):
        self.assertEqual(self.counted(lambda self: None), (2, 0))

    def test_a_failing_test(self):
        self.assertEqual(self.counted(lambda self: self.fail()), (1, 1))

    def test_a_test_with_two_parts_that_fail(self):
        def test(self):
            for part in range(2):
                with self.subTest(part):
                    self.fail()
        self.assertEqual(self.counted(test), (1, 1))

    def test_a_skipped_test(self):
        self.assertEqual(self.counted(unittest.skip("no reason")(lambda self: None)), (1, 1))

    def test_a_test_that_skips_itself(self):
        self.assertEqual(self.counted(lambda self: self.skipTest("no reason")), (1, 1))

    def test_a_test_that_may_be_skipped(self):
        with mock.patch.object(gate, "MAY_BE_SKIPPED", {f"{__name__}.Toy.test_other"}):
            self.assertEqual(self.counted(lambda self: self.skipTest("no such device")), (1, 0))

    def test_an_expected_failure(self):
        self.assertEqual(self.counted(unittest.expectedFailure(lambda self: self.fail())), (1, 1))

    def test_an_unexpected_success(self):
        self.assertEqual(self.counted(unittest.expectedFailure(lambda self: None)), (1, 1))

    def test_no_test(self):
        with contextlib.redirect_stdout(io.StringIO()):
            self.assertEqual(gate.run(unittest.TestSuite(), io.StringIO()), (0, 1))


class Steps(unittest.TestCase):
    def said(self, program, **beside):
        """What is counted of a step that runs a Python program."""
        with contextlib.redirect_stdout(io.StringIO()):
            return gate.Step(sys.executable, "-c", program, **beside).many()

    def test_a_tally(self):
        for beside in False, True:
            self.assertEqual(self.said("print('3 passed, 0 failed')", beside=beside), (3, 0))

    def test_a_tally_that_is_not_last(self):
        self.assertEqual(self.said("print('3 passed, 0 failed'); print('and more')"), (0, 1))

    def test_a_tally_and_a_bad_exit(self):
        self.assertEqual(self.said("print('3 passed, 0 failed'); raise SystemExit(1)"), (3, 1))

    def test_no_tally(self):
        self.assertEqual(self.said("pass"), (0, 1))

    def test_a_command_that_is_not_there(self):
        with contextlib.redirect_stdout(io.StringIO()):
            self.assertEqual(gate.Step("/no/such/command").many(), (0, 1))

    def test_a_bad_edit_fails(self):
        """`rt ci` passes with one, and the gate does not."""
        share = "every proof and must-fail edit was done in this run"
        for said in (f"rt: ok; handles allowed: none; must-fail edits: 8 refused, 1 bad; {share}",
                     f"rt: ok; handles allowed: none; must-fail edits: 8 refused, 2 of them only by a limit, 1 bad; {share}",
                     "rt: note: bad must-fail edits, as told above: 1. They fail nothing here, and say nothing of a contract: mend or remove them"):
            self.assertEqual(self.said(f"print({said!r}); print('3 passed, 0 failed')"), (3, 1), said)

    def test_no_bad_edit(self):
        for said in ("rt: ok; handles allowed: none; must-fail edits: 9 refused; done in this run: 1 of the 40 proofs", "rt: ok; handles allowed: none; 1 of 2",
                     "rt: ok; handles allowed: none; must-fail edits: 9 refused, 2 of them only by a limit; done in this run: 1 of the 40 proofs"):
            self.assertEqual(self.said(f"print({said!r}); print('3 passed, 0 failed')"), (3, 0), said)

    def test_where_the_time_went(self):
        lines = ["rt: laws proved\n", "spent proving for the edits: 40 s\n", "edit laws/d5: refused, as it must be (3.5 s)\n", "spent edits of code: 30 s\n",
                 "spent comparison: 0 s\n", "spent the rest: 5 s\n", "spent comparison: 9 s\n", "spent the rest: 6 s\n"]
        self.assertEqual(gate.spent(lines), {"proving for the edits": 40, "edits of code": 30, "edits of definitions": 0, "comparison": 9, "the rest": 11})


if __name__ == "__main__":
    unittest.main()
