"""The edit loop tries the edits that have to do with what changed, and no other."""
import subprocess
import tempfile
import unittest
from pathlib import Path

import check
from edits import Change, Edit

ROOT = Path("/somewhere")
EDIT = Edit("laws/toy", "laws", ROOT / "must-fail/laws/toy.edit", "A toy.", "Desk row::admits", [Change("crates/rules/specs/Row.antt", "1", "2")])


class Loop(unittest.TestCase):
    def test_what_has_to_do_with_an_edit(self):
        for name in ("must-fail/laws/toy.edit", "crates/rules/specs/Row.antt", "crates/laws/proofs/Desk.antt", "crates/laws/proofs/row/admits/Answers.antt",
                     "crates/laws/proofs/row/admits/Invariants.antt", "crates/laws/src/lib.rt"):
            self.assertTrue(check.concerned(EDIT, {name, "README.md"}, ROOT), name)

    def test_what_has_not(self):
        for name in ("must-fail/laws/other.edit", "crates/rules/specs/Rows.antt", "crates/laws/proofs/Paid.antt", "crates/rules/src/lib.rt", "README.md"):
            self.assertFalse(check.concerned(EDIT, {name}, ROOT), name)

    def test_what_differs(self):
        with tempfile.TemporaryDirectory() as folder:
            root = Path(folder)

            def git(*words):
                subprocess.run(["git", "-c", "user.name=toy", "-c", "user.email=toy@example.org", *words], cwd=root, check=True, stdout=subprocess.DEVNULL)

            git("init", "--quiet")
            for name in "kept", "changed", "moved":
                (root / name).write_text(name)
            (root / ".gitignore").write_text("ignored\n")
            git("add", ".")
            git("commit", "--quiet", "--message", "toy")
            (root / "changed").write_text("otherwise")
            (root / "moved").rename(root / "new")
            (root / "ignored").write_text("ignored")
            self.assertEqual(check.differing("HEAD", root), {"changed", "moved", "new"})


if __name__ == "__main__":
    unittest.main()
