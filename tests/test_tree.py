"""The tree passes each rule of the audit."""
import unittest
from pathlib import Path

import audit

ROOT = Path(__file__).resolve().parent.parent


class Tree(unittest.TestCase):
    """A test for each rule."""


def passes(rule):
    def test(self):
        if found := rule(ROOT):
            self.fail("\n".join([rule.__doc__, *found]))
    return test


for each in audit.RULES:
    setattr(Tree, f"test_{each.__name__}", passes(each))
