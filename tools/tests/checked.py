"""What the tests of tools/check share: a rule, handed texts of the repository or made ones, and what it finds wrong."""
import unittest
from functools import lru_cache

import lines  # noqa: F401  (by it the parts of the tools are found)
from checking.texts import read_all

repository = lru_cache(read_all)


class Checked(unittest.TestCase):
    """Looks at the faults that a rule finds in texts."""

    def found(self, rule, texts):
        return [what for _, _, what in rule(texts)]

    def changed(self, path, old, new):
        """The texts of the repository, with another word in one place."""
        self.assertIn(old, repository()[path])
        return {**repository(), path: repository()[path].replace(old, new, 1)}
