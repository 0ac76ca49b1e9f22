"""The examples of the package's pages and docstrings."""
import doctest
import os
import unittest

from helper import PYTHON, TOP

import rosie


class Documents(unittest.TestCase):
    """What stands after `>>>` gives what stands under it."""

    def test_readme(self):
        found = doctest.testfile(os.path.join(PYTHON, "README.md"), module_relative=False)
        self.assertGreater(found.attempted, 10)
        self.assertEqual(found.failed, 0)

    def test_front_page(self):
        found = doctest.testfile(os.path.join(TOP, "README.md"), module_relative=False)
        self.assertGreater(found.attempted, 2)
        self.assertEqual(found.failed, 0)

    def test_docstrings(self):
        found = doctest.testmod(rosie)
        self.assertGreater(found.attempted, 2)
        self.assertEqual(found.failed, 0)


if __name__ == "__main__":
    unittest.main()
