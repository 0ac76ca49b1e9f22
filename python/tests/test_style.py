"""The style of the package: what ruff or tools of the same rules say, short functions, and docstrings."""
import ast
import os
import shutil
import subprocess
import sys
import unittest

from helper import PYTHON

try:
    import mccabe
except ImportError:
    mccabe = None
LONGEST_FUNCTION = 40
# As in pyproject.toml.
MOST_COMPLEX = 10


def sources():
    """The Python files of the package, its tests and its programs."""
    for folder, folders, names in os.walk(PYTHON):
        folders[:] = [name for name in folders if name not in ("__pycache__", "build")]
        for name in names:
            path = os.path.join(folder, name)
            if name.endswith(".py"):
                yield path


def tool(*names):
    """The first of these programs that is there."""
    return next(filter(None, map(shutil.which, names)), None)


class Style(unittest.TestCase):
    """Each source is of the style."""

    def check(self, program, *words):
        if program is None:
            self.skipTest("it isn't installed")
        done = subprocess.run([program, *words, *sources()], capture_output=True, text=True, check=False)
        self.assertEqual(done.stdout + done.stderr, "")

    def test_pyflakes(self):
        self.check(tool("pyflakes3", "pyflakes"))

    def test_pycodestyle(self):
        # E402: the tests name the folder of the package before they import it. W503 and W504 exclude one another.
        self.check(tool("pycodestyle", "pycodestyle3"), "--max-line-length=120", "--ignore=E402,W503,W504")

    def test_isort(self):
        program = tool("isort")
        if program is None:
            self.skipTest("there is no isort")
        done = subprocess.run([program, "--check-only", "--settings-path", PYTHON, *sources()], capture_output=True,
                              text=True, check=False)
        self.assertEqual((done.returncode, done.stdout + done.stderr), (0, ""))

    @unittest.skipUnless(mccabe, "there is no mccabe for this Python")
    def test_complexity(self):
        faults, count = [], 0
        for path in sources():
            with open(path, encoding="utf-8") as file:
                tree = ast.parse(file.read())
            visitor = mccabe.PathGraphingAstVisitor()
            visitor.preorder(tree, visitor)
            made = [(graph.complexity(), graph.entity) for graph in visitor.graphs.values()]
            faults += [(path, *each) for each in made if each[0] > MOST_COMPLEX]
            count += len(made)
        self.assertEqual(faults, [])
        self.assertGreater(count, 300)

    def test_ruff(self):
        program = tool("ruff")
        if program is None:
            self.skipTest("there is no ruff")
        done = subprocess.run([program, "check", "--no-cache", PYTHON], capture_output=True, text=True, check=False)
        self.assertEqual(done.returncode, 0, done.stdout)

    def test_types(self):
        program = tool("mypy")
        if program is None:
            self.skipTest("there is no mypy")
        words = [program, "--python-version", "3.9", "--cache-dir", os.devnull, os.path.join(PYTHON, "rosie")]
        done = subprocess.run(words, capture_output=True, text=True, check=False)
        self.assertEqual(done.returncode, 0, done.stdout)

    def test_functions(self):
        faults = []
        for path in sources():
            with open(path, encoding="utf-8") as file:
                tree = ast.parse(file.read())
            for node in ast.walk(tree):
                if isinstance(node, (ast.FunctionDef, ast.AsyncFunctionDef)):
                    faults += self.faults(os.path.relpath(path, PYTHON), node)
        self.assertEqual(faults, [])

    def faults(self, path, node):
        if node.end_lineno - node.lineno >= LONGEST_FUNCTION:
            yield f"{path}:{node.lineno}: {node.name} has more than {LONGEST_FUNCTION} lines"
        if path.startswith("rosie/") and not node.name.startswith("_") and not ast.get_docstring(node):
            yield f"{path}:{node.lineno}: {node.name} has no docstring"


if __name__ == "__main__":
    print(sys.version)
    unittest.main()
