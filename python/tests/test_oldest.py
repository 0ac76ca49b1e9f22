"""The oldest Python that the package and the tools support: its grammar, its library, and a run, if it is installed."""
import ast
import glob
import os
import shutil
import subprocess
import unittest

from helper import PROGRAM, PYTHON, TOP

OLDEST = (3, 9)
# What later versions added, as far as programs like these could use it: modules, members, methods and arguments.
NEWER_MODULES = {"tomllib", "asyncio.taskgroups", "wsgiref.types"}
NEWER_MEMBERS = {
    "itertools": {"pairwise", "batched"}, "contextlib": {"aclosing", "chdir"}, "enum": {"StrEnum", "verify", "member"},
    "typing": {"ParamSpec", "Concatenate", "TypeAlias", "TypeGuard", "Self", "Never", "LiteralString", "Required",
               "NotRequired", "Unpack", "TypeVarTuple", "assert_never", "assert_type", "reveal_type", "override"},
    "types": {"EllipsisType", "NoneType", "NotImplementedType", "UnionType"}, "datetime": {"UTC"}, "re": {"NOFLAG"},
    "hashlib": {"file_digest"}, "inspect": {"get_annotations"}, "operator": {"call"},
    "math": {"cbrt", "exp2", "sumprod"}, "os": {"eventfd", "splice", "process_cpu_count"},
    "sys": {"exception", "orig_argv", "stdlib_module_names", "monitoring"},
    "ast": {"TryStar", "Match"}, "threading": {"gettrace", "getprofile"},
    "statistics": {"correlation", "covariance", "linear_regression"}}
NEWER_NAMES = {"aiter", "anext", "ExceptionGroup", "BaseExceptionGroup", "EncodingWarning", "PythonFinalizationError"}
NEWER_METHODS = {"bit_count", "enterContext", "enterClassContext", "enterModuleContext", "hardlink_to", "is_junction",
                 "add_note", "assertNoLogs"}
NEWER_ARGUMENTS = {("zip", "strict"), ("map", "strict"), ("glob", "root_dir"), ("iglob", "root_dir"),
                   ("glob", "include_hidden"), ("dataclass", "slots"), ("dataclass", "kw_only"),
                   ("Popen", "process_group"), ("Popen", "pipesize"), ("run", "process_group"),
                   ("bisect_left", "key"), ("bisect_right", "key"),
                   ("insort", "key"), ("mkdtemp", "delete"), ("TemporaryDirectory", "delete"), ("rmtree", "onexc"),
                   ("TemporaryDirectory", "ignore_cleanup_errors"), ("NamedTemporaryFile", "delete_on_close")}
PROGRAMS = ["rosie-at", "rosie-try", "rosie-why", "rosie-parallel"]
# The tests that the oldest Python runs. The others take long, or need packages that it does not have.
TESTS = ["test_library.Matches", "test_library.Trees", "test_library.Searches", "test_library.Refused",
         "test_library.Lines.test_order", "test_library.Lines.test_records", "test_library.Streams.test_live_file",
         "test_play.Answers.test_answers", "test_play.Answers.test_why", "test_play.Answers.test_why_anywhere",
         "test_play.Answers.test_names", "test_play.Answers.test_diagram", "test_documents"]


def sources():
    """The sources of the package and of the tools, with the tests of the package."""
    yield from glob.glob(os.path.join(PYTHON, "**", "*.py"), recursive=True)
    yield from glob.glob(os.path.join(PYTHON, "bin", "*"))
    yield from glob.glob(os.path.join(TOP, "share", "rosie", "tools", "*.py"))
    yield from (os.path.join(TOP, "bin", name) for name in PROGRAMS)


def newer(tree):
    """What a source uses that the oldest Python does not have."""
    for node in ast.walk(tree):
        if isinstance(node, ast.Import):
            yield from (each.name for each in node.names if each.name in NEWER_MODULES)
        elif isinstance(node, ast.ImportFrom):
            known = NEWER_MEMBERS.get(node.module, set())
            yield from (f"{node.module}.{each.name}" for each in node.names if each.name in known)
            yield from {node.module} & NEWER_MODULES
        elif isinstance(node, ast.Attribute):
            module = node.value.id if isinstance(node.value, ast.Name) else None
            if node.attr in NEWER_METHODS or node.attr in NEWER_MEMBERS.get(module, set()):
                yield node.attr
        elif isinstance(node, ast.Name) and node.id in NEWER_NAMES:
            yield node.id
        elif isinstance(node, ast.Call):
            called = getattr(node.func, "attr", getattr(node.func, "id", None))
            yield from (f"{called}({each.arg}=)" for each in node.keywords if (called, each.arg) in NEWER_ARGUMENTS)


def oldest_python():
    """The oldest Python, on the path or among the versions of pyenv."""
    name = "python%d.%d" % OLDEST
    versions = os.path.join(os.environ.get("PYENV_ROOT") or os.path.expanduser("~/.pyenv"), "versions")
    found = glob.glob(os.path.join(glob.escape(versions), "%d.%d.*" % OLDEST, "bin", name))
    return next(iter(found), None) or shutil.which(name)


class Oldest(unittest.TestCase):
    """The package and the tools need no newer Python."""

    def test_grammar_and_library(self):
        count = 0
        for path in sources():
            with open(path, encoding="utf-8") as file:
                tree = ast.parse(file.read(), path, feature_version=OLDEST)
            self.assertEqual(list(newer(tree)), [], path)
            count += 1
        self.assertGreater(count, 40)

    def test_what_is_newer_is_found(self):
        for text in ("import tomllib", "from itertools import pairwise", "import itertools\nitertools.batched",
                     "zip(strict=True)", "(1).bit_count()", "from typing import Self", "anext",
                     "import glob\nglob.glob('*', root_dir='x')"):
            self.assertEqual(len(list(newer(ast.parse(text)))), 1, text)
        for text in ("match x:\n  case 1: pass", "try: pass\nexcept* E: pass"):
            with self.assertRaises(SyntaxError):
                ast.parse(text, feature_version=OLDEST)

    def run_oldest(self, words, **more):
        """Runs the oldest Python."""
        python = oldest_python()
        if python is None:
            self.skipTest("Python %d.%d is not installed" % OLDEST)
        environment = dict(os.environ, ROSIE=PROGRAM, PYTHONDONTWRITEBYTECODE="1")
        return subprocess.run([python, *words], env=environment, capture_output=True, text=True, check=False, **more)

    def test_run(self):
        done = self.run_oldest(["-m", "unittest", *TESTS], cwd=os.path.join(PYTHON, "tests"))
        self.assertEqual(done.returncode, 0, done.stderr)
        self.assertRegex(done.stderr, r"Ran [3-9]\d tests")

    def test_tools(self):
        for name, words, given, wanted in (
                ("rosie-why", ['{"a" [0-9]}'], "ab\n", "furthest: byte 2, in the pattern, where a digit was wanted"),
                ("rosie-at", ["{a"], "rosie: (pattern):0: syntax\n", "hint: no `}` closes this `{`"),
                ("rosie-try", [], '+ a1\n{"a" .}\n', "= 1 a1")):
            done = self.run_oldest([os.path.join(TOP, "bin", name), *words], input=given)
            self.assertIn(wanted, done.stdout, name)


if __name__ == "__main__":
    unittest.main()
