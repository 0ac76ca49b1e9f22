"""How RPL is cut into tokens and statements: by hand, and beside the command."""
import itertools
import os
import re
import tempfile
import unittest
from concurrent.futures import ThreadPoolExecutor

from edits import edited, sources
from helper import EXAMPLES, command

from rosie import rpl

COUNT = int(os.environ.get("ROSIE_EDITS", "10000"))
OF_STATEMENTS = ("syntax", "too large", "empty loop", "look-behind", "left recursion", "halt under a predicate",
                 "version")
OF_TOKENS = ("bad character", "text without end", "bad escape", "number too wide", "too many tokens")
INSIDE = ("bad bounds", "unknown class", "bad range", "bad set")


def kinds(text):
    """The tokens of a text, each as its kind and its text."""
    return [(token.kind, token.text) for token in rpl.tokens(text)]


def cut(text):
    """The statements of a text."""
    return rpl.statements(list(rpl.tokens(text)))


class Tokens(unittest.TestCase):
    """What LANGUAGE.md says of tokens."""

    def test_names(self):
        self.assertEqual(kinds("ends a.end a.ends a.b.c end"), [
            ("name", "ends"), ("name", "a"), ("sign", "."), ("keyword", "end"), ("qualified", "a.ends"),
            ("qualified", "a.b"),
            ("sign", "."), ("name", "c"), ("keyword", "end")])

    def test_bounds(self):
        self.assertEqual(kinds("d{4} {a} { 1, } {,}"), [
            ("name", "d"), ("bounds", "{4}"), ("sign", "{"), ("name", "a"), ("sign", "}"), ("bounds", "{ 1, }"),
            ("bounds", "{,}")])

    def test_comments_and_texts(self):
        self.assertEqual(kinds('a --"b\n"--" ["] [[a]--[b]] -- c'), [
            ("name", "a"), ("comment", '--"b'), ("text", '"--"'), ("bracket", '["]'), ("bracket", "[[a]--[b]]"),
            ("comment", "-- c")])

    def test_faults(self):
        for text, at, fault in (("a - b", 2, "bad character"), ("_a", 0, "bad character"), ("d{4", 1, "bad character"),
                                ("a 99999999999999999999", 2, "number too wide"), ('"ab', 0, "text without end"),
                                ('"a\\"', 0, "text without end"), ('"a\\q"', 2, "bad escape"),
                                ('"\\x80"', 1, "bad escape"),
                                ('"\\ud800"', 1, "bad escape"), ("x [a", 2, "text without end"),
                                ("[a]]", 3, "bad character"),
                                ("[a\\q]", 2, "bad escape"), ("a " * 262145, 524288, "too many tokens")):
            found = rpl.first_fault(list(rpl.tokens(text)))
            self.assertEqual((found.at, found.fault), (at, fault))

    def test_cutting_goes_on(self):
        self.assertEqual([token.kind for token in rpl.tokens('a = "b\nc = [d\ne')],
                         ["name", "sign", "fault", "name", "sign", "fault", "name"])


class Statements(unittest.TestCase):
    """What LANGUAGE.md says of statements."""

    def test_kinds(self):
        text = ('rpl 1.4 package p import a, b/c as d, e as . x = "a" local alias y = x ~ = "," '
                'grammar z = y in v = z end')
        self.assertEqual([(each.kind, each.name.text or None, each.hidden) for each in cut(text)], [
            ("rpl", None, False), ("package", None, False), ("import", None, False), ("binding", "x", False),
            ("binding", "y", True), ("boundary", None, False), ("grammar", None, False), ("binding", "z", True),
            ("in", None, False), ("binding", "v", False), ("end", None, False)])
        self.assertEqual(rpl.names_of(cut(text)), [("p.v", False), ("p.x", False)])
        self.assertEqual([(each.path, each.prefix, text[each.start:each.end]) for each in rpl.imports_of(cut(text))],
                         [("a", "a", "a"), ("b/c", "d", "b/c"), ("e", "", "e")])

    def test_body(self):
        self.assertEqual([token.text for token in cut('local x = {"a" "="} y = x')[0].body], ["{", '"a"', '"="', "}"])

    def test_comment_over(self):
        text = '-- one\n-- two\nx = "a"\n-- test x accepts "a"\n--- three\ny = x\n\nz = y'
        self.assertEqual([rpl.comment_over(text, text.index(word)) for word in ("x =", "y =", "z =")],
                         ["one\ntwo", "three", ""])

    def test_places(self):
        places = rpl.Places("é\nb\n")
        self.assertEqual([places.of_bytes(offset) for offset in (0, 2, 3, 5, 99)], [0, 1, 2, 4, 4])
        self.assertEqual([places.line(at) for at in range(5)], [0, 0, 1, 1, 2])


class BesideTheCommand(unittest.TestCase):
    """Names and places of faults are those of the command."""

    def setUp(self):
        folder = tempfile.TemporaryDirectory()
        self.addCleanup(folder.cleanup)
        self.folder = folder.name

    def difference(self, number, text):
        """What the command and the module say that isn't the same, or None."""
        path = os.path.join(self.folder, f"{number % 64}.rpl")
        with open(path, "wb") as file:
            file.write(text.encode())
        done = command("list", "--libpath", EXAMPLES, "-f", path)
        tokens = list(rpl.tokens(text))
        fault = rpl.first_fault(tokens)
        if done.returncode == 0:
            names = self.own_names(text, done.stdout.decode().splitlines())
            return None if fault is None and names is None else (text, fault, names)
        told = re.fullmatch(re.escape(f"rosie: {path}:") + r"(\d+): (.*)\n", done.stderr.decode(), re.DOTALL)
        if told is None:
            # The fault is one of another file, or the text is too long.
            return None if fault is None and done.returncode == 2 else (text, fault, done)
        at, message = rpl.Places(text).of_bytes(int(told.group(1))), told.group(2)
        mine = (fault.at, fault.fault) if fault else (at, message)
        return None if mine == (at, message) and self.is_place(tokens, at, message) else (text, mine, at, message)

    def own_names(self, text, listed):
        """None where the names of the text are those that the command lists of it, but for what is imported."""
        names = [f"{name} alias -" if alias else f"{name} capture {name}" for name, alias in rpl.names_of(cut(text))]
        if any(not each.prefix for each in rpl.imports_of(cut(text))):
            listed = [line for line in listed if line in names]
        elif not rpl.package_of(cut(text)):
            listed = [line for line in listed if "." not in line.split()[0]]
        return None if sorted(names) == sorted(listed) else (names, listed)

    def is_place(self, tokens, at, message):
        """Whether a fault of this kind stands where a statement or a token begins, or in a bracket or in bounds."""
        kind = re.split(": | in ", message)[0]
        if kind in OF_TOKENS:
            return any(token.at == at for token in tokens)
        if kind in OF_STATEMENTS:
            return at in {each.start for each in rpl.statements(tokens)} | {0}
        if kind in INSIDE:
            return any(token.start <= at < token.end for token in tokens if token.kind in ("bounds", "bracket"))
        return any(token.start == at for token in tokens)

    def check(self, texts):
        with ThreadPoolExecutor(4) as pool:
            found = list(filter(None, pool.map(self.difference, itertools.count(), texts)))
        self.assertEqual(found[:3], [])

    def test_examples(self):
        self.check(sources())

    def test_edited_texts(self):
        self.check(edited(1, COUNT))


if __name__ == "__main__":
    unittest.main()
