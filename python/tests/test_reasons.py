"""Why a line doesn't match: rosie-why, the page and rosie-try say the same of it, with the same place and reasons."""
import json
import os
import random
import re
import subprocess
import sys
import tempfile
import unittest
from concurrent.futures import ThreadPoolExecutor

from helper import EXAMPLES, PROGRAM, TOP, command

from rosie.play.work import Work

TOOLS = os.path.join(TOP, "bin")
ENVIRONMENT = dict(os.environ, ROSIE=PROGRAM, COLUMNS="80", NO_COLOR="1")
# Stands for rosie-why while the commands of tests/run_tools run: it writes down its words and its input.
RECORDER = """#!{python}
import json, os, sys
text = sys.stdin.buffer.read() if not sys.stdin.isatty() else b""
with open(os.environ["RECORDS"], "a") as file:
    file.write(json.dumps([sys.argv[1:], text.decode("latin-1")]) + "\\n")
"""
RULES = 'digit = [0-9] pair = {digit digit} alias sep = [.,;] word = [:alpha:]+ item = {word "=" (pair / word)}'
ATOMS = ['"a"', '"ab"', '"b"', '"é"', '" "', "[0-9]", "[a-c]", "[^a]", ".", "$", "~", "digit", "pair", "sep", "word",
         "item", ".*", "[:space:]", '"INFO"', 'ci:"x"']
SIGNS = ["a", "b", "c", "ab", "é", "😀", " ", "1", "22", ".", "=", "a=", "INFO", "info", "\t", "X", "\\", '"']
PAIRS = 200
LINES_EACH = 10
FEWEST_RECORDS = 20


def made_up_pattern(chance, depth=3):
    """A pattern out of the atoms."""
    kind = chance.random()
    if depth == 0 or kind < 0.3:
        return chance.choice(ATOMS)
    parts = [made_up_pattern(chance, depth - 1) for _ in range(chance.randint(1, 3))]
    if kind < 0.65:
        return chance.choice(["{%s}", "(%s)"]) % " ".join(parts)
    if kind < 0.8:
        return "{%s}" % " / ".join(parts)
    if kind < 0.9:
        return chance.choice("!><") + parts[0]
    return "{%s}%s" % (parts[0], chance.choice(["*", "+", "?", "{2}", "{1,3}"]))


def blocks(written):
    """What was written of each line, by its number."""
    found = re.findall(r"^line (\d+): (.*\n(?:(?!line \d+: |rosie> ).*\n)*)", written, re.MULTILINE)
    return {int(number): text for number, text in found if not text.startswith("it matches")}


def place_and_reasons(text, line):
    """The place, in bytes from 0, and the sentences in what was written of a line."""
    told = [each for each in text.split("\n")[1:] if re.match("furthest: |tried |hint: ", each)]
    place = re.match(r"furthest: (?:byte (\d+)|the end of the line)", told[0])
    at = None if place is None else int(place.group(1)) - 1 if place.group(1) else len(line.encode())
    return at, told


class Case:
    """A pattern, its rules and its lines."""

    def __init__(self, pattern, rules, lines, search=False):
        self.pattern, self.rules, self.lines, self.search = pattern, rules, lines, search
        self.words = ["--rpl", rules] if rules else []

    def by_the_tool(self):
        """What rosie-why prints."""
        words = [*(["--grep"] if self.search else []), *self.words, "--libpath", EXAMPLES, "--", self.pattern]
        done = subprocess.run([os.path.join(TOOLS, "rosie-why"), *words], env=ENVIRONMENT, capture_output=True,
                              input="".join(line + "\n" for line in self.lines).encode(), check=False)
        return blocks(done.stdout.decode())

    def by_the_prompt(self):
        """What rosie-try prints after `:why`."""
        with tempfile.TemporaryDirectory() as folder:
            with open(os.path.join(folder, "lines"), "w", encoding="utf-8", newline="") as file:
                file.writelines(line + "\n" for line in self.lines)
            words = [os.path.join(TOOLS, "rosie-try"), *self.words, "--libpath", EXAMPLES, "lines"]
            done = subprocess.run(words, cwd=folder, env=dict(ENVIRONMENT, HOME=folder), capture_output=True,
                                  input=f"{self.pattern}\n:why\n".encode(), check=False)
        return blocks(done.stdout.decode().rpartition("rosie> line 1: ")[2].join(["line 1: ", ""]))

    def by_the_page(self, failed):
        """The places, in bytes from 0, and the sentences of the page."""
        asked = {"pattern": self.pattern, "rules": self.rules, "lines": "\n".join(self.lines), "search": self.search,
                 "failed": [number - 1 for number in failed]}
        found = Work([EXAMPLES]).call("why", asked)["reasons"]
        return {number + 1: (self.in_bytes(number, reason["at"]), reason["told"]) for number, reason in found.items()}

    def in_bytes(self, number, units):
        """A place of the page, which counts as JavaScript does, in bytes."""
        if units is None:
            return None
        return len(self.lines[number].encode("utf-16-le")[: 2 * units].decode("utf-16-le").encode())


class Same(unittest.TestCase):
    """They agree on each case."""

    def check(self, case):
        """How many lines failed, once all say the same of them."""
        told = case.by_the_tool()
        wanted = {number: place_and_reasons(text, case.lines[number - 1]) for number, text in told.items()}
        self.assertEqual(case.by_the_page(list(told)), wanted, case.pattern)
        if not case.search:
            self.assertEqual(case.by_the_prompt(), told, case.pattern)
        return len(told)

    def made_up(self, chance, search):
        """A pattern that the command takes, with lines that don't match."""
        while True:
            pattern = made_up_pattern(chance)
            word = "grep" if search else "match"
            if not search and command("grep", "--rpl", RULES, "--", pattern).returncode == 2:
                continue
            lines = ["".join(chance.choices(SIGNS, k=chance.randint(1, 6))) for _ in range(8 * LINES_EACH)]
            done = command(word, "-o", "bool", "--rpl", RULES, "--", pattern, text="\n".join(lines).encode() + b"\n")
            failed = [line for line, answer in zip(lines, done.stdout.split()) if answer == b"false"][:LINES_EACH]
            if len(failed) == LINES_EACH:
                return Case(pattern, RULES, failed, search)

    def test_made_up_pairs(self):
        for search in (False, True):
            chance = random.Random(68)
            cases = [self.made_up(chance, search) for _ in range(PAIRS // LINES_EACH)]
            with ThreadPoolExecutor(os.cpu_count()) as pool:
                self.assertEqual(sum(pool.map(self.check, cases)), PAIRS)

    def test_cases_of_the_tools(self):
        cases = []
        for words, text in self.records():
            rules = " ".join(words[i + 1] for i, word in enumerate(words) if word == "--rpl")
            arguments = [word for i, word in enumerate(words)
                         if not word.startswith("--") and words[i - 1:i] != ["--rpl"]]
            is_known = all(word in ("--rpl", "--grep", "--all") for word in words if word.startswith("-"))
            lines = text.encode("latin-1").decode("utf-8", "replace").removesuffix("\n").split("\n")
            if is_known and len(arguments) == 1 and "\n" not in arguments[0] and "\ufffd" not in text and text:
                cases.append(Case(arguments[0], rules, lines[:20], "--grep" in words))
        self.assertGreater(len(cases), FEWEST_RECORDS)
        with ThreadPoolExecutor(os.cpu_count()) as pool:
            self.assertGreater(sum(pool.map(self.check, cases)), FEWEST_RECORDS)

    def records(self):
        """The words and the inputs of rosie-why in tests/run_tools."""
        with open(os.path.join(TOP, "tests", "run_tools"), encoding="utf-8") as file:
            section = re.search(r"^# 2\. .*?(?=^# 3\. )", file.read(), re.MULTILINE | re.DOTALL)[0]
        with tempfile.TemporaryDirectory() as folder:
            for name, text in (("rosie-why", RECORDER.format(python=sys.executable)), ("rosie", "#!/bin/sh\n")):
                path = os.path.join(folder, name)
                with open(path, "w", encoding="utf-8") as file:
                    file.write(text)
                os.chmod(path, 0o755)
            environment = dict(os.environ, PATH=folder + os.pathsep + os.environ["PATH"],
                               RECORDS=os.path.join(folder, "records"))
            script = f'folder={folder}\nsays() {{ eval "$3"; }}\n{section}'
            subprocess.run(["bash", "-c", script], cwd=folder, env=environment, capture_output=True, check=False,
                           stdin=subprocess.DEVNULL)
            with open(os.path.join(folder, "records"), encoding="utf-8") as file:
                return [json.loads(line) for line in file]


if __name__ == "__main__":
    unittest.main()
