"""Made-up patterns and lines: `over`, `match` one by one and the command by hand agree."""
import json
import unittest

from helper import NO_HYPOTHESIS, command, hypothesis

import rosie

if hypothesis is None:
    raise unittest.SkipTest(NO_HYPOTHESIS)

from hypothesis import strategies as st

RULES = 'a = "a" ab = {a "b"} alias any = . word = [[:alpha:][éλ]]+ grammar p = {"(" {p / word} ")"} end'
WORDS = ["a", "b", "é", "λ", "(", ")", "ab", " ", "\r", "😀", '"', "\\", "{", "\0", "steps 1"]


def quoted(text):
    """A text of RPL."""
    return '"' + text.replace("\\", "\\\\").replace('"', '\\"').replace("\r", "\\r").replace("\0", "\\x00") + '"'


ATOMS = [".", "$", "~", "[a-z]", "[:digit:]", "[^a]", "a", "ab", "any", "word", "p", 'message:"m"', 'error:"e"']
SIGNS = ["!", ">", "<", "find:", "findall:", "keepto:", "ci:"]
atoms = st.one_of(st.sampled_from(ATOMS),
                  st.lists(st.sampled_from(WORDS), max_size=2).map("".join).map(quoted))
patterns = st.recursive(atoms, lambda inner: st.one_of(
    st.lists(inner, min_size=1, max_size=3).map(lambda items: "{" + " ".join(items) + "}"),
    st.lists(inner, min_size=1, max_size=3).map(lambda items: "(" + " ".join(items) + ")"),
    st.lists(inner, min_size=2, max_size=3).map(lambda items: "{" + " / ".join(items) + "}"),
    st.tuples(inner, st.sampled_from(["*", "+", "?", "{2}", "{1,}"])).map(lambda pair: "{" + pair[0] + "}" + pair[1]),
    st.tuples(st.sampled_from(SIGNS), inner).map("".join)), max_leaves=8)
LINES = st.lists(st.one_of(st.lists(st.sampled_from(WORDS), max_size=6).map(lambda parts: "".join(parts).encode()),
                           st.binary(max_size=6).filter(lambda line: b"\n" not in line)), max_size=12)


def by_hand(word, pattern, line, more=()):
    """The answer of the command to one line: the tree, None, or the cause of its fault."""
    done = command(word, *more, "--rpl", RULES, "-o", "json", "--", pattern, text=line + b"\n")
    if done.returncode == 3:
        return done.stderr.decode().strip().partition(": -:1: ")[2]
    assert done.returncode in (0, 1), done
    return json.loads(done.stdout) if done.stdout else None


def answered(answer):
    """An answer of the library in the same form."""
    return answer.cause if isinstance(answer, rosie.LineFault) else answer and answer.to_dict()


def one(ask, line):
    """The answer to one text, with a fault as a value."""
    try:
        return answered(ask(line))
    except rosie.LineFault as fault:
        return fault.cause


class MadeUp(unittest.TestCase):
    """Agreement on what hypothesis makes up."""

    def check(self, pattern, given):
        refused = command("compile", "--rpl", RULES, "--", pattern)
        try:
            made = rosie.Pattern(pattern, rpl=RULES)
        except rosie.PatternError as error:
            self.assertEqual(refused.returncode, 2)
            self.assertIn(f"{error.file}:{error.offset}: {error.message}\n", refused.stderr.decode())
            return
        self.assertEqual(refused.returncode, 0)
        with made:
            wanted = [by_hand("match", pattern, line) for line in given]
            self.assertEqual([answered(answer) for answer in made.over(given)], wanted)
            self.assertEqual([one(made.match, line) for line in given], wanted)
            for line in given[:3]:
                self.check_search(made, pattern, line)

    def check_search(self, made, pattern, line):
        refused = command("grep", "--rpl", RULES, "--", pattern)
        if refused.returncode == 2:
            with self.assertRaises(rosie.PatternError) as caught:
                made.search(line)
            self.assertIn(caught.exception.message, refused.stderr.decode())
            return
        root = by_hand("grep", pattern, line)
        try:
            spans = [(hit.byte_span[0] + 1, hit.byte_span[1] + 1, hit.text) for hit in made.findall(line)]
        except rosie.LineFault as fault:
            self.assertEqual(fault.cause, root)
            return
        self.assertEqual(spans, [(part["s"], part["e"], part["data"]) for part in (root or {}).get("subs", [])])

    @hypothesis.settings(max_examples=60, deadline=None, derandomize=True)
    @hypothesis.given(patterns, LINES)
    def test_agreement(self, pattern, given):
        self.check(pattern, given)

    @hypothesis.settings(max_examples=40, deadline=None, derandomize=True)
    @hypothesis.given(st.lists(st.sampled_from(WORDS), max_size=6).map("".join), st.integers(1, 60))
    def test_budgets(self, line, budget):
        pattern = '{{"a" / "b"}* "é"* word? "("}'
        wanted = by_hand("match", pattern, line.encode(), ["--budget", str(budget)])
        with rosie.Pattern(pattern, rpl=RULES, budget=budget) as made:
            self.assertEqual([answered(answer) for answer in made.over([line, line])], [wanted] * 2)
            self.assertEqual(one(made.match, line), wanted)

    def test_a_text_with_line_feeds_is_whole(self):
        for text in ("a\nb", "a\n\n", "\n\n", "\na", "é\n(a)\n"):
            for pattern in ("{.* $}", '{"a" .}', "[\\n]+"):
                done = command("match", "-w", "--", pattern, text=text.encode())
                wanted = json.loads(done.stdout) if done.stdout else None
                made = rosie.Pattern(pattern)
                self.assertEqual(one(made.match, text), wanted)
                self.assertEqual([answered(answer) for answer in made.over(["a", text])][1:], [wanted])


if __name__ == "__main__":
    unittest.main()
