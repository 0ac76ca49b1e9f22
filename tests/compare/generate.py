"""Made-up rules, patterns and lines, the same for the same seed.

A pattern is built with a hand for what its parts match, so that many of its lines match, and others fail late. All that
is in a core has its part: sets, also beyond ASCII, texts, groups with and without boundaries, choices, repetitions,
also tokenised ones, predicates, look-behind of one and of several lengths, names with and without nodes, blocks that
call themselves, the macros, the ends and the boundary. `halt` alone is left out: LPeg has nothing like it.

What is made passes the check on left recursion and empty loops by the way it is built. A *marked* pattern passes
because of marks alone: the text MARK stands wherever a character must be taken. Without its marks it may be left
recursive or have an empty loop.
"""
import random
from collections import namedtuple

# What is written of a part, whether each match of it takes a character, and what makes a text that it may match.
Part = namedtuple("Part", "text takes line")
# The rules, the pattern, and the lines to match.
Case = namedtuple("Case", "rules pattern lines")

MARK = r'"\x01"'
COMMON = "aaabbbccd019 ,;-_AB"
RARE = "éλΩ中😀\t\"\\\x02\x7f\r:`z"
# Brackets, each with some of its members.
BRACKETS = [
    (".", "abc1 é😀"), ("[a-c]", "abc"), ("[^a]", "bc1 é"), ("[bc]", "bc"), ("[:digit:]", "019"), ("[:alpha:]", "abcAB"),
    ("[:^alpha:]", "01 ,é"), ("[:space:]", " \t"), ("[:punct:]", ",;-"), ("[[a-c][0-1]]", "abc01"),
    ("[[a-d] -- [bc]]", "ad"),
    ("[[a-c] && [b-d]]", "bc"), ("[^[a-b][ ]]", "cd0é"), ("[[α-ω][Α-Ω]]", "λΩ"), ("[A-Ω]", "ABaéΩ"),
    ("[é-λ]", "éλ"), ("[^é]", "abλ😀"), ("[a😀]", "a😀"), ("[^[a-c][λ]]", "d1é"),
]
QUANTIFIERS = [("*", 0, None), ("+", 1, None), ("?", 0, 1), ("{2}", 2, 2), ("{1,3}", 1, 3), ("{0,2}", 0, 2),
               ("{2,}", 2, None), ("{,2}", 0, 2)]


def spelled(text):
    """The text as one of the language."""
    escapes = {'"': '\\"', "\\": "\\\\", "\t": "\\t", "\r": "\\r"}
    return '"' + "".join(escapes.get(c) or (f"\\x{ord(c):02x}" if c < " " or c == "\x7f" else c) for c in text) + '"'


class Maker:
    """Makes the parts of one case. The number stands in the names of its rules, so that many cases can stand in one
    text.
    """

    def __init__(self, seed, number="", marked=False):
        self.random = random.Random(seed)
        self.number = number
        self.marked = marked
        self.rules = []        # pairs of a name and its part; those with a bounded length in `bounded`
        self.bounded = []
        self.block = []        # the names of the block that is being made

    def some(self, choices):
        return self.random.choice(choices)

    def chance(self, share):
        return self.random.random() < share

    def character(self):
        return self.some(COMMON) if self.chance(0.85) else self.some(RARE)

    # Parts. `takes`: it must take a character. `level`: how deep it may be. `after`: a character was surely taken
    # before, so a rule of the block may be called. `short`: it stands in a look-behind, so its length must be bounded,
    # and no boundary stands in it, since that takes any number of blanks.

    def literal(self, takes):
        count = self.some([1, 1, 1, 2, 2, 3]) if takes or self.chance(0.95) else 0
        text = "".join(self.character() for _ in range(count))
        return Part(spelled(text), bool(text), lambda depth: text)

    def bracket(self):
        if self.chance(0.15):
            first, last = sorted(self.random.sample("abcdz019AB", 2))
            return Part(f"[{first}-{last}]", True, lambda depth: self.some([first, last]))
        text, members = self.some(BRACKETS)
        return Part(text, True, lambda depth: self.some(members))

    def simple(self, takes, short=False):
        known = [(name, part) for name, part in (self.bounded if short else self.rules) if part.takes or not takes]
        if known and self.chance(0.5):
            name, part = self.some(known)
            return Part(name, part.takes, part.line)
        return self.literal(takes) if self.chance(0.5) else self.bracket()

    def nothing(self, level, after, short):
        """What matches and takes nothing."""
        kind = self.some(["!", "!", "!", ">", ">", "<", "<", "<", "~", "^", "$", "message"])
        if kind == "~" and short:
            kind = "^"
        if kind in ("~", "^", "$"):
            return Part(kind, False, lambda depth: "")
        if kind == "message":
            return Part("message:" + self.literal(True).text, False, lambda depth: "")
        part = self.item(False, level - 1, after and kind != "<", short or kind == "<")
        return Part(kind + part.text, False, lambda depth: "")

    def sequence(self, takes, level, after, short):
        count = self.some([2, 2, 3])
        must = self.random.randrange(count) if takes else None
        parts = []
        for index in range(count):
            part = self.item(index == must, level - 1, after, short)
            after = after or part.takes
            parts.append(part)
        raw = short or self.chance(0.7)
        between = "" if raw else " "
        text = " ".join(part.text for part in parts)
        return Part("{" + text + "}" if raw else "(" + text + ")", any(part.takes for part in parts),
                    lambda depth: between.join(part.line(depth) for part in parts))

    def choice(self, takes, level, after, short):
        parts = [self.item(takes, level - 1, after, short) for _ in range(self.some([2, 2, 3]))]
        return Part("{" + " / ".join(part.text for part in parts) + "}", all(part.takes for part in parts),
                    lambda depth: self.some(parts).line(depth))

    # Forms in which it shows whether what was tried before is forgotten, and whether a repetition keeps what it took.

    def late_choice(self, takes, level, after, short):
        """Two ways that begin alike."""
        begin = self.item(takes, level - 1, after, short)
        ends = [self.item(False, level - 2, after or begin.takes, short) for _ in range(2)]
        return Part("{{" + begin.text + " " + ends[0].text + "} / {" + begin.text + " " + ends[1].text + "}}",
                    begin.takes, lambda depth: begin.line(depth) + self.some(ends).line(depth))

    def guarded(self, takes, level, after, short):
        """What doesn't, or does, go on in a certain way."""
        begin = self.item(takes, level - 1, after, short)
        ahead, then = (self.item(False, level - 2, after or begin.takes, short) for _ in range(2))
        sign = self.some("!!>")
        return Part("{" + sign + "{" + begin.text + " " + ahead.text + "} " + begin.text + " " + then.text + "}",
                    begin.takes, lambda depth: begin.line(depth) + (ahead if sign == ">" else then).line(depth))

    def greedy(self, takes, level, after, short):
        """A repetition, and behind it what may be one of its turns."""
        body = self.item(True, level - 2, after, short)
        then = self.some([body, self.item(takes, level - 2, after, short)])
        quantifier = "{1,3}" if short else self.some("*+")
        return Part("{{" + body.text + "}" + quantifier + " " + then.text + "}", quantifier != "*" or then.takes,
                    lambda depth: "".join(body.line(depth) for _ in range(self.some([1, 2, 3, 5]))) + then.line(depth))

    def looking_back(self, takes, level, after, short):
        """A part, and behind it a look back at it, perhaps over one of several lengths."""
        begin = self.item(True, level - 2, after, True)
        other = self.item(True, 0, False, True)
        back = self.some(["{0}", "{{{1} / {0}}}", "{{{0} / {{{0} {1}}}}}", "{{{{{1} / {{{1} {1}}}}} / {0}}}",
                          "{{{{{1}}}? {0}}}"]).format(begin.text, other.text)
        then = self.item(False, level - 2, True, short)
        return Part("{" + begin.text + " <" + back + " " + then.text + "}", True,
                    lambda depth: begin.line(depth) + then.line(depth))

    def both(self, takes, level, after, short):
        ahead = self.item(False, level - 1, after, short)
        part = self.item(takes, level - 1, after, short)
        return Part("{" + ahead.text + " & " + part.text + "}", part.takes, part.line)

    def repeated(self, takes, level, after, short):
        quantifier, least, most = self.some([q for q in QUANTIFIERS if (q[1] or not takes) and (q[2] or not short)])
        body = self.item(True, level - 1, after, short)
        if self.marked and not short and self.chance(0.6):
            body = self.mark(self.item(False, level - 1, True, short))
        cooked = not short and self.chance(0.35)
        between = " " if cooked else ""
        most = most or least + self.some([1, 4])
        return Part(("(" + body.text + ")" if cooked else "{" + body.text + "}") + quantifier, bool(least),
                    lambda depth: between.join(body.line(depth) for _ in range(self.random.randint(least, most))))

    def macro(self, takes, level, after, short):
        kind = self.some(["ci", "uci"] if short else ["find", "findall", "keepto", "ci", "ci", "uci"])
        part = self.item(takes or kind == "findall", level - 1, after, short)
        if kind in ("ci", "uci"):
            return Part(kind + ":" + part.text, part.takes,
                        lambda depth: "".join(self.some([c, c.swapcase()]) if len(c.swapcase()) == 1 else c
                                              for c in part.line(depth)))
        return Part(kind + ":" + part.text, part.takes, lambda depth: self.some(["", "x", "d "]) + part.line(depth))

    def call(self):
        """A rule of the block that is being made: its part is known only later."""
        name = self.some(self.block)
        return Part(name, False, lambda depth: dict(self.rules)[name].line(depth + 1) if depth < 3 else "")

    def mark(self, part):
        return Part("{" + MARK + " " + part.text + "}", True, part.line)

    def item(self, takes, level, after, short):
        if self.block and not takes and not short:
            if after and self.chance(0.35):
                return self.call()
            if self.marked and self.chance(0.2):
                return self.mark(self.call())
        if level <= 0 or self.chance(0.2):
            return self.simple(takes, short)
        if not takes and self.chance(0.25):
            return self.nothing(level, after, short)
        form = self.some([self.sequence, self.sequence, self.sequence, self.sequence, self.choice, self.choice,
                          self.repeated, self.repeated, self.greedy, self.late_choice, self.guarded,
                          self.looking_back, self.both, self.macro])
        return form(takes, level, after, short)

    # Rules, and the whole.

    def add_rule(self):
        name = f"r{len(self.rules)}_{self.number}"
        short = self.chance(0.4)
        part = self.item(self.chance(0.8), 2, False, short)
        self.rules.append((name, part))
        if short:
            self.bounded.append((name, part))
        return f"{self.some(['', '', 'alias '])}{name} = {part.text}"

    def add_block(self):
        names = [f"b{index}_{self.number}" for index in range(self.some([1, 2, 2]))]
        made = []
        self.block = names
        for name in names:
            nested = self.sequence(True, 3, False, False)
            simple = self.simple(True)
            made.append((name, Part("{" + nested.text + " / " + simple.text + "}", nested.takes and simple.takes,
                                    lambda depth, nested=nested, simple=simple:
                                    self.some([nested, simple]).line(depth))))
        self.block = []
        self.rules += made
        rules = (f"{self.some(['', '', 'alias '])}{name} = {part.text}" for name, part in made)
        return "grammar " + " ".join(rules) + " end"

    def changed(self, line):
        """The line with a character more, less or another one, perhaps its neighbour among all characters."""
        at = self.random.randrange(len(line) + 1)
        kind = self.some(["more", "less", "other", "neighbour", "neighbour"])
        if kind == "more" or at == len(line):
            return line[:at] + self.character() + line[at:]
        other = {"less": "", "other": self.character(),
                 "neighbour": chr(max(32, ord(line[at]) + self.some([-1, 1])))}[kind]
        return line[:at] + other + line[at + 1:]

    def lines(self, part):
        made = [part.line(0) for _ in range(3)]
        made += [self.changed(part.line(0)) for _ in range(3)]
        made.append("".join(self.character() for _ in range(self.random.randrange(12))))
        return [line[:60] for line in made]

    def case(self):
        texts = [self.add_rule() for _ in range(self.some([0, 1, 1, 2]))]
        if self.marked or self.chance(0.25):
            texts.append(self.add_block())
        part = self.item(False, 4, False, False)
        return Case(" ".join(texts), part.text, self.lines(part))


def boundary(seed):
    """A boundary of their own for some of the texts."""
    chooser = random.Random(f"boundary {seed}")
    return chooser.choice(['~ = ","* ', '~ = {" " / ";"} ', "~ = [ ,]+ "]) if chooser.random() < 0.15 else ""


def made(seed, number=""):
    return Maker(seed, number).case()


def marked(seed):
    """A case that passes the check by its marks, whose pattern calls each of its rules."""
    maker = Maker(f"marked {seed}", marked=True)
    case = maker.case()
    calls = [name for name, _ in maker.rules]
    return Case(case.rules, "{" + " / ".join([case.pattern] + calls) + "}", [])
