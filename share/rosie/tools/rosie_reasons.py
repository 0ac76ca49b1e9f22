"""The hints about a line that a pattern does not match, from its trace, its text and the pattern together.

Each row of advice.tsv about a trace has a detector here, which returns the values for the hint, or None if it finds
nothing. Needs only Python 3.9.
"""
import functools
import itertools
import re

from rosie_advice import table
from rosie_rpl import tokens
from rosie_why import lines_of, others, quoted, ranges, set_in_words

MOST_HINTS = 2
# For so many lines of a run, another run is asked where else the pattern matches.
SEARCHES = 3
# How many rules within rules are followed to find the characters of a part of a choice.
DEPTH = 5
ANY = "0-d7ff e000-10ffff"
CLASSES = {ANY: ".", "30-39": "[0-9]", "61-7a": "[a-z]", "41-5a": "[A-Z]", "41-5a 61-7a": "[:alpha:]",
           "9-d 20": "[:space:]", "30-39 41-5a 61-7a": "[:alnum:]", "9 20": "[:blank:]"}
REGULAR = re.compile(r"\[[^\]]+\][*+?{]|\.[*+]|\([^()]*\|[^()]*\)|^\^|\$$|[)\]]\?|\w\|\w", re.ASCII)


def read_core(text):
    """The rules of `expand`, by name, each as nested lists of words."""
    rules = {}
    for line in text.splitlines():
        name, found, body = line.partition(" = ")
        if found and body.startswith(("(", "call")) and " " not in name:
            rules[name] = nested(body)
    return rules


def nested(body):
    stack = [[]]
    for word in re.findall(r'[()]|"(?:\\.|[^"\\])*"|[^\s()]+', body):
        if word == "(":
            stack.append([])
        elif word == ")":
            done = stack.pop()
            stack[-1].append(done)
        else:
            stack[-1].append(word)
    return stack[0][0] if stack[0] else []


def walk(node):
    """All parts of a rule."""
    yield node
    for part in node:
        if isinstance(part, list):
            yield from walk(part)


def fixed(node, rules, depth=0):
    """The sets of a part that takes exactly one character for each of its sets, in order; None if it may take more or
    fewer.
    """
    kind = node[0] if node else ""
    if kind == "set":
        return [" ".join(node[1:])]
    if kind == "seq":
        parts = [fixed(part, rules, depth) for part in node[1:]]
        return None if None in parts else [one for part in parts for one in part]
    if kind == "capture":
        return fixed(node[2], rules, depth)
    if kind == "call" and depth < DEPTH and node[1] in rules and node[1] != "~":
        return fixed(rules[node[1]], rules, depth + 1)
    return None


def holds(members, number):
    return any(first <= number <= last for first, last in ranges(members.encode()))


def one_character(members):
    """The only character of a set, or None."""
    return chr(int(members, 16)) if re.fullmatch(r"[0-9a-f]+", members) else None


def written(sets):
    """A sequence of sets, as it is written in a pattern."""
    made, literal = [], ""
    for members in sets:
        sign = one_character(members)
        if sign:
            literal += sign
            continue
        made += [quoted(literal)] if literal else []
        made.append(CLASSES.get(members) or bracket(members))
        literal = ""
    made += [quoted(literal)] if literal else []
    return made[0] if len(made) == 1 else "{" + " ".join(made) + "}"


def bracket(members):
    """A set as a bracket; if the set goes up to the last character, the bracket lists what it leaves out."""
    parts = list(ranges(members.encode()))
    left = others(parts)
    made = []
    for first, last in (left or parts)[:4]:
        ends = [re.sub(r"([\[\]\-^:\\\"])", r"\\\1", chr(end)) if 32 <= end < 127 else f"\\u{end:04x}"
                for end in (first, last)]
        made.append(ends[0] if first == last else f"{ends[0]}-{ends[1]}")
    sign = "^" if left else ""
    if len(made) == 1 or not any("-" in part[1:2] for part in made):
        return f"[{sign}{''.join(made)}]"
    return f"[{sign}{''.join(f'[{part}]' for part in made)}]"


class Line:
    """A line that failed: its text, the reading of its trace, and the pattern that was tried."""

    def __init__(self, asked, text, reading, may_search):
        self.asked, self.text, self.reading, self.may_search = asked, text, reading, may_search
        self.at = reading.furthest
        self.wanted = [step for step in reading.missed if step.kind == b"set"]
        self.rest = text[self.at - 1:].decode("utf-8", "replace")

    @property
    def rules(self):
        return rules_of(self.asked)

    def next_number(self):
        return ord(self.rest[0]) if self.rest else None


@functools.lru_cache(maxsize=4)
def rules_of(asked):
    return read_core(asked.core())


def reasons(asked, text, reading, may_search=True):
    """The hints for a line, at most two."""
    line, found = Line(asked, text, reading, may_search), []
    for row in table():
        if row.where == "trace" and len(found) < MOST_HINTS:
            line.may_search = may_search and not found
            values = DETECTORS[row.looks[1:]](line)
            if values is not None:
                found.append(row.say([*values] + [""] * 9))
    return found


DETECTORS = {}


def detector(look):
    DETECTORS[look.__name__] = look
    return look


@detector
def byte_order_mark(line):
    return [] if line.at == 1 and line.text.startswith(b"\xef\xbb\xbf") else None


@detector
def carriage_return(line):
    at_end = any(step.kind == b"end" for step in line.reading.missed)
    return [] if at_end and line.text[line.at - 1:] == b"\r" else None


@detector
def other_blank(line):
    number = line.next_number()
    if (any(step.what == b"20" for step in line.wanted) and number is not None and number != 32
            and chr(number).isspace()):
        other = "a no-break space" if number == 0xA0 else f"the character {number:x} (hexadecimal)"
        return ["a tab" if number == 9 else other]
    return None


@detector
def regular_text(line):
    """A text of the pattern that looks like a regular expression, and in which the line fails."""
    for token in tokens(line.asked.pattern):
        content = re.sub(r"\\(.)", r"\1", token.text[1:-1])
        if token.kind != "text" or not REGULAR.search(content):
            continue
        for i, sign in enumerate(content):
            before = line.text[: line.at - 1].decode("utf-8", "replace")
            if before.endswith(content[:i]) and any(step.what == b"%x" % ord(sign) for step in line.wanted):
                return [token.text]
    return None


@detector
def one_colon(line):
    """A bracket that is meant to be a class."""
    for token in tokens(line.asked.pattern):
        if token.kind != "bracket":
            continue
        found = re.fullmatch(r"\[(?::(\^?[a-z]{4,})|(\^?[a-z]{4,}):)\]", token.text)
        if found:
            return [token.text, f"[:{found[1] or found[2]}:]"]
    return None


@detector
def choice_order(line):
    """A choice whose first fitting part took less than a later part would have taken."""
    for start, end in line.reading.choices:
        taken = line.text[start - 1: end - 1].decode("utf-8", "replace")
        left = line.text[start - 1:].decode("utf-8", "replace")
        for choice in (part for rule in line.rules.values() for part in walk(rule) if part[:1] == ["choice"]):
            parts = [fixed(part, line.rules) for part in choice[1:]]
            fitting = [sets for sets in parts if sets and len(sets) <= len(left) and
                       all(holds(members, ord(sign)) for members, sign in zip(sets, left))]
            if fitting and len(fitting[0]) == len(taken) and end <= line.at:
                longer = [sets for sets in fitting[1:] if len(sets) > len(taken)]
                if longer:
                    return [written(fitting[0]), written(longer[0])]
    return None


def flat(node):
    """The parts of a sequence, including those of sequences inside it."""
    for part in node[1:]:
        yield from flat(part) if part[:1] == ["seq"] else [part]


def literal_after(line, body, wanted):
    """The characters that follow such a repetition in the rules, beginning with the one that was wanted."""
    for rule in line.rules.values():
        for parts in (list(flat(part)) for part in walk(rule) if part[:1] == ["seq"]):
            for i, part in enumerate(parts[:-1]):
                if part == ["many", ["set", *body.split()]] and parts[i + 1] == ["set", *wanted.split()]:
                    after = itertools.takewhile(lambda one: one[0] == "set", parts[i + 1:])
                    signs = itertools.takewhile(one_character, (" ".join(one[1:]) for one in after))
                    return written(list(signs) or [wanted])
    return written([wanted])


@detector
def gives_nothing_back(line):
    """A repetition that has taken what was wanted after it."""
    for one in line.reading.taken:
        taken = line.text[one.start - 1: one.end - 1].decode("utf-8", "replace")
        for step in line.wanted:
            wanted = step.what.decode()
            if one.body and one.body.kind == b"set" and any(holds(wanted, ord(sign)) for sign in taken):
                body = one.body.what.decode()
                if wanted == body:
                    continue
                name = "`.*`" if body == ANY else f"the repetition of {' or '.join(set_in_words(body.encode()))}"
                return [name, str(one.start), str(one.end - 1), literal_after(line, body, wanted), written([body])]
    return None


@detector
def boundary(line):
    """A boundary between words was wanted within a word."""
    around = line.text[line.at - 2: line.at] if line.at > 1 else b""
    if any(step.is_boundary() for step in line.reading.missed) and re.fullmatch(rb"[A-Za-z0-9]{2}", around):
        return []
    return None


@detector
def letter_case(line):
    number = line.next_number()
    for step in line.wanted:
        sign = one_character(step.what.decode())
        if number is not None and sign and sign.isalpha() and sign != chr(number) and sign.swapcase() == chr(number):
            return [chr(number), sign]
    return None


@detector
def further_on(line):
    """The pattern matches further on in the line."""
    if not line.may_search or line.asked.whole or line.asked.pattern.lstrip("{( ").startswith("^"):
        return None
    place = line.asked.place_of_hit(line.text)
    return [str(place)] if place and place > 1 else None


@detector
def whole_file(line):
    """A file of several lines was tried as one line, and one of its lines contains the pattern."""
    if not line.asked.whole or not line.may_search or b"\n" not in line.text.rstrip(b"\n"):
        return None
    single = line.asked.but_whole()
    return [] if any(map(single.place_of_hit, lines_of(line.text, False)[:SEARCHES])) else None
