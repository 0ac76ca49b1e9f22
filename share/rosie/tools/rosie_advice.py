"""Advice on messages of rosie: the probable place of a fault, and what to write instead, from the table advice.tsv.

A row of the table says where a mistake is seen (`words`, a `pattern`, a `file`, a `line` or a `trace`), which message
it causes, how it looks, and what to do. `message` is a regular expression for the whole message. `looks` is one for the
text at the place of the fault, or the name of a detector in this module after `@`. In a hint, `{0}` is what was found,
and `{1}` to `{9}` are its parts. `when` restricts the row: `any`, the mistake may be anywhere in the pattern; `novice`,
nothing in the pattern is in quotes; `pattern`, only in the pattern of the command line; `text`, only within a text;
`head`, anywhere in a statement that is none. Needs only Python 3.9.
"""
import difflib
import functools
import glob
import os
import re
import subprocess
import time

from rosie_rpl import CLOSERS, KEYWORDS, comments, items, statement_end, tokens, wrong_place

HERE = os.path.dirname(os.path.realpath(__file__))
# PREFIX/share/rosie, and the top of the source tree if this file is in one.
ABOVE = [os.path.dirname(HERE), os.path.dirname(os.path.dirname(os.path.dirname(HERE)))]
COMMANDS = "match grep test list expand trace sample repl compile class".split()
MACROS = "find findall keepto ci uci message error".split()
CLASSES = ("alpha digit alnum upper lower space punct xdigit cntrl graph print blank Letter Uppercase_Letter "
           "Lowercase_Letter Alphabetic Uppercase Lowercase Mark Number Decimal_Number Hex_Digit Punctuation Dash "
           "Symbol Currency_Symbol Math_Symbol White_Space Space_Separator Control Format Unassigned XID_Start "
           "XID_Continue Emoji Ideographic Latin Greek Cyrillic Han Hiragana Katakana Arabic Hebrew Devanagari Any "
           "Assigned ASCII").split()
# What to write for these escapes in a pattern, by the letter after the backslash: as an item, and within a bracket.
ESCAPES = {"d": ("`[0-9]`", "[0-9]"), "w": ("`[[:alnum:][_]]`", "[:alnum:][_]"), "s": ("`[:space:]`", "[:space:]"),
           "D": ("`[^0-9]`", None), "W": ("`[^[:alnum:][_]]`", None), "S": ("`[:^space:]`", "[:^space:]"),
           "b": ("`~`", None), "B": ("`!~`", None)}
# Faults whose offset is that of the statement or the pattern, and not that of the place inside it.
WHOLE = re.compile(r"(too large|look-behind in|left recursion in|empty loop in|halt under a predicate in)\b.*",
                   re.DOTALL)
DATA_FILE = re.compile(r"[\w./~-]+\.(?:log|txt|csv|tsv|jsonl?|xml|gz|out|err|conf|md|ya?ml)(?:\.\d+)?", re.ASCII)
MOST_HINTS = 3
# How many bytes of a statement or a pattern are looked at.
MOST_READ = 1 << 16
# How many seconds all questions to the program may take together.
PATIENCE = 10
NAME_CUTOFF = 0.72
FEW_NAMES = 8
SHORTEST_TEXT = 3


class Row:
    """A row of the table."""

    def __init__(self, cells):
        self.name, self.where, self.message, self.looks, self.when, self.hint, self.example = cells

    def say(self, values):
        return re.sub(r"\{(\d)\}", lambda number: values[int(number[1])] or "", self.hint)


@functools.lru_cache(maxsize=None)
def table():
    with open(os.path.join(HERE, "advice.tsv"), encoding="utf-8") as file:
        return [Row(line.rstrip("\n").split("\t")) for line in file][1:]


def readable(text):
    """The text that the bytes of a Latin-1 text represent in UTF-8."""
    return text.encode("latin-1").decode("utf-8", "replace")


class Program:
    """The program to ask, with the options that a pattern needs. All questions take at most PATIENCE seconds; nothing
    is built.
    """

    def __init__(self, options=(), folders=None):
        self.options, self.folders, self.left = list(options), folders, PATIENCE
        self.path = self.found(os.environ.get("ROSIE") or "rosie")

    @staticmethod
    def found(name):
        """The path of the program, which a launcher in the source tree has only if the program is built."""
        beside = os.path.join(ABOVE[1], "crates", "rosie", "out", "rosie")
        for folder in [""] if "/" in name else os.get_exec_path():
            path = os.path.realpath(os.path.join(folder, name))
            if os.path.isfile(path) and os.access(path, os.X_OK):
                is_launcher = os.path.isfile(os.path.join(os.path.dirname(path), "tools", "try"))
                built = os.path.join(os.path.dirname(path), "crates", "rosie", "out", "rosie")
                return path if not is_launcher else built if os.path.isfile(built) else None
        return beside if os.path.isfile(beside) else None

    def library(self):
        """The folders where packages may be: those that were given, or the usual ones."""
        shared = [os.path.join(folder, "examples") for folder in ABOVE]
        return self.folders or [folder for folder in (".", "examples", *shared) if os.path.isdir(folder)]

    def ask(self, command, *words):
        """What the program writes: its output and its messages; None if it can't be asked."""
        if self.path is None or self.left <= 0:
            return None
        begun = time.monotonic()
        words = [self.path, command, "--libpath", ":".join(self.library()), *self.options, *words]
        with subprocess.Popen(words, stdin=subprocess.DEVNULL, stdout=subprocess.PIPE, stderr=subprocess.PIPE) as child:
            try:
                output, told = child.communicate(timeout=self.left)
            except subprocess.TimeoutExpired:
                child.terminate()
                output = told = b""
        self.left -= time.monotonic() - begun
        return output.decode("latin-1"), told.decode("latin-1")

    def names(self, *words):
        """The names that a pattern may use."""
        answer = self.ask("list", *words)
        return [line.split(" ")[0] for line in answer[0].splitlines()] if answer else []


class Case:
    """A message, and what it is about: for a pattern, its text as Latin-1, the place of the fault, and the statement
    around it.
    """

    def __init__(self, where, message, text="", at=0, name="", program=None):
        self.where, self.message, self.text, self.at, self.name = where, message, text, at, name
        self.program = program or Program()
        self.place, self.what, self.window, self.start = at, None, text, 0
        if where == "pattern":
            self.find_place()

    def is_pattern(self):
        return self.name == "(pattern)"

    def find_place(self):
        """Finds the statement, and the probable place if the message gives only the start of the statement."""
        self.start = 0 if self.is_pattern() else self.statement_start()
        text = self.text[self.start: self.start + MOST_READ]
        end = len(text) if self.is_pattern() else statement_end(text)
        if self.message == "syntax":
            wrong = wrong_place(text[:end], not self.is_pattern())
            if wrong:
                at, self.what, opened = wrong
                self.place = self.start + (opened if self.what == "open group" else at)
        elif WHOLE.fullmatch(self.message):
            self.place = smallest_part(self)
        line_end = text.find("\n", self.place - self.start)
        self.window = text[: max(end, len(text) if line_end < 0 else line_end)]

    def statement_start(self):
        """The start of the statement with the fault: where the fault says, or at the last binding before it."""
        if self.message == "syntax" or WHOLE.fullmatch(self.message) or self.message == "version":
            return self.at
        before = [found.start() for found in re.finditer(
            r"(?m)^[ \t]*(?:[A-Za-z]\w*\s*=|alias\b|local\b|grammar\b|import\b)", self.text[: self.at + 1], re.ASCII)]
        return before[-1] if before else 0

    def is_novice(self):
        return '"' not in self.window

    def is_in_text(self):
        """Whether the fault is within quotes on its line."""
        line = self.text[self.text.rfind("\n", 0, self.place) + 1: self.place]
        return len(re.findall(r'(?<!\\)"', line)) % 2 == 1

    def covers(self, found, when=""):
        first, last = self.start + found.start(), self.start + found.end()
        return (when == "head" and self.what == "no binding" or first <= self.place < max(last, first + 1)
                or self.place == last == len(self.text.rstrip()))


def smallest_part(case):
    """The place of the smallest part of a pattern or a rule that the program refuses for the same reason."""
    text, start = case.text, 0
    if not case.is_pattern():
        binding = re.compile(r"\s*(?:(?:local|alias)\s+)*[A-Za-z~]\w*\s*=", re.ASCII).match(case.text, case.at)
        if not binding:
            return case.at
        start = binding.end()
        text = case.text[start: case.at + statement_end(case.text[case.at: case.at + MOST_READ])]
    reason = re.match(r"[\w -]*?(?= in\b|:)", case.message)[0]
    before = [] if case.is_pattern() or not case.text[: case.at].strip() else ["--rpl", readable(case.text[: case.at])]
    spans, best = [(0, len(text))], (case.at if case.is_pattern() else start, len(text) + 1)
    spans += items(text)
    for first, last in spans:
        if best[0] - start <= first and last <= best[0] - start + best[1]:
            answer = case.program.ask("expand", *before, "--", readable(text[first:last]))
            if answer and re.search(rf"^rosie: \(pattern\):\d+: {re.escape(reason)}\b", answer[1], re.MULTILINE):
                best = (start + first, last - first)
    return best[0]


def hints(case):
    """At most a few hints: first one for the fault, then those for other mistakes in the pattern that are certain."""
    found = []
    for row in table():
        if row.where == case.where and re.fullmatch(row.message, case.message, re.DOTALL) and is_time(row, case):
            values = seen(row, case)
            if values is not None:
                found.append((row, values))
                break
    if case.where == "pattern":
        found += elsewhere(case, [row for row, _ in found])
    told = [row.say(values) for row, values in found]
    return [hint for i, hint in enumerate(told) if hint not in told[:i]][:MOST_HINTS]


def is_time(row, case):
    asks = row.when.split()
    return not ("novice" in asks and not case.is_novice() or "pattern" in asks and not case.is_pattern()
                or "text" in asks and not case.is_in_text())


def parts_of(found, message, row):
    """The values for a hint: what was found and its parts, or those of the message."""
    groups = [readable(group or "") for group in found.groups()]
    if not groups:
        groups = [group or "" for group in re.fullmatch(row.message, message, re.DOTALL).groups()]
    return [readable(found[0]), *groups] + [""] * 9


def seen(row, case):
    """The values of a hint if the case looks as the row says; otherwise None."""
    message = re.fullmatch(row.message, case.message, re.DOTALL)
    groups = [readable(group or "") for group in message.groups()]
    if row.looks.startswith("@"):
        values = DETECTORS[row.looks[1:]](case, groups)
        return None if values is None else [*values, *groups[len(values) - 1 if values else 0:]] + [""] * 9
    if not row.looks:
        return ["", *groups] + [""] * 9
    if case.where == "words":
        return seen_word(row, groups[0])
    if case.where == "file":
        found = re.fullmatch(row.looks, case.name, re.DOTALL)
        return parts_of(found, case.message, row) if found else None
    for found in re.finditer(row.looks, case.window, re.ASCII):
        if case.covers(found, row.when):
            return with_meaning(row, parts_of(found, case.message, row))
    return None


def with_meaning(row, values):
    """Adds what an escape stands for, as the last value, if the hint needs it."""
    if "{9}" in row.hint:
        values[9:] = [ESCAPES[values[1]][0]]
    return values


def seen_word(row, word):
    """The values if the word is as in the row, or has a value after `=`, is cut short, or is joined with other letters.
    """
    found = re.fullmatch(row.looks, word, re.DOTALL)
    if found:
        return parts_of(found, row.message.replace("(.*)", word), row)
    name = word.partition("=")[0]
    known = row.looks.split("|")
    if name.startswith("--") and len(name) > 3 and any(option.startswith(name) for option in known) or name in known:
        return [name] + [""] * 9
    if re.fullmatch(r"-[A-Za-z]{1,4}\d*", word) and any("-" + letter in known for letter in word[1:]):
        return [word] + [""] * 9
    return None


def elsewhere(case, taken):
    """What is certainly a mistake elsewhere in the same pattern, outside texts, brackets and comments."""
    masked = list(case.window)
    for token in tokens(case.window):
        if token.kind in ("text", "bracket"):
            masked[token.start: token.end] = " " * (token.end - token.start)
    for row in table():
        if row.when == "any" and row not in taken:
            found = re.search(row.looks, "".join(masked), re.ASCII)
            if found and not case.covers(found) and not bound_in(case, found[0]):
                yield row, [readable(found[0]), *(readable(group or "") for group in found.groups())] + [""] * 9


def bound_in(case, escape):
    """Whether the letter after a backslash is the name of a rule; then the backslash itself is the mistake."""
    return re.search(rf"(?<![\w\\]){re.escape(escape[1:2])}\s*=", case.text, re.ASCII) is not None


DETECTORS = {}


def detector(look):
    DETECTORS[look.__name__] = look
    return look


def close(name, names):
    """The names that were probably meant: all that are about as similar as the most similar one."""
    rated = sorted(((difflib.SequenceMatcher(None, name, other).ratio(), other) for other in set(names) - {name}),
                   reverse=True)
    best = [other for ratio, other in rated if ratio >= NAME_CUTOFF and ratio > rated[0][0] - 0.02]
    return sorted(best) if len(best) <= 3 else []


def one_close(name, names):
    best = close(name, names)
    return best[:1] or None


@detector
def similar_command(case, groups):
    return one_close(groups[0].lower(), COMMANDS)


@detector
def similar_class(case, groups):
    found = re.compile(r"\[:\^?(\w+):\]").match(case.text, case.place)
    for bracket in [found] if found else re.finditer(r"\[:\^?(\w+):\]", case.window):
        special = {"letters": "alpha", "letter": "alpha", "number": "digit", "numeric": "digit", "whitespace": "space",
                   "word": None}
        name = bracket[1].lower()
        best = special.get(name) or (one_close(name, [other.lower() for other in CLASSES]) or [None])[0]
        return [next(other for other in CLASSES if other.lower() == best)] if best else None
    return None


@detector
def similar_macro(case, groups):
    meant = {"search": "find", "grep": "find", "contains": "find", "nocase": "ci", "icase": "ci", "i": "ci",
             "fail": "error"}
    return [meant[groups[0]]] if groups[0] in meant else one_close(groups[0], MACROS)


@detector
def similar_package(case, groups):
    files = [path for folder in case.program.library()
             for path in glob.glob(os.path.join(glob.escape(folder), "*.rpl"))]
    return one_close(groups[0], [os.path.basename(path)[:-4] for path in files])


def bound_names(text):
    return [found[1] for found in re.finditer(r"(?<![\w.])([A-Za-z]\w*)\s*=", text, re.ASCII)
            if found[1] not in KEYWORDS]


def known_names(case, name):
    """The names that a pattern or a text of rules may use at the place of the fault."""
    prefix = name.partition(".")[0] if "." in name else ""
    words = ["--rpl", f"import {prefix}"] if prefix and case.is_pattern() else []
    if not case.is_pattern():
        imports = re.findall(r"^[ \t]*import\b[^\n]*|(?<![\w.])import\s+[\w/]+(?:\s+as\s+\w+)?", case.text,
                             re.MULTILINE)
        words = [word for text in imports for word in ("--rpl", text.strip())]
        return bound_names(case.text[: case.at]) + (case.program.names(*words) if words else [])
    return case.program.names(*words)


@detector
def similar_name(case, groups):
    best = close(groups[0], known_names(case, groups[0]))
    return [" or ".join(f"`{name}`" for name in best)] if best else None


@detector
def prefixed_name(case, groups):
    names = [name for name in known_names(case, groups[0]) if name.endswith("." + groups[0])]
    return names if len(names) == 1 else None


@detector
def known_here(case, groups):
    """All names, if rules are given and there are few names."""
    names = case.program.names() if case.program.options else []
    return [joined_names(names)] if 0 < len(names) <= FEW_NAMES else None


def joined_names(names):
    return ", ".join(f"`{name}`" for name in names)


@detector
def alternation(case, groups):
    """A `|` between two parts that is not in the middle of a name."""
    found = re.compile(r"\|{1,2}(?=\s*[\w\"\[({.^\\!~])").match(case.text, case.place)
    before = re.search(r"[\w\"\])}*+?.$]\s*\Z", case.text[: case.place])
    if not found or not before:
        return None
    whole = re.search(r"[\w.]*\Z", case.text[: case.place])[0] + re.match(r"[\w.]*", case.text[found.end():])[0]
    known = bound_names(case.text) + (known_names(case, whole) if case.is_pattern() else [])
    return None if whole in known else [found[0]]


@detector
def escaped_sign(case, groups):
    """A backslash before a sign, unless a `]` follows as the next bracket: then this was probably inside a bracket."""
    found = re.compile(r'\\([^\w\s\\"])').match(case.text, case.place)
    if not found or case.text[: case.place].endswith('"'):
        return None
    was_bracket = re.compile(r"(?:\\.|[^\[\]\\])*\]", re.DOTALL).match(case.text, found.end())
    return None if was_bracket else [found[0], found[1]]


@detector
def later_rule(case, groups):
    statement = re.compile(r"[A-Za-z]\w*").match(case.window.lstrip())
    is_own = statement and statement[0] == groups[0]
    if not case.is_pattern() and not is_own and groups[0] in bound_names(case.text[case.at:]):
        return ["", groups[0]]
    return None


@detector
def own_name(case, groups):
    before = bound_names(case.text[: case.at])
    return ["", groups[0]] if not case.is_pattern() and before and before[-1] == groups[0] else None


@detector
def import_missing(case, groups):
    if case.is_pattern() or re.search(rf"(?<![\w.])import\b[^=]*\b{groups[0]}\b", case.text):
        return None
    files = (os.path.join(folder, groups[0] + ".rpl") for folder in case.program.library())
    return ["", *groups] if any(map(os.path.isfile, files)) else None


@detector
def bare_text(case, groups):
    """A name that is probably meant as a text: no rules are given, and no package has that name."""
    files = [os.path.join(folder, groups[0].partition(".")[0] + ".rpl") for folder in case.program.library()]
    if case.program.options or any(map(os.path.isfile, files)):
        return None
    if len(groups[0]) < SHORTEST_TEXT:
        return None
    text = readable(case.window.strip()).strip("^$")
    plain = re.fullmatch(r"[\w .,:/@%+=-]*\w[\w .,:/@%+=-]*", text)
    return [text if plain else groups[0]]


@detector
def file_name(case, groups):
    text = readable(case.text)
    package = re.match(r"\w*", text)[0] + ".rpl"
    is_package = any(os.path.isfile(os.path.join(folder, package)) for folder in case.program.library())
    is_file = os.path.isfile(text) or DATA_FILE.fullmatch(text) and not is_package
    return [text] if case.is_pattern() and is_file and not text.endswith(".rpl") else None


@detector
def rules_name(case, groups):
    text = readable(case.text)
    return [text] if case.is_pattern() and re.fullmatch(r"[\w./~-]+\.rpl", text) else None


@detector
def package_elsewhere(case, groups):
    given = case.program.folders or ["."]
    shared = [os.path.join(folder, "examples") for folder in ABOVE]
    places = [".", "examples", *shared, *ABOVE, *sorted(glob.glob("*/"))]
    for folder in places:
        if folder not in given and os.path.isfile(os.path.join(folder, groups[0] + ".rpl")):
            return [groups[0], folder.rstrip("/")]
    return None


@detector
def two_imports(case, groups):
    return ["", groups[0]] if re.search(r"\bimport\b", case.window) else None


@detector
def two_rules(case, groups):
    return ["", groups[0]] if bound_names(case.text).count(groups[0]) > 1 else None


@detector
def folder(case, groups):
    return [case.name] if os.path.isdir(case.name) else None


@detector
def odd_quotes(case, groups):
    """A quote without a partner on the line."""
    start = case.text.rfind("\n", 0, case.place) + 1
    line = case.text[start:].split("\n", 1)[0]
    if case.message == "text without end" and case.text[case.place: case.place + 1] != '"':
        return None
    return [] if any(token.kind == "bad" and token.text == '"' for token in tokens(line)) else None


@detector
def late_import(case, groups):
    return [] if re.match(r"import\b", case.text[case.at:]) and bound_names(case.text[: case.at]) else None


@detector
def open_block(case, groups):
    left = case.text[case.at:]
    return [] if re.match(r"grammar\b", left) and not re.search(r"\bend\b(?!\s*=)", left) else None


def on_what(what):
    """A detector for a fault that the reader of statements found; its values are the sign at the place and the closing
    sign.
    """
    def look(case, groups):
        if case.what != what:
            return None
        sign = case.text[case.place: case.place + 1]
        return [sign, {"(": ")", "{": "}"}.get(sign, "")]
    return look


for kind in ("empty group", "open group", "other close", "extra close", "colon", "second quantifier"):
    DETECTORS[kind.replace(" ", "_")] = on_what(kind)


@detector
def hidden_close(case, groups):
    """An open group whose closing sign is in a comment."""
    if case.what != "open group":
        return None
    sign = case.text[case.place]
    after = [token for token in comments(case.window) if token.start > case.place - case.start]
    return [sign, CLOSERS[sign]] if any(CLOSERS[sign] in token.text for token in after) else None


@detector
def nothing_to_repeat(case, groups):
    found = re.compile(r"[*+?]|\{[\d\s,]*\}").match(case.text, case.place)
    return [found[0]] if case.what == "nothing to repeat" and found else None


@detector
def keyword(case, groups):
    found = re.compile(r"\w+").match(case.text, case.place)
    return [found[0]] if case.what == "keyword" and found and found[0] in KEYWORDS else None


@detector
def choice_end(case, groups):
    """The sign of a choice without a part before or after it."""
    if case.what != "missing item":
        return None
    before = case.text[: case.place].rstrip()
    found = re.search(r"[/&]\Z", before)
    if not found and (not before or before[-1] in "({="):
        found = re.compile(r"[/&]").match(case.text, case.place)
    return [found[0]] if found else None


def bracket_at(case):
    """The bracket in which the place is."""
    for token in tokens(case.window):
        if token.kind == "bracket" and token.start <= case.place - case.start < token.end:
            return token.text
    return None


def members(text):
    """The members of a bracket of a regular expression: classes, ranges and single characters."""
    at = 0
    while at < len(text):
        found = re.compile(r"\[:\^?\w+:\]|\\(?:x[0-9A-Fa-f]{2}|u[0-9A-Fa-f]{4}|.)|.", re.DOTALL).match(text, at)
        after = re.compile(r"-(\\.|[^\]\\\[])", re.DOTALL).match(text, found.end())
        if after and not found[0].startswith("[:") and not re.match(r"\\[dwsDWS]", found[0]):
            yield "range", found[0], after[1]
            at = after.end()
        else:
            yield ("class" if found[0].startswith("[:") else "one"), found[0], ""
            at = found.end()


def escaped(sign):
    """A character of a bracket of a regular expression, as it is written in a list of RPL."""
    sign = sign[1:] if len(sign) == 2 and sign[0] == "\\" and sign[1] not in "nrt\\" else sign
    return "\\" + sign if sign in ("[", "]", "-", "^", ":", '"') else sign


@detector
def regular_bracket(case, groups):
    """A bracket of a regular expression as a bracket of RPL; None if it has no such form."""
    text = bracket_at(case)
    if not text or text.startswith("[[") and re.search(r"\]\s*(?:\||-|&&)", text) or len(text) < 3:
        return None
    negated = "^" if text.startswith("[^") else ""
    parts, single = [], ""
    for kind, first, last in members(text[1 + len(negated): -1]):
        if kind == "range":
            if not (first.isalnum() and last.isalnum() and first < last):
                return None
            parts.append(f"[{first}-{last}]")
        elif kind == "class":
            parts.append(first)
        elif first[0] == "\\" and first[1:] in ESCAPES:
            if ESCAPES[first[1:]][1] is None:
                return None
            parts.append(ESCAPES[first[1:]][1])
        elif first in ("[", "]") or re.match(r"\\[0-9A-Za-z]", first) and first[1] not in "nrtxuU":
            return None
        else:
            single += escaped(first)
    parts += [f"[{single}]"] if single else []
    made = parts[0] if len(parts) == 1 and not negated else f"[{negated}{''.join(parts)}]"
    return [readable(made)] if parts and made != text else None


@detector
def backward_range(case, groups):
    found = re.compile(r"(\\.|[^\[\\])-(\\.|[^\]\\])").search(bracket_at(case) or "")
    if found and found[1].isalnum() and found[2].isalnum() and found[1] > found[2]:
        return [found[2], found[1]]
    return None


@detector
def dash_in_bracket(case, groups):
    return [] if "-" in (bracket_at(case) or "")[2:-2] else None
