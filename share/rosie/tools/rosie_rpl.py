"""Reads the Rosie Pattern Language as far as advice needs it: its tokens, and the place where a statement goes wrong.

Texts are passed as Latin-1, one character for each byte, so that places are those of rosie. Needs only Python 3.9.
"""
import re

KEYWORDS = frozenset("rpl package import as alias local grammar in end".split())
TOKEN = re.compile(r"""
    (?P<blank>[ \t\r\n]+ | --[^\n]*)
  | (?P<text>"(?:\\[^\n]|[^"\\\n])*")
  | (?P<qualified>[A-Za-z]\w*\.[A-Za-z]\w*)
  | (?P<name>[A-Za-z]\w*)
  | (?P<bounds>\{[ \t]*(?:\d+[ \t]*(?:,[ \t]*\d*[ \t]*)?|,[ \t]*\d*[ \t]*)\})
  | (?P<number>\d+)
  | (?P<sign>[{}()/&!><*+?.^$~=,:])
  | (?P<bad>[\x00-\xff])
""", re.VERBOSE | re.ASCII)
QUANTIFIERS = frozenset("*+?")
PREDICATES = frozenset("!><")
CLOSERS = {"(": ")", "{": "}"}


class Token:
    """A token: its kind, its text, and where it begins and ends."""

    def __init__(self, kind, text, start):
        self.kind, self.text, self.start, self.end = kind, text, start, start + len(text)

    def is_sign(self, signs):
        return self.kind == "sign" and self.text in signs

    def is_quantifier(self):
        return self.kind == "bounds" or self.is_sign(QUANTIFIERS)


def bracket_end(text, start):
    """Where the bracket that begins here ends, or None if it isn't closed on its line."""
    depth, at = 0, start
    while at < len(text) and text[at] != "\n":
        if text[at] == "\\":
            at += 1
        elif text[at] == "[":
            depth += 1
        elif text[at] == "]":
            depth -= 1
            if depth == 0:
                return at + 1
        at += 1
    return None


def qualified_parts(token):
    """The tokens of a qualified name: three if one half is a keyword, since a keyword is no half of a qualified name.
    """
    first, _, second = token.text.partition(".")
    if first not in KEYWORDS and second not in KEYWORDS:
        return [token]
    dot = token.start + len(first)
    return [Token("name", first, token.start), Token("sign", ".", dot), Token("name", second, dot + 1)]


def pieces(text):
    """All tokens, including blanks and comments. A byte that begins no token is a token `bad`."""
    at = 0
    while at < len(text):
        end = bracket_end(text, at) if text[at] == "[" else None
        match = None if end else TOKEN.match(text, at)
        token = Token(match.lastgroup, match[0], at) if match else Token("bracket", text[at:end], at)
        at = token.end
        yield token


def comments(text):
    """The comments of a text, as tokens."""
    return [token for token in pieces(text) if token.kind == "blank" and token.text.startswith("--")]


def tokens(text):
    """All tokens except blanks and comments."""
    found = []
    for token in pieces(text):
        if token.kind != "blank":
            found += qualified_parts(token) if token.kind == "qualified" else [token]
    for token in found:
        if token.kind == "name" and token.text in KEYWORDS:
            token.kind = "keyword"
    return found


def binds(found, i):
    """Whether a binding begins at this token: a name or a boundary with `=` after it."""
    return (i + 1 < len(found) and found[i + 1].is_sign("=")
            and (found[i].kind in ("name", "keyword") or found[i].is_sign("~")))


class Wrong(Exception):
    """The first place that fits no form: the number of its token, and what is wrong there, by a short name."""

    def __init__(self, at, what, opened=None):
        super().__init__(what)
        self.at, self.what, self.opened = at, what, opened


class Reader:
    """Reads expressions and statements from tokens."""

    def __init__(self, found):
        self.found, self.groups = found, []

    def token(self, i):
        return self.found[i] if i < len(self.found) else Token("end", "", 0)

    def expression(self, i, opened=None):
        """Reads as far as the expression goes, and returns the number of the token after it."""
        i = self.sequence(i, opened)
        while self.token(i).is_sign("/&"):
            i = self.sequence(i + 1, opened)
        return i

    def sequence(self, i, opened):
        begun = i
        while self.begins_item(i):
            i = self.item(i)
        if i == begun:
            what = self.why_no_item(i, begun, opened)
            raise Wrong(i, what, i - 1 if what == "open group" else opened)
        return i

    def begins_item(self, i):
        token = self.token(i)
        if token.kind in ("text", "bracket", "qualified") or token.is_sign("!><({.^$"):
            return True
        return (token.kind == "name" or token.is_sign("~")) and not binds(self.found, i)

    def left_open(self):
        """By how many the opened groups outnumber the closed ones."""
        return sum(token.is_sign("({") - token.is_sign(")}") for token in self.found)

    def why_no_item(self, i, begun, opened):
        token = self.token(i)
        # If there is a surplus brace next to the sign of a choice, the brace is what is wrong, not the choice.
        if token.is_sign("/&") and i and self.token(i - 1).is_sign("({") and self.left_open() > 0:
            return "open group"
        if token.is_sign(")}") and i and self.token(i - 1).is_sign("/&") and self.left_open() < 0:
            return "extra close"
        if token.is_quantifier():
            return "nothing to repeat"
        if token.is_sign(",:="):
            return self.why_not_on(i)
        if token.kind in ("number", "keyword", "bad"):
            return token.kind
        if token.is_sign(")}") and begun and self.token(begun - 1) is self.token(opened if opened is not None else -1):
            return "empty group"
        return "missing item"

    def item(self, i):
        token = self.token(i)
        if token.is_sign("!><"):
            return self.needed_item(i + 1)
        if token.kind == "name" and self.token(i + 1).is_sign(":"):
            return self.needed_item(i + 2)
        i = self.atom(i)
        if self.token(i).is_quantifier():
            i += 1
            if self.token(i).is_quantifier():
                is_open = self.left_open() > 0 and self.groups
                raise Wrong(i, "open group" if is_open else "second quantifier", self.groups[-1] if is_open else None)
        return i

    def needed_item(self, i):
        if not self.begins_item(i):
            raise Wrong(i, self.why_no_item(i, 0, None))
        return self.item(i)

    def atom(self, i):
        token = self.token(i)
        if not token.is_sign("({"):
            return i + 1
        self.groups.append(i)
        closed = self.expression(i + 1, i)
        self.groups.pop()
        if self.token(closed).is_sign(CLOSERS[token.text]):
            return closed + 1
        if self.token(closed).is_sign(")}"):
            raise Wrong(closed, "other close", i)
        raise Wrong(closed, self.why_not_on(closed) or "open group", i)

    def why_not_on(self, i):
        """The name of a fault whose token can be neither an item, an operator nor a close; None for other tokens."""
        token = self.token(i)
        if token.kind in ("number", "keyword", "bad") or token.is_sign("=,:"):
            return {"=": "equals", ",": "comma", ":": "colon"}.get(token.text, token.kind)
        return "extra close" if token.is_sign(")}") else None

    def pattern(self):
        end = self.expression(0)
        if end < len(self.found):
            raise Wrong(end, self.why_not_on(end) or "left over")

    def statement(self, i):
        """Reads the statement that begins at this token."""
        token = self.token(i)
        if token.kind == "keyword" and token.text in ("local", "alias"):
            i += 1 + (token.text == "local" and self.token(i + 1).text == "alias")
        if not binds(self.found, i):
            raise Wrong(i, "no binding")
        if self.token(i).kind == "keyword":
            raise Wrong(i, "keyword")
        end = self.expression(i + 2)
        if not self.begins_statement(end):
            raise Wrong(end, self.why_not_on(end) or "left over")
        return end

    def begins_statement(self, i):
        return self.token(i).kind in ("end", "keyword") or binds(self.found, i)


def wrong_place(text, is_statement=False):
    """Where a pattern, or the statement that begins here, fits no form, and why; None if no such place is found.

    The place is that of a token; the third value is the place of the group that is open there, if that is the fault.
    """
    found = tokens(text)
    reader = Reader(found)
    try:
        if is_statement:
            reader.statement(0)
        else:
            reader.pattern()
    except Wrong as wrong:
        at = found[wrong.at].start if wrong.at < len(found) else len(text.rstrip())
        return at, wrong.what, None if wrong.opened is None else found[wrong.opened].start
    except RecursionError:
        pass
    return None


def statement_end(text):
    """The end of the statement that begins here."""
    found = tokens(text)
    for i, token in enumerate(found[1:], 1):
        if (token.kind == "keyword" or binds(found, i)) and found[i - 1].text not in ("local", "alias"):
            return found[i - 1].end
    return len(text)


def items(text):
    """The parts of a pattern, each as its start and end: groups, and items with their quantifiers and signs, the
    longest first.
    """
    found, opened, spans = tokens(text), [], set()
    for i, token in enumerate(found):
        start = i
        if token.is_sign("({"):
            opened.append(i)
            continue
        if token.is_sign(")}") and opened:
            start = opened.pop()
            spans.add((found[start].start, token.end))
        elif token.kind not in ("text", "bracket", "name", "qualified") and not token.is_sign(".^$~"):
            continue
        end = found[i + 1].end if i + 1 < len(found) and found[i + 1].is_quantifier() else token.end
        spans.add((found[start].start, end))
        if start and found[start - 1].is_sign(PREDICATES):
            spans.add((found[start - 1].start, end))
    return sorted(spans, key=lambda span: (span[0] - span[1], span[0]))
