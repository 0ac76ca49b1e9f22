"""Texts of RPL cut into tokens and statements: for outlines, references, colours and diagrams.

Places are characters of the text, from 0. A text with faults is cut too: what is no token is one of the kind `fault`,
and cutting goes on after it. What a text means, and whether it is right, only the command knows.
"""
from __future__ import annotations

import bisect
import re
from typing import Iterator, List, NamedTuple, Optional, Tuple

KEYWORDS = frozenset("rpl package import as alias local grammar in end".split())
MACROS = ("find", "findall", "keepto", "ci", "uci", "message", "error")
GREATEST_NUMBER = (1 << 64) - 1
MOST_TOKENS = 262144

NAME = re.compile(r"[A-Za-z][0-9A-Za-z_]*")
NUMBER = re.compile(r"[0-9]+")
BLANKS = re.compile(r"[ \t\r\n]+")
COMMENT = re.compile(r"--[^\n]*")
TEXT = re.compile(r'"(?:[^"\\\n]|\\[^\n])*"')
BOUNDS_BEGIN = re.compile(r"\{[ \t]*[0-9,]")
BOUNDS = re.compile(r"\{[ \t]*(?:([0-9]+)[ \t]*(?:,[ \t]*([0-9]+)?[ \t]*)?|,[ \t]*([0-9]+)?[ \t]*)\}")
SIGNS = frozenset("{}()/&!><*+?.^$~=,:")
ESCAPE = re.compile(r'\\(?:[\\"\[\]\-^:nrt]|x([0-9A-Fa-f]{2})|u([0-9A-Fa-f]{4})|U([0-9A-Fa-f]{8}))')


class Token(NamedTuple):
    """A piece of a text.

    `kind` is one of name, qualified, keyword, text, bracket, bounds, number, sign, comment, fault. `start` and `end`
    are its places. Of a fault `fault` is what the command says of it, and `at` is the place that it names.
    """

    kind: str
    start: int
    end: int
    text: str
    fault: str = ""
    at: int = -1

    def __bool__(self) -> bool:
        return bool(self.kind)


# The name of a statement that binds none.
NOTHING = Token("", -1, -1, "")


class Statement(NamedTuple):
    """A statement, up to the next one.

    `kind` is one of rpl, package, import, binding, boundary, grammar, in, end, other. Of a binding `name` is the name
    that is bound, and `tokens` has all tokens, without comments. `hidden` says that no importer sees it, and `block`
    that it stands in a grammar.
    """

    kind: str
    start: int
    end: int
    tokens: "Tuple[Token, ...]"
    name: Token = NOTHING
    alias: bool = False
    local: bool = False
    hidden: bool = False
    block: bool = False

    @property
    def body(self) -> "Tuple[Token, ...]":
        """The tokens of the pattern that a binding binds."""
        for place, token in enumerate(self.tokens):
            if token.text == "=" and token.kind == "sign":
                return self.tokens[place + 1:]
        return ()


def bad_escape(text: str, start: int, end: int) -> int:
    """The place of the first backslash in a text or a bracket that begins no escape, or -1."""
    at = text.find("\\", start, end)
    while at >= 0:
        found = ESCAPE.match(text, at, end)
        if found is None:
            return at
        byte, *wide = found.groups()
        number = int(next(filter(None, wide), "0"), 16)
        if byte and int(byte, 16) > 0x7F or number > 0x10FFFF or 0xD800 <= number <= 0xDFFF:
            return at
        at = text.find("\\", found.end(), end)
    return -1


def bracket_end(text: str, start: int) -> int:
    """After the bracket that begins here, or -1 where it isn't closed on its line."""
    depth = 0
    at = start
    while at < len(text) and text[at] != "\n":
        if text[at] == "\\":
            at += 1
            if at < len(text) and text[at] == "\n":
                return -1
        elif text[at] == "[":
            depth += 1
        elif text[at] == "]":
            depth -= 1
            if depth == 0:
                return at + 1
        at += 1
    return -1


def line_end(text: str, at: int) -> int:
    """The end of the line that this place is in."""
    end = text.find("\n", at)
    return len(text) if end < 0 else end


def quoted_token(text: str, at: int) -> Token:
    """The text or the bracket that begins here."""
    kind = "text" if text[at] == '"' else "bracket"
    found = TEXT.match(text, at)
    end = (found.end() if found else -1) if kind == "text" else bracket_end(text, at)
    if end < 0:
        end = line_end(text, at)
        return Token("fault", at, end, text[at:end], "text without end", at)
    bad = bad_escape(text, at, end)
    if bad >= 0:
        return Token("fault", at, end, text[at:end], "bad escape", bad)
    return Token(kind, at, end, text[at:end])


def bounds_token(text: str, at: int) -> Token:
    """The bounds that begin here."""
    found = BOUNDS.match(text, at)
    if found is None:
        return Token("fault", at, at + 1, text[at], "bad character", at)
    for group in (1, 2, 3):
        if found.group(group) and int(found.group(group)) > GREATEST_NUMBER:
            return Token("fault", at, found.end(), found.group(), "number too wide", found.start(group))
    return Token("bounds", at, found.end(), found.group())


def name_token(text: str, first: "re.Match[str]") -> Token:
    """The name, the keyword or the qualified name that begins with this name."""
    at, end, word = first.start(), first.end(), first.group()
    if word in KEYWORDS:
        return Token("keyword", at, end, word)
    second = NAME.match(text, end + 1) if text.startswith(".", end) else None
    if second and second.group() not in KEYWORDS:
        return Token("qualified", at, second.end(), text[at:second.end()])
    return Token("name", at, end, word)


def token_at(text: str, at: int) -> Token:
    """The token that begins here, where no blank and no comment does."""
    char = text[at]
    if char in '"[':
        return quoted_token(text, at)
    name = NAME.match(text, at)
    if name:
        return name_token(text, name)
    number = NUMBER.match(text, at)
    if number:
        wide = int(number.group()) > GREATEST_NUMBER
        return Token("fault" if wide else "number", at, number.end(), number.group(),
                     "number too wide" if wide else "", at)
    if BOUNDS_BEGIN.match(text, at):
        return bounds_token(text, at)
    if char in SIGNS:
        return Token("sign", at, at + 1, char)
    return Token("fault", at, at + 1, char, "bad character", at)


def tokens(text: str) -> Iterator[Token]:
    """All tokens of a text, in their order, and the comments between them."""
    at = 0
    while True:
        blanks = BLANKS.match(text, at)
        at = blanks.end() if blanks else at
        if at == len(text):
            return
        comment = COMMENT.match(text, at)
        token = Token("comment", at, comment.end(), comment.group()) if comment else token_at(text, at)
        yield token
        at = token.end


def first_fault(cut: "List[Token]") -> Optional[Token]:
    """The first token that is none, or the first that is one too many."""
    count = 0
    for token in cut:
        count += token.kind != "comment"
        if count > MOST_TOKENS:
            return token._replace(kind="fault", fault="too many tokens", at=token.start)
        if token.fault:
            return token
    return None


def begins(cut: "List[Token]", place: int) -> bool:
    """Whether a statement begins at this token."""
    token = cut[place]
    before = cut[place - 1].text if place and cut[place - 1].kind == "keyword" else ""
    if token.kind == "keyword":
        return token.text != "as" and not (token.text == "alias" and before == "local")
    named = token.kind == "name" or token.text == "~" and token.kind == "sign"
    follows = place + 1 < len(cut) and cut[place + 1].text == "=" and cut[place + 1].kind == "sign"
    return named and follows and before not in ("local", "alias")


def statement(cut: "List[Token]", end: int) -> Statement:
    """The statement of these tokens."""
    words = [token.text if token.kind in ("keyword", "sign") else "" for token in cut[:4]]
    local = words[0] == "local"
    alias = "alias" in words[:2]
    place = local + alias
    follows = place + 1 < len(words) and words[place + 1] == "="
    if follows and cut[place].kind == "name":
        return Statement("binding", cut[0].start, end, tuple(cut), cut[place], alias, local, local)
    if follows and words[place] == "~":
        return Statement("boundary", cut[0].start, end, tuple(cut))
    plain = words[0] if words[0] in ("rpl", "package", "import", "grammar", "in", "end") else "other"
    return Statement(plain, cut[0].start, end, tuple(cut))


def in_blocks(made: "List[Statement]") -> "List[Statement]":
    """The statements, with what stands in blocks marked: a binding before an `in` is hidden."""
    opened: "List[int]" = []
    for place, each in enumerate(made):
        if each.kind == "grammar":
            opened = [place]
        elif each.kind == "end":
            opened = []
        elif opened and each.kind == "in":
            for inner in range(opened[0] + 1, place):
                made[inner] = made[inner]._replace(hidden=True)
        elif opened:
            made[place] = each._replace(block=True)
    return made


def statements(cut: "List[Token]") -> "List[Statement]":
    """The statements of a text, from its tokens. What stands before the first is one of the kind `other`."""
    plain = [token for token in cut if token.kind != "comment"]
    starts = [place for place in range(len(plain)) if place == 0 or begins(plain, place)]
    made = []
    for start, end in zip(starts, [*starts[1:], len(plain)]):
        made.append(statement(plain[start:end], plain[end - 1].end))
    return in_blocks(made)


def package_of(made: "List[Statement]") -> str:
    """The name of the package that the text is, or nothing."""
    for each in made:
        if each.kind == "package" and len(each.tokens) > 1 and each.tokens[1].kind == "name":
            return each.tokens[1].text
    return ""


def names_of(made: "List[Statement]") -> "List[Tuple[str, bool]]":
    """The names that `rosie list` prints of this text's own, with whether each is an alias.

    A text that is no package is nobody's import, so what it keeps to itself is listed too.
    """
    package = package_of(made)
    front = package + "." if package else ""
    seen = [each for each in made if each.name and (not each.hidden or each.local and not package)]
    return sorted((front + each.name.text, each.alias) for each in seen)


class Import(NamedTuple):
    """An import: the path, the prefix of its names here (nothing for `as .`), and the place of the path."""

    path: str
    prefix: str
    start: int
    end: int


def imports_of(made: "List[Statement]") -> "Iterator[Import]":
    """The imports of a text."""
    for each in made:
        if each.kind != "import":
            continue
        group: "List[Token]" = []
        for token in [*each.tokens[1:], None]:
            if token is not None and token.text != ",":
                group.append(token)
                continue
            if group:
                yield one_import(group)
            group = []


def one_import(group: "List[Token]") -> Import:
    """The import of these tokens: a path, and perhaps `as` and a name or a dot."""
    place = next((place for place, token in enumerate(group) if token.text == "as"), len(group))
    path = "".join(token.text for token in group[:place])
    named = group[place + 1].text if place + 1 < len(group) else path.rpartition("/")[2]
    return Import(path, "" if named == "." else named, group[0].start, group[max(place, 1) - 1].end)


class Places:
    """The lines of a text, and places told as lines and columns from 0."""

    def __init__(self, text: str) -> None:
        self.text = text
        self.starts = [0] + [found.end() for found in re.finditer("\n", text)]

    def line(self, at: int) -> int:
        """The line that a place is in, from 0."""
        return bisect.bisect_right(self.starts, at) - 1

    def of_bytes(self, offset: int) -> int:
        """The place of a character by the bytes before it."""
        if self.text.isascii():
            return min(offset, len(self.text))
        return len(self.text.encode("utf-8", "surrogatepass")[:offset].decode("utf-8", "replace"))


def comment_over(text: str, at: int) -> str:
    """The comment right over the line that this place is in, but for tests: its lines without their dashes."""
    lines = text[: text.rfind("\n", 0, at) + 1].split("\n")[:-1]
    found: "List[str]" = []
    while lines and re.match(r"[ \t]*--", lines[-1]):
        line = lines.pop().strip()
        if re.match(r"--[ \t]*test[ \t]", line):
            break
        found.insert(0, line.lstrip("-").strip())
    return "\n".join(found).strip()


TEST = re.compile(r"^[ \t]*--[ \t]*test[ \t]+(?:local[ \t]+)?([A-Za-z][0-9A-Za-z_]*)[ \t]+"
                  r"(?:(accepts|rejects)|(includes|excludes)[ \t]+([^ \t\n\"]+))[ \t]*(\"[^\n]*)$", re.MULTILINE)


class Test(NamedTuple):
    """A test comment: its line from 1, the rule, what is asked of it, and its texts as they stand.

    `part` is the type that `includes` and `excludes` ask for.
    """

    line: int
    name: str
    verb: str
    part: str
    texts: "Tuple[str, ...]"


def tests_of(text: str) -> "Iterator[Test]":
    """The test comments of a text."""
    for found in TEST.finditer(text):
        name, verb, other, part, rest = found.groups()
        texts = tuple(piece.group() for piece in TEXT.finditer(rest))
        yield Test(text.count("\n", 0, found.start()) + 1, name, verb or other, part or "", texts)


def quoted(text: str) -> str:
    """A text of RPL that stands for these characters."""
    escapes = {"\\": "\\\\", '"': '\\"', "\n": "\\n", "\r": "\\r", "\t": "\\t"}
    made = (escapes.get(c) or (f"\\x{ord(c):02x}" if ord(c) < 32 or ord(c) == 127 else c) for c in text)
    return '"' + "".join(made) + '"'


def unquoted(text: str) -> str:
    """The characters that a text of RPL stands for."""
    plain = {"n": "\n", "r": "\r", "t": "\t"}

    def one(found: "re.Match[str]") -> str:
        """The character of an escape."""
        number = next(filter(None, found.groups()), None)
        return chr(int(number, 16)) if number else plain.get(found.group()[1], found.group()[1])
    return ESCAPE.sub(one, text[1:-1])
