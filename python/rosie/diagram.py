"""Railroad diagrams of rules, as SVG.

A pattern is read from its tokens as far as it goes. What can't be read is left out: the diagram is one for looking at
while a rule is being written, and says nothing of whether it is right.
"""
from __future__ import annotations

from typing import List, Optional, Sequence, Tuple
from xml.sax.saxutils import escape, quoteattr

from . import rpl

CHARACTER = 8
HEIGHT = 13
GAP = 10
LONGEST = 40
DEEPEST = 40
LOOKS = {"!": "not followed by", ">": "followed by", "<": "preceded by"}
PLAIN = {".": "any character", "^": "start of line", "$": "end of line", "~": "boundary"}
MEANINGS = {"find": "the first", "findall": "all of", "keepto": "up to the first", "ci": "in either case (ASCII)",
            "uci": "in every case", "message": "message", "error": "error"}
Parts = List[str]


class Box:
    """A part of a diagram, as wide as `width`, with room above and below its line."""

    def __init__(self, width: int, above: int, below: int) -> None:
        self.width, self.above, self.below = width, above, below

    def draw(self, out: Parts, x: int, y: int) -> None:
        """Adds the part with its line beginning at this place."""


def line(out: Parts, x: int, y: int, to_x: int, to_y: int) -> None:
    """A straight piece of rail."""
    if (x, y) != (to_x, to_y):
        out.append(f'<path class="rail" d="M{x} {y}L{to_x} {to_y}"/>')


def bend(out: Parts, x: int, y: int, to_x: int, to_y: int) -> None:
    """A piece of rail that goes to another height."""
    middle = (x + to_x) // 2
    out.append(f'<path class="rail" d="M{x} {y}C{middle} {y} {middle} {to_y} {to_x} {to_y}"/>')


class Piece(Box):
    """A text, a set or a name, in a box of its kind."""

    def __init__(self, kind: str, text: str) -> None:
        shown = text if len(text) <= LONGEST else text[: LONGEST - 1] + "…"
        super().__init__(CHARACTER * len(shown) + 16, HEIGHT, HEIGHT)
        self.kind, self.shown, self.text = kind, shown, text

    def draw(self, out: Parts, x: int, y: int) -> None:
        """A box with its text."""
        radius = 0 if self.kind == "name" else HEIGHT
        out.append(f'<g class="{self.kind}"><title>{escape(self.text)}</title>'
                   f'<rect x="{x}" y="{y - HEIGHT}" width="{self.width}" height="{2 * HEIGHT}" rx="{radius}"/>'
                   f'<text x="{x + self.width // 2}" y="{y + 4}">{escape(self.shown)}</text></g>')


class Row(Box):
    """Parts one after the other."""

    def __init__(self, items: "Sequence[Box]") -> None:
        super().__init__(sum(item.width for item in items) + GAP * max(0, len(items) - 1),
                         max([item.above for item in items], default=HEIGHT),
                         max([item.below for item in items], default=HEIGHT))
        self.items = items

    def draw(self, out: Parts, x: int, y: int) -> None:
        """The parts, with rails between."""
        for place, item in enumerate(self.items):
            if place:
                line(out, x, y, x + GAP, y)
                x += GAP
            item.draw(out, x, y)
            x += item.width


class Choice(Box):
    """Parts under one another; the first is on the line. An empty Row is a way past."""

    def __init__(self, items: "Sequence[Box]") -> None:
        super().__init__(max(item.width for item in items) + 4 * GAP, items[0].above,
                         items[0].below + sum(GAP + item.above + item.below for item in items[1:]))
        self.items = items

    def draw(self, out: Parts, x: int, y: int) -> None:
        """Each part, with rails to it and from it."""
        at = y
        for place, item in enumerate(self.items):
            if place:
                at += GAP + item.above
                bend(out, x, y, x + 2 * GAP, at)
                bend(out, x + self.width - 2 * GAP, at, x + self.width, y)
            else:
                line(out, x, y, x + 2 * GAP, y)
                line(out, x + self.width - 2 * GAP, y, x + self.width, y)
            item.draw(out, x + 2 * GAP, at)
            line(out, x + 2 * GAP + item.width, at, x + self.width - 2 * GAP, at)
            at += item.below


class Loop(Box):
    """A part that may come again, with a word on how often."""

    def __init__(self, item: Box, often: str) -> None:
        super().__init__(max(item.width, CHARACTER * len(often)) + 4 * GAP, item.above, item.below + 2 * HEIGHT)
        self.item, self.often = item, often

    def draw(self, out: Parts, x: int, y: int) -> None:
        """The part, and the way back under it."""
        inner, under = x + (self.width - self.item.width) // 2, y + self.item.below + GAP
        last = inner + self.item.width
        line(out, x, y, inner, y)
        self.item.draw(out, inner, y)
        line(out, last, y, x + self.width, y)
        right, left = last + GAP, inner - GAP
        out.append(f'<path class="rail" d="M{last} {y}C{right} {y} {right} {under} {last} {under}'
                   f'L{inner} {under}C{left} {under} {left} {y} {inner} {y}"/>')
        if self.often:
            out.append(f'<text class="note" x="{x + self.width // 2}" y="{under + 13}">{escape(self.often)}</text>')


class Frame(Box):
    """A part in a frame, with a word over it on what is asked of the part."""

    def __init__(self, item: Box, word: str) -> None:
        super().__init__(max(item.width, CHARACTER * len(word)) + 2 * GAP, item.above + 2 * HEIGHT, item.below + GAP)
        self.item, self.word = item, word

    def draw(self, out: Parts, x: int, y: int) -> None:
        """The frame, its word and the part."""
        top = y - self.item.above - GAP // 2
        out.append(f'<rect class="frame" x="{x + 2}" y="{top}" width="{self.width - 4}" '
                   f'height="{y + self.below - top}" rx="4"/>'
                   f'<text class="note" x="{x + self.width // 2}" y="{top - 4}">{escape(self.word)}</text>')
        inner = x + (self.width - self.item.width) // 2
        line(out, x, y, inner, y)
        self.item.draw(out, inner, y)
        line(out, inner + self.item.width, y, x + self.width, y)


class Reader:
    """Reads the tokens of a pattern as parts of a diagram."""

    def __init__(self, tokens: "Sequence[rpl.Token]") -> None:
        self.tokens = [token for token in tokens if token.kind != "comment"]
        self.place = 0
        self.depth = 0

    def next(self) -> str:
        """The text of the token that is read next, or nothing at the end."""
        return self.tokens[self.place].text if self.place < len(self.tokens) else ""

    def choice(self, raw: bool) -> Box:
        """`a / b`, and `a & b`: of the latter the first part is looked at alone."""
        first = self.row(raw)
        if self.next() == "&":
            self.place += 1
            return Row([Frame(first, "followed by"), self.choice(raw)])
        if self.next() != "/":
            return first
        items = [first]
        while self.next() == "/":
            self.place += 1
            items.append(self.row(raw))
        if self.next() == "&":
            self.place += 1
            items[-1] = Row([Frame(items[-1], "followed by"), self.choice(raw)])
        return Choice(items)

    def row(self, raw: bool) -> Box:
        """Items side by side; in a cooked group a boundary stands between them."""
        items: "List[Box]" = []
        while self.place < len(self.tokens) and self.next() not in ("/", "&", ")", "}"):
            item = self.item()
            if item is not None:
                items += [Piece("boundary", "~")] * bool(items and not raw) + [item]
        return items[0] if len(items) == 1 else Row(items)

    def item(self) -> Optional[Box]:
        """An item, with its signs and its quantifier."""
        token = self.tokens[self.place]
        self.place += 1
        if self.depth > DEEPEST:
            return None
        self.depth += 1
        try:
            if token.text in LOOKS:
                return self.framed(LOOKS[token.text])
            if token.kind == "name" and self.next() == ":":
                self.place += 1
                return self.framed(MEANINGS.get(token.text, token.text))
            return self.quantified(token)
        finally:
            self.depth -= 1

    def framed(self, word: str) -> Optional[Box]:
        """The next item in a frame."""
        inner = self.item() if self.place < len(self.tokens) else None
        return inner and Frame(inner, word)

    def quantified(self, token: "rpl.Token") -> Optional[Box]:
        """An atom and what says how often it comes."""
        box = self.atom(token)
        if box is None or self.place == len(self.tokens):
            return box
        following = self.tokens[self.place]
        if following.kind != "bounds" and following.text not in ("*", "+", "?"):
            return box
        self.place += 1
        least, often = often_of(following)
        if often is not None:
            box = Loop(box, often)
        return box if least else Choice([box, Row([])])

    def atom(self, token: "rpl.Token") -> Optional[Box]:
        """A group, or a piece."""
        if token.kind == "sign" and token.text in "({":
            inner = self.choice(token.text == "{")
            self.place += self.next() in (")", "}")
            return inner
        if token.kind in ("text", "bracket"):
            return Piece("literal", token.text)
        if token.kind in ("name", "qualified"):
            return Piece("name", token.text)
        return Piece("plain", PLAIN[token.text]) if token.text in PLAIN else None


def often_of(token: "rpl.Token") -> "Tuple[bool, Optional[str]]":
    """Whether a quantifier asks for one at least, and the word for how often it may come; None is once at most."""
    if token.kind != "bounds":
        return token.text == "+", None if token.text == "?" else ""
    low, comma, high = token.text.strip("{}").replace(" ", "").replace("\t", "").partition(",")
    if not comma:
        return low.strip("0") != "", f"{low} times"
    if high:
        return low.strip("0") != "", f"{low or '0'} to {high} times"
    return low.strip("0") != "", f"{low} times or more" if low.strip("0") else ""


def svg_of(name: str, tokens: "Sequence[rpl.Token]") -> str:
    """The diagram of a rule, from the tokens of its pattern."""
    box = Reader(tokens).choice(False)
    out: Parts = []
    left, top = 2 * GAP, box.above + 2 * GAP
    if name:
        out.append(f'<text class="title" x="{GAP // 2}" y="14">{escape(name)}</text>')
        top += 2 * GAP
    out.append(f'<circle class="rail" cx="{GAP}" cy="{top}" r="4"/>')
    line(out, GAP + 4, top, left, top)
    box.draw(out, left, top)
    line(out, left + box.width, top, left + box.width + GAP - 4, top)
    out.append(f'<circle class="rail" cx="{left + box.width + GAP}" cy="{top}" r="4"/>')
    width = max(left + box.width + 2 * GAP, CHARACTER * len(name) + 2 * GAP)
    height = top + box.below + GAP
    label = quoteattr("Railroad diagram of " + (name or "the pattern"))
    return (f'<svg xmlns="http://www.w3.org/2000/svg" width="{width}" height="{height}" viewBox="0 0 {width} {height}" '
            f'role="img" aria-label={label}>{"".join(out)}</svg>')


def rule_at(text: str, at: int) -> str:
    """The diagram of the binding that a place of a text is in, or of the first one; nothing where there is none."""
    bindings = [each for each in rpl.statements(list(rpl.tokens(text))) if each.name]
    before = [each for each in bindings if each.start <= at] or bindings[:1]
    return svg_of(before[-1].name.text, before[-1].body) if before else ""


def pattern(text: str) -> str:
    """The diagram of a pattern."""
    return svg_of("", list(rpl.tokens(text)))
