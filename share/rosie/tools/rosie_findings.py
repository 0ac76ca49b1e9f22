"""Finds out why lines do not match a pattern: how far it got, what was expected there, and hints.

`rosie-why` prints these findings, `rosie-try` shows them, and the playground reads them as JSON, so all three say the
same about a line. Needs only Python 3.9.
"""
from rosie_reasons import SEARCHES, reasons
from rosie_why import TOGETHER, Answers, Why, excerpt, lines_of

TOO_LONG = "  Try a part of it: cut the line down to what should match, or take a rule of the pattern by its name."


class Finding:
    """What is said about one line. If it has no reading, its trace was too long."""

    def __init__(self, asked, number, text, reading, may_search):
        self.asked, self.number, self.text, self.reading, self.may_search = asked, number, text, reading, may_search

    def head(self):
        told = "no match anywhere" if self.asked.search else "no match"
        return told if self.reading else told + ", and its trace is too long to tell where"

    def sentences(self):
        return list(self.reading.sentences(len(self.text))) if self.reading else []

    def hints(self):
        return reasons(self.asked, self.text, self.reading, self.may_search) if self.reading else []

    def places(self):
        """The rules and what they wanted, which is the same for lines that fail in the same way."""
        return (self.reading.is_nowhere(), *self.reading.places()) if self.reading else None

    def excerpt(self, width=None):
        """The line around the place, with a caret under it."""
        if not self.reading:
            return [TOO_LONG.encode()]
        shown = list(excerpt(self.text, self.reading.furthest, width))
        return shown[:1] if self.reading.is_nowhere() else shown

    def lines(self):
        """The whole finding as lines of bytes, below a first line that the caller makes from `head`."""
        yield from (sentence.encode() for sentence in self.sentences())
        yield from self.excerpt()
        yield from (f"hint: {hint}".encode() for hint in self.hints())

    def to_dict(self):
        """The same as an object: `at` is the byte of the place, from 1, or None if there is none."""
        has_place = self.reading and not self.reading.is_nowhere()
        return {"line": self.number, "at": self.reading.furthest if has_place else None,
                "told": self.sentences() or [self.head()], "hints": self.hints()}


class Findings:
    """The findings on the lines of a text, one by one. `numbers` has the numbers of the lines; by default they count
    from 1.

    `answers` says how rosie answered all lines, and `is_missing` whether a line has no trace so far.
    """

    def __init__(self, asked, data, numbers=None):
        self.asked, self.lines, self.numbers = asked, lines_of(data, asked.whole), numbers
        self.answers, self.is_missing = Answers(asked, data), False

    def __iter__(self):
        why, failed, count = Why(self.asked), self.answers.failed, 0
        for start in range(0, len(failed), TOGETHER):
            some = failed[start: start + TOGETHER]
            found = why.readings(self.lines, some)
            for number, _ in some:
                self.is_missing = self.is_missing or number not in found
                shown = self.numbers[number - 1] if self.numbers else number
                yield Finding(self.asked, shown, self.lines[number - 1], found.get(number), count < SEARCHES)
                count += 1
