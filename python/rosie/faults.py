"""What can go wrong, as exceptions, and how messages of the command are read."""
from __future__ import annotations

import os
import re
import stat
import subprocess
from typing import NamedTuple, Optional, Sequence

# The texts of faults whose number is an offset; after a colon or an `in` stands a name.
OFFSET_TEXTS = re.compile(
    r"(?:text too long|not UTF-8|bad character|text without end|bad escape|number too wide|too many tokens"
    r"|nested too deep|syntax|bad bounds|unknown class|bad range|bad set|version|too many packages|code too long"
    r"|(?:import cycle|import not found|duplicate name|unknown name|hidden name|unknown macro|bad arguments"
    r"|too large): .*"
    r"|(?:look-behind|left recursion|empty loop|halt under a predicate) in .*)", re.DOTALL)
LONGEST_TEXT = 1048576


class RosieError(Exception):
    """The command could not be run, or ended in an unexpected way."""


class Message(NamedTuple):
    """A message of the command that names a place, `rosie: FILE:OFFSET: TEXT`. For a whole file, the offset is None."""

    file: str
    offset: Optional[int]
    text: str


class Place(NamedTuple):
    """A place in a text: line and column (in characters), counted from 1, and the line itself."""

    line: int
    column: int
    text: str


def read_message(written: str) -> Optional[Message]:
    """The first message that the command wrote to standard error, or None if it names no file."""
    head = re.match(r"rosie: (?!usage: )(.*)", written)
    if head is None:
        return None
    rest = head.group(1)
    for found in re.finditer(r":(\d+): ", rest):
        if OFFSET_TEXTS.fullmatch(rest[found.end():]):
            return Message(rest[: found.start()], int(found.group(1)), rest[found.end():])
    file, colon, text = rest.rpartition(": ")
    return Message(file, None, text) if colon else None


def place_in(text: bytes, offset: int) -> Place:
    """The line and the column of a byte in a text."""
    start = text.rfind(b"\n", 0, offset) + 1
    end = text.find(b"\n", offset)
    line = text[start: len(text) if end < 0 else end]
    column = len(text[start:offset].decode("utf-8", "replace")) + 1
    return Place(text.count(b"\n", 0, start) + 1, column, line.decode("utf-8", "replace"))


def text_of_file(path: str) -> Optional[bytes]:
    """The bytes of an RPL file that can be read again, or None."""
    try:
        if not stat.S_ISREG(os.stat(path).st_mode):
            return None
        with open(path, "rb") as file:
            return file.read(LONGEST_TEXT + 1)
    except OSError:
        return None


class PatternError(RosieError):
    """A pattern, a text of rules or a file was refused.

    `file` is the path, `(pattern)`, or `(rpl K)` for the K-th text of `rpl`. `offset` is the place in bytes, counted
    from 0; `line` and `column` give the same place, counted from 1, with the column in characters. All three are None
    if the fault is about the whole file. `message` is the text of the message, and `advice` has the hints of
    `rosie-at`, if that tool is installed.
    """

    def __init__(self, message: Message, pattern: str = "", rpl: Sequence[str] = (),
                 tool: Optional[str] = None) -> None:
        super().__init__(message, pattern, tuple(rpl), tool)
        self.file, self.offset, self.message = message
        self._pattern, self._rpl, self._tool = pattern, tuple(rpl), tool
        self._advice: "Optional[list[str]]" = None
        text = self._text()
        self._place = None if text is None or self.offset is None else place_in(text, self.offset)
        self.line = self._place.line if self._place else None
        self.column = self._place.column if self._place else None

    def _text(self) -> Optional[bytes]:
        numbered = re.fullmatch(r"\(rpl (\d+)\)", self.file)
        if self.file == "(pattern)":
            return self._pattern.encode("utf-8", "surrogateescape")
        if numbered and 0 < int(numbered.group(1)) <= len(self._rpl):
            return self._rpl[int(numbered.group(1)) - 1].encode("utf-8", "surrogateescape")
        return text_of_file(self.file)

    @property
    def advice(self) -> "list[str]":
        """The hints of `rosie-at`, one sentence each. The tool is asked only once."""
        if self._advice is None:
            self._advice = self._ask()
        return self._advice

    def _ask(self) -> "list[str]":
        if self._tool is None:
            return []
        number = " " if self.offset is None else f"{self.offset}: "
        written = f"rosie: {self.file}:{number}{self.message}\n".encode("utf-8", "surrogateescape")
        words = [self._tool, *(word for text in self._rpl for word in ("--rpl", text)), "--", self._pattern]
        try:
            done = subprocess.run(words, input=written, stdout=subprocess.PIPE, stderr=subprocess.DEVNULL, timeout=10,
                                  check=False)
        except (OSError, ValueError, subprocess.TimeoutExpired):
            return []
        return re.findall(r"^\s*hint: (.*)$", done.stdout.decode("utf-8", "replace"), re.MULTILINE)

    def __str__(self) -> str:
        if self._place is None:
            head = [f"{self.file}: {self.message}"]
        else:
            pad = "".join(c if c == "\t" else " " for c in self._place.text[: self._place.column - 1])
            head = [f"{self.file}:{self.line}:{self.column}: {self.message}", f"  {self._place.text}", f"  {pad}^"]
        return "\n".join(head + [f"hint: {text}" for text in self.advice])


class LineFault(RosieError):
    """A line that has no answer.

    `cause` says why, for example `not UTF-8` or `budget spent`; `number` is the number of the line, counted from 1, and
    `line` has its bytes.
    """

    def __init__(self, number: int, cause: str, line: bytes = b"") -> None:
        super().__init__(number, cause, line)
        self.number, self.cause, self.line = number, cause, line

    def __str__(self) -> str:
        return f"line {self.number}: {self.cause}"

    def __eq__(self, other: object) -> bool:
        return isinstance(other, LineFault) and self.args == other.args

    def __hash__(self) -> int:
        return hash(self.args)
