"""Reads messages of rosie: finds the line and the column of the place, and the hints in the table advice.tsv.

A message may come from anywhere and name any file, so only regular files are opened, and at most one MiB is read, which
is the limit for a text of RPL. Needs only Python 3.9.
"""
import functools
import os
import re
import stat

from rosie_advice import Case, Program, hints

# The most that is read of a file, and of a line of messages at once.
MOST = 1 << 20
# The texts of faults whose number is an offset. A name follows a colon or an "in".
OFFSETS = re.compile(
    rb"(text too long|bad character|text without end|bad escape|number too wide|too many tokens|nested too deep|syntax|"
    rb"bad bounds|unknown class|bad range|bad set|version|too many packages|import cycle: .*|import not found: .*|"
    rb"duplicate name: .*|unknown name: .*|hidden name: .*|unknown macro: .*|bad arguments: .*|too large: .*|"
    rb"look-behind in .*|left recursion in .*|empty loop in .*|halt under a predicate in .*)", re.DOTALL)
# The texts of faults whose number is that of a line, from 1.
LINES = re.compile(rb"not UTF-8|line too long|budget spent|answer too long|trace too long|bad test|code too long")
# The texts of faults of a whole file.
FILES = re.compile(rb"(.*): (no such file|read failed|not a code file|text too long)", re.DOTALL)


def parted(message):
    """The file, the number and the text of a message, split at the first number that is followed by a known text."""
    for found in re.finditer(rb":(\d+): ", message):
        text = message[found.end():]
        if OFFSETS.fullmatch(text) or LINES.fullmatch(text):
            return message[: found.start()], int(found[1]), text
    return None


def place(text, offset):
    """The line number and the column of a byte, both from 1, and the line."""
    start = text.rfind(b"\n", 0, offset) + 1
    end = text.find(b"\n", offset)
    return text.count(b"\n", 0, offset) + 1, offset - start + 1, text[start: len(text) if end < 0 else end]


@functools.lru_cache(maxsize=16)
def content(path):
    """The beginning of a regular file, or None if there is none that can be read. A pipe isn't waited for."""
    try:
        if not stat.S_ISREG(os.stat(path).st_mode):
            return None
        opened = os.open(path, os.O_RDONLY | os.O_NONBLOCK | os.O_NOCTTY)
    except (OSError, ValueError):
        return None
    with open(opened, "rb") as file:
        try:
            return file.read(MOST) if stat.S_ISREG(os.fstat(opened).st_mode) else None
        except OSError:
            return None


def caret(line, column):
    """A line of a text, with a caret under the column. Tabs stay tabs, and bytes that continue a character take no
    room.
    """
    before = bytes(byte for byte in line[: column - 1] if not 0x80 <= byte <= 0xBF)
    shown = re.sub(rb"[\x00-\x08\x0b-\x1f\x7f]", b"?", line)
    return b"  " + shown + b"\n  " + re.sub(rb"[^\t]", b" ", before) + b"^\n"


class Messages:
    """Reads messages one after the other, and remembers which hints were given."""

    def __init__(self, texts, options, folders):
        self.texts, self.options, self.folders, self.given = texts, options, folders, set()

    def case(self, where, message, **more):
        return Case(where, message.decode("latin-1"), program=Program(self.options, self.folders), **more)

    def read(self, message):
        """A message with its place and hints, or None if there is nothing to say."""
        parts = parted(message)
        if message.startswith(b"usage: "):
            return self.advised(b"rosie: " + message + b"\n", self.case("words", message[7:]))
        if parts:
            return self.placed(*parts)
        found = FILES.fullmatch(message)
        if not found:
            return None
        return self.advised(b"rosie: " + message + b"\n", self.case("file", found[2], name=os.fsdecode(found[1])))

    def placed(self, name, number, fault):
        # Lines are counted from 1, so if a text can be of either kind, the number 0 is an offset.
        if LINES.fullmatch(fault) and number > 0 and name not in self.texts:
            own = name in (b"-", b"(session)")
            message = b"%s%s:%d: %s\n" % (b"rosie: " if own else b"", name, number, fault)
            return self.advised(message, self.case("line", fault))
        text = self.texts.get(name)
        is_given = text is not None
        text = text if is_given else content(name)
        if text is None or number > len(text):
            return None
        case = self.case("pattern", fault, text=text.decode("latin-1"), at=number, name=name.decode("latin-1"))
        row, column, line = place(text, case.place)
        told = b"%s:%d:%d: %s\n" % (name, row, column, fault)
        return self.advised(told + (caret(line, column) if is_given else b""), case)

    def advised(self, told, case):
        for hint in hints(case):
            if hint not in self.given:
                self.given.add(hint)
                told += b"hint: " + hint.encode() + b"\n"
        return told
