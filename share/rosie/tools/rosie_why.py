"""Reads from the trace that rosie prints why a pattern doesn't match a line.

`rosie_findings` turns it into what users read. Needs only Python 3.9.
Lines, patterns and file names are always bytes, so what a user typed is printed unchanged.
"""
import os
import re
import shutil
import subprocess
import tempfile

# The numbers of the characters of a set, as a trace prints them, and what people call the set.
SETS = {
    b"0-d7ff e000-10ffff": "any character",
    b"30-39": "a digit",
    b"41-5a": "a capital letter",
    b"61-7a": "a small letter",
    b"41-5a 61-7a": "a letter",
    b"30-39 41-5a 61-7a": "a letter or a digit",
    b"30-39 41-5a 5f 61-7a": "a letter, a digit or _",
    b"30-39 41-46 61-66": "a hexadecimal digit",
    b"21-2f 3a-40 5b-60 7b-7e": "a punctuation sign",
    b"9-d 20": "white space",
    b"9 20": "a space or a tab",
    b"none": "what no character is",
}
CHARACTERS = {0x20: "a space", 0x09: "a tab", 0x0A: "a line feed", 0x0D: "a carriage return", 0x22: "a double quote"}
MOST_MEMBERS = 12
HIGHEST = 0x10FFFF
# How many traces are tried although they may be too long. Each takes a run of its own, since rosie stops at the first
# such trace.
LONG_TRIES = 8
# How many lines' traces are asked for together. Their findings are printed before the next ones are looked for.
TOGETHER = 4096
# How many characters after the place an excerpt shows, if the line has as many.
AFTER = 20
NARROWEST = 40


def character(number):
    """A character in words or in quotes. A character that has no visible form is given by its number."""
    if number in CHARACTERS:
        return CHARACTERS[number]
    if number < 33 or 127 <= number < 161:
        return f"the character {number:x} (hexadecimal)"
    return f'"{chr(number)}"'


def ranges(members):
    """The ranges of a set, each as its first and last number."""
    for part in members.decode().split():
        first, _, last = part.partition("-")
        yield int(first, 16), int(last or first, 16)


def in_words(parts):
    """The members of a set, in words. A range of two characters counts as two members."""
    made = []
    for first, last in parts[:MOST_MEMBERS]:
        if last == first + 1:
            made += [character(first), character(last)]
        else:
            made.append(character(first) + (f" to {character(last)}" if last > first else ""))
    return made + ["another of its set"] * (len(parts) > MOST_MEMBERS)


def others(parts):
    """What a set leaves out, if it goes up to the last character; otherwise nothing."""
    if parts[-1][1] != HIGHEST:
        return []
    starts = [0] + [last + 1 for _, last in parts[:-1]]
    # No character has a number from D800 to DFFF, so that gap leaves nothing out.
    return [(start, first - 1) for start, (first, _) in zip(starts, parts) if first > start and start != 0xD800]


def spelled(parts):
    return b" ".join(b"%x" % first if first == last else b"%x-%x" % (first, last) for first, last in parts)


def joined(words, last):
    """Words as one text, with commas between them and `last` before the last one."""
    return f" {last} ".join(filter(None, [", ".join(words[:-1]), words[-1]]))


def set_in_words(members):
    if members in SETS:
        return [SETS[members]]
    parts = list(ranges(members))
    left = others(parts)
    if spelled(left) in SETS:
        return [f"any character but {SETS[spelled(left)]}"]
    if left:
        return [f"any character but {joined(in_words(left), 'and')}"]
    return in_words(parts)


def quoted(text):
    """A text as it is written in a pattern."""
    escapes = {"\\": "\\\\", '"': '\\"', "\t": "\\t", "\r": "\\r", "\n": "\\n"}
    return '"' + "".join(escapes.get(sign) or (f"\\x{ord(sign):02x}" if sign < " " else sign) for sign in text) + '"'


class Step:
    """One evaluation of a trace: its depth, what it is, where it begins, and where it ends, or None if it failed."""

    def __init__(self, words):
        self.depth, self.kind, self.start = int(words[0]), words[1], int(words[-2])
        self.end = int(words[-1]) if words[-1].isdigit() else None
        self.failed, self.what, self.repetition = words[-1] == b"fail", b" ".join(words[2:-2]), None

    def is_boundary(self):
        return self.kind == b"call" and self.what.endswith(b"~")

    def wanted(self):
        """What it wants at its place, in words."""
        if self.kind == b"set":
            return set_in_words(self.what)
        return [{b"end": "the end of the line", b"start": "the start of the line",
                 b"behind": "something else before this place"}.get(self.kind, "a boundary between words")]


class Repetition:
    """A repetition that took something: from where to where, and the evaluation of its first turn."""

    def __init__(self, step, before):
        self.step, self.start, self.end, self.before, self.body = step, step.start, step.end, before, None

    def set_body(self, step):
        self.body = step
        # `a+` is `a` followed by the repetition.
        before = self.before
        if before and before.end == self.start and (before.kind, before.what) == (step.kind, step.what):
            self.start = before.start


class Reading:
    """The result of reading one line's trace: the furthest place where something was wanted, and what each rule wanted
    there.

    `missed` are the evaluations that failed there, `taken` the repetitions that had ended there, and `choices` the
    places of all choices that took something. In a search, `begun` is the place where the pattern was tried.
    """

    def __init__(self, begun=None):
        self.furthest, self.groups, self.missed, self.taken, self.choices = 0, {}, [], [], []
        self.hidden, self.stack, self.repetitions, self.begun = None, [], [], begun

    def take(self, words):
        """Reads one evaluation."""
        step = Step(words)
        # What is below a predicate `!`, a look-behind or a boundary is not wanted by itself.
        if self.hidden is not None and step.depth > self.hidden:
            return
        self.hidden = step.depth if step.kind in (b"not", b"behind") or step.is_boundary() else None
        self.keep(step)
        if step.failed and (step.depth == self.hidden or step.kind in (b"set", b"start", b"end")):
            self.note(step)

    def keep(self, step):
        """Updates the evaluations that this one is part of, and what was taken."""
        before = self.stack[step.depth] if step.depth < len(self.stack) else None
        del self.stack[step.depth:]
        self.stack.append(step)
        if step.end is not None and step.end > step.start:
            if step.kind == b"many":
                step.repetition = Repetition(step, before)
                self.repetitions.append(step.repetition)
            elif step.kind == b"choice":
                self.choices.append((step.start, step.end))
        around = self.stack[step.depth - 2] if step.depth >= 2 else None
        if around and around.repetition and not around.repetition.body:
            around.repetition.set_body(step)

    def rules(self, depth):
        """The names of the rules that are being tried, from the outermost."""
        names = [step.what.decode() for step in self.stack[:depth] if step.kind == b"call" or
                 step.depth == 0 and step.kind == b"capture" and step.what != b"*"]
        return " > ".join(names) or "the pattern"

    def note(self, step):
        if step.start < self.furthest:
            return
        if step.start > self.furthest:
            self.furthest, self.groups, self.missed, self.taken = step.start, {}, [], []
            self.repetitions = [one for one in self.repetitions if one.end >= step.start]
        self.missed.append(step)
        # A repetition that the evaluation is part of has not ended.
        self.taken += [one for one in self.repetitions
                       if one.end == step.start and one not in self.taken and one.step not in self.stack]
        group = self.groups.setdefault((self.rules(step.depth), step.kind == b"not"), [])
        if step.kind != b"not":
            group += [what for what in step.wanted() if what not in group]

    def places(self):
        """For each rule, its names and what it wanted at the furthest place."""
        for (names, is_not), words in self.groups.items():
            yield names, "where stands what `!` refuses" if is_not else f"where {joined(words, 'or')} was wanted"

    def result(self):
        return self

    def add_wanted(self, other):
        """Adds what another reading wanted at its place."""
        for key, words in other.groups.items():
            group = self.groups.setdefault(key, [])
            group += [what for what in words if what not in group]

    def is_nowhere(self):
        """Whether a search found no place where the pattern begins."""
        return self.begun is not None and self.furthest <= self.begun

    def sentences(self, length):
        """A line for each rule that wanted something at the furthest place of a line of this length."""
        place = "the end of the line" if self.furthest > length else f"byte {self.furthest}"
        if self.begun is not None:
            place += f", from byte {self.begun} on"
        head = "tried at each character" if self.is_nowhere() else f"furthest: {place}"
        for names, what in self.places():
            yield f"{head}, in {names}, {what}"


class Search:
    """The result of reading a search's trace: the reading from the place from which it got furthest, or from the first
    of several.

    If the pattern begins nowhere, the reading has what was wanted at any place. The trace is that of `find:`, which
    tries the pattern at each place under a `!` of its own.
    """

    def __init__(self):
        self.best, self.now, self.depth = None, None, None

    def take(self, words):
        """Reads one evaluation: the start of a try, or a part of one."""
        depth = int(words[0])
        if self.depth is not None and depth > self.depth:
            if self.now:
                self.now.take([b"%d" % (depth - self.depth - 1), *words[1:]])
            return
        self.end_try()
        # After the last try, `find:` matches the pattern itself, which fails there as it did before.
        if words[1] == b"not" or words[1:3] == [b"capture", b"find.*"]:
            self.depth = depth
            self.now = Reading(int(words[-2])) if words[1] == b"not" else None

    def end_try(self):
        now, best = self.now, self.best
        if now and now.groups:
            if best is None or now.furthest - now.begun > best.furthest - best.begun:
                self.best = now
            elif best.is_nowhere():
                best.add_wanted(now)
        self.now = self.depth = None

    def result(self):
        self.end_try()
        return self.best


def is_inside(byte):
    """Whether this byte continues a character of UTF-8."""
    return 0x80 <= byte <= 0xBF


def terminal_width():
    return max(shutil.get_terminal_size().columns, NARROWEST)


def excerpt(text, at, width=None):
    """The line around the place (counted from 1), as wide as the terminal, and a caret under the place.

    It begins and ends at whole characters, and always includes the place and what follows it.
    """
    width = (width or terminal_width()) - 2
    line_start = text.rfind(b"\n", 0, at - 1) + 1
    line_end = text.find(b"\n", at - 1)
    line_end = len(text) if line_end < 0 else line_end
    first, last = line_start, line_end
    if last - first > width:
        last = min(max(at - 1 + AFTER, first + width), line_end)
        first = max(last - width, line_start)
    while first > line_start and is_inside(text[first]):
        first -= 1
    while last < line_end and is_inside(text[last]):
        last += 1
    blanks = re.sub(rb"[^\t]", b" ", bytes(byte for byte in text[first: at - 1] if not is_inside(byte)))
    yield b"  " + re.sub(rb"[\x00-\x08\x0b-\x1f\x7f]", b"?", text[first:last])
    yield b"  " + blanks + b"^"


class Failed(Exception):
    """The program ended the run. This holds what it wrote to standard error, and its status."""

    def __init__(self, told, status):
        super().__init__(told)
        self.told, self.status = told, status


WHOLE, FIXED = ("-w", "--wholefile"), ("-F", "--fixed-strings")


class Asked:
    """A pattern, the options, and the program to run; with `search` the pattern may match anywhere in a line."""

    def __init__(self, pattern, options=(), limit=None, program=None, search=False):
        self.pattern, self.options, self.limit, self.search = pattern, list(options), limit, search
        self.whole = self.has(WHOLE)
        self.program = program or os.environ.get("ROSIE") or "rosie"

    def has(self, names):
        return any(option in names for option in self.options)

    def without(self, *names):
        return [option for option in self.options if option not in names]

    def but_whole(self):
        """The same for single lines, without -w."""
        return Asked(self.pattern, self.without(*WHOLE), self.limit, self.program)

    def words(self, command, *options):
        return [self.program, command, *options, *self.options, "--", self.pattern, "-"]

    def answer_words(self):
        """The command line that prints for each line whether it matches, and its steps."""
        return self.words("grep" if self.search else "match", "-o", "bool", "--steps")

    def trace_words(self):
        limit = [f"--limit={self.limit}"] if self.limit else []
        if not self.search:
            return self.words("trace", *limit)
        text = quoted(self.pattern) if self.has(FIXED) else f"({self.pattern}\n)"
        return [self.program, "trace", *limit, *self.without(*FIXED), "--", f"find:{text}", "-"]

    def run(self, words, data, read):
        """Runs the program on these bytes. `read` takes its output; what it wrote to standard error comes with its
        status.
        """
        with tempfile.TemporaryFile() as given, tempfile.TemporaryFile() as told:
            given.write(data)
            given.seek(0)
            with subprocess.Popen(words, stdin=given, stdout=subprocess.PIPE, stderr=told) as child:
                read(child.stdout)
            told.seek(0)
            return told.read(), child.returncode

    def core(self):
        """What the pattern and its rules stand for, as `expand` prints it; an empty text if that is too long."""
        output = []
        words = [self.program, "expand", *self.without(*WHOLE), "--", self.pattern]
        self.run(words, b"", lambda out: output.append(out.read()))
        return output[0].decode("utf-8", "replace") if len(output[0]) < 1 << 20 else ""

    def place_of_hit(self, text):
        """The byte, counted from 1, where `grep` first finds the pattern in a line, or None."""
        output = []
        self.run(self.but_whole().words("grep", "-o", "json"), text + b"\n", lambda out: output.append(out.read()))
        found = re.search(rb'"type":"find\.\*","s":(\d+)', output[0])
        return int(found[1]) if found else None


def lines_of(data, whole):
    """The lines without their line feeds; with -w, the whole text is one line."""
    if whole:
        return [data]
    lines = data.split(b"\n")
    return lines if lines[-1] else lines[:-1]


class Answers:
    """How `match` answers each line: the numbers and steps of the lines that fail, and its messages about lines with
    faults.
    """

    def __init__(self, asked, data):
        answers = []
        told, status = asked.run(asked.answer_words(), data, answers.extend)
        steps = [int(line[6:]) for line in told.splitlines() if line.startswith(b"steps ")]
        self.told = [line for line in told.splitlines() if not line.startswith(b"steps ")]
        if status not in (0, 1, 3):
            raise Failed(b"".join(line + b"\n" for line in self.told), status)
        faults = map(re.compile(rb"rosie: -:(\d+): (.*)").fullmatch, self.told)
        self.faults = {int(found[1]): found[2] for found in faults if found}
        self.failed, self.count, number = [], len(answers) + len(self.faults), 0
        for answer, count in zip(answers, steps):
            number += 1
            while number in self.faults:
                number += 1
            if answer == b"false\n":
                self.failed.append((number, count))


class Why:
    """Finds out why lines fail. It keeps the least steps of a line whose trace was too long, and how many such lines
    were tried.
    """

    def __init__(self, asked):
        self.asked, self.tries, self.least = asked, 0, None

    def too_long(self, steps):
        return self.tries >= LONG_TRIES and steps >= self.least

    def readings(self, lines, failed):
        """The readings of the failed lines by line number, without those whose traces are too long."""
        found = {}
        left = sorted(failed, key=lambda line: line[1])
        while left:
            left = [line for line in left if not self.too_long(line[1])]
            count = self.read_some(lines, left, found)
            if count is None:
                break
            self.tries += 1
            self.least = left[count - 1][1]
            left = left[count:]
        return found

    def read_some(self, lines, left, found):
        """Reads traces up to the first one that is too long, and returns its number in the list."""
        if not left:
            return None
        data = lines[0] if self.asked.whole else b"".join(lines[number - 1] + b"\n" for number, _ in left)
        told, status = self.asked.run(self.asked.trace_words(), data, lambda out: self.read_traces(out, left, found))
        stopped = re.search(rb"^rosie: -:(\d+): trace too long$", told, re.MULTILINE)
        if stopped:
            return int(stopped[1])
        if status not in (0, 1, 3):
            raise Failed(told, status)
        return None

    def read_traces(self, out, left, found):
        readings = {}
        for line in out:
            words = line.split()
            if words[0] == b"line":
                reading = readings[left[int(words[1]) - 1][0]] = Search() if self.asked.search else Reading()
            else:
                reading.take(words)
        found.update((number, reading.result()) for number, reading in readings.items())
