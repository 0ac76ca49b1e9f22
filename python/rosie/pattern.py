"""Patterns: compiled once, and matched by processes of the command."""
from __future__ import annotations

import os
import re
import weakref
from collections import deque
from typing import Any, Callable, Deque, Dict, Generator, Generic, Iterator, List, Optional, Sequence, TypeVar, Union

from .batches import Batch, Lines, Text, as_line, batches_of, to_bytes
from .command import Command, Path, find_tool, root_words
from .faults import LineFault, PatternError, read_message
from .lines import Answer, CommandEnded, LineProcess
from .match import Match, Record

Made = TypeVar("Made")
Answered = Union[Match, None, LineFault]
Idle = Dict[str, List[LineProcess]]


def answer_of(number: int, answer: Answer, line: bytes) -> Answered:
    """The command's answer to a line, as a value."""
    if answer is None:
        return None
    return LineFault(number, answer, line) if isinstance(answer, str) else Match(answer, line)


def close_all(idle: Idle) -> None:
    """Ends the idle processes."""
    for waiting in idle.values():
        while waiting:
            waiting.pop().close()


class Stream(Generic[Made]):
    """An iterator over answers. `close`, or the end of a `with` block, ends its process."""

    def __init__(self, answers: "Generator[Made, None, None]") -> None:
        self._answers = answers

    def __iter__(self) -> Iterator[Made]:
        return self._answers

    def __next__(self) -> Made:
        return next(self._answers)

    def close(self) -> None:
        """Ends the process behind it; there are no more answers."""
        self._answers.close()

    def __enter__(self) -> "Stream[Made]":
        return self

    def __exit__(self, *_: object) -> None:
        self.close()


class Waiting:
    """Lines that have not been answered yet."""

    def __init__(self) -> None:
        self.lines: Deque[bytes] = deque()
        self.number = 0

    def answered(self, answers: List[Answer]) -> Iterator[Answered]:
        """The values of these answers."""
        for answer in answers:
            self.number += 1
            yield answer_of(self.number, answer, self.lines.popleft())

    def rest(self, process: LineProcess) -> Iterator[Answered]:
        """Waits for all answers."""
        while self.lines:
            yield from self.answered(process.receive())


class Pattern:
    """A pattern of the Rosie Pattern Language, compiled.

    Arguments:
        pattern: the pattern, such as `net.ip` or `{"a" [0-9]+}`; with `fixed`, the text to look for.
        rpl: a text of rules that the pattern may use, or a list of such texts.
        files: paths of files with rules.
        libpath: the folders to search for packages; by default `.`, and then the packages that come with the command.
        budget: the number of steps that a line may take.
        command: the path of the command `rosie`, or a Command, whose library path is then used.

    Raises PatternError if the command refuses the pattern, and RosieError if the command cannot be run. Many threads
    may use the same pattern, and you can send it to other processes. `close` ends the idle processes; if you use the
    pattern again, it starts new ones.
    """

    def __init__(self, pattern: str, *, rpl: Union[str, Sequence[str]] = (), files: Union[Path, Sequence[Path]] = (),
                 libpath: Union[None, str, Sequence[Path]] = None, fixed: bool = False, budget: Optional[int] = None,
                 command: Union[None, Path, Command] = None) -> None:
        self.pattern = pattern
        self._rpl = [rpl] if isinstance(rpl, str) else list(rpl)
        self._files = [os.fspath(path) for path in ([files] if isinstance(files, (str, os.PathLike)) else files)]
        self._command = command if isinstance(command, Command) else Command(command, libpath)
        self._words = [*root_words(self._rpl, self._files), *self._command.libpath_words, *(["-F"] if fixed else [])]
        self._budget = [] if budget is None else ["--budget", str(int(budget))]
        self._code = self._checked(["compile", *self._words, "--", pattern])
        self._begin()

    def _begin(self) -> None:
        self._idle: Idle = {"match": [], "grep": []}
        self._is_name: Optional[bool] = None
        weakref.finalize(self, close_all, self._idle)

    def _checked(self, words: Sequence[str]) -> bytes:
        """The output of the command. Raises PatternError if it refuses the pattern."""
        done = self._command.run(words)
        if done.status == 0:
            return done.out
        written = done.err.decode("utf-8", "surrogateescape")
        raise self._refusal(written) or CommandEnded(done.status, written.split("\n")[0])

    def _refusal(self, written: str) -> Optional[PatternError]:
        """The fault that the command reported, if it is in the pattern or in something that the pattern uses."""
        message = read_message(written)
        return message and PatternError(message, self.pattern, self._rpl, find_tool("rosie-at", self._command.path))

    # One text at a time

    def match(self, text: Text) -> Optional[Match]:
        """The match at the start of a text, or None.

        A line feed at the end is left out, as in a line; a text with other line feeds is matched as a whole (`-w`).
        Raises LineFault if the text has no answer.
        """
        return self._one("match", text)

    def search(self, text: Text) -> Optional[Match]:
        """The first match anywhere in a text, or None. Raises the same exceptions as `findall`."""
        return next(iter(self.findall(text)), None)

    def findall(self, text: Text) -> List[Match]:
        """All matches in a text, from left to right, without overlaps.

        Raises LineFault if the text has no answer, and PatternError if the pattern may match nothing, because such a
        pattern cannot be searched for.
        """
        try:
            found = self._one("grep", text)
        except CommandEnded as ended:
            refusal = self._refusal(ended.written)
            if refusal is None:
                raise
            raise refusal from None
        return [] if found is None else [self._hit(part) for part in found.parts]

    def _one(self, word: str, text: Text) -> Optional[Match]:
        line = as_line(to_bytes(text))
        made = answer_of(1, self._ask_whole(word, line) if b"\n" in line else self._ask(word, line), line)
        if isinstance(made, LineFault):
            raise made
        return made

    def _hit(self, found: Match) -> Match:
        """A hit of `grep` as a match of the pattern: if the pattern is a name, the match of its rule."""
        if self._is_name is None:
            written = self._command.run(["expand", *self._words, "--", self.pattern]).out
            self._is_name = bool(re.search(rb"^\* = \(call [^ ()]+\)$", written, re.MULTILINE))
        return found.parts[0] if self._is_name else found.as_type("*")

    # Any number of lines

    def over(self, lines: Lines) -> "Stream[Answered]":
        """One answer for each line, in order: a Match, None, or a LineFault. Lines are read as you ask for answers.

        `lines` is a file, or any iterable of lines, with or without a line feed at their ends. A file in binary mode
        is read as data arrives, so each of its lines is answered at once. With other sources, the answer to a line may
        wait for the next line.
        """
        return Stream(self._over("match", batches_of(lines)))

    def search_over(self, lines: Lines) -> "Stream[Answered]":
        """The same for a search. A Match extends from the start of its line to the last hit; its parts are the hits."""
        return Stream(self._over("grep", batches_of(lines)))

    def records(self, lines: Lines, on_fault: "Optional[Callable[[LineFault], Any]]" = None) -> "Stream[Record]":
        """A flat dict for each line that matches: the texts of the leaves, keyed by the last part of their types.

        A line that has no answer is passed to `on_fault` as a LineFault; without `on_fault`, the LineFault is raised.
        """
        return Stream(self._records(lines, on_fault))

    def _records(self, lines: Lines,
                 on_fault: "Optional[Callable[[LineFault], Any]]") -> "Generator[Record, None, None]":
        with self.over(lines) as answers:
            for answer in answers:
                if isinstance(answer, Match):
                    yield answer.record()
                elif answer is not None:
                    if on_fault is None:
                        raise answer
                    on_fault(answer)

    def _over(self, word: str, batches: Iterator[Batch]) -> "Generator[Answered, None, None]":
        process = self._process(word)
        waiting = Waiting()
        try:
            for lines, whole, at_once in batches:
                if whole:
                    yield from waiting.rest(process)
                waiting.lines.extend(lines)
                sent = b"" if whole else b"\n".join([*lines, b""])
                answers = [self._ask_whole(word, lines[0])] if whole else process.exchange(sent)
                yield from waiting.answered(answers)
                if at_once:
                    yield from waiting.rest(process)
            yield from waiting.rest(process)
        finally:
            process.close()

    # Processes

    def _process(self, word: str, more: Sequence[str] = (), text: Optional[bytes] = None) -> LineProcess:
        words = [*self._command.words, word, "--steps", *self._budget, *more]
        if word == "match":
            return LineProcess(words, self._code, text)
        return LineProcess([*words, "-o", "json", *self._words, "--", self.pattern], None, text)

    def _ask(self, word: str, line: bytes) -> Answer:
        process = self._take(word)
        try:
            answer = process.ask(line)
        except BaseException:
            process.close()
            raise
        self._idle[word].append(process)
        return answer

    def _take(self, word: str) -> LineProcess:
        """An idle process, or a new one. A process that was started before a fork belongs to the parent."""
        while True:
            try:
                process = self._idle[word].pop()
            except IndexError:
                return self._process(word)
            if process.owner == os.getpid():
                return process
            process.close()

    def _ask_whole(self, word: str, text: bytes) -> Answer:
        process = self._process(word, ["-w"], text)
        try:
            return process.whole_answer()
        finally:
            process.close()

    def close(self) -> None:
        """Ends the idle processes."""
        close_all(self._idle)

    def __enter__(self) -> "Pattern":
        return self

    def __exit__(self, *_: object) -> None:
        self.close()

    def __getstate__(self) -> Dict[str, Any]:
        return {name: value for name, value in self.__dict__.items() if name not in ("_idle", "_is_name")}

    def __setstate__(self, state: Dict[str, Any]) -> None:
        self.__dict__.update(state)
        self._begin()

    def __repr__(self) -> str:
        return f"rosie.Pattern({self.pattern!r})"
