"""The protocol with the command: one answer for each line, in order.

The command runs with `--steps`, and its standard error goes into the same pipe as its standard output. For each line,
it then writes

- the tree, which begins with `{`, followed by `steps N`, if the line matched,
- only `steps N`, if it did not match,
- only `rosie: -:NUMBER: CAUSE`, if it has no answer.

So the last line of each answer is not a tree. The command does not print input lines, so no line of the input can be
mistaken for an answer. The command flushes its standard output before it writes to standard error, and flushes both
before it waits for input, so each answer comes as soon as its line has arrived. The answers are counted; nothing waits
for the end of the output.
"""
from __future__ import annotations

import contextlib
import os
import re
import select
import subprocess
import tempfile
from typing import IO, List, NoReturn, Optional, Sequence, Tuple, Union, cast

from .faults import RosieError

# An answer: the text of the tree, None where the line didn't match, or the cause of a fault.
Answer = Union[bytes, None, str]
READ_SIZE = 1 << 18
FAULT = re.compile(rb"rosie: -:\d+: ([A-Za-z0-9 -]+)")


class CommandEnded(RosieError):
    """The command ended instead of answering. `status` is its exit status, and `written` is what it wrote last."""

    def __init__(self, status: int, written: str) -> None:
        super().__init__(status, written)
        self.status, self.written = status, written

    def __str__(self) -> str:
        return f"the command ended with status {self.status}: {self.written or 'it wrote nothing'}"


def file_of(text: bytes) -> IO[bytes]:
    """An unnamed file that holds these bytes, to be read from its start; in memory, if possible."""
    memory = getattr(os, "memfd_create", None)
    file = os.fdopen(memory("rosie"), "w+b") if memory else tempfile.TemporaryFile(prefix="rosie-")
    file.write(text)
    file.seek(0)
    return file


class LineProcess:
    """A process of the command that answers lines.

    `code` is a compiled pattern, which the process reads as its code file. With `text`, that text is its whole input;
    without it, the process is asked line by line.
    """

    def __init__(self, words: Sequence[str], code: Optional[bytes] = None, text: Optional[bytes] = None) -> None:
        self.owner = os.getpid()
        self._tree: Optional[bytes] = None
        self._begun: List[bytes] = []
        with contextlib.ExitStack() as files:
            made = [*words]
            kept: Tuple[int, ...] = ()
            if code is not None:
                kept = (files.enter_context(file_of(code)).fileno(),)
                made += ["--code-file", f"/dev/fd/{kept[0]}"]
            given: Union[int, IO[bytes]] = subprocess.PIPE
            if text is not None:
                given = files.enter_context(file_of(text))
            self._process = subprocess.Popen(made, bufsize=0, stdin=given, stdout=subprocess.PIPE,
                                             stderr=subprocess.STDOUT, pass_fds=kept)
        self._stdout = cast(IO[bytes], self._process.stdout)
        self._out = self._stdout.fileno()
        self._poll = select.poll()
        self._poll.register(self._out, select.POLLIN)
        if text is None:
            self._in = cast(IO[bytes], self._process.stdin).fileno()
            os.set_blocking(self._in, False)

    def whole_answer(self) -> Answer:
        """The answer to the text that the process was given."""
        answers: List[Answer] = []
        while not answers:
            answers = self.receive()
        return answers[0]

    def ask(self, line: bytes) -> Answer:
        """The answer to a line without a line feed. No other line may wait for its answer."""
        answers = self.exchange(line + b"\n")
        return answers[0] if answers else self.whole_answer()

    def exchange(self, text: bytes) -> List[Answer]:
        """Writes whole lines, and returns the answers that came meanwhile."""
        answers: List[Answer] = []
        left = memoryview(text)[self._write(text):]
        while left:
            self._poll.register(self._in, select.POLLOUT)
            try:
                ready = dict(self._poll.poll())
            finally:
                self._poll.unregister(self._in)
            if self._out in ready:
                answers += self.receive()
            elif self._in in ready:
                left = left[self._write(left):]
        return answers

    def _write(self, text: Union[bytes, memoryview]) -> int:
        try:
            return os.write(self._in, text)
        except BlockingIOError:
            return 0
        except BrokenPipeError:
            # What it wrote at its end says why.
            return len(text)

    def receive(self) -> List[Answer]:
        """Waits for output, and returns the complete answers. Raises CommandEnded at the end of the output."""
        read = os.read(self._out, READ_SIZE)
        if not read:
            self._raise_end()
        if b"\n" not in read:
            self._begun.append(read)
            return []
        lines = read.split(b"\n")
        if self._begun:
            lines[0] = b"".join([*self._begun, lines[0]])
        last = lines.pop()
        self._begun = [last] if last else []
        return self._answers(lines)

    def _answers(self, lines: List[bytes]) -> List[Answer]:
        answers: List[Answer] = []
        tree = self._tree
        for line in lines:
            if line.startswith(b"{"):
                tree = line
            elif line.startswith(b"steps "):
                answers.append(tree)
                tree = None
            else:
                answers.append(self._cause(line))
                tree = None
        self._tree = tree
        return answers

    def _cause(self, line: bytes) -> str:
        found = FAULT.fullmatch(line)
        if found is None:
            self._begun = [line]
            self._raise_end()
        return found.group(1).decode()

    def _raise_end(self) -> NoReturn:
        written = b"".join(self._begun).decode("utf-8", "replace").strip()
        if self.owner == os.getpid():
            with contextlib.suppress(subprocess.TimeoutExpired):
                self._process.wait(1)
        self.close()
        raise CommandEnded(self._process.returncode, written)

    def close(self) -> None:
        """Ends the process. In a forked process, this only closes the pipes."""
        if self._process.stdin is not None:
            self._process.stdin.close()
        self._stdout.close()
        if self.owner == os.getpid():
            self._process.kill()
            self._process.wait()
        else:
            # It is no child of this process, which so mustn't wait for it.
            self._process.returncode = 0
