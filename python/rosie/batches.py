"""How lines of files and other sources are taken together, so that many go to the command at once."""
from __future__ import annotations

import select
import time
from typing import IO, Any, Iterable, Iterator, List, NamedTuple, Union

Text = Union[str, bytes]
Lines = Union[Iterable[Text], IO[str], IO[bytes]]
# Lines are sent together as long as they come quickly: so many bytes, so many lines, and so many seconds at most.
BATCH_BYTES = 1 << 16
BATCH_LINES = 1 << 11
BATCH_SECONDS = 0.002


class Batch(NamedTuple):
    """Lines without their line feeds.

    `whole` says that it is one text with line feeds in it, and `at_once` that no more lines wait yet.
    """

    lines: List[bytes]
    whole: bool
    at_once: bool


def to_bytes(text: Text) -> bytes:
    """A text in UTF-8. What a string has that UTF-8 doesn't have becomes a fault of the line."""
    if not isinstance(text, str):
        return bytes(text)
    try:
        return text.encode("utf-8", "surrogateescape")
    except UnicodeEncodeError:
        return text.encode("utf-8", "surrogatepass")


def as_line(text: bytes) -> bytes:
    """A text without its last character, where that is its only line feed."""
    return text[:-1] if text.find(b"\n") == len(text) - 1 and text else text


def batches_of(lines: Lines) -> Iterator[Batch]:
    """The batches of a source of lines. A binary file is read as it comes; of others, lines are taken one by one."""
    read = getattr(lines, "read1", None)
    if read is not None and not hasattr(lines, "encoding"):
        return batches_of_file(lines)
    return batches_of_lines(lines)


def batches_of_lines(lines: Iterable[Text]) -> Iterator[Batch]:
    """Lines of any source, together as long as they come quickly."""
    taken: List[bytes] = []
    size = 0
    begun = time.monotonic()
    for text in lines:
        line = as_line(to_bytes(text))
        if b"\n" in line:
            if taken:
                yield Batch(taken, False, False)
            yield Batch([line], True, True)
            taken, size, begun = [], 0, time.monotonic()
            continue
        taken.append(line)
        size += len(line) + 1
        if size >= BATCH_BYTES or len(taken) >= BATCH_LINES or time.monotonic() - begun > BATCH_SECONDS:
            yield Batch(taken, False, False)
            taken, size, begun = [], 0, time.monotonic()
    if taken:
        yield Batch(taken, False, True)


def batches_of_file(file: Any) -> Iterator[Batch]:
    """Lines of a binary file, as many as there are at a time."""
    begun: List[bytes] = []
    while True:
        read = file.read1(BATCH_BYTES)
        if not read:
            break
        if b"\n" not in read:
            begun.append(read)
            continue
        lines = read.split(b"\n")
        lines[0] = b"".join([*begun, lines[0]])
        begun = [lines.pop()]
        yield Batch(lines, False, not is_ready(file))
    rest = b"".join(begun)
    if rest:
        yield Batch([rest], False, True)


def is_ready(file: Any) -> bool:
    """Whether a file has more to read without waiting. A file that isn't one of the system has."""
    try:
        return bool(select.select([file.fileno()], [], [], 0)[0])
    except (OSError, ValueError):
        return True
