"""What the command says of a text: the first fault, and the tests that fail."""
from __future__ import annotations

import os
import re
from typing import Any, Dict, List, NamedTuple, Optional

from .. import rpl
from ..command import Command, find_tool
from ..faults import Message, PatternError, RosieError, read_message
from ..lines import file_of
from .documents import Document, Documents

# Texts of faults whose number is a line.
LINE_TEXTS = ("bad test", "budget spent", "answer too long")
SECONDS = 10
MEBIBYTES = 2048
Diagnostic = Dict[str, Any]


class Checked(NamedTuple):
    """The faults of a text, and what its tests came to, where they were run."""

    faults: List[Diagnostic]
    told: str


def fault(document: Document, start: int, end: int, text: str, code: str) -> Diagnostic:
    """A fault for the editor."""
    return {"range": document.range(start, end), "severity": 1, "source": "rosie", "code": code, "message": text}


def check(command: Command, documents: Documents, document: Document) -> Checked:
    """Loads the text and runs its tests."""
    command.libpath = documents.folders(document)
    command.__dict__.pop("libpath_words", None)
    with file_of(document.text.encode("utf-8", "surrogatepass")) as file:
        path = f"/proc/{os.getpid()}/fd/{file.fileno()}"
        try:
            done = command.run(["test", *command.libpath_words, path])
        except RosieError as error:
            return Checked([fault(document, 0, 0, str(error), "command")], str(error))
        faults = faults_of(command, document, path, done.err.decode("utf-8", "replace"))
    written = done.out.decode("utf-8", "replace").splitlines()
    for line in written[:-1]:
        found = re.fullmatch(re.escape(path) + r":(\d+): (.*)", line)
        if found:
            faults.append(failed_test(document, int(found.group(1)), found.group(2)))
    told = written[-1].replace(path,
                               os.path.basename(document.path)) if written else faults[0]["message"] if faults else ""
    return Checked(faults, told)


def faults_of(command: Command, document: Document, path: str, written: str) -> List[Diagnostic]:
    """The faults in what the command wrote to standard error."""
    made = []
    for line in written.splitlines():
        of_line = re.fullmatch(re.escape(f"rosie: {path}:") + r"(\d+): (.*)", line)
        if of_line and of_line.group(2) in LINE_TEXTS:
            start, end = document.line_range(int(of_line.group(1)))
            made.append(fault(document, start, end, of_line.group(2), "test"))
            continue
        message = read_message(line)
        if message is not None:
            made.append(of_message(command, document, path, message))
    return made


def of_message(command: Command, document: Document, path: str, message: Message) -> Diagnostic:
    """A fault of the text itself, or of a package that it imports."""
    error = PatternError(message, tool=find_tool("rosie-at", command.path))
    text = "\n".join([message.text, *(f"hint: {each}" for each in error.advice)])
    if message.file == path:
        at = rpl.Places(document.text).of_bytes(message.offset or 0)
        return fault(document, at, fault_end(document, at, message.text), text, "fault")
    place = f":{error.line}:{error.column}" if error.line else ""
    start, end = import_of(document, message.file)
    return fault(document, start, end, f"{message.file}{place}: {text}", "import")


def fault_end(document: Document, at: int, text: str) -> int:
    """Where a fault ends: with its token, or with the line on which its statement begins."""
    token: "Optional[rpl.Token]" = next((token for token in document.tokens if token.start <= at < token.end), None)
    if token is None:
        return at
    if re.match("syntax|too large|empty loop|left recursion|look-behind|halt", text):
        return max(token.end, min([each.end for each in document.statements if each.start == at] or [token.end]))
    return token.end


def import_of(document: Document, path: str) -> "tuple[int, int]":
    """The import by which a file comes in, or the start of the text."""
    name = os.path.splitext(os.path.basename(path))[0]
    imports = list(rpl.imports_of(document.statements))
    for each in [one for one in imports if one.path.rpartition("/")[2] == name] or imports[:1]:
        return each.start, each.end
    return 0, 0


def failed_test(document: Document, line: int, told: str) -> Diagnostic:
    """A test that failed, at its text in the comment."""
    start, end = document.line_range(line)
    text = re.search(r'"(?:[^"\\]|\\.)*"$', told)
    word = text.group() if text else told
    at = document.text.find(word, start, end)
    if at >= 0:
        start, end = at, at + len(word)
    return fault(document, start, end, "failed: " + told, "test")
