"""Texts that an editor has open, and those on the disk beside them."""
from __future__ import annotations

import bisect
import functools
import os
import re
from typing import Any, Dict, Iterator, List, Optional, Tuple
from urllib.parse import quote, unquote, urlsplit

from .. import rpl

LONGEST = 1 << 20
Position = Dict[str, int]
Range = Dict[str, Position]


def path_of(uri: str) -> str:
    """The path of a file by its URI; of another kind of document, the URI itself."""
    parts = urlsplit(uri)
    return unquote(parts.path) if parts.scheme == "file" else uri


def uri_of(path: str) -> str:
    """The URI of a file."""
    return "file://" + quote(os.path.abspath(path))


class Document:
    """A text, with its places as the protocol tells them: line and unit of UTF-16 in it, from 0."""

    def __init__(self, uri: str, text: str, version: Optional[int] = None) -> None:
        self.uri, self.path, self.version = uri, path_of(uri), version
        self.text = text

    @property
    def text(self) -> str:
        """The text as it is now."""
        return self._text

    @text.setter
    def text(self, text: str) -> None:
        """Takes another text, and forgets how the old one was cut."""
        self._text = text
        self._starts = [0] + [found.end() for found in re.finditer(r"\r\n|\n|\r", text)]
        self.__dict__.pop("tokens", None)
        self.__dict__.pop("statements", None)

    @functools.cached_property
    def tokens(self) -> "List[rpl.Token]":
        """The tokens of the text, with its comments."""
        return list(rpl.tokens(self.text))

    @functools.cached_property
    def statements(self) -> "List[rpl.Statement]":
        """The statements of the text."""
        return rpl.statements(self.tokens)

    @property
    def package(self) -> str:
        """The name of the package that the text is, or nothing."""
        return rpl.package_of(self.statements)

    def place(self, position: Position) -> int:
        """The character at a position; positions after the end of a line are its end."""
        line = max(0, int(position["line"]))
        if line >= len(self._starts):
            return len(self.text)
        start = self._starts[line]
        end = self._starts[line + 1] if line + 1 < len(self._starts) else len(self.text)
        content = self.text[start:end].rstrip("\r\n") if line + 1 < len(self._starts) else self.text[start:end]
        units = max(0, int(position["character"]))
        if content.isascii():
            return start + min(units, len(content))
        before = content.encode("utf-16-le", "surrogatepass")[: 2 * units]
        return start + len(before.decode("utf-16-le", "ignore"))

    def position(self, at: int) -> Position:
        """The position of a character."""
        at = max(0, min(at, len(self.text)))
        line = bisect.bisect_right(self._starts, at) - 1
        before = self.text[self._starts[line]:at]
        units = len(before) if before.isascii() else len(before.encode("utf-16-le", "surrogatepass")) // 2
        return {"line": line, "character": units}

    def range(self, start: int, end: int) -> Range:
        """The range between two characters."""
        return {"start": self.position(start), "end": self.position(max(start, end))}

    def change(self, changes: List[Dict[str, Any]]) -> None:
        """Applies the changes that an editor sends, one after the other."""
        for each in changes:
            if each.get("range") is None:
                self.text = each["text"]
                continue
            start = self.place(each["range"]["start"])
            end = max(start, self.place(each["range"]["end"]))
            self.text = self.text[:start] + each["text"] + self.text[end:]

    def line_range(self, line: int) -> Tuple[int, int]:
        """The first and the last character of a line of the command, that is, up to a line feed; it counts from 1."""
        starts = [0] + [found.end() for found in re.finditer("\n", self.text)]
        start = starts[min(line, len(starts)) - 1]
        end = self.text.find("\n", start)
        return start, len(self.text) if end < 0 else end

    def token_at(self, at: int) -> "Optional[rpl.Token]":
        """The token that a place is in, or that ends there."""
        found = None
        for token in self.tokens:
            if token.start > at:
                break
            if at < token.end or at == token.end and token.kind in ("name", "qualified", "keyword"):
                found = token
        return found


class Documents:
    """The documents of an editor, and the packages that their imports name."""

    def __init__(self, libpath: List[str]) -> None:
        self.open: Dict[str, Document] = {}
        self.roots: List[str] = []
        self.libpath = libpath

    def folders(self, document: Document) -> List[str]:
        """Where the imports of a document are looked for: its own folder first."""
        own = os.path.dirname(document.path) if os.path.isabs(document.path) else ""
        made = [folder for folder in [own, *self.roots, *self.libpath] if folder and ":" not in folder]
        return list(dict.fromkeys(os.path.abspath(folder) for folder in made))

    def of_path(self, path: str) -> Optional[Document]:
        """The document at a path: the one that is open, or the file."""
        uri = uri_of(path)
        for each in self.open.values():
            if each.uri == uri or os.path.isabs(each.path) and os.path.abspath(each.path) == os.path.abspath(path):
                return each
        try:
            if not os.path.isfile(path):
                return None
            with open(path, encoding="utf-8", newline="") as file:
                return Document(uri, file.read(LONGEST))
        except (OSError, UnicodeDecodeError):
            return None

    def imported(self, document: Document, path: str) -> Optional[Document]:
        """The package that an import of this document names."""
        if not re.fullmatch(r"[A-Za-z]\w*(?:/[A-Za-z]\w*)*", path, re.ASCII):
            return None
        for folder in self.folders(document):
            found = self.of_path(os.path.join(folder, *path.split("/")) + ".rpl")
            if found:
                return found
        return None

    def beside(self, document: Document) -> "Iterator[Document]":
        """All documents that may import this one: those that are open, in the workspace, or in its folder."""
        seen = set()
        for each in [document, *self.open.values()]:
            if each.uri not in seen:
                seen.add(each.uri)
                yield each
        for folder in self.folders(document)[: 1 + len(self.roots)]:
            for path in sorted(files_in(folder)):
                found = self.of_path(path)
                if found is not None and found.uri not in seen and uri_of(path) not in seen:
                    seen.add(found.uri)
                    yield found

    def packages(self, document: Document) -> Dict[str, str]:
        """The packages that this document can import by a plain name, each with its file."""
        made: Dict[str, str] = {}
        for folder in self.folders(document):
            for path in sorted(files_in(folder)):
                made.setdefault(os.path.basename(path)[: -len(".rpl")], path)
        return made


def files_in(folder: str) -> List[str]:
    """The files of packages in a folder."""
    try:
        return [entry.path for entry in os.scandir(folder) if entry.name.endswith(".rpl") and entry.is_file()]
    except OSError:
        return []
