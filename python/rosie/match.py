"""A match: a node of the tree that the command prints."""
from __future__ import annotations

import json
from typing import Iterator, List, Optional, Tuple, Union

from .tree import Node, Record, copy_tree, read_tree, record_of, write_tree


def takes(name: str, type_: str) -> bool:
    """Whether a name means a type: it is the type, or the end of the type after a dot."""
    return type_ == name or type_.endswith("." + name)


class Match:
    """What a pattern matched, with its parts.

    A match has a `type` (the name of its rule, or `*`), its `text`, its place in the line, and `parts`, the matches
    directly below it. `m['ip']` is the first match of that type at or below this one, with or without the name of its
    package.
    """

    __slots__ = ("_line", "_tree")

    def __init__(self, tree: Union[bytes, Node], line: bytes) -> None:
        self._tree: Union[bytes, Node] = tree
        self._line = line

    @property
    def _node(self) -> Node:
        """The node; the text of the tree is read when it is first asked for."""
        if isinstance(self._tree, bytes):
            self._tree = read_tree(self._tree)
        return self._tree

    @property
    def type(self) -> str:
        """The name of the rule that matched, with its package, or `*` if the pattern is not a name."""
        return self._node["type"]

    @property
    def text(self) -> str:
        """The text that matched; for a `message`, the text of the message."""
        return self._node["data"]

    @property
    def line(self) -> str:
        """The whole text in which the match was found."""
        return self._line.decode("utf-8")

    @property
    def byte_span(self) -> Tuple[int, int]:
        """The places where the match begins and ends, in bytes counted from 0."""
        return self._node["s"] - 1, self._node["e"] - 1

    @property
    def span(self) -> Tuple[int, int]:
        """The same in characters: `m.line[start:end]` is the text of the match."""
        start, end = self.byte_span
        if self._line.isascii():
            return start, end
        before = len(self._line[:start].decode("utf-8"))
        return before, before + len(self._line[start:end].decode("utf-8"))

    @property
    def parts(self) -> "List[Match]":
        """The matches directly below this one."""
        return [Match(part, self._line) for part in self._node.get("subs", ())]

    def walk(self) -> "Iterator[Match]":
        """This match and all below it, in the order of the tree."""
        waiting = [self._node]
        while waiting:
            node = waiting.pop()
            yield Match(node, self._line)
            waiting.extend(reversed(node.get("subs", ())))

    def all(self, name: str) -> "List[Match]":
        """All matches of this type, at or below this one. A name without a dot means that name in any package."""
        return [found for found in self.walk() if takes(name, found.type)]

    def get(self, name: str, default: "Optional[Match]" = None) -> "Optional[Match]":
        """The first match of this type, or the default."""
        return next((found for found in self.walk() if takes(name, found.type)), default)

    def __getitem__(self, name: str) -> "Match":
        found = self.get(name)
        if found is None:
            raise KeyError(name)
        return found

    def __contains__(self, name: object) -> bool:
        return isinstance(name, str) and self.get(name) is not None

    # Without this, `for part in m` would ask for m[0], m[1] and so on.
    __iter__ = None

    def as_type(self, type_: str) -> "Match":
        """The same match under another type."""
        return Match({**self._node, "type": type_}, self._line)

    def to_dict(self) -> Node:
        """The tree as the command prints it, with `s` and `e` in bytes counted from 1."""
        return copy_tree(self._node)

    def record(self) -> Record:
        """The texts of the leaves below, keyed by the last part of their types; a list if a key occurs repeatedly."""
        return record_of(self._tree if isinstance(self._tree, bytes) else write_tree(self._tree))

    def pretty(self) -> str:
        """The tree as readable text: one line for each match, indented by its depth."""
        lines = []
        waiting = [(0, self._node)]
        while waiting:
            depth, node = waiting.pop()
            lines.append("  " * depth + node["type"] + " " + json.dumps(node["data"], ensure_ascii=False))
            waiting.extend((depth + 1, part) for part in reversed(node.get("subs", ())))
        return "\n".join(lines)

    def __str__(self) -> str:
        return self.text

    def __repr__(self) -> str:
        return f"<rosie.Match {self.type} {self.span} {self.text!r}>"

    def __eq__(self, other: object) -> bool:
        return isinstance(other, Match) and self._node == other._node and self._line == other._line

    def __hash__(self) -> int:
        return hash((self.type, self.byte_span, self._line))
