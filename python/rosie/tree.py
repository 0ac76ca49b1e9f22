"""How the tree of a match is read from its text."""
from __future__ import annotations

import json
import re
from typing import Any, Dict, List, Union

Node = Dict[str, Any]
# What begins a node, as the command writes it: keys in this order, without spaces.
HEAD = re.compile(rb'\{"type":("(?:[^"\\]|\\.)*"),"s":(\d+),"e":(\d+),"data":("(?:[^"\\]|\\.)*")')

# The same in a string: the last part of the type, the text with its escapes, and whether the node has parts.
NODES = re.compile(r'\{"type":"(?:[^"\\.]*\.)?([^"\\.]*)","s":\d+,"e":\d+,'
                   r'"data":"([^"\\]*(?:\\.[^"\\]*)*)"(,"subs")?')
Record = Dict[str, Union[str, List[str]]]


def read_tree(text: bytes) -> Node:
    """The root of the tree. Trees may be deeper than the reader of the standard library goes."""
    try:
        return json.loads(text)
    except RecursionError:
        return read_deep_tree(text)


def read_deep_tree(text: bytes) -> Node:
    """The same without a call for each level."""
    top: List[Node] = []
    open_lists = [top]
    at = 0
    while at < len(text):
        head = HEAD.match(text, at)
        if head is None:
            # Between nodes stand `}`, `]` and commas; a `]` ends the parts of a node.
            if text[at:at + 1] == b"]":
                open_lists.pop()
            at += 1
            continue
        node: Node = {"type": json.loads(head[1]), "s": int(head[2]), "e": int(head[3]), "data": json.loads(head[4])}
        open_lists[-1].append(node)
        at = head.end()
        if text.startswith(b',"subs":[', at):
            node["subs"] = []
            open_lists.append(node["subs"])
            at += len(b',"subs":[')
    return top[0]


def record_of(text: bytes) -> "Record":
    """The texts of the leaves below the root of a tree, by the last part of their types.

    Where a name comes more than once, its texts are a list.
    """
    made: Record = {}
    nodes = iter(NODES.findall(text.decode("utf-8")))
    next(nodes)
    for name, data, more in nodes:
        if more:
            continue
        if "\\" in data:
            data = json.loads(f'"{data}"')
        before = made.get(name)
        if before is None:
            made[name] = data
        elif isinstance(before, list):
            before.append(data)
        else:
            made[name] = [before, data]
    return made


def write_tree(node: Node) -> bytes:
    """The text of a tree, as the command writes it."""
    made: List[str] = []
    waiting: List[Union[Node, str]] = [node]
    while waiting:
        part = waiting.pop()
        if isinstance(part, str):
            made.append(part)
            continue
        head = {name: part[name] for name in ("type", "s", "e", "data")}
        made.append(json.dumps(head, ensure_ascii=False, separators=(",", ":"))[:-1])
        waiting.append("}")
        if "subs" in part:
            made.append(',"subs":[')
            waiting.append("]")
            for place, below in enumerate(reversed(part["subs"])):
                waiting += [","] * bool(place) + [below]
    return "".join(made).encode()


def copy_tree(node: Node) -> Node:
    """A tree of its own with the same nodes."""
    made = dict(node)
    waiting = [made]
    while waiting:
        parent = waiting.pop()
        if "subs" in parent:
            parent["subs"] = [dict(part) for part in parent["subs"]]
            waiting.extend(parent["subs"])
    return made
