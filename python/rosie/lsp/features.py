"""What an editor asks of a place: names, where they are bound, where they are used, and what is said of them."""
from __future__ import annotations

import os
import re
from typing import Any, Dict, Iterator, List, NamedTuple, Optional, Tuple

from .. import rpl
from ..command import Command
from ..faults import RosieError
from ..lines import file_of
from .documents import Document, Documents
from .rpc import REQUEST_FAILED, Refusal

MACROS = {"find": "the first match of what follows", "findall": "all matches of what follows",
          "keepto": "the first match of what follows, and what was passed over", "ci": "ASCII letters in either case",
          "uci": "letters in every case", "message": "a node with this text",
          "error": "a node with this text, and the end"}
LONGEST_EXPANSION = 600
# Kinds of the protocol.
FUNCTION, VARIABLE, MODULE, KEYWORD = 12, 13, 2, 14
ITEM_FUNCTION, ITEM_MODULE, ITEM_KEYWORD = 3, 9, 14


class Binding(NamedTuple):
    """A name where it is bound."""

    document: Document
    statement: "rpl.Statement"

    @property
    def name(self) -> str:
        """The name itself."""
        return self.statement.name.text


def bindings(document: Document) -> "Iterator[rpl.Statement]":
    """The statements that bind names."""
    return (each for each in document.statements if each.name)


def binding_in(document: Optional[Document], name: str, outside: bool = False) -> Optional[Binding]:
    """The binding of a name in a document; `outside` leaves out those that importers don't see."""
    if document is None:
        return None
    for each in bindings(document):
        if each.name.text == name and not (outside and each.hidden):
            return Binding(document, each)
    return None


class Features:
    """The answers to an editor, over its documents."""

    def __init__(self, documents: Documents, command: Command) -> None:
        self.documents, self.command = documents, command

    # Where a name is bound

    def find(self, document: Document, name: str) -> Optional[Binding]:
        """The binding of a name, as this document says it."""
        prefix, dot, own = name.partition(".")
        imports = list(rpl.imports_of(document.statements))
        if dot:
            for each in imports:
                if each.prefix == prefix:
                    return binding_in(self.documents.imported(document, each.path), own, True)
            return None
        found = binding_in(document, name)
        for each in imports if found is None else []:
            if not each.prefix and found is None:
                found = binding_in(self.documents.imported(document, each.path), name, True)
        return found

    def name_at(self, document: Document, at: int) -> Optional[Tuple[str, int, int]]:
        """The name at a place, with its own places: in a pattern, or in a test comment."""
        token = document.token_at(at)
        if token is None:
            return None
        if token.kind in ("name", "qualified"):
            return None if is_macro(document, token) else (token.text, token.start, token.end)
        if token.kind == "comment":
            for name, start, end in names_of_test(token):
                if start <= at <= end:
                    return name, start, end
        return None

    def binding_at(self, document: Document, at: int) -> Optional[Binding]:
        """The binding of the name at a place."""
        named = self.name_at(document, at)
        if named is None:
            return None
        name = named[0]
        if document.package and name.startswith(document.package + "."):
            name = name.partition(".")[2]
        return self.find(document, name)

    def definition(self, document: Document, at: int) -> Optional[Dict[str, Any]]:
        """Where the name at a place is bound; of the path of an import, its file."""
        for each in rpl.imports_of(document.statements):
            if each.start <= at <= each.end:
                found = self.documents.imported(document, each.path)
                return location(found, 0, 0) if found else None
        binding = self.binding_at(document, at)
        if binding is None:
            return None
        return location(binding.document, binding.statement.name.start, binding.statement.name.end)

    # Where it is used

    def uses(self, binding: Binding) -> "Iterator[Tuple[Document, int, int]]":
        """The places of a name, that of its binding among them: of a qualified name, those of its last part."""
        for document in self.documents.beside(binding.document):
            if document.uri == binding.document.uri:
                yield from ((document, start, end) for start, end in own_uses(document, binding.name))
            elif not binding.statement.hidden:
                yield from self._uses_outside(document, binding)

    def _uses_outside(self, document: Document, binding: Binding) -> "Iterator[Tuple[Document, int, int]]":
        prefixes = []
        for each in rpl.imports_of(document.statements):
            found = self.documents.imported(document, each.path)
            if found is not None and found.uri == binding.document.uri:
                prefixes.append(each.prefix)
        wanted = {f"{prefix}.{binding.name}" if prefix else binding.name for prefix in prefixes}
        if binding.name in wanted and binding_in(document, binding.name):
            wanted.discard(binding.name)
        for token in (token for each in document.statements if each.kind != "import" for token in each.tokens):
            if token.kind in ("name", "qualified") and token.text in wanted and not is_macro(document, token):
                yield document, token.end - len(binding.name), token.end

    def references(self, document: Document, at: int, with_binding: bool) -> List[Dict[str, Any]]:
        """All places where the name at this place is used."""
        binding = self.binding_at(document, at)
        if binding is None:
            return []
        own = (binding.document.uri, binding.statement.name.start)
        return [location(*use) for use in self.uses(binding) if with_binding or (use[0].uri, use[1]) != own]

    def prepare_rename(self, document: Document, at: int) -> Optional[Dict[str, Any]]:
        """The range of the name at a place, where it can be renamed."""
        named, binding = self.name_at(document, at), self.binding_at(document, at)
        if named is None or binding is None:
            return None
        return {"range": document.range(named[2] - len(binding.name), named[2]), "placeholder": binding.name}

    def rename(self, document: Document, at: int, name: str) -> Dict[str, Any]:
        """The edits that give the name at a place another name. Raises Refusal."""
        binding = self.binding_at(document, at)
        if binding is None:
            raise Refusal(REQUEST_FAILED, "no rule is named here")
        if not rpl.NAME.fullmatch(name) or name in rpl.KEYWORDS or name == "halt":
            raise Refusal(REQUEST_FAILED, f"{name} can't be the name of a rule")
        if name != binding.name and (binding_in(binding.document, name) or self.find(binding.document, name)):
            raise Refusal(REQUEST_FAILED, f"{name} is bound already")
        made: Dict[str, List[Dict[str, Any]]] = {}
        for each, start, end in self.uses(binding):
            made.setdefault(each.uri, []).append({"range": each.range(start, end), "newText": name})
        return {"changes": made}

    # What is said of it

    def hover(self, document: Document, at: int) -> Optional[Dict[str, Any]]:
        """The comment over a rule, the rule, what it stands for, and an example of its tests."""
        token = document.token_at(at)
        if token is not None and token.kind == "name" and is_macro(document, token):
            return said(f"`{token.text}:` {MACROS[token.text]}", document.range(token.start, token.end))
        named, binding = self.name_at(document, at), self.binding_at(document, at)
        if named is None or binding is None:
            return None
        return said(self.description(binding), document.range(named[1], named[2]))

    def description(self, binding: Binding) -> str:
        """The text of a hover, in Markdown."""
        document, statement = binding
        parts = [f"```rpl\n{document.text[statement.start:statement.end]}\n```"]
        comment = rpl.comment_over(document.text, statement.start)
        if comment:
            parts.append(comment)
        for test in rpl.tests_of(document.text):
            if test.name == binding.name and test.verb == "accepts" and test.texts:
                parts.append(f"Accepts `{test.texts[0]}`")
                break
        expansion = self.expansion(binding)
        if expansion:
            parts.append(f"Stands for\n```text\n{expansion}\n```")
        return "\n\n".join(parts)

    def expansion(self, binding: Binding) -> str:
        """What the command says that a rule stands for; nothing where it says nothing."""
        document = binding.document
        name = f"{document.package}.{binding.name}" if document.package else binding.name
        self.command.libpath = self.documents.folders(document)
        self.command.__dict__.pop("libpath_words", None)
        with file_of(document.text.encode("utf-8", "surrogatepass")) as file:
            path = f"/proc/{os.getpid()}/fd/{file.fileno()}"
            try:
                done = self.command.run(["expand", *self.command.libpath_words, "-f", path, "--", name])
            except RosieError:
                return ""
        lines = done.out.decode("utf-8", "replace").splitlines()
        core = next((line for line in lines if line.startswith(name + " = ")), "")
        return core if len(core) <= LONGEST_EXPANSION else core[:LONGEST_EXPANSION] + " …"

    def symbols(self, document: Document) -> List[Dict[str, Any]]:
        """The outline: a symbol for each name that is bound."""
        made = []
        for each in bindings(document):
            detail = " ".join(word for word, holds in (("local", each.local), ("alias", each.alias)) if holds)
            made.append({"name": each.name.text, "detail": detail, "kind": VARIABLE if each.alias else FUNCTION,
                         "range": document.range(each.start, each.end),
                         "selectionRange": document.range(each.name.start, each.name.end)})
        return made

    # What may be written

    def complete(self, document: Document, at: int) -> List[Dict[str, Any]]:
        """What may stand at a place: names of this text, its imports and the library path, macros and keywords."""
        before = document.text[document.text.rfind("\n", 0, at) + 1:at]
        inside = document.token_at(max(0, at - 1))
        if inside is not None and inside.start < at and inside.kind in ("comment", "text", "bracket"):
            return []
        if re.search(r"\bimport\b[^=\"]*$", before):
            return [item(name, ITEM_MODULE, path) for name, path in self.documents.packages(document).items()]
        prefix = re.search(r"([A-Za-z]\w*)\.\w*$", before, re.ASCII)
        if prefix:
            return list(self._of_prefix(document, prefix.group(1)))
        made = [item(each.name.text, ITEM_FUNCTION, "this text") for each in bindings(document)]
        for each in rpl.imports_of(document.statements):
            if each.prefix:
                made.append(item(each.prefix, ITEM_MODULE, each.path))
            else:
                made += self._exported(self.documents.imported(document, each.path), "")
        imported = {each.path for each in rpl.imports_of(document.statements)}
        for name, path in self.documents.packages(document).items():
            if name not in imported and os.path.abspath(path) != os.path.abspath(document.path):
                made.append(dict(item(name, ITEM_MODULE, path), additionalTextEdits=[self._import(document, name)]))
        made += [dict(item(name, ITEM_FUNCTION, what), insertText=name + ":") for name, what in MACROS.items()]
        return made + [item(word, ITEM_KEYWORD, "keyword") for word in sorted(rpl.KEYWORDS)]

    def _of_prefix(self, document: Document, prefix: str) -> "Iterator[Dict[str, Any]]":
        for each in rpl.imports_of(document.statements):
            if each.prefix == prefix:
                yield from self._exported(self.documents.imported(document, each.path), prefix)
                return
        path = self.documents.packages(document).get(prefix)
        if path is not None:
            edits = [self._import(document, prefix)]
            for made in self._exported(self.documents.of_path(path), prefix):
                yield dict(made, additionalTextEdits=edits)

    def _exported(self, document: Optional[Document], prefix: str) -> "List[Dict[str, Any]]":
        if document is None:
            return []
        made = []
        for each in bindings(document):
            if not each.hidden:
                found = item(each.name.text, ITEM_FUNCTION, f"{prefix}.{each.name.text}" if prefix else each.name.text)
                made.append(dict(found, documentation=rpl.comment_over(document.text, each.start)))
        return made

    def _import(self, document: Document, name: str) -> Dict[str, Any]:
        heads = [each.end for each in document.statements if each.kind in ("rpl", "package", "import")]
        at = max(heads, default=0)
        text = f"\nimport {name}" if heads else f"import {name}\n"
        return {"range": document.range(at, at), "newText": text}


def is_macro(document: Document, token: "rpl.Token") -> bool:
    """Whether a name is that of a macro, that is, whether a colon follows it."""
    return token.text in MACROS and re.compile(r"[ \t\r\n]*:").match(document.text, token.end) is not None


def own_uses(document: Document, name: str) -> "Iterator[Tuple[int, int]]":
    """The places of a name in the text that binds it, also in its tests."""
    others = {token.start for each in document.statements if each.kind in ("package",
                                                                           "import") for token in each.tokens}
    for token in document.tokens:
        if token.start in others:
            continue
        if token.kind == "name" and token.text == name and not is_macro(document, token):
            yield token.start, token.end
        elif token.kind == "comment":
            for found, start, end in names_of_test(token):
                if found == name or document.package and found == f"{document.package}.{name}":
                    yield end - len(name), end


def names_of_test(token: "rpl.Token") -> "Iterator[Tuple[str, int, int]]":
    """The names in a test comment, with their places: the rule, and the part that is asked for."""
    found = rpl.TEST.match(token.text)
    for group in (1, 4):
        if found and found.group(group):
            yield found.group(group), token.start + found.start(group), token.start + found.end(group)


def location(document: Document, start: int, end: int) -> Dict[str, Any]:
    """A place in a document."""
    return {"uri": document.uri, "range": document.range(start, end)}


def said(text: str, place: Dict[str, Any]) -> Dict[str, Any]:
    """A hover."""
    return {"contents": {"kind": "markdown", "value": text}, "range": place}


def item(label: str, kind: int, detail: str) -> Dict[str, Any]:
    """Something that may be written."""
    return {"label": label, "kind": kind, "detail": detail}
