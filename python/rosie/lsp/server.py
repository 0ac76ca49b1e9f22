"""The server: it takes messages in their order, and checks texts when no message waits."""
from __future__ import annotations

import queue
import sys
import threading
import time
import traceback
from typing import IO, Any, Callable, Dict, List, Optional

from ..command import Command, find_packages
from ..faults import RosieError
from .checks import MEBIBYTES, SECONDS, Checked, check
from .documents import Document, Documents, path_of
from .features import Features
from .rpc import (
    INTERNAL_ERROR,
    INVALID_REQUEST,
    METHOD_NOT_FOUND,
    NOT_INITIALIZED,
    Message,
    Refusal,
    read_message,
    write_message,
)

# A text is checked when nothing was typed for so many seconds.
QUIET_SECONDS = 0.15
RUN_TESTS = "rosie.runTests"
Params = Dict[str, Any]


class Server:
    """One editor's server, over a stream in and a stream out."""

    def __init__(self, source: IO[bytes], target: IO[bytes], libpath: Optional[List[str]] = None) -> None:
        self.source, self.target = source, target
        self.command = Command()
        packages = find_packages(self.command.path)
        self.documents = Documents(libpath if libpath is not None else [packages] if packages else [])
        self.features = Features(self.documents, self.command)
        self.changed: Dict[str, float] = {}
        self.initialized = self.ended = False
        self.status = 1
        self.requests: Dict[str, Callable[[Params], Any]] = {
            "initialize": self.initialize, "shutdown": self.shutdown, "textDocument/hover": self.hover,
            "textDocument/completion": self.completion, "textDocument/definition": self.definition,
            "textDocument/references": self.references, "textDocument/documentSymbol": self.symbols,
            "textDocument/prepareRename": self.prepare_rename, "textDocument/rename": self.rename,
            "textDocument/codeAction": self.code_actions, "workspace/executeCommand": self.execute}
        self.notes: Dict[str, Callable[[Params], Any]] = {
            "textDocument/didOpen": self.did_open, "textDocument/didChange": self.did_change,
            "textDocument/didSave": self.did_save, "textDocument/didClose": self.did_close}

    # Messages

    def run(self) -> int:
        """Answers until the editor ends it. Returns the exit status."""
        messages: "queue.Queue[Any]" = queue.Queue()
        threading.Thread(target=self._read, args=(messages,), daemon=True).start()
        while True:
            try:
                message = messages.get(timeout=self._rest())
            except queue.Empty:
                self._check_one()
                continue
            if message is None:
                return self.status
            if isinstance(message, Refusal):
                self._error(None, message.code, message.message)
            elif message.get("method") == "exit":
                return self.status
            else:
                self._take(message)

    def _read(self, messages: "queue.Queue[Any]") -> None:
        while True:
            try:
                message = read_message(self.source)
            except Refusal as refusal:
                messages.put(refusal)
                continue
            except (OSError, ValueError):
                message = None
            messages.put(message)
            if message is None:
                return

    def _rest(self) -> Optional[float]:
        """How long to wait for a message until a text is to be checked."""
        if not self.changed:
            return None
        return max(0.0, min(self.changed.values()) + QUIET_SECONDS - time.monotonic())

    def _take(self, message: Message) -> None:
        method, number = message.get("method"), message.get("id")
        if not isinstance(method, str):
            # An answer to a request of the server; it asks for none that it waits for.
            return
        params = message.get("params")
        params = params if isinstance(params, dict) else {}
        try:
            if number is None:
                self.notes.get(method, lambda _: None)(params)
                return
            if method not in self.requests:
                raise Refusal(METHOD_NOT_FOUND, f"no such method: {method}")
            if not self.initialized and method != "initialize":
                raise Refusal(NOT_INITIALIZED, "initialize comes first")
            if self.ended:
                raise Refusal(INVALID_REQUEST, "after shutdown there is only exit")
            write_message(self.target, {"id": number, "result": self.requests[method](params)})
        except Refusal as refusal:
            self._error(number, refusal.code, refusal.message)
        except (KeyError, TypeError, ValueError, AttributeError, IndexError, RosieError, OSError) as error:
            traceback.print_exc(file=sys.stderr)
            if number is not None:
                self._error(number, INTERNAL_ERROR, f"{type(error).__name__}: {error}")

    def _error(self, number: Any, code: int, text: str) -> None:
        write_message(self.target, {"id": number, "error": {"code": code, "message": text}})

    def _tell(self, method: str, params: Params) -> None:
        write_message(self.target, {"method": method, "params": params})

    # The life of the server

    def initialize(self, params: Params) -> Any:
        """What this server does."""
        self.initialized = True
        folders = [each["uri"] for each in params.get("workspaceFolders") or []]
        if not folders and params.get("rootUri"):
            folders = [params["rootUri"]]
        self.documents.roots = [path_of(uri) for uri in folders]
        options = params.get("initializationOptions")
        if isinstance(options, dict) and isinstance(options.get("libpath"), list):
            self.documents.libpath = [str(folder) for folder in options["libpath"]] + self.documents.libpath
        self.command.limit(SECONDS, MEBIBYTES)
        return {"serverInfo": {"name": "rosie-lsp", "version": "1.0.0"}, "capabilities": {
            "positionEncoding": "utf-16", "textDocumentSync": {"openClose": True, "change": 2, "save": {}},
            "completionProvider": {"triggerCharacters": ["."]}, "hoverProvider": True, "definitionProvider": True,
            "referencesProvider": True, "documentSymbolProvider": True, "renameProvider": {"prepareProvider": True},
            "codeActionProvider": {"codeActionKinds": ["source"]},
            "executeCommandProvider": {"commands": [RUN_TESTS]}}}

    def shutdown(self, _: Params) -> None:
        """Gets ready for the end."""
        self.ended = True
        self.status = 0

    # Texts

    def did_open(self, params: Params) -> None:
        """Takes a text that was opened."""
        given = params["textDocument"]
        self.documents.open[given["uri"]] = Document(given["uri"], given["text"], given.get("version"))
        self.changed[given["uri"]] = time.monotonic()

    def did_change(self, params: Params) -> None:
        """Takes the edits of a text."""
        document = self._document(params)
        document.change(params["contentChanges"])
        document.version = params["textDocument"].get("version")
        self.changed[document.uri] = time.monotonic()

    def did_save(self, params: Params) -> None:
        """What is saved may be imported by the other texts: all are checked again."""
        self._document(params)
        for uri in self.documents.open:
            self.changed[uri] = time.monotonic()

    def did_close(self, params: Params) -> None:
        """Forgets a text and its faults."""
        document = self._document(params)
        del self.documents.open[document.uri]
        self.changed.pop(document.uri, None)
        self._tell("textDocument/publishDiagnostics", {"uri": document.uri, "diagnostics": []})

    def _document(self, params: Params) -> Document:
        uri = params["textDocument"]["uri"]
        if uri not in self.documents.open:
            raise Refusal(INVALID_REQUEST, f"no such text is open: {uri}")
        return self.documents.open[uri]

    def _check_one(self) -> None:
        """Checks the text that wasn't touched for longest."""
        uri = min(self.changed, key=lambda each: self.changed[each])
        del self.changed[uri]
        if uri in self.documents.open:
            self._check(self.documents.open[uri])

    def _check(self, document: Document) -> Checked:
        checked = check(self.command, self.documents, document)
        told: Params = {"uri": document.uri, "diagnostics": checked.faults}
        if document.version is not None:
            told["version"] = document.version
        self._tell("textDocument/publishDiagnostics", told)
        return checked

    # Requests

    def _at(self, params: Params) -> "tuple[Document, int]":
        document = self._document(params)
        return document, document.place(params["position"])

    def hover(self, params: Params) -> Any:
        """What is said of the name at a place."""
        return self.features.hover(*self._at(params))

    def completion(self, params: Params) -> Any:
        """What may be written at a place."""
        return self.features.complete(*self._at(params))

    def definition(self, params: Params) -> Any:
        """Where the name at a place is bound."""
        return self.features.definition(*self._at(params))

    def references(self, params: Params) -> Any:
        """Where the name at a place is used."""
        document, at = self._at(params)
        return self.features.references(document, at, bool((params.get("context") or {}).get("includeDeclaration")))

    def symbols(self, params: Params) -> Any:
        """The outline of a text."""
        return self.features.symbols(self._document(params))

    def prepare_rename(self, params: Params) -> Any:
        """Whether the name at a place can be renamed."""
        return self.features.prepare_rename(*self._at(params))

    def rename(self, params: Params) -> Any:
        """The edits that rename a rule."""
        document, at = self._at(params)
        return self.features.rename(document, at, str(params["newName"]))

    def code_actions(self, params: Params) -> Any:
        """Running the tests of a text."""
        document = self._document(params)
        command = {"title": "Run the tests of this file", "command": RUN_TESTS, "arguments": [document.uri]}
        return [{"title": command["title"], "kind": "source", "command": command}]

    def execute(self, params: Params) -> Any:
        """Runs the tests of a text, and says how many failed."""
        if params.get("command") != RUN_TESTS:
            raise Refusal(METHOD_NOT_FOUND, f"no such command: {params.get('command')}")
        document = self._document({"textDocument": {"uri": params["arguments"][0]}})
        checked = self._check(document)
        self._tell("window/showMessage", {"type": 2 if checked.faults else 3, "message": checked.told})
        return checked.told
