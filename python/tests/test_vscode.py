"""The folder for VS Code: its manifest, and its client of rosie-lsp in Node with a stand-in for the editor.

VS Code itself isn't run. SCHEMA is a schema of our own, of the fields of a manifest that are used here.
"""
import json
import os
import re
import shutil
import subprocess
import sys
import tempfile
import unittest
from pathlib import Path

from helper import EXAMPLES, PYTHON, TOP

FOLDER = os.path.join(TOP, "editors", "vscode")
STAND_IN = r"""
const handlers = {}, providers = {}, faults = new Map();
class Position { constructor(line, character) { this.line = line; this.character = character; } }
class Range { constructor(start, end) { this.start = start; this.end = end; } }
class Plain { constructor(...values) { this.values = values; } }
class WorkspaceEdit {
  constructor() { this.edits = []; }
  replace(uri, range, text) { this.edits.push([range.start.line, text]); }
}
class Diagnostic { constructor(range, message) { this.range = range; this.message = message; } }
class CompletionItem { constructor(label, kind) { this.label = label; this.kind = kind; } }
const uri = text => ({ toString: () => text });
const text = require('fs').readFileSync(process.env.FILE, 'utf8');
const document = { uri: uri('file://' + process.env.FILE), languageId: 'rpl', version: 1, getText: () => text };
const register = name => (selector, provider) => { providers[name] = provider; return { dispose() {} }; };
const on = name => handler => { handlers[name] = handler; return { dispose() {} }; };
const vscode = {
  Position, Range, WorkspaceEdit, Diagnostic, CompletionItem,
  Location: Plain, Hover: Plain, MarkdownString: Plain, TextEdit: Plain,
  DocumentSymbol: Plain, DiagnosticSeverity: { Error: 0 }, Uri: { parse: uri },
  languages: {
    createDiagnosticCollection: () => ({ set: (at, list) => { faults.set(at.toString(), list); }, dispose() {} }),
    registerHoverProvider: register('hover'), registerCompletionItemProvider: register('completion'),
    registerDefinitionProvider: register('definition'), registerReferenceProvider: register('references'),
    registerDocumentSymbolProvider: register('symbols'), registerRenameProvider: register('rename'),
  },
  workspace: {
    textDocuments: [document], workspaceFolders: [],
    getConfiguration: () => ({ get: name => ({ server: process.env.SERVER, libpath: [process.env.LIB] })[name] }),
    onDidOpenTextDocument: on('open'), onDidCloseTextDocument: on('close'), onDidSaveTextDocument: on('save'),
    onDidChangeTextDocument: on('change'),
  },
  window: {
    showInformationMessage: told => { vscode.told = told; }, showErrorMessage: told => { throw new Error(told); },
    activeTextEditor: { document },
  },
  commands: { registerCommand: (name, run) => { vscode.run = run; return { dispose() {} }; } },
};
const load = require('module')._load;
require('module')._load = function (name, ...more) {
  return name === 'vscode' ? vscode : load.call(this, name, ...more);
};
const extension = require(process.env.EXTENSION);
const until = async test => {
  for (let n = 0; n < 2400 && !test(); n++) await new Promise(done => setTimeout(done, 25));
};
(async () => {
  await extension.activate({ subscriptions: [] });
  const key = document.uri.toString();
  await until(() => faults.has(key));
  const shown = each => [each.range.start.line, each.range.start.character, each.message];
  const made = { first: faults.get(key).map(shown) };
  faults.delete(key);
  document.version = 2;
  const start = new Position(1, 11);
  handlers.change({ document, contentChanges: [{ range: new Range(start, new Position(1, 14)), text: '"b"' }] });
  await until(() => faults.has(key));
  made.second = faults.get(key).length;
  made.hover = (await providers.hover.provideHover(document, new Position(0, 0))).values[0].values[0];
  made.labels = (await providers.completion.provideCompletionItems(document, new Position(0, 0))).length;
  made.symbols = (await providers.symbols.provideDocumentSymbols(document)).map(each => each.values[0]);
  made.edits = (await providers.rename.provideRenameEdits(document, new Position(0, 0), 'w')).edits;
  await vscode.run();
  made.told = vscode.told;
  await extension.deactivate();
  console.log(JSON.stringify(made));
})();
"""


TEXT, TEXTS = {"type": str}, {"type": list, "items": {"type": str}}
PROPERTY = {"type": dict, "required": ["type", "default", "description"], "properties": {
    "type": {"type": str, "enum": ["string", "array", "boolean", "number"]}, "items": {"type": dict, "properties": {
        "type": {"type": str, "enum": ["string"]}}}, "default": {}, "description": TEXT}}
CONTRIBUTES = {
    "languages": {"type": list, "items": {"type": dict, "required": ["id"], "properties": {
        "id": {"type": str, "pattern": r"[a-z]+"}, "aliases": TEXTS,
        "extensions": {"type": list, "items": {"type": str, "pattern": r"\.[a-z]+"}},
        "configuration": {"type": str, "pattern": r"\./[\w./-]+\.json"}}}},
    "grammars": {"type": list, "items": {"type": dict, "required": ["language", "scopeName", "path"], "properties": {
        "language": TEXT, "scopeName": {"type": str, "pattern": r"(source|text)(\.[a-z]+)+"},
        "path": {"type": str, "pattern": r"\./[\w./-]+\.json"}}}},
    "commands": {"type": list, "items": {"type": dict, "required": ["command", "title"], "properties": {
        "command": {"type": str, "pattern": r"[a-z]+\.[A-Za-z]+"}, "title": TEXT, "category": TEXT}}},
    "menus": {"type": dict, "properties": {"commandPalette": {"type": list, "items": {
        "type": dict, "required": ["command"], "properties": {"command": TEXT, "when": TEXT}}}}},
    "configuration": {"type": dict, "required": ["title", "properties"], "properties": {
        "title": TEXT, "properties": {"type": dict, "values": PROPERTY}}}}
SCHEMA = {"type": dict, "required": ["name", "version", "publisher", "engines"], "properties": {
    "name": {"type": str, "pattern": r"[a-z0-9][a-z0-9-]*"}, "displayName": TEXT, "description": TEXT, "license": TEXT,
    "version": {"type": str, "pattern": r"\d+\.\d+\.\d+"}, "publisher": {"type": str, "pattern": r"[a-z0-9][a-z0-9-]*"},
    "engines": {"type": dict, "required": ["vscode"], "properties": {
        "vscode": {"type": str, "pattern": r"\^1\.\d+\.\d+"}}},
    "categories": {"type": list, "items": {"type": str, "enum": [
        "Programming Languages", "Snippets", "Linters", "Themes", "Debuggers", "Formatters", "Keymaps", "Other"]}},
    "keywords": TEXTS, "activationEvents": {"type": list, "items": {"type": str, "pattern": r"on[A-Z]\w*:[\w.]+"}},
    "main": {"type": str, "pattern": r"\./[\w./-]+\.js"}, "contributes": {"type": dict, "properties": CONTRIBUTES}}}


def schema_faults(value, schema, place="it"):
    """What a value has that its schema doesn't allow, each with its place."""
    if not isinstance(value, schema.get("type", object)):
        return [f"{place} is of another type"]
    found = []
    if "enum" in schema and value not in schema["enum"]:
        found.append(f"{place} is {value!r}")
    if "pattern" in schema and not re.fullmatch(schema["pattern"], value):
        found.append(f"{place} is {value!r}")
    for number, item in enumerate(value if "items" in schema else []):
        found += schema_faults(item, schema["items"], f"{place}[{number}]")
    if isinstance(value, dict):
        found += [f"{place} lacks {name}" for name in schema.get("required", []) if name not in value]
        known = schema.get("properties", {})
        for name, each in value.items():
            if name not in known and "values" not in schema:
                found.append(f"{place} has {name}")
            else:
                found += schema_faults(each, known.get(name, schema.get("values")), f"{place}.{name}")
    return found


def read(name):
    """A file of the folder, as JSON."""
    return json.loads(Path(FOLDER, name).read_text(encoding="utf-8"))


class Manifest(unittest.TestCase):
    """What stands in package.json."""

    def test_schema(self):
        self.assertEqual(schema_faults(read("package.json"), SCHEMA), [])

    def test_what_the_schema_refuses(self):
        for change, fault in (
                (lambda made: made.pop("publisher"), "it lacks publisher"),
                (lambda made: made.update(version="1.0"), "it.version is '1.0'"),
                (lambda made: made.update(keywords="rosie"), "it.keywords is of another type"),
                (lambda made: made.update(scripts={}), "it has scripts"),
                (lambda made: made["categories"].append("Languages"), "it.categories[2] is 'Languages'"),
                (lambda made: made["contributes"]["grammars"][0].pop("path"), "it.contributes.grammars[0] lacks path"),
                (lambda made: made["contributes"]["commands"][0].update(icon="x"),
                 "it.contributes.commands[0] has icon"),
                (lambda made: made["contributes"]["configuration"]["properties"]["rosie.server"].update(type="text"),
                 "it.contributes.configuration.properties.rosie.server.type is 'text'")):
            made = read("package.json")
            change(made)
            self.assertEqual(schema_faults(made, SCHEMA), [fault])

    def test_what_it_names(self):
        given = read("package.json")["contributes"]
        language, = given["languages"]
        grammar, = given["grammars"]
        self.assertEqual((language["id"], language["extensions"]), ("rpl", [".rpl"]))
        self.assertEqual(grammar["language"], language["id"])
        self.assertEqual(read(grammar["path"])["scopeName"], grammar["scopeName"])
        original = Path(TOP, "editors", "rpl.tmLanguage.json").read_text("utf-8")
        self.assertEqual(read("rpl.tmLanguage.json"), json.loads(original))
        self.assertTrue(os.path.isfile(os.path.join(FOLDER, read("package.json")["main"])))
        commands = [each["command"] for each in given["commands"]]
        self.assertEqual([each["command"] for each in given["menus"]["commandPalette"]], commands)
        source = Path(FOLDER, "extension.js").read_text("utf-8")
        for name in [*commands, *(name.partition(".")[2] for name in given["configuration"]["properties"])]:
            self.assertIn(f"'{name}'", source)

    def test_language(self):
        made = read("language-configuration.json")
        self.assertEqual(made["comments"], {"lineComment": "--"})
        self.assertEqual(re.findall(made["wordPattern"], "key_1 = num.int"), ["key_1", "num", "int"])
        rules = made["indentationRules"]
        grown = [bool(re.search(rules["increaseIndentPattern"], line)) for line in ("grammar", "x = {", "x = {a}",
                                                                                    'x = "{"')]
        self.assertEqual(grown, [True, True, False, False])
        shrunk = [bool(re.search(rules["decreaseIndentPattern"], line)) for line in ("end", "  }", "ends = x")]
        self.assertEqual(shrunk, [True, True, False])


class Client(unittest.TestCase):
    """extension.js in Node, beside rosie-lsp."""

    def test_client(self):
        node = shutil.which("node")
        if node is None:
            self.skipTest("there is no node")
        with tempfile.TemporaryDirectory() as folder:
            path = Path(folder, "x.rpl")
            path.write_text('x = "a"\ny = {x "é" "c" } z = x\n-- test x accepts "b"\n', encoding="utf-8")
            Path(folder, "try.js").write_text(STAND_IN, encoding="utf-8")
            server = Path(folder, "rosie-lsp")
            server.write_text(f"#!/bin/sh\nexec {sys.executable} -B {PYTHON}/bin/rosie-lsp\n", encoding="utf-8")
            server.chmod(0o755)
            environment = dict(os.environ, FILE=str(path), SERVER=str(server), LIB=EXAMPLES,
                               EXTENSION=os.path.join(FOLDER, "extension.js"))
            done = subprocess.run([node, "try.js"], cwd=folder, env=environment, capture_output=True, text=True,
                                  timeout=300)
        self.assertEqual((done.returncode, done.stderr), (0, ""))
        made = json.loads(done.stdout)
        self.assertEqual(made["first"], [[2, 18, 'failed: x accepts "b"']])
        self.assertEqual(made["second"], 1)
        self.assertIn('x = "a"', made["hover"])
        self.assertGreater(made["labels"], 10)
        self.assertEqual(made["symbols"], ["x", "y", "z"])
        self.assertEqual(made["edits"], [[0, "w"], [1, "w"], [1, "w"], [2, "w"]])
        self.assertEqual(made["told"], "x.rpl: 1 tests, 1 failed")


if __name__ == "__main__":
    unittest.main()
