// A client of rosie-lsp for VS Code. It needs no other package: it speaks the protocol itself.
'use strict';

const childProcess = require('child_process');
const vscode = require('vscode');

const LANGUAGE = 'rpl';
let client = null;

// The connection to the server: messages with a header, over its standard input and output.
class Connection {
  constructor(command, words, onNote, onEnd) {
    this.waiting = new Map();
    this.number = 0;
    this.read = Buffer.alloc(0);
    this.onNote = onNote;
    this.process = childProcess.spawn(command, words, { stdio: ['pipe', 'pipe', 'inherit'] });
    this.process.on('error', error => onEnd(error.message));
    this.process.on('exit', () => onEnd(null));
    this.process.stdin.on('error', () => {});
    this.process.stdout.on('data', data => this.take(data));
  }

  take(data) {
    this.read = Buffer.concat([this.read, data]);
    for (;;) {
      const end = this.read.indexOf('\r\n\r\n');
      if (end < 0) return;
      const length = Number(/content-length: *(\d+)/i.exec(this.read.toString('ascii', 0, end))[1]);
      if (this.read.length < end + 4 + length) return;
      const message = JSON.parse(this.read.toString('utf8', end + 4, end + 4 + length));
      this.read = this.read.subarray(end + 4 + length);
      this.handle(message);
    }
  }

  handle(message) {
    if (message.method) {
      this.onNote(message.method, message.params);
      return;
    }
    const settle = this.waiting.get(message.id);
    if (!settle) return;
    this.waiting.delete(message.id);
    if (message.error) settle.reject(new Error(message.error.message));
    else settle.resolve(message.result);
  }

  send(message) {
    const text = Buffer.from(JSON.stringify(Object.assign({ jsonrpc: '2.0' }, message)));
    this.process.stdin.write(`Content-Length: ${text.length}\r\n\r\n`);
    this.process.stdin.write(text);
  }

  tell(method, params) {
    this.send({ method, params });
  }

  ask(method, params) {
    const id = ++this.number;
    return new Promise((resolve, reject) => {
      this.waiting.set(id, { resolve, reject });
      this.send({ id, method, params });
    });
  }
}

// Values of the protocol as values of VS Code, and back.
const toPosition = position => new vscode.Position(position.line, position.character);
const toRange = range => new vscode.Range(toPosition(range.start), toPosition(range.end));
const toLocation = place => new vscode.Location(vscode.Uri.parse(place.uri), toRange(place.range));
const fromPosition = position => ({ line: position.line, character: position.character });
const fromRange = range => ({ start: fromPosition(range.start), end: fromPosition(range.end) });
const named = document => ({ uri: document.uri.toString() });
const at = (document, position) => ({ textDocument: named(document), position: fromPosition(position) });

function toFault(fault) {
  const made = new vscode.Diagnostic(toRange(fault.range), fault.message, vscode.DiagnosticSeverity.Error);
  made.source = fault.source;
  made.code = fault.code;
  return made;
}

function toItem(item) {
  const made = new vscode.CompletionItem(item.label, item.kind - 1);
  made.detail = item.detail;
  made.documentation = item.documentation;
  if (item.insertText) made.insertText = item.insertText;
  const edits = item.additionalTextEdits || [];
  made.additionalTextEdits = edits.map(edit => new vscode.TextEdit(toRange(edit.range), edit.newText));
  return made;
}

function toEdit(edit) {
  const made = new vscode.WorkspaceEdit();
  for (const [uri, edits] of Object.entries(edit.changes)) {
    for (const each of edits) made.replace(vscode.Uri.parse(uri), toRange(each.range), each.newText);
  }
  return made;
}

function toSymbol(symbol) {
  return new vscode.DocumentSymbol(
    symbol.name, symbol.detail, symbol.kind - 1, toRange(symbol.range), toRange(symbol.selectionRange));
}

function providers(connection) {
  const selector = { language: LANGUAGE };
  const ask = (method, params) => connection.ask('textDocument/' + method, params);
  return [
    vscode.languages.registerHoverProvider(selector, {
      provideHover: async (document, position) => {
        const made = await ask('hover', at(document, position));
        return made && new vscode.Hover(new vscode.MarkdownString(made.contents.value), toRange(made.range));
      },
    }),
    vscode.languages.registerCompletionItemProvider(selector, {
      provideCompletionItems: async (document, position) =>
        (await ask('completion', at(document, position))).map(toItem),
    }, '.'),
    vscode.languages.registerDefinitionProvider(selector, {
      provideDefinition: async (document, position) => {
        const made = await ask('definition', at(document, position));
        return made && toLocation(made);
      },
    }),
    vscode.languages.registerReferenceProvider(selector, {
      provideReferences: async (document, position, context) =>
        (await ask('references', Object.assign(at(document, position), { context }))).map(toLocation),
    }),
    vscode.languages.registerDocumentSymbolProvider(selector, {
      provideDocumentSymbols: async document =>
        (await ask('documentSymbol', { textDocument: named(document) })).map(toSymbol),
    }),
    vscode.languages.registerRenameProvider(selector, {
      provideRenameEdits: async (document, position, newName) =>
        toEdit(await ask('rename', Object.assign(at(document, position), { newName }))),
    }),
  ];
}

function sync(connection) {
  const isOurs = document => document.languageId === LANGUAGE;
  const opened = document => {
    if (!isOurs(document)) return;
    const text = {
      uri: document.uri.toString(), languageId: LANGUAGE, version: document.version, text: document.getText(),
    };
    connection.tell('textDocument/didOpen', { textDocument: text });
  };
  vscode.workspace.textDocuments.forEach(opened);
  return [
    vscode.workspace.onDidOpenTextDocument(opened),
    vscode.workspace.onDidCloseTextDocument(document => {
      if (isOurs(document)) connection.tell('textDocument/didClose', { textDocument: named(document) });
    }),
    vscode.workspace.onDidSaveTextDocument(document => {
      if (isOurs(document)) connection.tell('textDocument/didSave', { textDocument: named(document) });
    }),
    vscode.workspace.onDidChangeTextDocument(event => {
      if (!isOurs(event.document) || !event.contentChanges.length) return;
      const contentChanges = event.contentChanges.map(
        change => ({ range: fromRange(change.range), text: change.text }));
      const textDocument = Object.assign(named(event.document), { version: event.document.version });
      connection.tell('textDocument/didChange', { textDocument, contentChanges });
    }),
  ];
}

async function runTests(connection) {
  const editor = vscode.window.activeTextEditor;
  if (!editor || editor.document.languageId !== LANGUAGE) return;
  await connection.ask(
    'workspace/executeCommand', { command: 'rosie.runTests', arguments: [editor.document.uri.toString()] });
}

async function activate(context) {
  const settings = vscode.workspace.getConfiguration('rosie');
  const faults = vscode.languages.createDiagnosticCollection('rosie');
  const onNote = (method, params) => {
    if (method === 'textDocument/publishDiagnostics')
      faults.set(vscode.Uri.parse(params.uri), params.diagnostics.map(toFault));
    else if (method === 'window/showMessage') vscode.window.showInformationMessage(params.message);
  };
  const onEnd = reason => {
    if (client && reason) vscode.window.showErrorMessage(`${settings.get('server')} can't be run: ${reason}`);
    client = null;
  };
  client = new Connection(settings.get('server'), [], onNote, onEnd);
  context.subscriptions.push(faults);
  const workspaceFolders = (vscode.workspace.workspaceFolders || []).map(
    folder => ({ uri: folder.uri.toString(), name: folder.name }));
  const connection = client;
  await connection.ask('initialize', {
    processId: process.pid, capabilities: {}, workspaceFolders,
    initializationOptions: { libpath: settings.get('libpath') },
  });
  connection.tell('initialized', {});
  context.subscriptions.push(...sync(connection), ...providers(connection),
    vscode.commands.registerCommand('rosie.test', () => runTests(connection)));
}

async function deactivate() {
  if (!client) return;
  const connection = client;
  client = null;
  await connection.ask('shutdown');
  connection.tell('exit');
}

module.exports = { activate, deactivate };
