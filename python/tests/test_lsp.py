"""The language server: by a script that plays the protocol, and by Neovim's own client."""
import json
import os
import queue
import random
import shutil
import subprocess
import sys
import tempfile
import threading
import unittest
from pathlib import Path

from edits import edit, sources
from helper import EXAMPLES, PYTHON, command

from rosie import rpl
from rosie.lsp.documents import Document

SERVER = [sys.executable, "-B", os.path.join(PYTHON, "bin", "rosie-lsp"), "--libpath", EXAMPLES]
EDITS = int(os.environ.get("ROSIE_EDITS", "10000"))
SECONDS = 120
PACKAGE = '''package pair
import word, num as n

-- A key is a name.
key = word.name
local alias sign = "="
-- What stands after the sign: é.
value = {n.int / key}
pair = {key sign value}
-- test pair accepts "a=1", "b=c"
-- test pair rejects "=1"
-- test pair includes value "a=1"
-- test value accepts "12"
'''


class Client:
    """An editor that plays the protocol."""

    def __init__(self, folder):
        self.process = subprocess.Popen(SERVER, stdin=subprocess.PIPE, stdout=subprocess.PIPE, stderr=subprocess.PIPE,
                                        cwd=folder)
        self.messages = queue.Queue()
        self.told = []
        self.number = 0
        threading.Thread(target=self.read, daemon=True).start()
        self.errors = []
        threading.Thread(target=lambda: self.errors.extend(self.process.stderr), daemon=True).start()

    def read(self):
        """Takes the messages of the server."""
        stream = self.process.stdout
        while True:
            line = stream.readline()
            if not line:
                self.messages.put(None)
                return
            length = int(line.partition(b":")[2])
            stream.readline()
            self.messages.put(json.loads(stream.read(length)))

    def raw(self, text):
        """Sends bytes."""
        self.process.stdin.write(text)
        self.process.stdin.flush()

    def send(self, **message):
        """Sends a message."""
        text = json.dumps({"jsonrpc": "2.0", **message}).encode()
        self.raw(b"Content-Length: %d\r\n\r\n" % len(text) + text)

    def next(self):
        """The next message."""
        message = self.messages.get(timeout=SECONDS)
        if message is None:
            raise AssertionError(b"".join(self.errors).decode())
        return message

    def ask(self, method, **params):
        """The answer to a request: its result, or its error."""
        self.number += 1
        self.send(id=self.number, method=method, params=params)
        while True:
            message = self.next()
            if message.get("id") == self.number:
                return message["error"] if "error" in message else message["result"]
            self.told.append(message)

    def tell(self, method, **params):
        """Sends a note."""
        self.send(method=method, params=params)

    def faults(self, uri, version):
        """The faults of a text in this version."""
        while True:
            message = self.told.pop(0) if self.told else self.next()
            params = message.get("params", {})
            if message.get("method") != "textDocument/publishDiagnostics" or params["uri"] != uri:
                continue
            if params.get("version") == version:
                return params["diagnostics"]

    def begin(self, folder):
        """The first request, and its answer."""
        made = self.ask("initialize", processId=None, capabilities={},
                        workspaceFolders=[{"uri": Path(folder).as_uri(), "name": "x"}])
        self.tell("initialized")
        return made

    def open(self, path, text, version=1):
        """Opens a text, and returns its URI."""
        uri = Path(path).as_uri()
        self.tell("textDocument/didOpen", textDocument={"uri": uri, "languageId": "rpl", "version": version,
                                                        "text": text})
        return uri

    def end(self):
        """Ends the server and returns its status."""
        self.ask("shutdown")
        self.tell("exit")
        return self.process.wait(SECONDS)

    def close(self):
        """Ends what is left."""
        self.process.kill()
        self.process.wait()
        for stream in (self.process.stdin, self.process.stdout, self.process.stderr):
            stream.close()


class Served(unittest.TestCase):
    """A folder with packages, and a server for it."""

    def setUp(self):
        self.folder = tempfile.mkdtemp()
        self.addCleanup(shutil.rmtree, self.folder)
        self.path = os.path.join(self.folder, "pair.rpl")
        self.client = Client(self.folder)
        self.addCleanup(self.client.close)
        self.capabilities = self.client.begin(self.folder)["capabilities"]

    def write(self, name, text):
        path = os.path.join(self.folder, name)
        with open(path, "w", encoding="utf-8") as file:
            file.write(text)
        return path

    def at(self, text, word, more=0, after=0):
        """The position of the n-th place of a word."""
        start = -1
        for _ in range(more + 1):
            start = text.index(word, start + 1)
        return Document("x", text).position(start + after)

    def ask(self, method, uri, text, word, more=0, after=1, **params):
        return self.client.ask("textDocument/" + method, textDocument={"uri": uri},
                               position=self.at(text, word, more, after), **params)

    def words(self, text, places):
        """The texts of ranges."""
        document = Document("x", text)
        return [(text[document.place(each["start"]):document.place(each["end"])],
                 each["start"]["line"]) for each in places]


class Faults(Served):
    """Faults as one types, and tests that fail."""

    def change(self, uri, version, text, start, end, inserted):
        document = Document("x", text)
        self.client.tell("textDocument/didChange", textDocument={"uri": uri, "version": version},
                         contentChanges=[{"range": document.range(start, end), "text": inserted}])
        return text[:start] + inserted + text[end:]

    def test_a_text_without_faults(self):
        uri = self.client.open(self.path, PACKAGE)
        self.assertEqual(self.client.faults(uri, 1), [])

    def test_the_first_fault_and_its_place(self):
        uri = self.client.open(self.path, PACKAGE)
        text = self.change(uri, 2, PACKAGE, PACKAGE.index("word.name"), PACKAGE.index("word.name") + 9, "[a-zA-Z]")
        made = self.client.faults(uri, 2)
        self.assertEqual([each["message"].split("\n")[0] for each in made], ["bad range"])
        self.assertEqual(made[0]["range"]["start"], self.at(text, "[a-z", after=2))
        text = self.change(uri, 3, text, text.index("[a-zA-Z]"), text.index("[a-zA-Z]") + 8, '"é😀" nothing')
        made = self.client.faults(uri, 3)
        self.assertEqual(made[0]["message"].split("\n")[0], "unknown name: nothing")
        self.assertEqual(self.words(text, [made[0]["range"]]), [("nothing", 4)])
        self.assertEqual(made[0]["range"]["start"]["character"], 12)

    def test_failed_tests(self):
        text = PACKAGE + '-- test key accepts "a", "1"\n'
        uri = self.client.open(self.path, text)
        made = self.client.faults(uri, 1)
        self.assertEqual([each["message"] for each in made], ['failed: key accepts "1"'])
        self.assertEqual(self.words(text, [made[0]["range"]]), [('"1"', 13)])

    def test_bad_tests(self):
        text = PACKAGE + "-- test key\n"
        made = self.client.faults(self.client.open(self.path, text), 1)
        self.assertEqual([(each["message"], each["range"]["start"]["line"]) for each in made], [("bad test", 13)])

    def test_a_fault_of_an_import(self):
        self.write("other.rpl", "package other\nx = {")
        text = "import word, other\ny = other.x\n"
        made = self.client.faults(self.client.open(self.path, text), 1)
        self.assertEqual(len(made), 1)
        self.assertIn("other.rpl:2:1: syntax", made[0]["message"])
        self.assertEqual(self.words(text, [made[0]["range"]]), [("other", 0)])

    def test_running_tests(self):
        text = PACKAGE + '-- test key accepts "1"\n'
        uri = self.client.open(self.path, text)
        self.client.faults(uri, 1)
        action, = self.client.ask("textDocument/codeAction", textDocument={"uri": uri}, context={"diagnostics": []},
                                  range={"start": {"line": 0, "character": 0}, "end": {"line": 0, "character": 0}})
        told = self.client.ask("workspace/executeCommand",
                               **{name: action["command"][name] for name in ("command", "arguments")})
        self.assertEqual(told, "pair.rpl: 6 tests, 1 failed")
        self.assertIn(told, [each["params"].get("message") for each in self.client.told])

    def test_closing_takes_faults_away(self):
        uri = self.client.open(self.path, "x = ")
        self.assertEqual(len(self.client.faults(uri, 1)), 1)
        self.client.tell("textDocument/didClose", textDocument={"uri": uri})
        self.assertEqual(self.client.faults(uri, None), [])


class Names(Served):
    """Completion, hover, definition, references, outline and renaming."""

    def setUp(self):
        super().setUp()
        self.write("pair.rpl", PACKAGE)
        self.other = 'import pair as p\nmany = {p.pair {"," p.pair}*}\npair = "x"\n'
        self.write("many.rpl", self.other)
        self.uri = self.client.open(self.path, PACKAGE)

    def test_hover(self):
        made = self.ask("hover", self.uri, PACKAGE, "value", more=2)["contents"]["value"]
        for part in ("value = {n.int / key}", "What stands after the sign: é.", 'Accepts `"12"`',
                     "pair.value = (capture pair.value"):
            self.assertIn(part, made)
        self.assertIn("num", self.ask("hover", self.uri, PACKAGE, "n.int")["contents"]["value"])
        self.assertIsNone(self.ask("hover", self.uri, PACKAGE, '"="'))

    def test_definition(self):
        made = self.ask("definition", self.uri, PACKAGE, "key sign")
        self.assertEqual((made["uri"], made["range"]["start"]), (self.uri, self.at(PACKAGE, "key =")))
        made = self.ask("definition", self.uri, PACKAGE, "word.name")
        self.assertTrue(made["uri"].endswith("/word.rpl"))
        with open(os.path.join(EXAMPLES, "word.rpl"), encoding="utf-8") as file:
            self.assertEqual(self.words(file.read(), [made["range"]])[0][0], "name")
        self.assertTrue(self.ask("definition", self.uri, PACKAGE, "num as")["uri"].endswith("/num.rpl"))
        self.assertEqual(self.ask("definition", self.uri, PACKAGE, "value accepts")["range"]["start"],
                         self.at(PACKAGE, "value ="))

    def test_references(self):
        made = self.ask("references", self.uri, PACKAGE, "value =", context={"includeDeclaration": True})
        self.assertEqual([each["range"]["start"]["line"] for each in made], [7, 8, 11, 12])
        made = self.ask("references", self.uri, PACKAGE, "pair =", context={"includeDeclaration": False})
        self.assertEqual([(each["uri"] == self.uri, each["range"]["start"]["line"]) for each in made],
                         [(True, 9), (True, 10), (True, 11), (False, 1), (False, 1)])

    def test_outline(self):
        made = self.client.ask("textDocument/documentSymbol", textDocument={"uri": self.uri})
        self.assertEqual([(each["name"], each["detail"]) for each in made],
                         [("key", ""), ("sign", "local alias"), ("value", ""), ("pair", "")])

    def test_renaming(self):
        made = self.ask("rename", self.uri, PACKAGE, "value =", newName="content")
        text = self.applied(PACKAGE, made["changes"].pop(self.uri))
        self.assertEqual(made["changes"], {})
        self.assertEqual(text, PACKAGE.replace("value", "content"))
        with open(self.path, "w", encoding="utf-8") as file:
            file.write(text)
        self.assertIn(b"0 failed", command("test", "--libpath", EXAMPLES, self.path).stdout)
        for name in ("key", "end", "a b", "1", "halt", "é"):
            self.assertIn("code", self.ask("rename", self.uri, PACKAGE, "value =", newName=name))
        self.assertIsNone(self.ask("prepareRename", self.uri, PACKAGE, '"="'))

    def test_renaming_what_others_use(self):
        made = self.ask("rename", self.uri, PACKAGE, "pair =", newName="couple")["changes"]
        other = Path(self.folder, "many.rpl").as_uri()
        self.assertEqual(self.applied(self.other, made[other]), self.other.replace("p.pair", "p.couple"))

    def applied(self, text, edits):
        """The text after edits."""
        document = Document("x", text)
        for each in sorted(edits, key=lambda each: document.place(each["range"]["start"]), reverse=True):
            start, end = document.place(each["range"]["start"]), document.place(each["range"]["end"])
            text = text[:start] + each["newText"] + text[end:]
        return text

    def test_completion(self):
        text = PACKAGE + "last = "
        self.client.tell("textDocument/didChange", textDocument={"uri": self.uri, "version": 2},
                         contentChanges=[{"text": text}])
        labels = {each["label"]: each for each in self.ask("completion", self.uri, text, "last = ", after=7)}
        for name in ("key", "sign", "word", "n", "net", "find", "grammar"):
            self.assertIn(name, labels)
        self.assertEqual(labels["net"]["additionalTextEdits"][0]["newText"], "\nimport net")
        text += "n."
        self.client.tell("textDocument/didChange", textDocument={"uri": self.uri, "version": 3},
                         contentChanges=[{"text": text}])
        labels = [each["label"] for each in self.ask("completion", self.uri, text, "last = n.", after=9)]
        self.assertIn("int", labels)
        self.assertNotIn("last_digit", labels)
        text = "import "
        self.client.tell("textDocument/didChange", textDocument={"uri": self.uri, "version": 4},
                         contentChanges=[{"text": text}])
        self.assertIn("net", [each["label"] for each in self.ask("completion", self.uri, text, "import ", after=7)])


class Protocol(Served):
    """What an editor may do wrong, and the end."""

    def test_end(self):
        self.assertEqual(self.client.end(), 0)
        self.assertEqual(b"".join(self.client.errors), b"")

    def test_end_without_shutdown(self):
        self.client.tell("exit")
        self.assertEqual(self.client.process.wait(SECONDS), 1)

    def test_errors(self):
        self.assertEqual(self.client.ask("none")["code"], -32601)
        self.client.tell("none")
        self.client.raw(b"Content-Length: 1\r\n\r\n{")
        self.assertEqual(self.client.next()["error"]["code"], -32700)
        self.client.raw(b"Content-Length: 2\r\n\r\n[]")
        self.assertEqual(self.client.next()["error"]["code"], -32600)
        self.assertEqual(self.client.ask("textDocument/hover", textDocument={"uri": "file:///none"})["code"], -32600)
        self.assertEqual(self.client.ask("textDocument/hover")["code"], -32603)
        self.assertEqual(self.client.end(), 0)

    def test_texts_of_no_file(self):
        self.client.tell("textDocument/didOpen", textDocument={"uri": "untitled:x", "languageId": "rpl", "version": 1,
                                                               "text": "x = y"})
        self.assertEqual(self.client.faults("untitled:x", 1)[0]["message"].split("\n")[0], "unknown name: y")

    def test_random_edits(self):
        chance = random.Random(3)
        text = min(sources(), key=len)
        uri = self.client.open(self.path, text)
        document = Document("x", text)
        for version in range(2, EDITS + 2):
            if len(document.text) > 6000:
                changed = text
                change = {"text": text}
            else:
                changed = edit(chance, document.text)
                change = one_change(document, changed)
            self.client.tell("textDocument/didChange", textDocument={"uri": uri, "version": version},
                             contentChanges=[change])
            document.text = changed
            if version % 100 == 0:
                self.check(uri, document)
        self.check(uri, document)
        self.client.tell("textDocument/didSave", textDocument={"uri": uri})
        self.check_faults(self.client.faults(uri, EDITS + 1), document.text)
        self.assertEqual(self.client.end(), 0)
        self.assertEqual(b"".join(self.client.errors), b"")

    def check(self, uri, document):
        """The server has the text that the editor has: the outline says so, with the ranges."""
        made = self.client.ask("textDocument/documentSymbol", textDocument={"uri": uri})
        wanted = [each for each in rpl.statements(list(rpl.tokens(document.text))) if each.name]
        self.assertEqual([(each["name"], each["range"]) for each in made],
                         [(each.name.text, document.range(each.start, each.end)) for each in wanted])
        for method in ("hover", "definition", "completion", "references", "prepareRename"):
            position = document.position(document.text.find("d") + 1)
            made = self.client.ask("textDocument/" + method, textDocument={"uri": uri}, position=position)
            self.assertNotIn("code", made or {})

    def check_faults(self, made, text):
        """The faults are those of the command."""
        path = self.write("edited.rpl", text)
        done = command("test", "--libpath", f"{self.folder}:{EXAMPLES}", path)
        wanted = len(done.stderr.splitlines()) + max(0, len(done.stdout.splitlines()) - 1)
        self.assertEqual(len(made), wanted)
        if done.returncode == 2:
            self.assertEqual(made[0]["message"].split("\n")[0], done.stderr.decode().rstrip("\n").split(": ", 2)[2])


def one_change(document, changed):
    """An edit as an editor sends it: what differs between two texts."""
    old = document.text
    start = len(os.path.commonprefix([old, changed]))
    end = 0
    while end < min(len(old), len(changed)) - start and old[-1 - end] == changed[-1 - end]:
        end += 1
    # No range begins or ends between a carriage return and its line feed.
    while start and old[start - 1] == "\r":
        start -= 1
    while end and (old[len(old) - end - 1:len(old) - end] == "\r"):
        end -= 1
    return {"range": document.range(start, len(old) - end), "text": changed[start:len(changed) - end]}


LUA = r"""
local made = {}
local client = vim.lsp.start_client({cmd = CMD, root_dir = vim.fn.getcwd(), name = 'rosie'})
vim.cmd('edit pair.rpl')
vim.lsp.buf_attach_client(0, client)
vim.wait(60000, function() return vim.lsp.buf_is_attached(0, client) and #vim.diagnostic.get(0) > 0 end, 50)
for _, each in ipairs(vim.diagnostic.get(0)) do table.insert(made, {each.lnum, each.col, each.message}) end
local function ask(method, line, column, more)
  local place = {textDocument = vim.lsp.util.make_text_document_params(), position = {line = line, character = column}}
  local params = vim.tbl_extend('force', place, more or {})
  local replies = vim.lsp.buf_request_sync(0, method, params, 60000)
  return replies[client].result
end
local result = {faults = made, hover = ask('textDocument/hover', 7, 1),
                definition = ask('textDocument/definition', 8, 9), symbols = #ask('textDocument/documentSymbol', 0, 0)}
vim.lsp.util.apply_workspace_edit(ask('textDocument/rename', 4, 1, {newName = 'label'}), 'utf-16')
vim.api.nvim_buf_set_lines(0, -2, -1, false, {})
result.text = table.concat(vim.api.nvim_buf_get_lines(0, 0, -1, false), '\n')
vim.wait(60000, function() return #vim.diagnostic.get(0) == 0 end, 50)
result.left = #vim.diagnostic.get(0)
vim.lsp.stop_client(client)
local file = io.open('result.json', 'w')
file:write(vim.json.encode(result))
file:close()
vim.cmd('qall!')
"""


class Neovim(unittest.TestCase):
    """Neovim's own client, without a window."""

    def test_neovim(self):
        program = shutil.which("nvim")
        if program is None:
            self.skipTest("there is no nvim")
        with tempfile.TemporaryDirectory() as folder:
            Path(folder, "pair.rpl").write_text(PACKAGE + '-- test key accepts "1"\n', encoding="utf-8")
            words = "{" + ", ".join("[[" + word + "]]" for word in SERVER) + "}"
            Path(folder, "try.lua").write_text(LUA.replace("CMD", words), encoding="utf-8")
            environment = dict(os.environ, HOME=folder, XDG_CONFIG_HOME=folder, XDG_DATA_HOME=folder,
                               XDG_STATE_HOME=folder)
            subprocess.run([program, "--headless", "-u", "NONE", "-n", "-c", "luafile try.lua"], cwd=folder,
                           env=environment,
                           capture_output=True, timeout=300, check=False)
            with open(os.path.join(folder, "result.json"), encoding="utf-8") as file:
                made = json.load(file)
        self.assertEqual(made["faults"], [[13, 20, 'failed: key accepts "1"']])
        self.assertIn("What stands after the sign", made["hover"]["contents"]["value"])
        self.assertEqual(made["definition"]["range"]["start"], {"line": 4, "character": 0})
        self.assertEqual(made["symbols"], 4)
        self.assertIn("label = word.name", made["text"])
        self.assertIn("pair = {label sign value}", made["text"])
        self.assertEqual(made["left"], 0)


if __name__ == "__main__":
    unittest.main()
