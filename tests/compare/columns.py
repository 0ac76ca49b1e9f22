"""`rosie-columns` once more, in Python, written from docs/COLUMNS.md: what it writes for given words, files and
standard input.

`answer(words, given, files)` is its status, standard output and standard error, as bytes. `meant(words, given, files)`
is what the rows mean: a list of lists of texts, or of objects where the format is JSON.
"""
import json

USAGE = "usage: rosie-columns [-o csv|tsv|json] [-j TEXT] [-n] [[NAME=]TYPE ...] [-- FILE ...]\n"
LONGEST = 67_108_864
OF_TYPE = set("abcdefghijklmnopqrstuvwxyzABCDEFGHIJKLMNOPQRSTUVWXYZ0123456789_.*<>")
OPTIONS = {"-o": "output", "--output": "output", "-j": "join", "--join": "join", "-n": "no-header",
           "--no-header": "no-header"}


class Refused(Exception):
    """The words are refused, for this reason."""


class Column:
    """A column of a word."""

    def __init__(self, word):
        name, equals, rest = word.partition("=")
        self.name, path = (name, rest) if equals else (word, word)
        path, at, self.part = path.partition("@")
        outer, slash, inner = path.partition("/")
        self.outer, self.type = (outer, inner) if slash else (None, path)
        types = [self.type] + ([self.outer] if slash else [])
        if any(not one or set(one) - OF_TYPE for one in types) or (at and self.part not in ("s", "e")):
            raise Refused(f"bad column: {word}")

    def texts(self, root):
        """What the column takes of a tree."""
        return [part(node, self.part) for node, above in nodes(root)
                if is_of(node, self.type) and (self.outer is None or any(is_of(one, self.outer) for one in above))]


def part(node, name):
    return str(node[name]) if name else node["data"]


def is_of(node, name):
    return node["type"] == name or node["type"].endswith("." + name)


def nodes(root):
    """The nodes in the order in which they are written, each with those that it is inside of."""
    todo = [(root, ())]
    while todo:
        node, above = todo.pop()
        yield node, above
        todo.extend((below, above + (node,)) for below in reversed(node.get("subs", [])))


class Asked:
    """What the words ask for."""

    def __init__(self, words):
        self.format, self.join, self.header, self.columns, self.files = "csv", None, True, [], []
        words = list(words)
        while words:
            word = words.pop(0)
            if word == "--":
                self.files, words = words, []
            elif word.startswith("-"):
                self.option(word, words)
            else:
                self.columns.append(Column(word))
        if not self.columns and (self.format != "json" or self.join is not None):
            raise Refused("no column")

    def option(self, word, words):
        name = OPTIONS.get(word)
        if name is None:
            raise Refused(f"unknown option: {word}")
        if name == "no-header":
            self.header = False
            return
        if not words:
            raise Refused(f"missing value: {word}")
        value = words.pop(0)
        if name == "join":
            self.join = value
        elif value in ("csv", "tsv", "json"):
            self.format = value
        else:
            raise Refused(f"bad value: {value}")


def spelled(node):
    """A tree as `rosie` spells it."""
    text = f'{{"type":{quoted(node["type"])},"s":{node["s"]},"e":{node["e"]},"data":{quoted(node["data"])}'
    if "subs" in node:
        text += ',"subs":[' + ",".join(map(spelled, node["subs"])) + "]"
    return text + "}"


def quoted(text):
    return json.dumps(text, ensure_ascii=False)


def is_tree(value):
    keys = list(value) if isinstance(value, dict) else None
    if keys not in (["type", "s", "e", "data"], ["type", "s", "e", "data", "subs"]):
        return False
    if not all(isinstance(value[key], str) for key in ("type", "data")):
        return False
    if not all(type(value[key]) is int and value[key] >= 1 for key in ("s", "e")):
        return False
    return "subs" not in value or (isinstance(value["subs"], list) and len(value["subs"]) > 0
                                   and all(map(is_tree, value["subs"])))


def tree_of(line):
    """The tree that a line is, or nothing."""
    try:
        value = json.loads(line)
        return value if is_tree(value) and spelled(value) == line else None
    except (ValueError, RecursionError):
        return None


def cell_of(column, tree, join):
    texts = column.texts(tree)
    if not texts:
        return None
    return texts[0] if join is None else join.join(texts)


def fields(tree):
    """All fields of a tree: an object."""
    found = {}
    for node, above in nodes(tree):
        if above and "subs" not in node:
            found.setdefault(node["type"].rpartition(".")[2], []).append(node["data"])
    return {key: values[0] if len(values) == 1 else values for key, values in found.items()}


def csv_cell(text):
    return '"' + text.replace('"', '""') + '"' if set(text) & set(',"\n\r') else text


def tsv_cell(text):
    return text.replace("\\", "\\\\").replace("\t", "\\t").replace("\n", "\\n").replace("\r", "\\r")


def row(texts, how):
    if how == "tsv":
        return "\t".join(map(tsv_cell, texts)) + "\n"
    return (",".join(map(csv_cell, texts)) or '""') + "\n"


def object_text(members):
    """An object on one line. Its members come as pairs, since a name may come twice."""
    pairs = (f"{quoted(name)}:{json.dumps(value, ensure_ascii=False, separators=(',', ':'))}"
             for name, value in members)
    return "{" + ",".join(pairs) + "}\n"


def lines_of(given):
    lines = given.split(b"\n")
    return lines[:-1] if lines[-1] == b"" else lines


class Run:
    """A run over the inputs."""

    def __init__(self, asked):
        self.asked, self.out, self.err, self.rows = asked, [], [], []
        self.hit = self.fault = False
        self.found = [False] * len(asked.columns)
        if asked.header and asked.format != "json":
            self.out.append(row([column.name for column in asked.columns], asked.format))

    def tree(self, tree):
        asked, self.hit = self.asked, True
        if not asked.columns:
            self.rows.append(fields(tree))
            self.out.append(object_text(self.rows[-1].items()))
            return
        cells = [cell_of(column, tree, asked.join) for column in asked.columns]
        self.found = [was or cell is not None for was, cell in zip(self.found, cells)]
        if asked.format == "json":
            members = list(zip([column.name for column in asked.columns], cells))
            self.rows.append(dict(members))
            self.out.append(object_text(members))
        else:
            self.rows.append([cell or "" for cell in cells])
            self.out.append(row(self.rows[-1], asked.format))

    def line(self, name, number, line):
        fault, tree = None, None
        if len(line) > LONGEST:
            fault = "line too long"
        else:
            try:
                tree = tree_of(line.decode())
                fault = None if tree else "no tree"
            except UnicodeDecodeError:
                fault = "not UTF-8"
        if fault:
            self.fault = True
            self.err.append(f"rosie-columns: {name}:{number}: {fault}\n")
        else:
            self.tree(tree)

    def inputs(self, given, files):
        """Reads the inputs. A file that isn't there ends the run."""
        for name in self.asked.files or ["-"]:
            if name == "-":
                content, given = given, b""
            elif name in files:
                content = files[name]
            else:
                self.err.append(f"rosie-columns: {name}: no such file\n")
                return 2
            for number, line in enumerate(lines_of(content), 1):
                self.line(name, number, line)
        return None

    def status(self, ended):
        if ended is not None:
            return ended
        absent = [column.name for column, found in zip(self.asked.columns, self.found) if not found] if self.hit else []
        self.err += [f"rosie-columns: column never found: {quoted(name)[1:-1]}\n" for name in absent]
        if self.fault:
            return 3
        if not self.hit:
            return 1
        return 8 if absent else 0


def ran(words, given, files):
    run = Run(Asked(words))
    return run, run.status(run.inputs(given, files))


def answer(words, given, files):
    try:
        run, status = ran(words, given, files)
    except Refused as fault:
        return 2, b"", f"rosie-columns: usage: {fault}\n{USAGE}".encode()
    return status, "".join(run.out).encode(), "".join(run.err).encode()


def meant(words, given, files):
    try:
        return ran(words, given, files)[0].rows
    except Refused:
        return []
