"""What the page asks, and its answers: each a dict in, a dict out. What they say comes from the command."""
from __future__ import annotations

import os
import re
import shlex
import threading
from typing import Any, Callable, Dict, Iterator, List, Optional, Sequence, Tuple

from .. import diagram, rpl
from ..command import Command, checked_words, root_words
from ..faults import LineFault, PatternError, RosieError
from ..lines import file_of
from ..pattern import Answered, Pattern
from ..tree import Node
from ..why import reasons

Asked = Dict[str, Any]
MOST_LINES = 1000
MOST_TEXT = 1 << 19
MOST_NODES = 20000
MOST_REASONS = 50
BUDGET = 200000
# Bounds for each run of the command: seconds of a processor, and mebibytes.
SECONDS = 5
MEBIBYTES = 2048
# The most calls that are answered at a time, from all pages together. Further calls wait.
MOST_AT_ONCE = 4
# How far packages are looked for below a folder of the library path.
DEEPEST_FOLDER = 2
MOST_FILES = 2000


class BadRequest(Exception):
    """The page asks for something that it can't ask for."""


def text_in(asked: Asked, name: str) -> str:
    """A text of a request."""
    value = asked.get(name, "")
    if not isinstance(value, str):
        raise BadRequest(f"{name} is not a text")
    if len(value) > MOST_TEXT:
        raise BadRequest(f"{name} has more than {MOST_TEXT} characters")
    return value


def lines_in(asked: Asked) -> List[bytes]:
    """The lines of a request."""
    made = text_in(asked, "lines").encode("utf-8", "surrogatepass").split(b"\n")
    return made[:MOST_LINES]


class Units:
    """Places in a line as JavaScript counts them, in units of UTF-16, by places in bytes."""

    def __init__(self, line: bytes) -> None:
        self.line = line
        self.plain = line.isascii()

    def __call__(self, offset: int) -> int:
        if self.plain:
            return offset
        return len(self.line[:offset].decode("utf-8", "replace").encode("utf-16-le")) // 2


def shown(node: Node, units: Units, left: List[int]) -> Dict[str, Any]:
    """A node for the page: its type, its places, and what is below; no more nodes than are left."""
    left[0] -= 1
    made: Dict[str, Any] = {"t": node["type"], "s": units(node["s"] - 1), "e": units(node["e"] - 1)}
    if node["type"] == "message":
        made["d"] = node["data"]
    parts = [shown(part, units, left) for part in node.get("subs", ()) if left[0] > 0]
    if parts:
        made["p"] = parts
    return made


def answer_for_page(answer: Answered, line: bytes, left: List[int]) -> Dict[str, Any]:
    """An answer as the page shows it."""
    if answer is None:
        return {"kind": "none"}
    if isinstance(answer, LineFault):
        return {"kind": "fault", "cause": answer.cause}
    if left[0] <= 0:
        return {"kind": "match"}
    try:
        return {"kind": "match", "tree": shown(answer.to_dict(), Units(line), left), "record": answer.record()}
    except RecursionError:
        return {"kind": "match"}


def fault_for_page(error: PatternError) -> Dict[str, Any]:
    """A refusal as the page shows it."""
    made: Dict[str, Any] = {"file": error.file, "line": error.line, "column": error.column, "message": error.message,
                            "advice": error.advice, "told": str(error)}
    made["where"] = {"(pattern)": "pattern", "(rpl 1)": "rules"}.get(error.file, "package")
    return made


def field_at_fault(asked: Asked) -> str:
    """The field that a refusal without a place belongs to: the definitions if no command line can hold them."""
    try:
        checked_words([text_in(asked, "rules")])
    except RosieError:
        return "rules"
    return "pattern"


class Work:
    """The answers of one playground, over one library path."""

    def __init__(self, libpath: Optional[Sequence[str]] = None) -> None:
        self.command = Command(None, libpath)
        self.command.limit(SECONDS, MEBIBYTES)
        self._turns = threading.BoundedSemaphore(MOST_AT_ONCE)
        self.calls: Dict[str, Callable[[Asked], Dict[str, Any]]] = {
            "answers": self.answers, "why": self.why, "expand": self.expand, "diagram": self.diagram, "test": self.test,
            "names": self.names, "as_rule": self.as_rule, "add_test": self.add_test, "export": self.export}

    def call(self, name: str, asked: Asked) -> Dict[str, Any]:
        """The answer to a request; a refusal of the command is one under `fault`. Raises BadRequest."""
        if name not in self.calls or not isinstance(asked, dict):
            raise BadRequest(f"no such call: {name}")
        try:
            with self._turns:
                return self.calls[name](asked)
        except PatternError as error:
            return {"fault": fault_for_page(error)}
        except RosieError as error:
            return {"fault": {"where": field_at_fault(asked), "message": str(error), "advice": [], "told": str(error)}}

    def _pattern(self, asked: Asked) -> Pattern:
        return Pattern(text_in(asked, "pattern"), rpl=text_in(asked, "rules"), budget=BUDGET, command=self.command)

    def answers(self, asked: Asked) -> Dict[str, Any]:
        """An answer for each line."""
        lines = lines_in(asked)
        left = [MOST_NODES]
        with self._pattern(asked) as pattern:
            stream = pattern.search_over(lines) if asked.get("search") else pattern.over(lines)
            with stream as answers:
                made = [answer_for_page(answer, line, left) for answer, line in zip(answers, lines)]
        return {"answers": made}

    def why(self, asked: Asked) -> Dict[str, Any]:
        """The reasons for lines that don't match, by their numbers; `failed` has the numbers of the lines."""
        lines = lines_in(asked)
        numbers = [number for number in asked.get("failed", ()) if isinstance(number, int) and 0 <= number < len(lines)]
        failed = numbers[:MOST_REASONS]
        words = root_words([text_in(asked, "rules")], [])
        found = reasons(self.command, words, text_in(asked, "pattern"), [lines[number] for number in failed],
                        bool(asked.get("search")))
        made = {}
        for index, reason in found.items():
            line = lines[failed[index]]
            made[failed[index]] = {"at": None if reason.at is None else Units(line)(reason.at), "told": reason.told}
        return {"reasons": made}

    def expand(self, asked: Asked) -> Dict[str, Any]:
        """What the pattern stands for."""
        words = [*root_words([text_in(asked, "rules")], []), *self.command.libpath_words, "--",
                 text_in(asked, "pattern")]
        done = self.command.run(["expand", *words])
        written = (done.out or done.err).decode("utf-8", "replace")
        return {"text": written[:MOST_TEXT]}

    def diagram(self, asked: Asked) -> Dict[str, Any]:
        """The railroad diagram of the pattern, or of the rule that the cursor is in."""
        at = asked.get("at")
        if isinstance(at, int):
            return {"svg": diagram.rule_at(text_in(asked, "rules"), at)}
        return {"svg": diagram.pattern(text_in(asked, "pattern"))}

    def test(self, asked: Asked) -> Dict[str, Any]:
        """The tests of the definitions: how many there are, and those that failed."""
        rules = text_in(asked, "rules")
        with file_of(rules.encode("utf-8", "surrogatepass")) as file:
            path = f"/proc/{os.getpid()}/fd/{file.fileno()}"
            done = self.command.run(["test", *self.command.libpath_words, path])
        written = done.out.decode("utf-8", "replace").splitlines()
        count = re.fullmatch(r".*: (\d+) tests?, (\d+) failed", written[-1]) if written else None
        failed = []
        for line in written[:-1]:
            found = re.fullmatch(re.escape(path) + r":(\d+): (.*)", line)
            if found:
                failed.append({"line": int(found.group(1)), "text": found.group(2)})
        made: Dict[str, Any] = {"count": int(count.group(1)) if count else 0, "failed": failed}
        faults = done.err.decode("utf-8", "replace").replace(path, "definitions").strip()
        if faults:
            made["told"] = faults
        return made

    def names(self, _: Asked) -> Dict[str, Any]:
        """All names of the library path."""
        return {"names": list(self._names())}

    def _names(self) -> Iterator[Dict[str, Any]]:
        seen = set()
        for path, text in self.packages():
            if path in seen:
                continue
            seen.add(path)
            made = rpl.statements(list(rpl.tokens(text)))
            examples = {test.name: test.texts[0] for test in reversed(list(rpl.tests_of(text)))
                        if test.verb == "accepts" and test.texts}
            for each in made:
                if each.name and not each.hidden:
                    yield {"name": f"{path.rpartition('/')[2]}.{each.name.text}", "package": path, "alias": each.alias,
                           "comment": rpl.comment_over(text, each.start), "example": examples.get(each.name.text, "")}

    def packages(self) -> Iterator[Tuple[str, str]]:
        """The packages of the library path: how an import names each, and its text."""
        left = [MOST_FILES]
        for folder in self.command.libpath:
            for path in rpl_files(folder, DEEPEST_FOLDER, left):
                try:
                    with open(path, encoding="utf-8") as file:
                        yield os.path.relpath(path, folder)[: -len(".rpl")], file.read(MOST_TEXT)
                except (OSError, UnicodeDecodeError):
                    continue

    def as_rule(self, asked: Asked) -> Dict[str, Any]:
        """The definitions with the pattern as a rule of theirs, and the name of the rule."""
        name, rules = as_rule(text_in(asked, "pattern"), text_in(asked, "rules"))
        return {"pattern": name, "rules": rules}

    def add_test(self, asked: Asked) -> Dict[str, Any]:
        """The definitions with a test more, of what the pattern, made a rule first, does with a line now.

        If the match is only a part of the line, the test has the text that matched. With `search`, that is the first
        match anywhere in the line.
        """
        name, rules = as_rule(text_in(asked, "pattern"), text_in(asked, "rules"))
        line = text_in(asked, "line")
        rule = name.rpartition(".")[2]
        with Pattern(name, rpl=rules, budget=BUDGET, command=self.command) as pattern:
            found = pattern.search(line) if asked.get("search") else pattern.match(line)
            text = found.text if found else line
            # What comes after a match may matter to it.
            again = pattern.match(text) if found else None
        whole = again is not None and again.text == text
        told = f"accepts {rpl.quoted(text)}" if whole else f"rejects {rpl.quoted(line)}"
        test = f"-- test {rule} {told}\n"
        if test not in rules:
            rules = rules + "\n" * (not rules.endswith("\n")) + test
        return {"pattern": name, "rules": rules}

    def export(self, asked: Asked) -> Dict[str, Any]:
        """A file of rules that holds all, and the command lines that do the same."""
        pattern = text_in(asked, "pattern")
        name, rules = as_rule(pattern, text_in(asked, "rules"))
        word = "grep" if asked.get("search") else "match"
        libpath = shlex.quote(":".join(self.command.libpath))
        given = f" --rpl {shlex.quote(text_in(asked, 'rules'))}" if text_in(asked, "rules").strip() else ""
        file = (rpl.package_of(rpl.statements(list(rpl.tokens(rules)))) or "rules") + ".rpl"
        return {"rules": rules, "file": file,
                "commands": [f"rosie {word} --libpath {libpath} -f {file} {shlex.quote(name)} FILE",
                             f"rosie test --libpath {libpath} {file}",
                             f"rosie {word} --libpath {libpath}{given} -- {shlex.quote(pattern)} FILE"]}


def rpl_files(folder: str, depth: int, left: List[int]) -> Iterator[str]:
    """The files of packages in a folder, and below it as far as `depth` goes; links to folders aren't followed."""
    try:
        entries = sorted(os.scandir(folder), key=lambda entry: entry.name)
    except OSError:
        return
    for entry in entries:
        left[0] -= 1
        if left[0] < 0:
            return
        if entry.name.endswith(".rpl") and entry.is_file():
            yield entry.path
        elif depth > 1 and not entry.name.startswith(".") and entry.is_dir(follow_symlinks=False):
            yield from rpl_files(entry.path, depth - 1, left)


def as_rule(pattern: str, rules: str) -> Tuple[str, str]:
    """The name of the rule that the pattern is, and the rules with it.

    A pattern that is no rule of theirs becomes the rule `entry`.
    """
    made = rpl.statements(list(rpl.tokens(rules)))
    package = rpl.package_of(made)
    bound = {(package + "." if package else "") + each.name.text for each in made if each.name}
    cut = [token for token in rpl.tokens(pattern) if token.kind != "comment"]
    if len(cut) == 1 and cut[0].text in bound:
        return cut[0].text, rules
    names = {each.name.text for each in made if each.name}
    name = next(name for name in ("entry", *(f"entry_{n}" for n in range(2, 1 << 20))) if name not in names)
    rules = with_imports(rules, made, prefixes(cut) - {package})
    rules += "\n" * bool(rules and not rules.endswith("\n")) + f"{name} = {unprefixed(pattern, cut, package)}\n"
    return (package + "." if package else "") + name, rules


def prefixes(cut: "Sequence[rpl.Token]") -> "set[str]":
    """The packages that a pattern names."""
    return {token.text.partition(".")[0] for token in cut if token.kind == "qualified"}


def unprefixed(pattern: str, cut: "Sequence[rpl.Token]", package: str) -> str:
    """The pattern as the package itself says it, without its own name."""
    made, at = [], 0
    for token in cut:
        own = token.kind == "qualified" and token.text.partition(".")[0] == package
        made += [pattern[at:token.start], token.text.partition(".")[2] if own else token.text]
        at = token.end
    return "".join(made).strip()


def with_imports(rules: str, made: "Sequence[rpl.Statement]", wanted: "set[str]") -> str:
    """The rules with imports of what they don't import yet, after the imports that stand there."""
    missing = sorted(wanted - {each.prefix for each in rpl.imports_of(list(made))})
    if not missing:
        return rules
    heads = [each.end for each in made if each.kind in ("rpl", "package", "import")]
    at = max(heads, default=0)
    text = "import " + ", ".join(missing)
    return rules[:at] + ("\n" + text if at else text + "\n") + rules[at:]
