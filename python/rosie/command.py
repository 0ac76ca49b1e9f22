"""Finds the command `rosie`, and runs it once."""
from __future__ import annotations

import functools
import os
import shutil
import subprocess
from typing import Iterable, NamedTuple, Optional, Sequence, Union

from .faults import RosieError

Path = Union[str, "os.PathLike[str]"]
# Linux takes no longer word on a command line (MAX_ARG_STRLEN), with its end.
LONGEST_WORD = 131072


class CommandMissing(RosieError):
    """The command `rosie` was not found."""


class Done(NamedTuple):
    """How a run of the command ended."""

    status: int
    out: bytes
    err: bytes


def folders_above() -> "list[str]":
    """The folders that may contain this package: that of the source tree, and that of an installation."""
    package = os.path.dirname(os.path.abspath(__file__))
    share = os.path.dirname(os.path.dirname(package))
    return [share, os.path.dirname(os.path.dirname(share))]


def find_command(given: Optional[Path] = None) -> str:
    """The path of the command: the given one, that in the variable ROSIE, the one beside this package, or that on PATH.

    Raises CommandMissing if there is none.
    """
    source, prefix = folders_above()
    built = os.path.join(source, "crates", "rosie", "out", "rosie")
    named = os.fspath(given or os.environ.get("ROSIE") or "")
    for choice in [named] if named else [os.path.join(prefix, "bin", "rosie"), built, "rosie"]:
        found = shutil.which(choice)
        if found:
            return os.path.abspath(found)
    raise CommandMissing(f"there is no command {named or 'rosie'}; install rosie, or name it by the variable ROSIE")


def find_tool(name: str, command: str) -> Optional[str]:
    """The path of a tool beside the command, such as `rosie-why`, or None if there is none."""
    source, prefix = folders_above()
    beside = [os.path.dirname(command), os.path.join(source, "bin"), os.path.join(prefix, "bin")]
    for folder in beside:
        found = shutil.which(name, path=folder)
        if found:
            return found
    return shutil.which(name)


def find_packages(command: str) -> Optional[str]:
    """The folder of the packages that come with the command, or None if it is not found."""
    source, prefix = folders_above()
    for path in dict.fromkeys([command, os.path.realpath(command)]):
        folder = os.path.dirname(os.path.dirname(path))
        choices = [os.path.join(folder, "share", "rosie", "examples"), os.path.join(source, "examples"),
                   os.path.join(prefix, "share", "rosie", "examples")]
        for choice in choices:
            if os.path.isfile(os.path.join(choice, "num.rpl")):
                return choice
    return None


def checked_words(words: Iterable[str]) -> "list[str]":
    """The words, if a command line can hold them. Otherwise raises RosieError, which says why not."""
    made = list(words)
    for word in made:
        if "\0" in word:
            raise RosieError("a pattern or a text with the character NUL: write \\x00")
        try:
            size = len(os.fsencode(word))
        except UnicodeEncodeError:
            raise RosieError("a pattern or a text with half of a surrogate pair, which is not a character") from None
        if size >= LONGEST_WORD:
            raise RosieError(f"a command line holds no text of more than {LONGEST_WORD - 1} bytes: put it into a file")
    return made


class Command:
    """The command at a path, with the folders that it searches for packages.

    `libpath` lists the folders to search for imports; by default `.`, and then the packages of the command.
    """

    def __init__(self, path: Optional[Path] = None, libpath: Union[None, str, Sequence[Path]] = None) -> None:
        self.path = find_command(path)
        self.libpath = self._folders(libpath)
        self._limits: "list[str]" = []
        self.timeout: Optional[float] = None

    def limit(self, seconds: int, mebibytes: int) -> None:
        """Limits the processor seconds and the memory of each run from now on."""
        limits = f'ulimit -t {int(seconds)}; ulimit -v {int(mebibytes) * 1024}; exec "$0" "$@"'
        self._limits = ["/bin/sh", "-c", limits]
        self.timeout = 10 * seconds

    def bounded(self, words: Iterable[str]) -> "list[str]":
        """The words that run another program with the limits of this command."""
        return [*self._limits, *words]

    @property
    def words(self) -> "list[str]":
        """The words that start the command."""
        return self.bounded([self.path])

    def _folders(self, libpath: Union[None, str, Sequence[Path]]) -> "list[str]":
        if libpath is None:
            packages = find_packages(self.path)
            return [".", packages] if packages and ":" not in packages else ["."]
        folders = libpath.split(":") if isinstance(libpath, str) else [os.fspath(folder) for folder in libpath]
        for folder in folders:
            if not folder or ":" in folder:
                raise ValueError(f"no folder of a library path: {folder!r}")
        return folders or ["."]

    def run(self, words: Iterable[str], text: bytes = b"", folder: Optional[str] = None) -> Done:
        """Runs the command with these words and this standard input, in `folder`."""
        made = [*self.words, *checked_words(words)]
        try:
            done = subprocess.run(made, input=text, capture_output=True, cwd=folder, timeout=self.timeout, check=False)
        except subprocess.TimeoutExpired:
            raise RosieError(f"the command took more than {self.timeout} seconds") from None
        return Done(done.returncode, done.stdout, done.stderr)

    @functools.cached_property
    def libpath_words(self) -> "list[str]":
        """The words that name the folders to search for imports."""
        return ["--libpath", ":".join(self.libpath)]


def root_words(rpl: Sequence[str], files: Sequence[str]) -> "list[str]":
    """The words that load these texts and files as roots."""
    named = [word for path in files for word in ("-f", path)]
    return named + [word for text in rpl for word in ("--rpl", text)]
