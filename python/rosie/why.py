"""Why lines do not match, as `rosie-why` explains it."""
from __future__ import annotations

import json
import os
import subprocess
from typing import Dict, List, NamedTuple, Optional, Sequence

from .command import Command, checked_words, find_tool

# A bound by the clock for a machine with much other work; the processor time has a bound of its own.
SECONDS = 60


class Reason(NamedTuple):
    """How far a pattern got on a line.

    `at` is the place in bytes, counted from 0, if there is one. `told` has sentences that say what was expected there,
    and hints.
    """

    at: Optional[int]
    told: List[str]


def reasons(command: Command, words: Sequence[str], pattern: str, lines: Sequence[bytes],
            search: bool = False) -> Dict[int, Reason]:
    """The reasons for the lines that the pattern does not match, keyed by their indices in the list.

    `words` are options of `trace`. With `search`, the pattern may match anywhere in a line, otherwise only at its
    start. There are no reasons if the tool is missing or takes too long.
    """
    tool = find_tool("rosie-why", command.path)
    if tool is None or not lines:
        return {}
    asked = ["-o", "json", *(["--grep"] if search else []), *words, *command.libpath_words, "--", pattern]
    try:
        done = subprocess.run(command.bounded([tool, *checked_words(asked)]), input=b"\n".join(lines) + b"\n",
                              capture_output=True, timeout=SECONDS, check=False,
                              env=dict(os.environ, ROSIE=command.path))
    except (OSError, subprocess.TimeoutExpired):
        return {}
    return read_reasons(done.stdout.decode("utf-8", "replace"), len(lines))


def read_reasons(written: str, count: int) -> Dict[int, Reason]:
    """The reasons in the output of the tool: an object for each line, up to the point where it was stopped."""
    found: Dict[int, Reason] = {}
    for line in written.split("\n")[:-1]:
        made = json.loads(line)
        if 0 < made["line"] <= count:
            at = None if made["at"] is None else made["at"] - 1
            found[made["line"] - 1] = Reason(at, [*made["told"], *(f"hint: {hint}" for hint in made["hints"])])
    return found
